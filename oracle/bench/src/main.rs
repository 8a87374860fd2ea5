//! `bench`: the published Rust's `Model::build` and its three passes, on a contract made beforehand,
//! against the proved library's calls, which admit the image too; each pass alone; and what admission
//! costs. The answers are asserted before anything is timed.
//!
//! Build it with its own profile: `cargo run --offline --profile timing -p bench`. With the word
//! `instructions` it counts instead of timing, by valgrind.

mod admission;
mod case;
mod contracts;
mod instructions;
mod passes;
mod timing;

use case::Case;
use contracts::{SIZES, Timed, of_one_name, of_size};
use std::env;
use timing::best_of_all;

fn main() {
    let words: Vec<String> = env::args().skip(1).collect();
    let words: Vec<&str> = words.iter().map(String::as_str).collect();
    match words[..] {
        [] => times(),
        ["instructions"] => instructions(),
        ["calls", ref numbers @ ..] => calls(numbers),
        _ => panic!("bench, or bench instructions"),
    }
}

fn all() -> impl Iterator<Item = Timed> {
    SIZES.into_iter().flat_map(of_size).chain(of_one_name())
}

fn cases() -> Vec<Case> {
    all().map(|timed| Case::of(&timed)).collect()
}

fn instructions() {
    table(instructions::INSTRUCTIONS, cases().iter().enumerate().map(|(k, case)| instructions::row(k, case)));
}

/// For callgrind: the numbers of a contract and of a call, and how often it is made.
fn calls(words: &[&str]) {
    let numbers: Vec<usize> = words.iter().map(|word| word.parse().expect("a number")).collect();
    let timed = all().nth(numbers[0]).expect("a contract of this number");
    instructions::calls(&timed.tree.image(), numbers[1], numbers[2]);
}

fn times() {
    let cases = cases();
    let together = best_of_all(&cases, passes::together);
    table(
        passes::TOGETHER,
        cases.iter().zip(together).map(|(case, times)| passes::together_row(case, times)),
    );
    let apart = best_of_all(&cases, passes::apart);
    table(passes::ALONE, cases.iter().zip(apart).map(|(case, times)| passes::alone_row(case, times)));
    let images = admission::images();
    let times = best_of_all(&images, |(_, image)| admission::times(image));
    let rows = images.iter().zip(times).map(|((name, image), times)| admission::row(name, image, times));
    table(admission::ADMISSION, rows);
}

fn table(head: &str, rows: impl Iterator<Item = String>) {
    println!("{head}");
    rows.for_each(|row| println!("{row}"));
    println!();
}
