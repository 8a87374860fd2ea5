//! Instructions that a call of the library takes, counted by valgrind's callgrind: unlike times they
//! are the same on every run of one build, whatever else the machine does. A call is counted by what
//! a run that makes it once more takes more.

use crate::admission::admission;
use crate::case::{Case, alone};
use reference::Pass;
use std::env;
use std::hint::black_box;
use std::process::Command;

pub const INSTRUCTIONS: &str = "\
| contract | nodes | admission | resolve | access | linear | three verdicts, one admission | a node |
|---|---|---|---|---|---|---|---|";

/// The calls that are counted: admission, each pass alone, which admits too, and all verdicts.
const CALLS: usize = 5;

/// What callgrind is run on: a call of this number, so many times.
pub fn calls(image: &[u8], call: usize, times: usize) {
    for _ in 0..times {
        match call {
            0 => drop(black_box(admission(image))),
            1..=3 => drop(black_box(alone(Pass::ALL[call - 1])(black_box(image)))),
            _ => drop(black_box(isonkaypu_sys::verdicts(black_box(image)))),
        }
    }
}

pub fn row(number: usize, case: &Case) -> String {
    let counts: [u64; CALLS] = std::array::from_fn(|call| run(number, call, 2) - run(number, call, 1));
    let [admission, passes @ .., all] = counts;
    let [resolve, access, linear] = passes.map(|pass| pass - admission);
    let (name, nodes) = (case.name, case.nodes);
    let by_node = all as f64 / nodes as f64;
    format!("| {name} | {nodes} | {admission} | {resolve} | {access} | {linear} | {all} | {by_node:.1} |")
}

/// The instructions of a whole run that makes a call on the contract of this number so many times.
fn run(number: usize, call: usize, times: usize) -> u64 {
    let program = env::current_exe().expect("this program");
    let run = Command::new("valgrind")
        .args(["--tool=callgrind", "--callgrind-out-file=/dev/null"])
        .arg(program)
        .arg("calls")
        .args([number, call, times].map(|number| number.to_string()))
        .output()
        .expect("valgrind");
    let said = String::from_utf8_lossy(&run.stderr);
    let count =
        said.lines().find_map(|line| line.split_once("Collected : ")).expect("a count of callgrind's").1;
    count.trim().parse().expect("a number")
}
