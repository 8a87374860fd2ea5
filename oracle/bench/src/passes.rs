//! The three passes: all of them with one admission, and each alone.

use crate::admission::{admission, read};
use crate::case::{Case, alone};
use crate::timing::{Work, interleaved};
use quanta_ast::Contract;
use quanta_typeck::error::TypeError;
use quanta_typeck::model::Model;
use quanta_typeck::{access, linear, resolve};
use reference::Pass;
use std::hint::black_box;

pub const TOGETHER: &str = "\
| contract | nodes | one read of the bytes, ns | Rust, ns | port, ns | port / Rust |
|---|---|---|---|---|---|";

/// One read; model and passes of the Rust; admission and passes of the library.
pub fn together(case: &Case) -> [f64; 3] {
    let works: [Work; 3] = [
        Box::new(|| read(&case.image)),
        Box::new(|| rust_passes(&case.contract)),
        Box::new(|| port_passes(&case.image)),
    ];
    interleaved(&works)
}

pub fn together_row(case: &Case, [read, rust, port]: [f64; 3]) -> String {
    let (name, nodes, ratio) = (case.name, case.nodes, port / rust);
    format!("| {name} | {nodes} | {read:.0} | {rust:.0} | {port:.0} | {ratio:.2} |")
}

pub const ALONE: &str = "\
| contract | nodes | admission, ns | `Model::build`, ns | resolve: Rust, ns | port, ns | access: Rust, ns | port, ns | linear: Rust, ns | port, ns |
|---|---|---|---|---|---|---|---|---|---|";

/// Admission, the Rust's model, and each pass alone: the Rust's, then the library's.
pub fn apart(case: &Case) -> [f64; 8] {
    let model = &Model::build(&case.contract);
    let of_rust = |pass| -> Work { Box::new(move || accepts(rust_pass(pass, model))) };
    let of_port =
        |pass| -> Work { Box::new(move || u64::from(alone(pass)(black_box(&case.image)).number == 0)) };
    let works: [Work; 8] = [
        Box::new(|| admission(&case.image)),
        Box::new(|| Model::build(black_box(&case.contract)).entries.len() as u64),
        of_rust(Pass::Resolve),
        of_port(Pass::Resolve),
        of_rust(Pass::Access),
        of_port(Pass::Access),
        of_rust(Pass::Linear),
        of_port(Pass::Linear),
    ];
    interleaved(&works)
}

/// The library admits the image in each call, so what admission takes is taken off; the Rust has its
/// model beforehand, whose making has a column of its own.
pub fn alone_row(case: &Case, [admission, model, passes @ ..]: [f64; 8]) -> String {
    let mut row = format!("| {} | {} | {admission:.0} | {model:.0} |", case.name, case.nodes);
    for pass in passes.chunks(2) {
        let (rust, port) = (pass[0], pass[1] - admission);
        row += &format!(" {rust:.0} | {port:.0} |");
    }
    row
}

fn accepts(answer: Result<(), TypeError>) -> u64 {
    u64::from(answer.is_ok())
}

fn rust_pass(pass: Pass, model: &Model) -> Result<(), TypeError> {
    match pass {
        Pass::Resolve => resolve::check(black_box(model)),
        Pass::Access => access::check(black_box(model)),
        Pass::Linear => linear::check(black_box(model)),
    }
}

/// How many passes of the Rust accept.
fn rust_passes(contract: &Contract) -> u64 {
    let model = Model::build(black_box(contract));
    Pass::ALL.map(|pass| accepts(rust_pass(pass, &model))).iter().sum()
}

/// The same by the library.
fn port_passes(image: &[u8]) -> u64 {
    isonkaypu_sys::verdicts(black_box(image)).map(|answer| u64::from(answer.number == 0)).iter().sum()
}
