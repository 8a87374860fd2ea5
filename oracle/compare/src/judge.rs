//! The published Rust as the judge: an image becomes a contract whose spans are places, each pass
//! is called alone, and an error's message tells the code.

use crate::mismatch::{Mismatch, differ};
use generate::Parts;
use quanta_ast::Contract;
use quanta_lexer::Span;
use quanta_typeck::error::TypeError;
use quanta_typeck::model::Model;
use quanta_typeck::{access, linear, resolve};
use reference::{Pass, Question};

/// The contract of an admitted image as the judge takes it: each node's span words are its number.
pub fn contract(image: &[u8]) -> Result<Contract, Mismatch> {
    let mut parts = Parts::of(image);
    for (place, node) in parts.nodes.iter_mut().enumerate() {
        (node.from, node.to) = (place as u32, place as u32);
    }
    unpacked(&parts.image())
}

/// The contract of an admitted image. An image that was admitted and has none is a mismatch.
pub fn unpacked(image: &[u8]) -> Result<Contract, Mismatch> {
    pack::unpack(image).ok_or_else(|| differ("the image", "admitted", "the contract of none"))
}

/// Code and place of a pass on such a contract, 0 and 0 where it accepts.
pub fn verdict(pass: Pass, model: &Model) -> (u16, u16) {
    let (code, span) = code_and_span(pass, model);
    (code, span.start as u16)
}

/// Code and span of a pass on any contract, zeros where it accepts.
pub fn code_and_span(pass: Pass, model: &Model) -> (u16, Span) {
    let answer = match pass {
        Pass::Resolve => resolve::check(model),
        Pass::Access => access::check(model),
        Pass::Linear => linear::check(model),
    };
    match answer {
        Ok(()) => (0, Span { start: 0, end: 0 }),
        Err(error) => (code(&error), error.span),
    }
}

pub fn ask(question: Question, model: &Model, name: &str) -> bool {
    match question {
        Question::IsState => model.is_state(name),
        Question::IsDeclaredAsset => model.is_declared_asset(name),
        Question::IsKnownAsset => model.is_known_asset(name),
    }
}

/// How each message begins and what else it has, with document 01's number for it. The name that
/// stands in a message is an identifier, so it can hold none of these words.
const MESSAGES: &[(&str, &str, u16)] = &[
    ("state field `", "` is declared more than once", 20),
    ("event `", "` is declared more than once", 21),
    ("`mint_asset` names no asset", "", 22),
    ("entry `", "it collides on one selector", 23),
    ("the parameter `", "` has the same name as a state field", 24),
    ("the parameter `", "` is declared more than once", 25),
    ("the local `", "` is read before its `let` has run", 26),
    ("the local `", "` is declared more than once in this entry", 27),
    ("the local `", "` has the same name as a state field", 28),
    ("the local `", "` has the same name as a parameter", 29),
    ("the event `", "` is emitted but never declared", 30),
    ("the event `", "` is declared with ", 31),
    ("`deployer` is only known while genesis runs", "", 32),
    ("genesis assigns `", "`, which is not a state field", 33),
    ("this calls a function the language does not define", "", 34),
    ("parameter `", "` is signed by `", 35),
    ("clause names `", "`, which is not a state field", 36),
    ("conserves an unknown asset `", "", 37),
    ("mints `", "`, which is not a declared asset", 38),
    ("burns `", "`, which is not a declared asset", 39),
    ("no synchronous external call", "", 40),
    ("invariant references `", "`, which is not a state field", 50),
    ("entry writes `", "` without declaring it in a writes clause", 51),
    ("a let that aliases an existing asset is not supported", "", 60),
    ("asset `", "` is never consumed", 61),
    ("asset `", "` is used more than once", 62),
];

/// The code of a message; 0xffff for one that nobody knows, which no reference gives.
fn code(error: &TypeError) -> u16 {
    let fits = |(start, within, _): &&(&str, &str, u16)| {
        error.message.starts_with(start) && error.message.contains(within)
    };
    MESSAGES.iter().find(fits).map_or(0xffff, |m| m.2)
}
