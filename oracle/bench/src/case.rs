//! A contract as it is timed: its image for the library and its AST for the published Rust, both
//! made beforehand, and only once reference, Rust and library have said the same of it.

use crate::contracts::Timed;
use compare::judge;
use isonkaypu_sys::Answer;
use quanta_ast::Contract;
use quanta_typeck::model::Model;
use reference::{Pass, Verdict};

pub struct Case {
    pub name: &'static str,
    pub nodes: usize,
    pub image: Vec<u8>,
    pub contract: Contract,
}

impl Case {
    pub fn of(timed: &Timed) -> Case {
        let image = timed.tree.image();
        assert_answers(timed, &image);
        let contract = pack::unpack(&image).expect("admitted");
        Case { name: timed.name, nodes: timed.tree.size(), image, contract }
    }
}

/// A pass of the library, called alone.
pub fn alone(pass: Pass) -> fn(&[u8]) -> Answer {
    match pass {
        Pass::Resolve => isonkaypu_sys::resolve,
        Pass::Access => isonkaypu_sys::access,
        Pass::Linear => isonkaypu_sys::linear,
    }
}

fn assert_answers(timed: &Timed, image: &[u8]) {
    let judged = reference::judge(image).expect("admitted");
    let contract = judge::contract(image).ok().expect("admitted");
    let model = Model::build(&contract);
    let together = isonkaypu_sys::verdicts(image);
    assert_eq!(0, isonkaypu_sys::refusal(image), "{}", timed.name);
    for ((pass, code), answer) in Pass::ALL.into_iter().zip(timed.codes).zip(together) {
        let what = format!("{}: {}", timed.name, pass.word());
        let verdict = judged.verdict(pass);
        assert_eq!(code, verdict.code, "{what}");
        assert_eq!((code, verdict.place), judge::verdict(pass, &model), "{what} of the Rust");
        assert_eq!(expected(verdict), answer, "{what} of the library, with one admission");
        assert_eq!(expected(verdict), alone(pass)(image), "{what} of the library, alone");
    }
}

fn expected(verdict: Verdict) -> Answer {
    Answer {
        number: usize::from(verdict.code),
        place: usize::from(verdict.place),
        from: verdict.from as usize,
        to: verdict.to as usize,
    }
}
