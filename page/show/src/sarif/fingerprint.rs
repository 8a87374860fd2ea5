//! What a result is known by from one run to the next. It is made from what stays when lines move: the
//! code, the contract, the entry, the name, and which one it is among those that are alike in all these.

use crate::json::value::{Value, object};
use crate::{Fault, Subject, sha256};

/// The fingerprint of each fault.
pub fn fingerprints(subject: &Subject, faults: &[Fault]) -> Vec<Value> {
    let report = subject.report();
    let contract = report.and_then(|report| report.tree()).map(|tree| crate::blanks::text(&tree, 1));
    let contract = contract.unwrap_or_default();
    let offences = report.map(|report| report.offences()).unwrap_or_default();
    let mut seen: Vec<[String; 3]> = Vec::new();
    let mut one = |(i, fault): (usize, &Fault)| {
        let name = offences.get(i).and_then(|offence| offence.name.clone()).unwrap_or_default();
        let entry = fault.entry.as_ref().map_or(String::new(), |entry| entry.name.clone());
        let known_by = [fault.code.to_string(), entry, name];
        let before = seen.iter().filter(|other| **other == known_by).count().to_string();
        let [code, entry, name] = &known_by;
        let print = of(&[code, &contract, entry, name, &before]);
        seen.push(known_by);
        print
    };
    faults.iter().enumerate().map(&mut one).collect()
}

/// The fingerprint of these words, under our key and under the one that code scanning reads. No name has
/// a line end, so no two lists of words are alike when joined.
pub fn of(words: &[&str]) -> Value {
    let print = sha256::hex(words.join("\n").as_bytes());
    object([("isonkaypu/v1", print.as_str().into()), ("primaryLocationLineHash", print.as_str().into())])
}
