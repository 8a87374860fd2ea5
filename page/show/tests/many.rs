//! Contracts as large as an image can hold, with a fault in every statement: words and advice for all of
//! them are made in a moment.

use std::time::{Duration, Instant};

/// So many of these, one after the other.
fn many(count: usize, one: impl Fn(usize) -> String) -> String {
    (0..count).map(one).collect()
}

/// Contracts in which what is looked up for one fault is as large as it can be.
fn contracts() -> Vec<String> {
    let lets = many(500, |i| format!("let a{} = a{};", 1000 - i, 999 - i));
    let circle = many(300, |i| format!("let a{i} = a{} + a{};", (i + 1) % 300, (i + 7) % 300));
    let [fields, writes] = [many(250, |i| format!("f{i}: u64;")), many(250, |i| format!("f{i} = 1;"))];
    let lots = many(330, |i| format!("l{i}: Q_Asset<M>, "));
    let near = many(200, |i| format!("state {{ field{i}: u64; }} invariant feild{i} > 1;"));
    vec![
        format!("entry e() {{ {lets} }}"),
        format!("entry e() {{ {circle} }}"),
        format!("state {{ {fields} }} entry e() {{ {writes} }}"),
        format!("state {{ f: u64; }} entry e() {{ {} }}", "f = 1;".repeat(650)),
        format!("asset M; entry e({lots}) {{ }}"),
        near,
        "entry e() reads x { }".repeat(300),
    ]
}

#[test]
fn many_faults_are_put_into_words() {
    for items in contracts() {
        let image = example::image(&format!("contract C {{ {items} }}"));
        let report = isonkaypu::check_image(&image).expect("an image");
        let start = Instant::now();
        let faults = show::faults(&report);
        assert!(faults.len() >= 200 && faults.iter().all(|fault| !fault.mend.is_empty()));
        // far above what it takes, and far below what looking at all for each of all would take
        assert!(start.elapsed() < Duration::from_secs(3), "{:?} for {:.60}", start.elapsed(), items);
    }
}
