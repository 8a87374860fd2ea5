//! The examples of the file of words are true: what stands before has its fault and no other, what
//! stands after has none. The proved checker says so.

use isonkaypu::check_image;

fn codes(text: &str) -> Vec<u16> {
    let report = check_image(&example::image(text)).unwrap_or_else(|refusal| panic!("{refusal}: {text}"));
    report.offences().iter().map(|offence| offence.code).collect()
}

#[test]
fn each_code_has_its_example() {
    for entry in words::codes() {
        assert_eq!(codes(&entry.before), [entry.number], "before:\n{}", entry.before);
        assert_eq!(codes(&entry.after), [], "{}, after:\n{}", entry.number, entry.after);
    }
}

/// What is said to be unchecked is: a rule that sees one of these has closed the gap, and the gap's entry
/// goes.
#[test]
fn each_gap_is_accepted() {
    for gap in words::gaps() {
        assert_eq!(codes(&gap.example), [], "`{}` is no gap any more:\n{}", gap.word, gap.example);
    }
    assert!(words::gaps().len() >= 13);
}

#[test]
fn a_refusal_has_its_example() {
    let with_example: Vec<_> = words::refusals().iter().filter(|e| !e.before.is_empty()).collect();
    assert_eq!(with_example.iter().map(|e| e.number).collect::<Vec<_>>(), [5, 6]);
    for entry in with_example {
        let refusal = check_image(&example::image(&entry.before)).err();
        assert_eq!(refusal.map(|r| u16::from(r.number())), Some(entry.number));
        assert_eq!(codes(&entry.after), [], "{}, after:\n{}", entry.number, entry.after);
    }
}
