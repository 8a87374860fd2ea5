//! `isonkaypu why`: what it says of a lot, its statuses, and what it says where there is no lot to speak of.

use crate::common::{ACCEPTED, NO_IMAGE, OFFENCES, TROUBLE, file, is_trouble, path, run, sample, with_input};
use std::fs::File;
use std::process::Stdio;

/// The lots of the ward's contract: one that comes in, one that is used twice, one that is burned.
const COMES_IN: &str = "45";
const USED_TWICE: &str = "86";
const BURNED: &str = "120";

fn ward() -> [String; 2] {
    ["ward.image", "ward.quanta"].map(sample)
}

#[test]
fn each_use_in_its_line() {
    let [image, source] = ward();
    let ran = run(&["why", &image, USED_TWICE, "--source", &source]);
    assert_eq!((ran.status, ran.err.as_str()), (Some(OFFENCES), ""));
    let first = format!("2 USES  {source}: the lot `part` of entry `issue`, node 86\n\n[62] ");
    assert!(ran.out.starts_with(&first), "{}", ran.out);
    for (line, use_) in [("send(to, part);", "used here"), ("send(pharmacist, part);", "its second use")] {
        let shown = format!(
            " |         {line}\n     |{}---- {use_}, taken by the call `send`\n",
            " ".repeat(line.len() + 3)
        );
        assert!(ran.out.contains(&shown), "{shown}{}", ran.out);
    }
    // what the report shows of the fault, word for word
    let report = run(&["check", &image, "--source", &source]).out;
    let fault = ran.out.split("\n\n").nth(1).expect("the fault");
    assert!(report.contains(fault), "{fault}");
}

#[test]
fn statuses() {
    let [image, source] = ward();
    for (place, status, begins) in
        [(COMES_IN, ACCEPTED, "1 USE  "), (BURNED, ACCEPTED, "1 USE  "), (USED_TWICE, OFFENCES, "2 USES  ")]
    {
        let ran = run(&["why", "--source", &source, &image, place]);
        assert!(ran.status == Some(status) && ran.out.starts_with(begins), "{place}: {}", ran.out);
        let without = run(&["why", &image, place]);
        assert!(without.status == Some(status) && without.out.contains(", node "), "{}", without.out);
    }
    let ran = run(&["why", &sample("p2.image"), "5"]);
    assert!(ran.status == Some(OFFENCES) && ran.out.starts_with("NO USE  "), "{}", ran.out);
    let empty = file("why-empty.image", b"");
    let ran = run(&["why", path(&empty), "5"]);
    assert!(ran.status == Some(NO_IMAGE) && ran.out.starts_with("NOT READ  "), "{}", ran.out);
    let other = run(&["why", &image, BURNED, "--source", &image]);
    assert!(other.status == Some(TROUBLE) && other.out.starts_with("OTHER TEXT  "), "{}", other.out);
}

/// A place that is no lot's gets the places that are; large numbers are not cut to small ones.
#[test]
fn no_lot_stands_there() {
    let [image, _] = ward();
    let large = (65_536 + 86).to_string();
    for place in ["0", "44", "85", "87", "137", "65535", &large, &usize::MAX.to_string()] {
        let ran = run(&["why", &image, place]);
        is_trouble(&ran, &format!("no lot stands at node {place} of {image}; its lots stand at "));
        assert!(ran.err.ends_with(" 45 (`lot`), 86 (`part`), 120 (`lot`)\n"), "{}", ran.err);
    }
    let none = file("why-none.image", &example::image("contract C { entry e(x: u64) { let y = x; } }"));
    is_trouble(&run(&["why", path(&none), "5"]), "which has no lot");
    let parameters: String = (0..30).map(|i| format!("l{i}: Q_Asset<M>, ")).collect();
    let many =
        file("why-many.image", &example::image(&format!("contract C {{ entry e({parameters}) {{ }} }}")));
    is_trouble(&run(&["why", path(&many), "4"]), "5 (`l0`), ");
    is_trouble(&run(&["why", path(&many), "4"]), " and 10 more");
}

#[test]
fn what_is_no_place() {
    let [image, _] = ward();
    let long = "9".repeat(1000);
    let large = format!("`{}…` is larger than any place; ", "9".repeat(40));
    let cases = [
        ("x", "`x` is no place; a place is the number of a node"),
        ("", "`` is no place"),
        ("+86", "`+86` is no place"),
        ("-86", "`-86` is no place"),
        ("86.0", "`86.0` is no place"),
        ("0x56", "`0x56` is no place"),
        (" 86", "` 86` is no place"),
        ("٨٦", "`٨٦` is no place"),
        ("18446744073709551616", "`18446744073709551616` is larger than any place"),
        (&long, &large),
        ("8\n6", "`8\\u{a}6` is no place"),
    ];
    for (place, why) in cases {
        let ran = run(&["why", &image, place]);
        is_trouble(&ran, why);
        assert!(ran.err.contains("\n       isonkaypu why IMAGE PLACE "), "{}", ran.err);
    }
    // as a report prints it, with or without blanks before it in a column
    assert_eq!(run(&["why", &image, "0086"]).status, Some(OFFENCES));
}

#[test]
fn usage() {
    let [image, source] = ward();
    let cases: &[(&[&str], &str)] = &[
        (&["why"], "takes an image and the place"),
        (&["why", &image], "takes an image and the place"),
        (&["why", &image, "86", "87"], "takes an image and the place"),
        (&["why", &image, "86", "--source"], "`--source` takes a value"),
        (&["why", &image, "86", "--format", "json"], "`--format` is no option of `why`"),
        (&["why", &image, "86", "--sources", "."], "`--sources` is no option of `why`"),
        (&["why", &image, "86", "--output", "x"], "`--output` is no option of `why`"),
        (&["why", &image, "86", "--", "--source", &source], "takes an image and the place"),
        (&["why", &image, "86", "--color", "red"], "is no time for colours"),
    ];
    for (arguments, why) in cases {
        is_trouble(&run(arguments), why);
    }
    is_trouble(&run(&["why", "/no/such/image", "86"]), "could not read /no/such/image");
    is_trouble(&run(&["why", &image, "86", "--source", "/no/such/text"]), "could not read /no/such/text");
    let open = || Stdio::from(File::open(&image).expect("the image"));
    let ran = with_input(&["why", "-", "86"], open());
    assert!(ran.out.starts_with("2 USES  standard input: the lot `part`"), "{}", ran.out);
    is_trouble(&with_input(&["why", "-", "86", "--source", "-"], open()), "both be standard input");
    let coloured = run(&["why", &image, "86", "--color", "always"]).out;
    assert!(coloured.starts_with("\u{1b}[1;31m2 USES"), "{coloured}");
}

/// Whoever reads of a 61, of a 62 or of the numbers is told of the command.
#[test]
fn it_is_told_of() {
    for code in ["61", "62"] {
        assert!(run(&["explain", code]).out.contains("`isonkaypu why"), "{code}");
    }
    for number in ["10", "13"] {
        let ran = run(&["explain", number]);
        assert!(ran.out.starts_with(&format!("why refused {number}: ")), "{}", ran.out);
    }
    assert!(run(&["--help"]).out.contains("\nwhy      says of one lot"));
}
