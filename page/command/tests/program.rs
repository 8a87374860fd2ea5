//! The program itself, run as people and scripts run it: statuses, outputs, odd inputs.

use crate::common::{
    ACCEPTED, FAULTY as WARD, NO_IMAGE, OFFENCES, file, is_trouble, path, program, ran, run, sample,
    with_input,
};
use std::ffi::OsStr;
use std::fs::{self, File};
use std::io::Write;
use std::path::Path;
use std::process::Stdio;

#[test]
fn numbers_of_document_01() {
    let ran = run(&["check", &sample("p2.image"), "--format", "numbers"]);
    let expected = "resolve 0 0 0 0\naccess 0 0 0 0\nlinear 61 5 50 51\nlist 1\n61 5 0 2 50 51\n";
    assert_eq!((ran.status, ran.out.as_str(), ran.err.as_str()), (Some(OFFENCES), expected, ""));
}

#[test]
fn statuses() {
    let accepted = file("accepted.image", &example::image("contract C { }"));
    assert_eq!(run(&["check", path(&accepted)]).status, Some(ACCEPTED));
    assert_eq!(run(&["check", &sample("ward.image")]).status, Some(OFFENCES));
    assert_eq!(run(&["check", &sample("p2.image")]).status, Some(OFFENCES));
    let empty = file("empty.image", b"");
    let ran = run(&["check", path(&empty), "--format", "numbers"]);
    assert_eq!((ran.status, ran.out.as_str()), (Some(NO_IMAGE), "image 1\n"));
    assert_eq!(run(&["show", path(&empty)]).status, Some(NO_IMAGE));
    assert_eq!(run(&["show", path(&accepted)]).out, "0 Contract  0..14\n1   Name C  9..10\n");
}

#[test]
fn with_a_source() {
    let image = file("source.image", &example::image(WARD));
    let source = file("source.quanta", WARD.as_bytes());
    let ran = run(&["check", "--source", path(&source), path(&image), "--format", "text"]);
    assert_eq!(ran.status, Some(OFFENCES));
    assert!(ran.out.starts_with(&format!("REFUSED  {}: 1 fault\n", path(&source))), "{}", ran.out);
    let place = format!(
        "  {}:3:15\n  3 |     invariant issued <= limit;\n    |               ^^^^^^ named here\n",
        path(&source)
    );
    assert!(ran.out.contains(&place), "{}", ran.out);
    let alone = run(&["check", path(&image)]).out;
    assert!(alone.starts_with(&format!("REFUSED  {}: 1 fault\n", path(&image))), "{alone}");
}

#[test]
fn every_format() {
    let [image, source] = ["ward.image", "ward.quanta"].map(sample);
    let begins = [
        ("text", format!("REFUSED  {source}: 3 faults\n").leak() as &str),
        ("numbers", "resolve 30 "),
        ("html", "<!DOCTYPE html>"),
    ];
    for (format, start) in begins.into_iter().chain([("json", "{"), ("sarif", "{")]) {
        let ran = run(&["check", &image, "--source", &source, "--format", format]);
        assert_eq!((ran.status, ran.err.as_str()), (Some(OFFENCES), ""), "{format}");
        assert!(ran.out.starts_with(start) && ran.out.ends_with('\n'), "{format}: {:.100}", ran.out);
        assert!(ran.out.contains("issued") || format == "numbers", "{format}");
    }
}

/// The first words of the lines that begin a fault, or the faults of an entry.
fn begins(text: &str) -> Vec<&str> {
    let marked = |line: &&str| ["[", "Entry ", "Outside "].iter().any(|word| line.starts_with(word));
    text.lines().filter(marked).map(|line| line.split("] ").next().unwrap_or(line)).collect()
}

#[test]
fn by_entry() {
    let [image, source] = ["ward.image", "ward.quanta"].map(sample);
    let check = |more: &[&str]| run(&[&["check", &image, "--source", &source], more].concat());
    assert_eq!(begins(&check(&[]).out), ["[30", "[51", "[62"]);
    let grouped = check(&["--by-entry"]);
    assert_eq!((grouped.status, grouped.err.as_str()), (Some(OFFENCES), ""));
    let headings = ["Entry `issue`, line 30: 2 faults", "Entry `destroy`, line 42: 1 fault"];
    assert_eq!(begins(&grouped.out), [headings[0], "[51", "[62", headings[1], "[30"]);
    // the option takes no value, so what follows it is an image
    assert_eq!(run(&["check", "--by-entry", &image, "--source", &source]).out, grouped.out);
    for format in ["--format=html", "--format=json"] {
        assert_eq!(check(&[format, "--by-entry"]).out, check(&[format]).out, "{format}");
    }
    let two = run(&["check", "--by-entry", &image, &image]).out;
    assert_eq!(two.matches("Entry `issue`, node 65: 2 faults\n").count(), 2);
    let accepted = file("by-entry.image", &example::image("contract C { entry e() { } }"));
    let accepted = ["check", path(&accepted), "--by-entry"];
    assert_eq!(run(&accepted).out, run(&accepted[..2]).out);
    for format in ["numbers", "sarif"] {
        is_trouble(&check(&["--by-entry", "--format", format]), "`--by-entry` goes with text, html and json");
    }
    is_trouble(&check(&["--by-entry", "--by-entry"]), "`--by-entry` is given twice");
    is_trouble(&check(&["--by-entry=yes"]), "`--by-entry` takes no value");
    is_trouble(&run(&["why", &image, "86", "--by-entry"]), "`--by-entry` is no option of `why`");
    assert!(
        run(&["--help"]).out.contains("\n           --by-entry      text with the faults under a heading")
    );
}

#[test]
fn the_sample_is_the_image_of_its_text() {
    let source = fs::read_to_string(sample("ward.quanta")).expect("the text");
    assert!(fs::read(sample("ward.image")).expect("the image") == example::image(&source));
}

#[test]
fn standard_input() {
    let image = file("stdin.image", &example::image(WARD));
    let open = || Stdio::from(File::open(&image).expect("the image"));
    let ran = with_input(&["check", "-"], open());
    assert_eq!(ran.status, Some(OFFENCES));
    assert!(ran.out.starts_with("REFUSED  standard input: 1 fault\n"), "{}", ran.out);
    assert_eq!(with_input(&["show", "-"], open()).status, Some(OFFENCES));
    is_trouble(&with_input(&["check", "-", "--source", "-"], open()), "both be standard input");
}

#[test]
fn too_long_is_refused_without_being_read() {
    let endless = Stdio::from(File::open("/dev/zero").expect("zeros"));
    let ran = with_input(&["check", "-", "--format", "numbers"], endless);
    assert_eq!((ran.status, ran.out.as_str()), (Some(NO_IMAGE), "image 1\n"));
    // the longest image is no longer too long: its first words are wrong, which is tested next
    for (length, refusal) in
        [(51_226, "image 2\n"), (51_227, "image 1\n"), (24, "image 2\n"), (23, "image 1\n")]
    {
        let zeros = file(&format!("zeros{length}.image"), &vec![0; length]);
        assert_eq!(run(&["check", path(&zeros), "--format", "numbers"]).out, refusal);
    }
}

#[test]
fn what_cannot_be_read() {
    let folder = env!("CARGO_TARGET_TMPDIR");
    let image = sample("ward.image");
    is_trouble(&run(&["check", folder]), "could not read");
    is_trouble(&run(&["show", folder]), "could not read");
    is_trouble(&run(&["check", "/no/such/image"]), "could not read /no/such/image");
    is_trouble(&run(&["check", &image, "--source", folder]), "could not read");
    is_trouble(&run(&["check", &image, "--source", "/no/such/source"]), "could not read /no/such/source");
    is_trouble(&run(&["check", "/no/\u{1b}[2J"]), "/no/\\u{1b}[2J");
    let write_only = fs::OpenOptions::new().write(true).open("/dev/null").expect("nothing");
    is_trouble(&with_input(&["check", "-"], Stdio::from(write_only)), "could not read");
}

#[test]
fn what_cannot_be_written() {
    let full = File::options().write(true).open("/dev/full").expect("a full disk");
    let output = program().args(["check", &sample("ward.image")]).stdout(Stdio::from(full)).output();
    is_trouble(&ran(output.expect("the program runs")), "could not write the report");
    let mut child = program()
        .args(["check", "-"])
        .stdin(Stdio::piped())
        .stdout(Stdio::piped())
        .stderr(Stdio::piped())
        .spawn()
        .expect("the program runs");
    drop(child.stdout.take());
    let mut input = child.stdin.take().expect("its input");
    input.write_all(&example::image(WARD)).expect("written");
    drop(input);
    is_trouble(&ran(child.wait_with_output().expect("the program ends")), "could not write the report");
}

#[test]
fn usage() {
    let image = sample("ward.image");
    let cases: &[&[&str]] = &[
        &[],
        &["chekc"],
        &["check"],
        &["check", &image, "--format"],
        &["check", &image, "--format="],
        &["check", &image, "--source="],
        &["check", &image, &image, "--source", &image],
        &["check", &image, &image, "--format", "html"],
        &["check", &image, &image, "--format", "numbers"],
        &["check", &image, "--source", &image, "--sources", "."],
        &["check", &image, "--root", "."],
        &["check", &image, "--color", "red"],
        &["check", &image, "--output"],
        &["check", &image, "-o", "a", "--output", "b"],
        &["check", &image, "--format", "pdf"],
        &["check", &image, "--format", "text", "--format", "text"],
        &["check", &image, "--source"],
        &["check", &image, "--colour"],
        &["show"],
        &["show", "--format"],
        &["show", &image, &image],
        &["--version", "now"],
        &["help-page", "now"],
    ];
    for arguments in cases {
        let ran = run(arguments);
        is_trouble(&ran, "\nusage: isonkaypu check IMAGE");
        assert!(
            ran.err.contains("\n       isonkaypu show IMAGE\n") && !ran.err.contains("\\u{a}"),
            "{}",
            ran.err
        );
    }
}

/// What a person gave is shown in one line, whatever it has; only our own lines are lines.
#[test]
fn no_line_is_made_up() {
    let ran = run(&["check", "x\nACCEPTED  ward", "--format", "a\nb"]);
    assert!(ran.err.starts_with("isonkaypu: `a\\u{a}b` is no format"), "{}", ran.err);
    let ran = run(&["check", "/no/x\nACCEPTED  ward"]);
    assert_eq!(ran.err.lines().count(), 1, "{}", ran.err);
}

/// Alone it says what it can do. Nothing was checked, so a script must not take that for a yes.
#[test]
fn alone() {
    let ran = run::<&str>(&[]);
    is_trouble(&ran, "nothing was asked for");
    assert!(ran.err.ends_with(&run(&["--help"]).out), "{}", ran.err);
}

#[test]
fn explain() {
    let begins = |arguments: &[&str], with: &str| {
        let ran = run(arguments);
        assert!(
            ran.status == Some(ACCEPTED) && ran.out.starts_with(with),
            "{arguments:?}: {}{}",
            ran.out,
            ran.err
        );
    };
    begins(&["explain", "62"], "code 62: a lot is used more than once\n");
    begins(&["explain", "code", "62"], "code 62: ");
    begins(&["explain", "image", "5"], "image 5: a name is not as it must be\n");
    begins(&["explain", "image 5"], "image 5: ");
    begins(&["explain", "image", "9"], "list refused 9: ");
    begins(&["explain", "list", "refused", "9"], "list refused 9: ");
    begins(&["explain", "lot"], "lot\n  A definite quantity of an asset");
    begins(&["explain", "use", "of", "a", "lot"], "use of a lot\n");
    begins(&["explain", "9"], "list refused 9: ");
    begins(&["explain", "burns"], "burns\n  A clause");
    begins(&["explain", "linear"], "The check of lots\n");
    begins(&["explain", "not-checked"], "Checked\n");
    begins(&["explain"], "Refusals\n");
    for unknown in [["explain", "63"], ["explain", "5"], ["explain", "image 10"], ["explain", "box"]] {
        is_trouble(&run(&unknown), "nothing to explain");
    }
}

#[test]
fn of_itself() {
    let version = run(&["--version"]);
    assert_eq!(version.status, Some(ACCEPTED));
    let [ours, kit] = version.out.lines().collect::<Vec<_>>()[..] else { panic!("{}", version.out) };
    let digits = ours.strip_prefix(concat!("isonkaypu ", env!("CARGO_PKG_VERSION"), ", library "));
    assert_eq!(digits, isonkaypu::library().get(..12));
    assert!(kit.strip_prefix("made with ").is_some_and(|kit| !kit.is_empty()), "{kit}");
    let help = run(&["--help"]);
    assert_eq!(help.status, Some(ACCEPTED));
    assert!(help.out.contains("usage: isonkaypu check IMAGE") && help.out.contains("Exit status:"));
    assert_eq!([run(&["help"]).out, run(&["check", "--help"]).out], [help.out.clone(), help.out]);
    let page = run(&["help-page"]);
    assert!(page.status == Some(ACCEPTED) && page.out == words::help_page());
}

#[cfg(unix)]
#[test]
fn a_name_that_is_no_text() {
    use std::os::unix::ffi::OsStrExt;
    let image = Path::new(env!("CARGO_TARGET_TMPDIR")).join(OsStr::from_bytes(b"w\xffrd.image"));
    fs::write(&image, example::image(WARD)).expect("a file for the test");
    let ran = run(&[OsStr::new("check"), image.as_os_str()]);
    assert!(
        ran.out.lines().next().is_some_and(|line| line.ends_with("/w\u{fffd}rd.image: 1 fault")),
        "{}",
        ran.out
    );
    is_trouble(&run(&[OsStr::new("check"), OsStr::from_bytes(b"--w\xff")]), "is no option");
}
