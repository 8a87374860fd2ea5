//! Reports of the program that could mislead: another text, no text, several images, an output that is
//! closed, full or taken.

use crate::common::{ACCEPTED, FAULTY, NO_IMAGE, OFFENCES, Ran, TROUBLE, program, ran};
use std::fs::{self, File};
use std::path::{Path, PathBuf};
use std::process::{Command, Stdio};

const FINE: &str = "contract Ward {\n    state { limit: u64; }\n    invariant limit <= limit;\n}\n";

fn run(arguments: &[&str]) -> Ran {
    ran(program().args(arguments).stdin(Stdio::null()).output().expect("the program runs"))
}

/// A line of a shell in which `$0` is the program and `$1` an image.
fn shell(line: &str, image: &str) -> Ran {
    let program = env!("CARGO_BIN_EXE_isonkaypu");
    ran(Command::new("sh").args(["-c", line, program, image]).output().expect("a shell"))
}

/// A folder of its own for a test, empty.
fn folder(name: &str) -> PathBuf {
    let path = Path::new(env!("CARGO_TARGET_TMPDIR")).join("report").join(name);
    let _ = fs::remove_dir_all(&path);
    fs::create_dir_all(&path).expect("a folder for the test");
    path
}

/// The path of a file with these bytes.
fn file(folder: &Path, name: &str, bytes: &[u8]) -> String {
    let path = folder.join(name);
    fs::write(&path, bytes).expect("a file for the test");
    path.to_str().expect("a plain path").to_string()
}

/// An image and its text.
fn pair(folder: &Path, name: &str, text: &str) -> (String, String) {
    let image = file(folder, &format!("{name}.image"), &example::image(text));
    (image, file(folder, &format!("{name}.quanta"), text.as_bytes()))
}

#[test]
fn another_text_is_no_answer() {
    let folder = folder("another");
    let (image, text) = pair(&folder, "ward", FINE);
    let other = file(&folder, "other.quanta", format!("// a remark\n{FINE}").as_bytes());
    assert_eq!(run(&["check", &image, "--source", &text]).status, Some(ACCEPTED));
    for format in ["text", "numbers", "json", "sarif", "html"] {
        let ran = run(&["check", &image, "--source", &other, "--format", format]);
        assert_eq!(ran.status, Some(TROUBLE), "{format}");
        assert!(!ran.out.contains("ACCEPTED") && !ran.out.contains("a remark"), "{}", ran.out);
        let said = format!("{}{}", ran.out, ran.err).split_whitespace().collect::<Vec<_>>().join(" ");
        let says =
            ["should have `Ward`, and has `rk`", "should have <code>Ward</code>, and has <code>rk</code>"];
        assert!(says.iter().any(|words| said.contains(words)), "{said}");
    }
    let report = folder.join("report.txt");
    let to_a_file = run(&["check", &image, "--source", &other, "-o", report.to_str().expect("a path")]);
    assert!(
        to_a_file.status == Some(TROUBLE) && to_a_file.err.contains("is not the text that"),
        "{}",
        to_a_file.err
    );
    let text = run(&["check", &image, "--source", &other]);
    assert!(text.out.starts_with(&format!("OTHER TEXT  {image}\n")) && text.err.is_empty(), "{}", text.out);
    let numbers = run(&["check", &image, "--source", &other, "--format=numbers"]);
    assert!(numbers.out.starts_with("resolve 0 0 0 0\n"), "{}", numbers.out);
    assert!(numbers.err.contains("other.quanta is not the text that "), "{}", numbers.err);
}

#[test]
fn a_text_that_is_too_long_is_not_shown() {
    let (image, _) = pair(&folder("long"), "ward", FINE);
    let ran = run(&["check", &image, "--source", "/dev/zero"]);
    assert_eq!((ran.status, ran.err.as_str()), (Some(ACCEPTED), ""));
    assert!(ran.out.contains("The text `/dev/zero` is too long to show"), "{}", ran.out);
}

#[test]
fn a_text_for_an_image() {
    let (_, text) = pair(&folder("text"), "ward", FINE);
    for format in ["text", "html"] {
        let ran = run(&["check", &text, "--format", format]);
        assert_eq!(ran.status, Some(NO_IMAGE), "{format}");
        assert!(ran.out.to_lowercase().contains("this looks like the text of a contract"), "{}", ran.out);
    }
    assert_eq!(run(&["check", &text, "--format", "numbers"]).out, "image 2\n");
    assert!(run(&["show", &text]).out.contains("this looks like the text"));
}

#[test]
fn options_with_their_value_behind_a_sign() {
    let (image, text) = pair(&folder("sign"), "ward", FAULTY);
    let apart = run(&["check", &image, "--source", &text, "--format", "json"]);
    let together = run(&["check", &format!("--source={text}"), "--format=json", "--", &image]);
    assert_eq!((together.status, together.out), (Some(OFFENCES), apart.out));
}

#[test]
fn several_images() {
    let folder = folder("several");
    let (fine, _) = pair(&folder, "fine", FINE);
    let (faulty, text) = pair(&folder, "faulty", FAULTY);
    let broken = file(&folder, "broken.image", b"\0");
    assert_eq!(run(&["check", &fine, &fine]).status, Some(ACCEPTED));
    assert_eq!(run(&["check", &faulty, &fine]).status, Some(OFFENCES));
    let ran = run(&["check", &fine, &broken, &faulty]);
    assert_eq!(ran.status, Some(NO_IMAGE));
    let end = format!(
        "\nACCEPTED    {fine}\nNOT READ    {broken}\nREFUSED     {faulty}\n3 images: 1 accepted, 1 refused, 1 not read\n"
    );
    assert!(ran.out.ends_with(&end), "{}", ran.out);
    let one_by_one = [&fine, &broken, &faulty].map(|image| run(&["check", image]).out + "\n").concat();
    assert!(ran.out.starts_with(&one_by_one), "{}", ran.out);
    let json = run(&["check", &fine, &faulty, "--format=json"]);
    assert!(json.status == Some(OFFENCES) && json.out.starts_with("[\n") && json.out.ends_with("]\n"));
    let sarif = run(&["check", &fine, &faulty, "--format=sarif"]);
    assert_eq!(sarif.out.matches("\"ruleId\"").count(), 1);
    // one file that cannot be read, and nothing is shown
    let ran = run(&["check", &fine, "/no/such/image"]);
    assert_eq!((ran.status, ran.out.as_str()), (Some(TROUBLE), ""));
    // each with its text
    let ran = run(&["check", &faulty, &fine, "--sources", folder.to_str().expect("a path")]);
    assert!(ran.status == Some(OFFENCES) && ran.out.contains(&format!("{text}:3:15\n")), "{}", ran.out);
    fs::write(&text, FINE).expect("another text");
    let ran = run(&["check", &faulty, &fine, "--sources", folder.to_str().expect("a path")]);
    assert!(
        ran.status == Some(TROUBLE) && ran.out.ends_with("2 images: 1 accepted, 1 other text\n"),
        "{}",
        ran.out
    );
}

#[test]
fn to_a_file() {
    let folder = folder("output");
    let (image, text) = pair(&folder, "ward", FAULTY);
    let report = folder.join("report.txt");
    let path = report.to_str().expect("a path");
    for option in [vec!["--output", path], vec!["-o", path], vec![&format!("--output={path}")]] {
        let ran = run(&[&["check", &image, "--source", &text], &option[..]].concat());
        assert_eq!((ran.status, ran.out.as_str(), ran.err.as_str()), (Some(OFFENCES), "", ""));
        assert_eq!(
            fs::read_to_string(&report).expect("a report"),
            run(&["check", &image, "--source", &text]).out
        );
        fs::write(&report, "an old report").expect("written");
    }
    assert_eq!(run(&["check", &image, "-o", "-"]).out, run(&["check", &image]).out);
    assert_eq!(left_over(&folder), 0);
}

/// How many unfinished files there are.
fn left_over(folder: &Path) -> usize {
    let names = fs::read_dir(folder).expect("a folder").map(|entry| entry.expect("a file").file_name());
    names.filter(|name| name.to_string_lossy().contains(".part")).count()
}

/// A report that cannot be written changes nothing.
#[test]
fn to_no_file() {
    let folder = folder("no-output");
    let (image, text) = pair(&folder, "ward", FAULTY);
    let before = fs::read(&image).expect("the image");
    let taken = folder.to_str().expect("a path");
    for output in
        [taken, "/dev/full", "/dev/null", "/no/such/folder/report", &image, &text, "/proc/report", ".."]
    {
        let ran = run(&["check", &image, "--source", &text, "--output", output]);
        assert_eq!((ran.status, ran.out.as_str()), (Some(TROUBLE), ""), "{output}");
        assert!(ran.err.starts_with(&format!("isonkaypu: could not write {output}: ")), "{}", ran.err);
    }
    assert!(fs::read(&image).expect("the image") == before);
    assert_eq!((left_over(&folder), fs::read_to_string(&text).expect("the text")), (0, FAULTY.to_string()));
    assert!(!fs::metadata("/dev/null").expect("nothing").is_file());
}

/// A closed output or input is no empty one.
#[test]
fn closed_streams() {
    let (image, _) = pair(&folder("closed"), "ward", FINE);
    for line in [
        "\"$0\" check \"$1\" >&-",
        "\"$0\" explain 62 >&-",
        "\"$0\" --help >&-",
        "\"$0\" check \"$1\" <&- >&-",
    ] {
        let ran = shell(line, &image);
        assert_eq!(ran.status, Some(TROUBLE), "{line}");
        assert_eq!(ran.err, "isonkaypu: could not write the report: standard output is closed\n");
    }
    let ran = shell("\"$0\" check - <&-", &image);
    assert_eq!((ran.status, ran.out.as_str()), (Some(TROUBLE), ""));
    assert_eq!(ran.err, "isonkaypu: could not read standard input: it is closed\n");
    // all closed: the status alone tells
    let ran = shell("\"$0\" check \"$1\" >&- 2>&- <&-", &image);
    assert_eq!((ran.status, ran.out.as_str(), ran.err.as_str()), (Some(TROUBLE), "", ""));
    // what is thrown away was written
    assert_eq!(shell("\"$0\" check \"$1\" >/dev/null <&-", &image).status, Some(ACCEPTED));
    assert_eq!(shell("\"$0\" check \"$1\" 1<>/dev/null", &image).status, Some(ACCEPTED));
    assert_eq!(shell("\"$0\" check - </dev/null", &image).status, Some(NO_IMAGE));
}

#[test]
fn a_full_disk_and_a_reader_that_is_gone() {
    let (image, _) = pair(&folder("full"), "ward", FINE);
    let full = File::options().write(true).open("/dev/full").expect("a full disk");
    let ran = ran(program().args(["check", &image]).stdout(full).output().expect("the program runs"));
    assert!(ran.status == Some(TROUBLE) && ran.err.contains("could not write the report"), "{}", ran.err);
    let gone = shell("{ \"$0\" check \"$1\"; echo $? >&2; } | true", &image);
    // the reader may be gone or not when the report is written
    let status = gone.err.lines().last().unwrap_or_default();
    assert!(["0", "3"].contains(&status) && !gone.err.contains("panicked"), "{}", gone.err);
}

#[test]
fn colours() {
    let (image, _) = pair(&folder("colours"), "ward", FAULTY);
    let coloured = |arguments: &[&str], no_color: &str| {
        let output = program().args(["check", &image]).args(arguments).env("NO_COLOR", no_color).output();
        ran(output.expect("the program runs")).out.contains('\u{1b}')
    };
    assert!(!coloured(&[], "") && !coloured(&["--color=auto"], "") && !coloured(&["--color", "never"], ""));
    assert!(coloured(&["--color=always"], "") && coloured(&["--color=always"], "1"));
    assert!(!coloured(&["--color=always", "--format=json"], ""));
}

/// On a terminal text is coloured, unless somebody wants no colours. `script` gives it a terminal.
#[test]
fn colours_on_a_terminal() {
    let (image, _) = pair(&folder("terminal"), "ward", FAULTY);
    let on_a_terminal = |environment: &str, option: &str| {
        let line =
            format!("env {environment} '{}' check '{image}' {option}", env!("CARGO_BIN_EXE_isonkaypu"));
        let output = Command::new("script").args(["-qec", &line, "/dev/null"]).stdin(Stdio::null()).output();
        Some(String::from_utf8_lossy(&output.ok()?.stdout).into_owned())
    };
    let Some(coloured) = on_a_terminal("-u NO_COLOR TERM=xterm", "") else {
        println!("skipped: `script` is not installed");
        return;
    };
    assert!(coloured.contains("\u{1b}[1;31mREFUSED\u{1b}[0m  "), "{coloured}");
    for (environment, option) in [
        ("NO_COLOR=1 TERM=xterm", ""),
        ("-u NO_COLOR TERM=dumb", ""),
        ("-u NO_COLOR TERM=xterm", "--color=never"),
        ("-u NO_COLOR TERM=xterm", "--format=json"),
        ("-u NO_COLOR TERM=xterm", "| cat"),
    ] {
        let plain = on_a_terminal(environment, option).expect("`script` is there");
        assert!(
            plain.contains("ward.image") && !plain.contains("\u{1b}["),
            "{environment} {option}: {plain}"
        );
    }
}

/// No line of the help is too wide for a terminal.
#[test]
fn the_help_fits() {
    let help = run(&["--help"]).out;
    assert!(help.lines().all(|line| line.chars().count() <= 115), "{help}");
}

#[test]
fn paths_of_a_log() {
    let folder = folder("root");
    let inner = folder.join("a b");
    fs::create_dir(&inner).expect("a folder");
    let (image, text) = pair(&inner, "ward", FAULTY);
    let uri = |arguments: &[&str], at: &Path| {
        let output = program().current_dir(at).args(["check", "--format=sarif"]).args(arguments).output();
        let ran = ran(output.expect("the program runs"));
        let after = ran
            .out
            .split_once("\"uri\": \"")
            .map(|(_, rest)| rest.split('"').next().unwrap_or_default().to_string());
        after.unwrap_or(ran.err)
    };
    let root = folder.to_str().expect("a path");
    assert_eq!(uri(&[&image, "--source", &text, "--root", root], &inner), "a%20b/ward.quanta");
    assert_eq!(uri(&["ward.image", "--source", "./ward.quanta"], &inner), "ward.quanta");
    assert_eq!(uri(&["./a b/ward.image"], &folder), "a%20b/ward.image");
    assert!(uri(&[&image], &folder).starts_with("file:///"));
    assert!(uri(&[&image, "--root", "/proc"], &folder).contains(" does not lie in /proc"));
}
