//! The page in a real browser: it shows its banner and its cards, runs nothing, and the console stays
//! silent. Skipped, with a word, where chromium is not installed.

use crate::common::pages::{Page, pages};
use std::path::{Path, PathBuf};
use std::process::{Command, Output};

/// Where the pages are kept, to be looked at.
fn folder() -> PathBuf {
    Path::new(env!("CARGO_TARGET_TMPDIR")).join("pages")
}

fn browser() -> Option<&'static str> {
    let answers =
        |name: &&str| Command::new(name).arg("--version").output().is_ok_and(|out| out.status.success());
    ["chromium", "chromium-browser"].into_iter().find(answers)
}

fn opened(browser: &str, page: &Page) -> Output {
    let file = folder().join(page.name).with_extension("html");
    std::fs::create_dir_all(folder()).expect("a folder for the pages");
    std::fs::write(&file, &page.html).expect("a page is written");
    let profile = folder().join("profile");
    Command::new(browser)
        .args(["--headless", "--no-sandbox", "--disable-gpu", "--enable-logging=stderr", "--dump-dom"])
        .arg(format!("--user-data-dir={}", profile.display()))
        .arg(format!("file://{}", file.display()))
        .output()
        .expect("the browser starts")
}

#[test]
fn the_pages_open() {
    let Some(browser) = browser() else {
        println!("skipped: chromium is not installed");
        return;
    };
    for page in pages() {
        let out = opened(browser, &page);
        let dom = String::from_utf8_lossy(&out.stdout);
        let log = String::from_utf8_lossy(&out.stderr);
        assert!(out.status.success(), "{}: {log}", page.name);
        assert!(dom.contains(&format!("</svg> {}</h1>", page.says)), "{}: no banner\n{dom}", page.name);
        assert_eq!(dom.matches("<article class=\"card\"").count(), page.cards, "{}", page.name);
        assert!(!log.contains("CONSOLE"), "{}: {log}", page.name);
        assert!(
            !dom.contains("<script") && !dom.contains("<img") && !dom.contains("broken</title>"),
            "{}",
            page.name
        );
    }
}
