//! The reader of the file of words is strict: each thing that an editor can get wrong has its test.

use words::{CODES, REFUSALS, WORDS, read};

/// What the reader says of the shipped file with `from` replaced, once, by `to`.
fn trouble(from: &str, to: &str) -> String {
    assert!(WORDS.contains(from), "the file has no `{from}`");
    read(&WORDS.replacen(from, to, 1)).err().map_or("no trouble".to_string(), |t| t.what)
}

#[test]
fn the_shipped_file_is_whole() {
    let words = read(WORDS).expect("the shipped file is read");
    assert_eq!(words.codes.iter().map(|e| e.number).collect::<Vec<_>>(), CODES);
    assert_eq!(words.refusals.iter().map(|e| e.number).collect::<Vec<_>>(), REFUSALS);
    for word in ["contract", "entry", "state", "lot", "genesis", "clause", "event", "invariant", "asset"] {
        assert!(words.glossary.iter().any(|t| t.word == word), "no `{word}` in the glossary");
    }
    assert_eq!((words.lines.len(), words.statuses.len()), (16, 4));
    assert_eq!([7, 11].map(|i| words.lines[i].word.as_str()), [words::OTHER_TEXT, words::USES_OF_A_LOT]);
    assert_eq!(words.checks.iter().map(|t| t.word.as_str()).collect::<Vec<_>>(), words::CHECKS);
    for word in ["supply (conserve)", "signed authority", "amounts", "undeclared names", "undeclared types"] {
        assert!(words.gaps.iter().any(|g| g.word == word), "no gap `{word}`");
    }
}

#[test]
fn missing() {
    assert_eq!(trouble("title: a lot is never used\n", ""), "`title:` is missing in [code 61]");
    assert_eq!(trouble("title: a lot is never used\n", "title:\n"), "`title:` is missing in [code 61]");
    assert_eq!(trouble("there: its second use, {taker}\n", ""), "`there:` is missing in [code 62]");
    for field in ["burned", "twice", "first", "more", "only", "clause", "clauses"] {
        let line = WORDS.lines().find(|line| line.starts_with(&format!("{field}: "))).expect("a field of 62");
        assert_eq!(trouble(&format!("{line}\n"), ""), format!("`{field}:` is missing in [code 62]"));
    }
    let start = WORDS.find("[code 50]").expect("50");
    let end = WORDS.find("[code 51]").expect("51");
    let without = format!("{}{}", &WORDS[..start], &WORDS[end..]);
    assert_eq!(
        read(&without).map_err(|t| t.what),
        Err("[code 50] is missing, or not in its place".to_string())
    );
    let without_last = &WORDS[..WORDS.find("[code 62]").expect("62")];
    assert_eq!(
        read(without_last).map_err(|t| t.what),
        Err("[code 62] is missing, or not in its place".to_string())
    );
}

/// What is checked and what is not: each with its words, each gap with its example.
#[test]
fn claims() {
    assert_eq!(trouble("[checked access]", "[checked acces]"), "`acces` is no check");
    assert_eq!(trouble("[checked access]", "[checked names]"), "`names` stands twice");
    let [from, to] = ["[checked access]", "[checked lots]"].map(|head| WORDS.find(head).expect("a head"));
    let without = format!("{}{}", &WORDS[..from], &WORDS[to..]);
    let missing = Err("[checked access] is missing, or not in its place".to_string());
    assert_eq!(read(&without).map_err(|t| t.what), missing);
    assert_eq!(trouble("[gap amounts]", "[gap signed authority]"), "`signed authority` stands twice");
    assert_eq!(trouble("[gap amounts]", "[gap amounts]\nmends: x"), "`mends:` is no field of this entry");
    let [from, to] = ["[gap amounts]", "[gap conditions]"].map(|head| WORDS.find(head).expect("a head"));
    let without = format!("{}[gap amounts]\nmeans: amounts\n{}", &WORDS[..from], &WORDS[to..]);
    let missing = Err("`example:` is missing in [gap amounts]".to_string());
    assert_eq!(read(&without).map_err(|t| t.what), missing);
}

#[test]
fn doubled() {
    let title = "title: a lot is never used\n";
    assert_eq!(trouble(title, &title.repeat(2)), "`title:` stands twice in this entry");
    assert_eq!(trouble("[code 61]", "[code 60]"), "`code 60` stands twice");
    assert_eq!(trouble("[image 4]", "[image 3]"), "`image 3` stands twice");
    assert_eq!(trouble("[term state]", "[term contract]"), "`contract` stands twice");
    assert_eq!(trouble("also: linear", "also: resolve"), "`resolve` stands twice");
}

#[test]
fn unknown() {
    assert_eq!(trouble("[code 61]", "[code 63]"), "the documents have no `code 63`");
    assert_eq!(trouble("[image 9]", "[image 11]"), "the documents have no `image 11`");
    assert_eq!(trouble("[image 9]", "[image nine]"), "the documents have no `image nine`");
    assert_eq!(trouble("[image 9]", "[picture 9]"), "`picture` is no kind of entry");
    assert_eq!(trouble("title: a lot is", "heading: a lot is"), "`heading:` is no field of this entry");
    assert_eq!(trouble("lot `{other}` a", "lot `{lot}` a"), "`{lot}` is no blank of `fault:`");
    assert_eq!(
        trouble("title: a lot is never", "title: {name} is never"),
        "`{name}` is no blank of `title:`"
    );
}

#[test]
fn misplaced() {
    let here = "here: emitted here\n";
    assert_eq!(trouble(here, &format!("{here}there: elsewhere\n")), "`there:` does not belong here");
    for field in ["burned", "twice", "first", "more", "clause", "clauses"] {
        let expected = format!("`{field}:` does not belong here");
        assert_eq!(trouble(here, &format!("{here}{field}: as it is\n")), expected);
    }
    assert_eq!(trouble("[term contract]", "contract\n[term contract]"), "words before the first `[...]`");
    assert_eq!(trouble("[term contract]", "[contract]"), "a head is `[kind of]`, such as `[code 51]`");
    assert_eq!(
        trouble("[term contract]\n", "[term contract]\n  set in\n"),
        "a line that is set in, but no field above it"
    );
    let no_field = "neither a field, `name: words`, nor set in by two spaces";
    assert_eq!(trouble("  the contract. Tell", " the contract. Tell"), no_field);
}

/// Each case of a code has its `mend`, and no code has another's.
#[test]
fn cases() {
    let near = WORDS.lines().find(|line| line.starts_with("mend near: ")).expect("a case").to_string() + "\n";
    assert_eq!(trouble(&near, ""), "`mend near:` is missing in [code 30]");
    assert_eq!(trouble(&near, "mend near:\n"), "`mend near:` is missing in [code 30]");
    assert_eq!(trouble(&near, &near.repeat(2)), "`mend near:` stands twice in this entry");
    let unknown = format!("{near}mend far: elsewhere\n");
    assert_eq!(trouble(&near, &unknown), "`mend far:` is no field of this entry");
    let of_another = format!("{near}mend qtov: take it out\n");
    assert_eq!(trouble(&near, &of_another), "`mend qtov:` is no field of this entry");
    assert_eq!(
        trouble("did you mean `{near}`? Then", "did you mean `{far}`? Then"),
        "`{far}` is no blank of `mend near:`"
    );
    for code in words::codes() {
        let cases: Vec<_> = code.mends.iter().map(|(case, _)| *case).collect();
        assert_eq!(cases, words::Case::of_code(code.number), "{}", code.number);
    }
}

#[test]
fn the_line_is_told() {
    let line = WORDS.lines().position(|l| l == "[code 61]").expect("61") + 1;
    let wrong = WORDS.replacen("[code 61]", "[code 63]", 1);
    let told = read(&wrong).map_err(|t| (t.line, t.to_string()));
    assert_eq!(told, Err((line, format!("line {line}: the documents have no `code 63`"))));
}
