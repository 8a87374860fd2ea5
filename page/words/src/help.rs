//! The help page and the words of `explain`, made from the file of words.

use crate::{
    CHECKS, Entry, Gap, OTHER_TEXT, Term, USES_OF_A_LOT, checks, codes, gaps, glossary, lines, refusals,
    statuses,
};

/// How wide the text of `explain` is.
const WIDTH: usize = 88;

/// What a report writes for this number.
fn said(entry: &Entry) -> String {
    match entry.number {
        9 => "list refused 9".to_string(),
        10..20 => format!("why refused {}", entry.number),
        n if n < 20 => format!("image {n}"),
        n => format!("code {n}"),
    }
}

/// `explain` with a number: its entry at length, for a terminal.
pub fn explain(entry: &Entry) -> String {
    let mut text = format!("{}: {}\n", said(entry), entry.title);
    let parts =
        [("What it says", &entry.means), ("Why it matters", &entry.matters), ("How to mend it", &entry.how)];
    for (heading, part) in parts {
        text += &format!("\n{heading}\n{}", wrapped(part));
    }
    for (heading, example) in [("Before", &entry.before), ("After", &entry.after)] {
        if !example.is_empty() {
            text += &format!("\n{heading}\n{}", inset(example));
        }
    }
    text
}

/// `explain` with a word of the language.
pub fn explain_term(term: &Term) -> String {
    format!("{}\n{}", term.word, wrapped(&term.means))
}

/// `explain` alone: everything that can be asked for.
pub fn explain_list() -> String {
    let row = |(what, title): (String, &str)| format!("  {what:<10} {title}\n");
    // what is asked for is what finds it: `image 9` too, but 10 and 13 are never an image's
    let asked = |number: u16| if number < 10 { format!("image {number}") } else { number.to_string() };
    let refusals: String = refusals().iter().map(|e| row((asked(e.number), &e.title))).collect();
    let codes: String = codes().iter().map(|e| row((e.number.to_string(), &e.title))).collect();
    let word = |term: &'static Term| term.word.as_str();
    let terms: Vec<&str> = glossary().iter().chain(checks()).map(word).chain(["not-checked"]).collect();
    format!("Refusals\n{refusals}\nFaults of a contract\n{codes}\nWords\n{}", wrapped(&terms.join(", ")))
}

/// The last lines of a report on a contract, for people: what was checked, what was not, and where to
/// read more. The code is that of a fault to read about.
pub fn last_lines(code: Option<u16>) -> String {
    let words = gaps().iter().map(|gap| gap.word.as_str()).collect::<Vec<_>>().join(", ");
    let not_checked = wrapped(&format!("NOT checked: {words}."));
    let more = code.map_or(String::new(), |code| format!("`isonkaypu explain {code}`, "));
    format!(
        "Checked: {}, as far as the rules 20 to 62 go.\n{}Read more: {more}`isonkaypu explain not-checked`\n",
        CHECKS.join(", "),
        // the first line begins where the others are set in
        not_checked.trim_start()
    )
}

/// `explain not-checked`: what the checks look at, and what none of them does.
pub fn explain_claims() -> String {
    let checks: String = checks().iter().map(|term| format!("\n{}", explain_term(term))).collect();
    let gap = |gap: &Gap| format!("\n{}\n{}\n{}", gap.word, wrapped(&gap.means), inset(&gap.example));
    let gaps: String = gaps().iter().map(gap).collect();
    format!("Checked\n{checks}\nNOT checked: {GAPS}\n{gaps}")
}

/// `explain` with a check: what it looks at.
pub fn explain_check(check: &Term) -> String {
    format!("The check of {}\n{}", check.word, wrapped(&check.means))
}

/// `explain` with something that no check looks at.
pub fn explain_gap(gap: &Gap) -> String {
    format!("NOT checked: {}\n{}\n{}", gap.word, wrapped(&gap.means), inset(&gap.example))
}

/// What is said over the list of gaps.
const GAPS: &str = "an accepted contract can be wrong in these";

/// Paragraphs, set in by two and broken between words.
fn wrapped(text: &str) -> String {
    text.split("\n\n").map(paragraph).collect::<Vec<_>>().join("\n")
}

fn paragraph(text: &str) -> String {
    let mut lines = vec![String::new()];
    for word in text.split_whitespace() {
        let line = lines.last().map_or(0, |l| l.chars().count());
        if line > 0 && line + 1 + word.chars().count() > WIDTH {
            lines.push(String::new());
        }
        if let Some(last) = lines.last_mut() {
            last.push_str(if last.is_empty() { "" } else { " " });
            last.push_str(word);
        }
    }
    lines.iter().map(|line| format!("  {line}\n")).collect()
}

fn inset(example: &str) -> String {
    example.lines().map(|line| format!("    {line}").trim_end().to_string() + "\n").collect()
}

/// The help page, docs/HELP.md: everything that the file of words says.
pub fn help_page() -> String {
    let sections = [
        HEAD.to_string(),
        section("Words", "", &terms(glossary())),
        section("The lines of a report", LINES, &terms(lines_of_numbers())),
        section("The same for people", PEOPLE, &people()),
        section("Why is this lot refused?", WHY, &terms(lines_of_why())),
        section("Checked", CHECKED, &terms(checks())),
        section("Not checked", NOT_CHECKED, &gaps().iter().map(gap_entry).collect::<Vec<_>>().join("\n")),
        section("Exit statuses", STATUSES, &terms(statuses())),
        section("The image: refusals", IMAGE, &entries(refusals())),
        section("Resolve: names", RESOLVE, &entries(coded(20..=40))),
        section("Access: who changes what", "", &entries(coded(50..=51))),
        section("Linear: each lot is used exactly once", LINEAR, &entries(coded(60..=62))),
    ];
    sections.join("\n")
}

const HEAD: &str = "\
<!-- Made from page/words/words.txt by `isonkaypu help-page`. Edit that file, not this one. -->
# Help: every line and number of a report

For whoever uploads a contract and gets a report back. `isonkaypu explain 62`, `isonkaypu explain image 5`,
`isonkaypu explain lot` and `isonkaypu explain not-checked` print the same words.
";

const LINES: &str = "\
`./report FILE` and `isonkaypu check FILE --format numbers` print these lines. Numbers are decimal.

";

const PEOPLE: &str = "\
`isonkaypu check FILE` writes the same report in words; with `--source TEXT`, the text that you uploaded, it shows
each fault in its line, and says which entry that is in. Where each entry has its own reviewer, `--by-entry` puts the
faults of each entry together, under a heading with its name; a page (`--format html`) is always so. The last lines
say what was checked and what was not:

";

const WHY: &str = "\
Under each 61 and 62 the report shows every use of the lot. `isonkaypu why FILE NODE` asks the same of one lot, also of
one that is as it should be; with `--source TEXT` each use stands in its line. NODE is the number of the lot's place: in
the line of a 61 or 62 it is the second number. For a number that is no lot's the command names the places of all lots.

";

const CHECKED: &str = "\
Three checks run, by the rules 20 to 62 below. They see to it that:

";

const NOT_CHECKED: &str = "\
No rule looks at the following. An accepted contract can be wrong in each of them, and each example is accepted.

";

const STATUSES: &str = "\
Of `isonkaypu` and of `./report`, for programs that call them.

";

const IMAGE: &str = "\
Given before anything is checked; the first that applies is given. 1 to 8 are printed as `image N`. 9 is about the list
alone, 10 and 13 about the question why a lot is refused: 13 is tested before 10.

";

const RESOLVE: &str = "\
In all rules capital and small letters are different: `Limit` and `limit` are two names.

";

const LINEAR: &str = "\
A lot is a parameter of type `Q_Asset<...>`, or a `let` whose value is a `.split(...)` or a `mint(...)`. What counts as
a use stands under \"use of a lot\" above.

";

fn section(heading: &str, opening: &str, body: &str) -> String {
    format!("## {heading}\n\n{opening}{body}")
}

/// What stands at the end of a report for people, and its other lines.
fn people() -> String {
    format!("{}\n{}", inset(&last_lines(Some(62))), terms(lines_for_people()))
}

/// The lines of numbers come first, then those for people, then those of the answer why.
fn lines_of_numbers() -> &'static [Term] {
    &lines()[..first_for_people()]
}

fn lines_for_people() -> &'static [Term] {
    &lines()[first_for_people()..first_of_why()]
}

fn lines_of_why() -> &'static [Term] {
    &lines()[first_of_why()..]
}

fn first_for_people() -> usize {
    position(OTHER_TEXT)
}

fn first_of_why() -> usize {
    position(USES_OF_A_LOT)
}

fn position(word: &str) -> usize {
    lines().iter().position(|t| t.word == word).unwrap_or(lines().len())
}

fn gap_entry(gap: &Gap) -> String {
    format!("### {}\n\n{}.\n\n{}", gap.word, capital(&gap.means), inset(&gap.example))
}

fn capital(text: &str) -> String {
    let mut chars = text.chars();
    chars.next().map_or(String::new(), |first| first.to_uppercase().to_string() + chars.as_str())
}

fn coded(range: std::ops::RangeInclusive<u16>) -> &'static [Entry] {
    let from = codes().partition_point(|e| e.number < *range.start());
    let to = codes().partition_point(|e| e.number <= *range.end());
    &codes()[from..to]
}

fn terms(terms: &[Term]) -> String {
    terms.iter().map(|t| format!("- **{}**: {}\n", mark_code(&t.word), t.means)).collect()
}

/// Lines of a report and exit statuses are set as they are printed; words stay words.
fn mark_code(word: &str) -> String {
    let printed = lines().iter().chain(statuses()).any(|t| t.word == word);
    if printed { format!("`{word}`") } else { word.to_string() }
}

fn entries(entries: &[Entry]) -> String {
    entries.iter().map(entry).collect::<Vec<_>>().join("\n")
}

fn entry(entry: &Entry) -> String {
    let Entry { title, means, matters, how, before, after, .. } = entry;
    let text = format!(
        "### `{}`: {title}\n\n{means}\n\n**Why it matters.** {matters}\n\n**How to mend it.** {how}\n",
        said(entry)
    );
    if before.is_empty() {
        return text;
    }
    format!("{text}\nBefore:\n\n{}\nAfter:\n\n{}", inset(before), inset(after))
}
