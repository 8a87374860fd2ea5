//! How images and answers stand in the file, and the README that says so.

use compare::images::names_to_ask;
use generate::Rng;
use reference::{Pass, Question, Record, Verdict};

/// How many questions are recorded for an image.
const QUESTIONS: usize = 4;

/// The bytes of the count.
const COUNT: usize = 4;

/// The count, then image after image.
pub fn file(images: &[Vec<u8>]) -> Vec<u8> {
    let entries: Vec<Vec<u8>> = images.iter().map(|image| entry(image)).collect();
    recording(&entries)
}

/// As many recordings as it takes for each to be shorter than `limit` bytes.
pub fn files(images: &[Vec<u8>], limit: usize) -> Vec<Vec<u8>> {
    let mut files = Vec::new();
    let mut entries = Vec::new();
    let mut length = COUNT;
    for entry in images.iter().map(|image| entry(image)) {
        if limit <= length + entry.len() {
            files.push(recording(&entries));
            entries.clear();
            length = COUNT;
        }
        length += entry.len();
        entries.push(entry);
    }
    files.push(recording(&entries));
    files
}

fn recording(entries: &[Vec<u8>]) -> Vec<u8> {
    [(entries.len() as u32).to_le_bytes().to_vec(), entries.concat()].concat()
}

/// An image and the answers to it.
fn entry(image: &[u8]) -> Vec<u8> {
    let mut out = Vec::new();
    write_image(image, &mut out);
    out
}

fn write_image(image: &[u8], out: &mut Vec<u8>) {
    out.extend((image.len() as u32).to_le_bytes());
    out.extend(image);
    let judged = reference::judge(image);
    out.push(judged.as_ref().err().copied().unwrap_or(0));
    for pass in Pass::ALL {
        let verdict = judged.as_ref().map(|j| j.verdict(pass));
        write_verdict(&verdict.unwrap_or_default(), out);
    }
    write_records(&judged.map(|j| j.list()).unwrap_or_default(), out);
    write_questions(image, out);
}

fn write_verdict(verdict: &Verdict, out: &mut Vec<u8>) {
    out.extend(verdict.code.to_le_bytes());
    out.extend(verdict.place.to_le_bytes());
    out.extend(verdict.from.to_le_bytes());
    out.extend(verdict.to.to_le_bytes());
}

fn write_records(records: &[Record], out: &mut Vec<u8>) {
    out.extend((records.len() as u32).to_le_bytes());
    for word in records.iter().flat_map(|r| r.words()) {
        out.extend(word.to_le_bytes());
    }
}

fn write_questions(image: &[u8], out: &mut Vec<u8>) {
    let admitted = Some(image).filter(|i| reference::refusal(i) == 0);
    let mut rng = Rng::new(image.len() as u64);
    let mut names = names_to_ask(admitted, &mut rng);
    rng.shuffle(&mut names);
    names.truncate(QUESTIONS);
    out.push(names.len() as u8);
    for name in names {
        out.push(name.len() as u8);
        out.extend(&name);
        for question in Question::ALL {
            let yes = reference::question(question, image, &name).unwrap_or(false);
            out.push(u8::from(yes));
        }
    }
}

pub fn readme(images: usize, bytes: usize, room: usize) -> String {
    format!(
        "# Recorded answers

`answers.bin` holds {images} images with the answers to them, {bytes} bytes. It was written by

    cargo run --offline --release -p record -- answers DIR

in `oracle/`: the images are document 01's patterns, its limits as far as they are small, and
generated contracts, admitted and damaged, in which each code and each refusal comes several times.
The answers are those of `oracle/reference`, the plain reading of documents 01 and 02; for every admitted
image the published Rust was run too, and gave the same code and place for each pass. The list, the
related words, the entries and the refusals are the reference's alone, since the Rust stops at its
first error and knows no image. The same command writes the same bytes again.

`crates/replay/stdin` is the same file once more, since `rt` follows no link: the program `replay` reads
it on every `rt ci` and must find that nothing differs, and the tests hold the two to each other. How it
is read and compared is `crates/recording`.

`recorded/replay FILE..` replays any recordings: it prints each difference, then how many images
there were, and ends with 0 only where nothing differs. The program takes recordings of less than
{room} bytes, so `record generated N DIR` writes as many as it takes: the patterns, the limits on
both sides, and N generated images of every class, always the same. The tests replay these.

Numbers are little-endian. The file is read from front to back:

| what | bytes |
|---|---|
| number of images | u32 |
| for each image: its length | u32 |
| its bytes | as many |
| refusal, 0 where it is admitted | u8 |
| for resolve, access, linear: code, place, two span words | u16, u16, u32, u32 |
| number of records of the full list | u32 |
| for each record: code, place, related, entry | u16, u16, u16, u16 |
| number of names asked about | u8 |
| for each name: its length | u8 |
| its bytes | as many |
| is a state name, a declared asset, a known asset: 1 or 0 | u8, u8, u8 |

Where the image is refused, all that follows the refusal is 0 but the names.
"
    )
}
