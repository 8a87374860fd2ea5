//! Bytes that are no image, but look like the text of a contract: the mistake that people make most
//! easily, and that the refusals' own words do not speak of.

use crate::{Outcome, Subject};
use words::Entry;

/// How many bytes are looked at.
const LOOKED_AT: usize = 1024;

/// What to do where a text was given for an image.
pub const TEXT_FOR_IMAGE: &str = "this looks like the text of a contract, not like its image: give the image \
    that the upload page made from this text; the text itself is given beside the image, with `--source`";

/// Whether bytes look like text: UTF-8 with no control but blanks and line ends, as far as they are
/// looked at. Every image begins with a byte 1 and a byte 0.
pub fn like_text(bytes: &[u8]) -> bool {
    let start = &bytes[..bytes.len().min(LOOKED_AT)];
    // what is cut off in the middle of a character is text too
    let up_to = match std::str::from_utf8(start) {
        Err(error) if error.error_len().is_none() && start.len() < bytes.len() => error.valid_up_to(),
        _ => start.len(),
    };
    let is_text = |c: char| !c.is_control() || matches!(c, '\t' | '\n' | '\r');
    std::str::from_utf8(&start[..up_to]).is_ok_and(|text| !text.is_empty() && text.chars().all(is_text))
}

/// Whether the bytes that are no image look like text.
pub fn text_for_image(subject: &Subject) -> bool {
    matches!(subject.outcome(), Outcome::NoImage { image, .. } if like_text(image))
}

/// How to mend a refusal of this subject, at length.
pub fn how<'w>(subject: &Subject, words: &'w Entry) -> &'w str {
    if text_for_image(subject) { TEXT_FOR_IMAGE } else { &words.how }
}

#[cfg(test)]
mod tests {
    use super::*;

    #[test]
    fn texts_and_others() {
        let long = "é".repeat(2000);
        for text in ["contract C { }", "// ä\r\n\tcontract", "x", &long, &format!("x{long}")] {
            assert!(like_text(text.as_bytes()), "{text:.20}");
        }
        let image = example::image("contract C { }");
        for other in [&b""[..], b"\x01\x00\x08", b"text\0", b"\xff\xfetext", b"tex\xc3", b"\x1b[31m", &image]
        {
            assert!(!like_text(other), "{other:?}");
        }
    }
}
