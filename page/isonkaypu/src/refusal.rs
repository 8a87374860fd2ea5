//! Why bytes are no image: refusals 1 to 8 of document 01.

use std::fmt;

/// A refusal of an image, with its words.
#[derive(Clone, Copy, Debug, PartialEq, Eq, Hash)]
pub struct ImageRefusal(u8);

impl ImageRefusal {
    /// What the library is proved never to answer.
    pub(crate) const UNKNOWN: ImageRefusal = ImageRefusal(u8::MAX);

    /// Whether the library's number says that the image is admitted. A number that nobody knows does
    /// not say so.
    pub(crate) fn unless_admitted(number: usize) -> Result<(), ImageRefusal> {
        match number {
            0 => Ok(()),
            1..=8 => Err(ImageRefusal(number as u8)),
            _ => Err(ImageRefusal::UNKNOWN),
        }
    }

    /// Document 01's number, 1 to 8. Were the library to answer with a number that nobody knows, which
    /// it is proved not to do, this is 255.
    pub fn number(self) -> u8 {
        self.0
    }
}

impl fmt::Display for ImageRefusal {
    fn fmt(&self, f: &mut fmt::Formatter<'_>) -> fmt::Result {
        match words::refusal(self.0.into()) {
            Some(entry) => write!(f, "image {}: {}", self.0, entry.fault),
            None => write!(f, "the checker answered with a number that nobody knows"),
        }
    }
}

impl std::error::Error for ImageRefusal {}

#[cfg(test)]
mod tests {
    use super::*;

    #[test]
    fn only_0_admits() {
        assert_eq!(ImageRefusal::unless_admitted(0), Ok(()));
        for number in 1..=8 {
            let refusal = ImageRefusal::unless_admitted(number).unwrap_err();
            assert_eq!(usize::from(refusal.number()), number);
        }
        for number in [9, 20, 255, 256, usize::MAX] {
            assert_eq!(ImageRefusal::unless_admitted(number), Err(ImageRefusal::UNKNOWN));
        }
    }
}
