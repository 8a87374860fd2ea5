//! What the proved library says of an admitted image, as it says it.

use crate::ImageRefusal;
use crate::why::Said;
use isonkaypu_sys::Answer;

/// "with a list buffer of 32,768 words": room for 8,192 records of four.
const LIST_WORDS: usize = 32_768;

/// The library's answers: the verdicts of the three passes, the list, and why a lot is refused.
pub struct Answers {
    pub verdicts: [Answer; 3],
    /// 0, or 9 where the words did not suffice.
    pub list: usize,
    pub count: usize,
    pub words: Vec<u16>,
    /// Asked of each place at which a 61 or 62 stands.
    pub why: fn(&[u8], usize) -> Said,
}

impl Answers {
    /// Asks all there is to ask, or says why the bytes are no image.
    pub fn of(image: &[u8]) -> Result<Answers, ImageRefusal> {
        ImageRefusal::unless_admitted(isonkaypu_sys::refusal(image))?;
        let verdicts = isonkaypu_sys::verdicts(image);
        let mut words = vec![0; LIST_WORDS];
        let (list, count) = isonkaypu_sys::list(image, &mut words);
        Ok(Answers { verdicts, list, count, words, why: Said::of })
    }
}
