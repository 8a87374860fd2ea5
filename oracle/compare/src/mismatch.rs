//! Two answers that differ, and how they are shown.

use crate::dump::dump;
use crate::shrink::shrink;
use std::fmt::Debug;

/// What was asked, and what each side answered.
pub struct Mismatch {
    pub what: String,
    pub reference: String,
    pub other: String,
}

/// A comparison of one image.
pub type Check<'a> = dyn Fn(&[u8]) -> Result<(), Mismatch> + 'a;

/// Two answers that are known to differ, in words.
pub fn differ(what: &str, reference: impl Into<String>, other: impl Into<String>) -> Mismatch {
    Mismatch { what: what.to_string(), reference: reference.into(), other: other.into() }
}

/// Compares two answers to one question.
pub fn same<T: PartialEq + Debug>(what: &str, reference: T, other: T) -> Result<(), Mismatch> {
    if reference == other {
        return Ok(());
    }
    Err(differ(what, format!("{reference:?}"), format!("{other:?}")))
}

/// The text for a mismatch on an image: the image made small, its tree, and both answers.
pub fn shown(label: &str, image: &[u8], check: &Check) -> String {
    let small = shrink(image, &|candidate| check(candidate).is_err());
    let Err(mismatch) = check(&small) else {
        return format!("mismatch on {label}, which did not come again\n{}", dump(image));
    };
    format!(
        "mismatch on {label}, made small:\n{}{}\n  reference: {}\n  other:     {}\n",
        dump(&small),
        mismatch.what,
        mismatch.reference,
        mismatch.other
    )
}
