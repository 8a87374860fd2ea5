//! The texts that nodes carry: what a text must look like, and the table of names.

use crate::Limit;
use form::image::{MAX_NAME, MAX_NAMES, MAX_TEXT};
use form::kind;
use std::collections::BTreeSet;

/// The different texts of a contract as far as it has been gone through.
#[derive(Default)]
pub struct Texts<'a> {
    names: BTreeSet<&'a [u8]>,
    bytes: usize,
}

impl<'a> Texts<'a> {
    /// Takes up the text of a node of this kind, or says which limit it passes.
    pub fn take(&mut self, kind: u8, text: &'a str) -> Result<(), Limit> {
        let text = text.as_bytes();
        text_fits(kind, text)?;
        if self.names.insert(text) {
            self.bytes += text.len();
        }
        at_most(MAX_NAMES, self.names.len(), Limit::Names)?;
        at_most(MAX_TEXT, self.bytes, Limit::Text)
    }

    /// The names, ascending by bytes: name number k stands at k - 1.
    pub fn names(&self) -> Vec<&'a [u8]> {
        self.names.iter().copied().collect()
    }
}

pub fn at_most(most: usize, has: usize, limit: Limit) -> Result<(), Limit> {
    if has <= most { Ok(()) } else { Err(limit) }
}

/// "a name not 1 to 128 bytes, of neither form", and then the form that the kind needs: number texts
/// for 12, identifiers for 23 and 35.
fn text_fits(kind: u8, text: &[u8]) -> Result<(), Limit> {
    let Some(first) = text.first() else {
        return Err(Limit::NameLength);
    };
    at_most(MAX_NAME, text.len(), Limit::NameLength)?;
    if !text.iter().all(|byte| is_name_byte(*byte)) {
        return Err(Limit::NameForm);
    }
    // of two forms: a digit first, or not
    if first.is_ascii_digit() == (kind == kind::INT_OF_TYPE) { Ok(()) } else { Err(Limit::OtherForm) }
}

/// "letters, digits, `_`"
fn is_name_byte(byte: u8) -> bool {
    byte.is_ascii_alphanumeric() || byte == b'_'
}
