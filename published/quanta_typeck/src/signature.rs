//! A stand-in for the unpublished signed-authority test of `conserve.rs`: it answers from bytes
//! that the caller lends, one for each entry in entry order, 1 for protected authority.

use crate::model::Model;
use quanta_ast::EntryDecl;
use std::cell::RefCell;

thread_local! {
    static LENT: RefCell<Vec<u8>> = const { RefCell::new(Vec::new()) };
}

/// Lends the bytes for the calls of `conserve::check` that follow on this thread.
pub fn lend(bytes: &[u8]) {
    LENT.with(|lent| *lent.borrow_mut() = bytes.to_vec());
}

pub fn has_protected_signed_authority(model: &Model, entry: &EntryDecl) -> bool {
    let number = model.entries.iter().position(|e| std::ptr::eq(*e, entry));
    LENT.with(|lent| number.and_then(|n| lent.borrow().get(n).copied()) == Some(1))
}
