//! The tests of `isonkaypu` as one program, which is compiled and linked once: every file beside this one is a module.

mod contracts;
mod manifests;
