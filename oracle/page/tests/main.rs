//! The tests of `page` as one program, which is compiled and linked once: every file beside this one is a module.

mod advice;
mod any_source;
mod contracts;
mod images;
