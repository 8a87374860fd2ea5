//! The tests of `command` as one program, which is compiled and linked once: every file beside this one is a module.

mod common;
mod program;
mod report;
mod why;
