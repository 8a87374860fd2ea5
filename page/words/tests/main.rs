//! The tests of `words` as one program, which is compiled and linked once: every file beside this one is a module.

mod claims;
mod examples;
mod help;
mod reader;
