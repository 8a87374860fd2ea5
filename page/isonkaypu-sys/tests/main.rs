//! The tests of `isonkaypu-sys` as one program, which is compiled and linked once: every file beside this one is a module.

mod choice;
mod header;
