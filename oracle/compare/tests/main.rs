//! The tests of `compare` as one program, which is compiled and linked once: every file beside this one is a module.

mod any_bytes;
mod by_hand;
mod round_trip;
