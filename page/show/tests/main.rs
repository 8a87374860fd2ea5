//! The tests of `show` as one program, which is compiled and linked once: every file beside this one is a module.

mod advice;
mod any_source;
mod browser;
mod claims;
mod common;
mod contrast;
mod entries;
mod html;
mod json;
mod library;
mod many;
mod numbers;
mod other_text;
mod others;
mod readme;
mod sarif;
mod sentences;
mod text;
mod uses;
mod why;
