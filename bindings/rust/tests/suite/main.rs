//! The tests of the crate, but those of memory. They are one program, which is compiled and linked once.

mod analysis_values;
mod calls;
mod check;
mod documents;
mod estree;
mod information;
mod lines;
mod media_types;
mod moving;
mod parsed_sources;
mod places;
mod program;
mod readme;
mod repository;
mod source_texts;
