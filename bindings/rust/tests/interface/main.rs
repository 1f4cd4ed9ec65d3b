//! The crate against the documents: document 01's own lines, each refusal, and random keys, values
//! and files, held against the definitions in plain Rust.

mod bundles;
mod calls;
mod definitions;
mod document_01;
mod drawing;
mod files;
mod keys;
mod lengths;
mod random_keys;
mod refusals;
mod short_messages;
mod spoiled_calls;
mod values;
mod whole_triples;
