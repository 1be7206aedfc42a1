//! The plain Rust reader, writer, session, cutter and joiner of Sedna's protocol, plain typed
//! values, plain BaseX strings, requests and responses, and the inputs on which they are held
//! against the library.
#![forbid(unsafe_code)]

pub mod inputs;
pub mod plain;
pub mod values;
