//! The Sedna client/server protocol and the BaseX protocol: safe wrappers over a library that is
//! proved.
//!
//! The library reads and writes the messages of both protocols, keeps account of where a Sedna
//! session stands, cuts and joins long statements and items, and reads an item's typed value. It
//! allocates nothing and copies nothing that it reads from Sedna; what it writes or decodes goes
//! into a slice that the caller lends. It keeps nothing between calls: a session and an assembly
//! are plain data, and every type here is `Send` and `Sync`. Document 01 is the paper that says
//! what it has to do, and what the refusals up to 14 mean; typed values, with 15 and 16, are
//! request 1 of document 02. A refused call has read and written nothing: session, output and
//! buffer are as they were, but for the mark of an overfull [`sedna::Assembly`].
//!
//! ```
//! use keddorimp::sedna::{read, Body, Instruction, Session, Side};
//! use keddorimp::Refusal;
//!
//! // A StartUp; what stands behind it is not touched.
//! let bytes = [0, 0, 0, 110, 0, 0, 0, 0, 42];
//! let (message, count) = read(Side::Client, &bytes)?;
//! assert_eq!(message.instruction, Instruction::START_UP);
//! assert_eq!(message.body, Body::Empty);
//! assert_eq!(count, 8);
//!
//! // A session takes it once, and from the client only.
//! let mut session = Session::new();
//! assert_eq!(session.step(Side::Server, &bytes), Err(Refusal::OtherSide));
//! session.step(Side::Client, &bytes)?;
//! assert_eq!(session.step(Side::Client, &bytes), Err(Refusal::OutOfOrder));
//! assert!(!session.closed());
//! # Ok::<(), Refusal>(())
//! ```
//!
//! The wrappers judge nothing: what is refused, the library has refused. The one exception is a URI
//! that a BaseX item has or lacks, since the library is given bytes and no `Option`; which items
//! have one is the library's answer too.
#![no_std]
#![deny(unsafe_code)]
#![warn(missing_docs)]

#[cfg(not(all(target_arch = "x86_64", target_os = "linux")))]
compile_error!("the archives are made for Linux on x86-64");

pub mod basex;
#[allow(unsafe_code)]
mod raw;
mod refusal;
pub mod sedna;
mod shown;

pub use refusal::Refusal;
