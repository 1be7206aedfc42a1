//! BaseX's strings, requests and responses.
//!
//! A string is escaped, so what is read is decoded into an output that the caller lends; the texts
//! of a request or a response stand there one behind the other, and an output as long as the bytes
//! that are read is always long enough. A response is read knowing the [`Kind`] of its request:
//! whole by [`read_response`], or the items of RESULTS and FULL one by one as they come by
//! [`read_item`].

mod items;
mod kind;
mod request;
mod response;
mod string;
mod writer;

pub use items::{read_item, Item, Items};
pub use kind::Kind;
pub use request::{read_request, write_request, Request};
pub use response::{read_response, End, Response};
pub use string::{measure_string, read_string, string_len, write_string};
pub use writer::ResponseWriter;
