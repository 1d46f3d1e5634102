//! Document 01 and the requests that are done once more, as a plain model: nothing here is fast or small, and nothing is shared with
//! the product. The whole history is kept, and what the document defines is worked out from it when asked.

#![forbid(unsafe_code)]

pub mod bursts;
pub mod calls;
pub mod curves;
pub mod file;
pub mod gen;
pub mod history;
pub mod judge;
pub mod lines;
pub mod logtext;
pub mod text;
pub mod tree;
