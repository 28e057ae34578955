//! Imports with a fault (document 02, request 05): texts misread by a reader of another shape than the second
//! program's, records made wrongly of a text read rightly, or a wrong edit made with them.

mod call;
mod misimport;
mod reader;

pub use misimport::{Misimport, IMPORTED_WRONGLY, MISIMPORTS};
