//! An independent reading of document 01, and of document 02 as far as it has
//! landed (L1, L2, L4, L5, L6, L7): one line is one linear peptidoform.
//!
//! Each module follows one part of the document. Nothing here is shared with
//! the program it is compared against; the words in quotation marks in the
//! comments are the documents' own.

pub mod areas;
pub mod blocks;
pub mod canonical;
pub mod floating;
pub mod generate;
pub mod glycans;
pub mod line;
pub mod masses;
pub mod positions;
pub mod proved;
pub mod reader;
pub mod reasons;
pub mod register;
pub mod trials;
