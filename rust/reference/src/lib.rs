//! The rules (docs/RULES.md) written out from their definitions, for testing only.
//!
//! Everything is worked out pixel by pixel in wide integers, so that each function can be read
//! beside the paragraph it comes from. Speed is no aim.

pub mod ceiling;
pub mod column;
pub mod coverage;
pub mod exact;
pub mod format;
pub mod lights;
pub mod list;
pub mod natural;
pub mod page;
pub mod print;
pub mod reader;
pub mod refusal;
pub mod shape;
pub mod squeeze;
pub mod triangle;
pub mod writer;
pub mod zone;
