//! An independent second program for the press and the replay of document 01.
//!
//! It was written from document 01 alone, and from the requests of document 02
//! that are done, with ordinary collections and no thought for memory, so that
//! agreement with the proved program means something. Quotations in the comments
//! are sentences of the two documents.

pub mod cases;
pub mod clause;
pub mod edition;
pub mod events;
pub mod judge;
pub mod lengths;
pub mod passes;
pub mod plan;
pub mod press;
pub mod program;
pub mod proof;
pub mod record;
pub mod refusal;
pub mod replay;
pub mod rng;
pub mod sheets;
pub mod shelf;
pub mod stats;
pub mod stream;
pub mod tables;
pub mod text;
pub mod worked;
