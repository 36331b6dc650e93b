//! The proved library, linked natively, beside the second program.

pub mod bench;
pub mod compare;
pub mod lent;
pub mod library;
pub mod sheets;
