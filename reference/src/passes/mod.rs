//! The six passes of "How a sheet is pressed", one file each (steps 1 and 4
//! are the same pass, and step 5 has a file for each of the two orders), and the two
//! of which one may come after step 4 (`lower` is what both do).

pub mod bottom_up;
pub mod drops;
pub mod lower;
pub mod order;
pub mod rebuild;
pub mod recycle;
pub mod top_down;
pub mod trim;
pub mod units;
pub mod univalents;
