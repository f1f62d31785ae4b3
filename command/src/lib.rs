//! What the command `sotjarn` is made of: files read to rows, rows made into editions, stores, and tables as people read them.

pub mod cells;
pub mod checking;
pub mod editions;
pub mod faults;
pub mod files;
pub mod flags;
pub mod growing;
#[cfg(feature = "store")]
pub mod importing;
pub mod names;
pub mod nquads;
pub mod rows;
pub mod shown;
#[cfg(feature = "store")]
pub mod store;
pub mod tablet;
