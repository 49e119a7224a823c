//! Power cuts after every store, and kills at any instruction, tried on the library.

pub mod block;
pub mod check;
pub mod cuts;
pub mod frames;
pub mod junk;
pub mod kills;
pub mod layout;
pub mod life;
pub mod state;
