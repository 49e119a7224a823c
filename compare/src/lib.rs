//! Single calls of the library, compared with the independent program.

pub mod call;
pub mod cover;
pub mod difference;
pub mod fault;
pub mod lengths;
pub mod library;
pub mod model;
pub mod pair;
pub mod player;
pub mod record;
pub mod replay;
pub mod scenes;
pub mod states;
pub mod translate;
pub mod tried;
