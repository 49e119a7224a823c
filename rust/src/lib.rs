//! A page-frame allocator over tables that the caller lends.
//!
//! A zone has `n` huge frames (1 to 65,536) of 512 base frames each, and 1 to 64 CPUs. A block is a base frame, a run of 2, 4, 8, 16, 32 or 64 base frames
//! (naturally aligned), or a huge frame: [`Order`]. A zone stands in five tables: header, words, children, trees and CPUs.
//! Header, words and children may stand in memory that survives a power cut; trees and CPUs need not, and after a cut may hold anything.
//!
//! [`Zone`] keeps the tables together. Its short calls run an operation to its end:
//!
//! ```
//! use lovarntek::{Order, Refusal, Zone};
//!
//! fn main() -> Result<(), Refusal> {
//!     let mut zone = Zone::create(65, 2)?;
//!     let frame = zone.get(0, Order::Base)?;
//!     let run = zone.get(0, Order::Run8)?;
//!     let huge = zone.get(1, Order::Huge)?;
//!     assert_eq!((frame, run, huge), (0, 8, 16_384));
//!     zone.put(0, frame, Order::Base)?;
//!     zone.put(0, run, Order::Run8)?;
//!     zone.put(1, huge, Order::Huge)?;
//!     assert_eq!(zone.put(1, huge, Order::Huge), Err(Refusal::NotTaken));
//!     zone.close()
//! }
//! ```
//!
//! Every operation can also be made by single steps, each with at most one store. Its [`Record`] then stands for it between the steps, and the steps of
//! several CPUs may come in any order. Memory that survives a cut is driven by single steps; runs are for memory without cuts.
//!
//! Every input is answered, none panics: [`Answer`] and [`Refusal`] name what can be answered. [`calls`] holds the calls of the C interface, one to one.
#![deny(unsafe_code)]
#![warn(missing_docs)]

mod answer;
#[allow(unsafe_code)]
pub mod calls;
mod order;
mod record;
mod zone;

pub use answer::{Answer, Refusal, Run};
pub use calls::Tables;
pub use order::Order;
pub use record::Record;
pub use zone::Zone;
