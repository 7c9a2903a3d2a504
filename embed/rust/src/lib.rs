//! The values of Nine Men's Morris positions, from the table files that `morris build` makes.
//!
//! ```no_run
//! use morris_tables::{Position, Tables};
//!
//! fn main() -> Result<(), morris_tables::Error> {
//!     let tables = Tables::open("tables")?;
//!     let position: Position = "OXO.OXO.XX..............".parse()?;
//!     println!("{}", tables.value(&position)?);
//!     if let Some(best) = tables.best(&position)? {
//!         println!("{} {}", best.played, tables.play(&position, best.played)?);
//!     }
//!     Ok(())
//! }
//! ```
//!
//! The crate stands on the library `libmorris`, for Linux on x86-64, whose calls for values and
//! moves are proved. What is here isn't proved: it is tested.
#![warn(missing_docs)]

#[cfg(not(all(target_os = "linux", target_arch = "x86_64")))]
compile_error!("libmorris is built for Linux on x86-64 alone");

mod error;
mod moves;
mod position;
mod raw;
mod tables;

pub use error::{Error, Status};
pub use moves::{Move, Outcome, Value};
pub use position::{Board, Position};
pub use raw::version;
pub use tables::Tables;
