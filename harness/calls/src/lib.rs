//! What the oracle, the tool `uttt` and the comparison have in common: records, calls and answers
//! as lines of text, and the table of refusals (MANUAL, Turned back) as plain code. Nothing here comes from
//! the original, and nothing here calls the proved library.

pub mod book;
pub mod games;
pub mod hex;
pub mod line;
pub mod record;
pub mod simulation;
pub mod stay;
pub mod table;
pub mod tool;
pub mod words;

pub use book::{Book, BookCall, Who};
pub use games::Games;
pub use line::{Answer, Call, Fields, FullVerdict, Kind};
pub use record::Position;
pub use simulation::{Report, Simulation};
pub use stay::Stay;
