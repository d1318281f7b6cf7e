//! A second USB 2.0 function core, written from the papers alone, to be compared line by line.
#![forbid(unsafe_code)]

mod named;

pub mod bus;
pub mod calls;
pub mod check;
pub mod crc;
pub mod frame;
pub mod generate;
pub mod listing;
pub mod packet;
pub mod parse;
pub mod probe;
pub mod random;
pub mod script;
pub mod state;
pub mod stream;
pub mod tally;
pub mod wrong;

pub use bus::Answer;
pub use calls::{Configuration, Core, Refusal};
pub use frame::FrameRecord;
pub use packet::{Data, Pid};
pub use probe::{Plain, Probe};
pub use state::{
    Buffer, Condition, Descriptor, Kind, Record, Side, Speed, Stage, State, Toggle, Transfer, Wait,
};
