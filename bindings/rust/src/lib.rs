#![doc = include_str!("../README.md")]
#![no_std]
#![warn(missing_docs, missing_debug_implementations)]

extern crate alloc;
#[cfg(feature = "std")]
extern crate std;

mod buses;
mod faults;
mod monitors;
mod params;
mod stations;
pub mod sys;
mod telegrams;
mod traces;

pub use buses::{Bus, Tap};
pub use faults::Fault;
pub use monitors::{Form, Monitor, MonitorOptions, Role, Spread, StationCounts, Summary, Traffic};
pub use params::Params;
pub use stations::{Indication, Outcome, Phase, Priority, Service, Station, ALL_STATIONS, LAST_ADDRESS, LAST_MOMENT};
pub use telegrams::{Kind, Receiver, Telegram, DAMAGED};
pub use traces::{Audit, Entries, Entry, Heard, Trace};
