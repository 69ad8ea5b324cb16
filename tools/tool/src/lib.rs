//! A KNX bus from the tool's side: all but the command line, which main.rs has. docs/TOOL.md tells what stands where.

pub mod address;
pub mod archive;
pub mod bus;
pub mod commands;
pub mod datagram;
pub mod group;
pub mod kept;
pub mod key;
pub mod progress;
pub mod readout;
pub mod record;
pub mod report;
pub mod scan;
pub mod survey;
pub mod sys;
pub mod transport;
pub mod trouble;
pub mod tunnel;
pub mod unit;
pub mod values;
