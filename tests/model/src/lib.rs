//! A plain model of the device side of the application layer, written from
//! the rules alone and meant to be compared with the product event by event.
//! It favours short, obvious code; nothing here is shared with the product.

pub mod device;
pub mod faults;
pub mod frame;
pub mod gen;
pub mod link;
pub mod matrix;
pub mod pdu;
pub mod points;
pub mod sheet;
pub mod store;
pub mod trace;
