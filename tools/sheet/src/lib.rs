//! The device sheet as text, for people: all but the commands, which main.rs has.
//! docs/SHEET.md has the layout, the rules and the form of the text.

pub mod asked;
pub mod check;
pub mod colour;
pub mod convert;
pub mod diff;
pub mod json;
pub mod kinds;
pub mod layout;
pub mod list;
pub mod make;
pub mod place;
pub mod program;
pub mod show;
pub mod slots;
pub mod survey;
pub mod values;
pub mod versions;
