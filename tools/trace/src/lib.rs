//! Traces of events, for people: all but arguments, which main.rs has. What is judged is asked of the two archives
//! (archive.rs), and what bytes of a sheet mean of the sheet tool's library. docs/TRACE.md has the layout and the forms.

mod account_json;
mod account_text;
pub mod answers;
pub mod archive;
pub mod decode;
pub mod doubts;
pub mod events;
pub mod evidence;
pub mod explain;
pub mod gaps;
mod hearing;
pub mod history;
pub mod link;
pub mod make;
pub mod marks;
pub mod order;
pub mod output;
pub mod play;
pub mod progress;
pub mod recordings;
pub mod sentences;
pub mod text;
pub mod times;
pub mod transport;
pub mod words;
pub mod xml;
