//! What goes wrong on a bus, told so that a person knows what to do next.

use std::fmt;

use crate::datagram;
use crate::tunnel;

#[derive(Clone, Debug, PartialEq, Eq)]
pub enum Trouble {
    /// A signal asked for the end.
    Interrupted,
    /// The interface, not the unit: it is not there, refuses, or went away.
    Interface(String),
    /// Nobody has the address, by the confirmation of what was sent to it.
    Absent,
    /// Nothing was heard.
    Silent,
    /// It answered, and then no more.
    Stopped,
    /// It ended the connection; at once, if nothing was heard before.
    Ended { at_once: bool },
    /// It acknowledges, and does not answer this.
    Unanswered(String),
    /// It answers something else.
    Strange(String),
    /// Another answers in its place.
    Another(String),
    /// It took more time than it may.
    Limit(u64),
    /// A request that can't be written, or a word that is wrong.
    Word(String),
}

impl fmt::Display for Trouble {
    fn fmt(&self, f: &mut fmt::Formatter<'_>) -> fmt::Result {
        match self {
            Trouble::Interrupted => write!(f, "interrupted"),
            Trouble::Interface(what) | Trouble::Word(what) => write!(f, "{what}"),
            Trouble::Absent => write!(f, "nobody has this address"),
            Trouble::Silent => write!(f, "does not answer"),
            Trouble::Stopped => write!(f, "stopped answering"),
            Trouble::Ended { at_once: true } => {
                write!(f, "turns us away: perhaps all its connections are taken")
            }
            Trouble::Ended { at_once: false } => write!(f, "ended the connection"),
            Trouble::Unanswered(what) => write!(f, "acknowledges {what}, and does not answer it"),
            Trouble::Strange(what) => write!(f, "answers strangely: {what}"),
            Trouble::Another(who) => write!(f, "does not answer, and {who} answers in its place"),
            Trouble::Limit(seconds) => write!(f, "took more than {seconds} s"),
        }
    }
}

/// Why a tunnel is closed, in words.
pub fn closed(server: &str, why: tunnel::Why) -> Trouble {
    let words = match why {
        tunnel::Why::Silent => "nobody answers a connect within 10 s".to_string(),
        tunnel::Why::Refused(status) => {
            format!("the interface refuses a tunnel: {}", datagram::status(status))
        }
        tunnel::Why::Unacknowledged => "the interface is gone: it acknowledges nothing".to_string(),
        tunnel::Why::Status(status) => {
            format!("the interface refuses a request: {}", datagram::status(status))
        }
        tunnel::Why::Dead => "the interface is gone: it does not know the tunnel".to_string(),
        tunnel::Why::Ended => "the interface has closed the tunnel".to_string(),
        tunnel::Why::Asked => "the tunnel is closed".to_string(),
    };
    Trouble::Interface(format!("{server}: {words}"))
}
