//! Why a run has ended without figures.

use std::fmt;
use std::io;

#[derive(Debug)]
pub enum Failure {
    Words,
    Network(io::Error),
    Refused(String),
    Missing { told: usize, wanted: usize },
    Thread,
}

impl fmt::Display for Failure {
    fn fmt(&self, text: &mut fmt::Formatter<'_>) -> fmt::Result {
        match self {
            Failure::Words => write!(text, "load PEER PORT WORK .., as the head of main.rs has it"),
            Failure::Network(error) => write!(text, "the network: {error}"),
            Failure::Refused(answer) => write!(text, "a refusal: {answer}"),
            Failure::Missing { told, wanted } => write!(text, "the readers were told {told} of {wanted} rows"),
            Failure::Thread => write!(text, "a client's thread has ended"),
        }
    }
}

impl From<io::Error> for Failure {
    fn from(error: io::Error) -> Failure {
        Failure::Network(error)
    }
}

/// A refusal, with the beginning of what was answered.
pub fn refused(answer: &[u8]) -> Failure {
    Failure::Refused(String::from_utf8_lossy(&answer[..answer.len().min(300)]).into_owned())
}
