//! WebSocket (RFC 6455), the server's side, without a socket: bytes in, messages out, so that it is tested as values.
//!
//! `session` answers the handshake by `accept`, feeds a `Decoder` with what it reads, and writes what `encode` gives.
//! Messages are text, as lines are. Nothing is compressed: no extension is ever agreed to.
//!
//! ```text
//! bytes 81 85 37fa213d 7f9f4d5158    a text, masked: the client's mask, then its bytes
//! Decoder::next                      Text("Hello")
//! encode Text("Hello")               81 05 48656c6c6f: a server masks nothing
//! ```
//!
//! 1. The same bytes give the same messages and the same end, in whatever pieces they come.
//! 2. A message holds at most as many bytes as its limit, and the memory for it is never more than that.
//! 3. Each byte is looked at a bounded number of times, also where each comes alone, in a frame or in a read.
//! 4. After an end nothing is decoded or kept any more.

mod decoder;
mod frames;
#[cfg(test)]
mod fuzz;
mod handshake;
#[cfg(test)]
mod tests;

pub use decoder::{Decoder, Incoming};
pub use frames::{encode, Ended, Outgoing, HEAD};
pub use handshake::{accept, Asked};

/// Why a connection ends, as a close frame says it.
pub mod code {
    pub const NORMAL: u16 = 1000;
    pub const AWAY: u16 = 1001;
    pub const PROTOCOL: u16 = 1002;
    pub const NO_TEXT: u16 = 1003;
    pub const NO_UTF8: u16 = 1007;
    pub const TOO_LONG: u16 = 1009;
    pub const LATER: u16 = 1013;
}
