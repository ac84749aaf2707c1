//! Why a session ends, and how its client and the log are told.
//!
//! ```text
//! 1000 ""                                             the client has closed
//! 1001 "shutdown"                                     the server ends
//! 1002, 1003, 1007, 1009 and a sentence               the client has broken a rule of WebSocket, or a limit
//! 1008 "operator", "silent", "heartbeat"              the session was told to end, or its client answers no ping
//! 1011 "unwritten", "disk"                            an answer has no memory, or waits for the disk
//! 1013 "answers", "nomemory"                          a line waits too long for others to read their answers, or there
//!                                                     is no memory for a message, of which no line was taken
//! ```
//!
//! 1. Whenever the server ends a session whose client takes bytes, a close frame says why.
//! 2. A client that takes no bytes can't be told: a close frame would stand within the answer that it doesn't take.
//! 3. Each end is in the log. Where the server lets go of a session that would go on, that is a warning.

use crate::http::Stream;
use crate::log::Log;
use crate::seats::EndedBy;
use crate::ws::{code, encode, Ended, Outgoing};
use bytes::BytesMut;
use std::time::Duration;
use tokio::io::{AsyncReadExt, AsyncWriteExt};
use tokio::time::timeout;

/// Codes of a close frame beside those of `ws`.
pub const POLICY: u16 = 1008;
pub const INTERNAL: u16 = 1011;
/// How long a client may take to read why the session ends, and how much it may send meanwhile.
pub const LINGER: Duration = Duration::from_secs(2);
const LINGER_BYTES: usize = 64 << 20;
/// Bytes of one read.
const READ: usize = 1 << 16;

/// Why a session ends.
#[derive(Clone, Copy, Debug, PartialEq, Eq)]
pub enum End {
    /// The server ends it. A close frame says so.
    Closed(u16, &'static str),
    /// The client has broken a rule. A close frame says which.
    Broken(Ended),
    /// The client has closed, with this code.
    ByClient(Option<u16>),
    /// The client takes no bytes: nobody can be told.
    Stuck,
    /// The connection is gone: nobody can be told.
    Gone,
}

impl End {
    pub const SHUTDOWN: End = End::Closed(code::AWAY, "shutdown");
    pub const HEARTBEAT: End = End::Closed(POLICY, "heartbeat");
    pub const UNWRITTEN: End = End::Closed(INTERNAL, "unwritten");
    pub const DISK: End = End::Closed(INTERNAL, "disk");
    pub const CROWDED: End = End::Closed(code::LATER, "answers");

    pub fn by(by: EndedBy) -> End {
        match by {
            EndedBy::Operator => End::Closed(POLICY, "operator"),
            EndedBy::Silence => End::Closed(POLICY, "silent"),
        }
    }

    /// By what the decoder says. Where there is no memory the client has broken no rule.
    pub fn of(ended: Ended) -> End {
        match ended {
            Ended { code: code::LATER, why } => End::Closed(code::LATER, why),
            ended => End::Broken(ended),
        }
    }

    /// The same, where answers aren't durable: they aren't told, and that is why it ends.
    pub fn without_answers(self) -> End {
        match self {
            End::Stuck | End::Gone => self,
            _ => End::DISK,
        }
    }

    fn why(self) -> &'static str {
        match self {
            End::Closed(_, why) => why,
            End::Broken(ended) => ended.why,
            End::ByClient(_) => "closed by the client",
            End::Stuck => "the client takes nothing",
            End::Gone => "the connection is gone",
        }
    }

    /// Whether the server ends a session that would go on.
    fn is_let_go(self) -> bool {
        matches!(self, End::Closed(..) | End::Stuck) && self != End::SHUTDOWN
    }

    pub fn tell(self, log: &Log, seat: u8, peer: &str) {
        let fields = [("seat", seat.into()), ("peer", peer.into()), ("why", self.why().into())];
        match self.is_let_go() {
            true => log.warn("session_let_go", &fields),
            false => log.info("session_over", &fields),
        }
    }
}

/// Tells the client what is left of `out` and why its session ends, and reads away what it still sends, so that it gets
/// to read that.
pub async fn say_goodbye(mut stream: Box<dyn Stream>, mut out: Vec<u8>, end: End) {
    match end {
        End::Stuck | End::Gone => return,
        End::Closed(code, why) | End::Broken(Ended { code, why }) => {
            encode(Outgoing::Close(Some((code, why))), &mut out)
        }
        End::ByClient(code) => encode(Outgoing::Close(code.map(|code| (code, ""))), &mut out),
    }
    let goodbye = async {
        stream.write_all(&out).await?;
        stream.shutdown().await?;
        let mut left = LINGER_BYTES;
        let mut buffer = BytesMut::with_capacity(READ);
        while left > 0 {
            let count = stream.read_buf(&mut buffer).await?;
            if count == 0 {
                break;
            }
            left = left.saturating_sub(count);
            buffer.clear();
        }
        Ok::<(), std::io::Error>(())
    };
    // Where it fails the client is gone.
    let _ = timeout(LINGER, goodbye).await;
}

#[cfg(test)]
mod tests {
    use super::*;
    use crate::log::Level;
    use crate::testing::Said;
    use tokio::io::duplex;

    #[test]
    fn who_is_let_go_is_a_warning() {
        let said = Said::default();
        let log = Log::to(Level::Warn, false, Box::new(said.clone()));
        let wanting = End::of(Ended { code: 1013, why: "nomemory" });
        for end in [End::HEARTBEAT, End::Stuck, End::DISK, End::CROWDED, End::by(EndedBy::Silence), wanting] {
            end.tell(&log, 7, "192.0.2.1:9");
        }
        let broken = End::of(Ended { code: 1002, why: "a rule is broken" });
        for end in [End::SHUTDOWN, End::Gone, End::ByClient(None), broken] {
            end.tell(&log, 8, "192.0.2.1:9");
        }
        log.flush();
        let text = said.text();
        assert_eq!(text.matches("warn session_let_go seat=7 peer=192.0.2.1:9 why=").count(), 6, "{text}");
        assert!(text.lines().count() == 6 && text.contains("why=heartbeat\n"), "{text}");
    }

    #[tokio::test]
    async fn the_client_reads_what_is_left_and_then_why() {
        for (end, frame) in [
            (End::HEARTBEAT, &b"\x88\x0b\x03\xf0heartbeat"[..]),
            (End::ByClient(Some(4000)), &b"\x88\x02\x0f\xa0"[..]),
            (End::ByClient(None), &b"\x88\x00"[..]),
            (End::Stuck.without_answers(), &b""[..]),
            (End::SHUTDOWN.without_answers(), &b"\x88\x06\x03\xf3disk"[..]),
        ] {
            let (ours, mut client) = duplex(1000);
            let told = async {
                let mut told = Vec::new();
                client.read_to_end(&mut told).await.expect("it is read");
                drop(client);
                told
            };
            let told = tokio::join!(say_goodbye(Box::new(ours), b"left".to_vec(), end), told).1;
            let left = if frame.is_empty() { &b""[..] } else { b"left" };
            assert_eq!(told, [left, frame].concat(), "{end:?}");
        }
    }
}
