//! The handshake: what a request has to say, and the one header that answers it.
//!
//! ```text
//! Sec-WebSocket-Key: dGhlIHNhbXBsZSBub25jZQ==           the example of the RFC
//! Sec-WebSocket-Accept: s3pPLMBiTxaQ9kYGzzhZRbK+xOo=
//! ```

use crate::refusal::Refusal;
use sha1::{Digest, Sha1};

const VERSION: &str = "13";
const KEY_BYTES: usize = 16;

/// What every answer is made with, by the RFC.
const GUID: &[u8] = b"258EAFA5-E914-47DA-95CA-C5AB0DC85B11";

/// The headers of a request. One that came several times is joined by commas, one that is left out is empty.
#[derive(Debug, Clone, Copy, Default)]
pub struct Asked<'a> {
    pub upgrade: &'a str,
    pub connection: &'a str,
    pub version: &'a str,
    pub key: &'a str,
    /// Its bytes would be taken for frames by one reader, and for a body by another.
    pub has_body: bool,
    /// HTTP/1.0 has no upgrades.
    pub is_of_1_1: bool,
}

/// The value of `Sec-WebSocket-Accept`. The answer is 101, with `Upgrade: websocket` and `Connection: Upgrade`.
pub fn accept(asked: &Asked) -> Result<String, Refusal> {
    if !has_token(asked.connection, "upgrade") || !has_token(asked.upgrade, "websocket") {
        let why = "a session is a WebSocket; POST /call takes lines without one";
        return Err(Refusal::new(400, "websocket", why));
    }
    if asked.has_body || !asked.is_of_1_1 {
        return Err(Refusal::new(
            400,
            "websocket",
            "a WebSocket is asked for by version 1.1 of HTTP, and without a body",
        ));
    }
    if asked.version.trim() != VERSION {
        return Err(Refusal::other_version());
    }
    let key = asked.key.trim();
    if !is_key(key) {
        return Err(Refusal::new(400, "websocket", "Sec-WebSocket-Key has to be 16 bytes, as base64"));
    }
    Ok(base64::encode(Sha1::new().chain_update(key).chain_update(GUID).finalize()))
}

fn is_key(key: &str) -> bool {
    // Some clients leave the bits behind the last byte as they are.
    let form = base64::STANDARD.decode_allow_trailing_bits(true);
    key.ends_with("==") && base64::decode_config(key, form).is_ok_and(|bytes| bytes.len() == KEY_BYTES)
}

fn has_token(list: &str, token: &str) -> bool {
    list.split(',').any(|one| one.trim().eq_ignore_ascii_case(token))
}

#[cfg(test)]
mod tests {
    use super::*;

    const ASKED: Asked = Asked {
        upgrade: "websocket",
        connection: "Upgrade",
        version: "13",
        key: "dGhlIHNhbXBsZSBub25jZQ==",
        has_body: false,
        is_of_1_1: true,
    };

    #[test]
    fn the_example_of_the_rfc_is_accepted() {
        assert_eq!(accept(&ASKED).unwrap(), "s3pPLMBiTxaQ9kYGzzhZRbK+xOo=");
        let other = Asked { upgrade: "h2c, WebSocket", connection: "keep-alive , uPGRADE", ..ASKED };
        assert_eq!(accept(&other).unwrap(), "s3pPLMBiTxaQ9kYGzzhZRbK+xOo=");
    }

    #[test]
    fn what_is_no_websocket_is_refused() {
        for (asked, status) in [
            (Asked::default(), 400),
            (Asked { upgrade: "", ..ASKED }, 400),
            (Asked { upgrade: "websockets", ..ASKED }, 400),
            (Asked { connection: "keep-alive", ..ASKED }, 400),
            (Asked { connection: "Upgraded", ..ASKED }, 400),
            (Asked { has_body: true, ..ASKED }, 400),
            (Asked { is_of_1_1: false, ..ASKED }, 400),
            (Asked { version: "", ..ASKED }, 426),
            (Asked { version: "8", ..ASKED }, 426),
            (Asked { version: "13, 8", ..ASKED }, 426),
            (Asked { key: "", ..ASKED }, 400),
            (Asked { key: "dGhlIHNhbXBsZSBub25jZQ", ..ASKED }, 400),
            (Asked { key: "dGhlIHNhbXBsZSBub25jZSE=", ..ASKED }, 400),
            (Asked { key: "dGhlIHNhbXBsZSBub25j", ..ASKED }, 400),
            (Asked { key: "dGhlIHNhbXBsZSBub25jZQ==, dGhlIHNhbXBsZSBub25jZQ==", ..ASKED }, 400),
        ] {
            let refusal = accept(&asked).unwrap_err();
            assert_eq!((refusal.status, refusal.error), (status, "websocket"), "{asked:?}");
        }
    }
}
