//! The two forms of a stream: lines of JSON, and server-sent events.
//!
//! `streams` puts each text through one of them. Lines of JSON are the database's own bytes, which go on without being
//! taken apart. Of server-sent events a resolved message has an id, from which `EventSource` goes on by itself.
//!
//! ```text
//! {"after":"Mw==","key":"YQ==","updated":"1"}      data: {"after":"Mw==","key":"YQ==","updated":"1"}
//!
//! {"resolved":"1"}                                 id: 0f3a..:1
//!                                                  data: {"resolved":"1"}
//! ```

use bytes::Bytes;

/// The kind that a browser's `EventSource` asks for.
const EVENTS: &str = "text/event-stream";
/// What a resolved message begins and ends with.
const RESOLVED: (&[u8], &[u8]) = (b"{\"resolved\":\"", b"\"}");

/// See the module.
pub enum Form {
    JsonLines,
    /// Ids name the database's identity.
    ServerSentEvents(String),
}

impl Form {
    /// The form that a request's `Accept` asks for.
    pub fn asked(accept: &str, identity: &str) -> Form {
        match accept.contains(EVENTS) {
            true => Form::ServerSentEvents(identity.to_string()),
            false => Form::JsonLines,
        }
    }

    pub fn content_type(&self) -> &'static str {
        match self {
            Form::JsonLines => "application/x-ndjson",
            Form::ServerSentEvents(_) => "text/event-stream",
        }
    }

    /// What comes now and then, and means nothing.
    pub fn idle(&self) -> Bytes {
        Bytes::from_static(match self {
            Form::JsonLines => b"\n",
            Form::ServerSentEvents(_) => b":\n\n",
        })
    }

    /// What comes first, of what the headers say. It may be nothing.
    pub fn opening(&self, values: &str) -> Bytes {
        match self {
            Form::JsonLines => Bytes::new(),
            Form::ServerSentEvents(_) => Bytes::from(format!("event: opened\ndata: {values}\n\n")),
        }
    }

    /// Messages, a line each.
    pub fn messages(&self, lines: Bytes) -> Bytes {
        match self {
            Form::JsonLines => lines,
            Form::ServerSentEvents(identity) => events_of(&lines, identity.as_bytes()),
        }
    }

    /// What comes last.
    pub fn ending(&self, values: &str) -> Bytes {
        Bytes::from(match self {
            Form::JsonLines => format!("{values}\n"),
            Form::ServerSentEvents(_) => format!("event: end\ndata: {values}\n\n"),
        })
    }
}

fn events_of(lines: &[u8], identity: &[u8]) -> Bytes {
    let mut out = Vec::with_capacity(lines.len() + lines.len() / 4 + 64);
    for line in lines.split(|byte| *byte == b'\n').filter(|line| !line.is_empty()) {
        if let Some(timestamp) = line.strip_prefix(RESOLVED.0).and_then(|rest| rest.strip_suffix(RESOLVED.1)) {
            for part in [b"id: ", identity, b":", timestamp, b"\n"] {
                out.extend_from_slice(part);
            }
        }
        for part in [b"data: ", line, b"\n\n"] {
            out.extend_from_slice(part);
        }
    }
    Bytes::from(out)
}

#[cfg(test)]
mod tests {
    use super::*;

    const LINES: &[u8] = b"{\"after\":\"MQ==\",\"key\":\"YQ==\",\"updated\":\"1\"}\n{\"resolved\":\"1\"}\n";

    #[test]
    fn lines_of_json_are_the_databases_own_bytes() {
        let (form, lines) = (Form::asked("*/*", "0f3a"), Bytes::from_static(LINES));
        assert_eq!(form.messages(lines.clone()).as_ptr(), lines.as_ptr());
        assert_eq!((form.opening("{}"), form.content_type()), (Bytes::new(), "application/x-ndjson"));
        assert_eq!(form.ending("{\"end\":\"lag\",\"floor\":\"7\"}"), "{\"end\":\"lag\",\"floor\":\"7\"}\n");
        assert_eq!(form.idle(), "\n");
    }

    #[test]
    fn a_resolved_messages_event_has_an_id() {
        let form = Form::asked("text/event-stream, */*", "0f3a");
        assert_eq!(
            form.messages(Bytes::from_static(LINES)),
            "data: {\"after\":\"MQ==\",\"key\":\"YQ==\",\"updated\":\"1\"}\n\nid: 0f3a:1\ndata: {\"resolved\":\"1\"}\n\n"
        );
        assert_eq!(form.opening("{\"feed\":\"1\"}"), "event: opened\ndata: {\"feed\":\"1\"}\n\n");
        assert_eq!(form.ending("{\"end\":\"lag\"}"), "event: end\ndata: {\"end\":\"lag\"}\n\n");
        assert_eq!((form.idle(), form.content_type()), (Bytes::from_static(b":\n\n"), "text/event-stream"));
    }

    #[test]
    fn no_messages_are_no_events() {
        assert_eq!(Form::asked(EVENTS, "0f3a").messages(Bytes::new()), Bytes::new());
    }
}
