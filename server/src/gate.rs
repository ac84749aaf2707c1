//! Who may speak to the server: each request is judged before any handler sees it.
//!
//! A page of another site can make a browser send requests to loopback. So the name by which the server is called
//! (Host), and the page that calls (Origin, Sec-Fetch-Site), have to be its own. A token, where there is one, is asked
//! of every request, and has rights and a span of keys.
//!
//! ```text
//! Host: localhost:7077                              its own name
//! Host: evil.example                                403 host
//! GET http://evil.example/state                     403 host, whatever Host says
//! Host: localhost:7077, Origin: http://evil.example 403 origin
//! Host: localhost:7077, no token                    401 token
//! Host: localhost:7077, a token that only reads     403 right, at what writes
//! ```
//!
//! 1. Nothing here waits, and nothing of hyper is known here.
//! 2. Whether the server lives (`Right::Nobody`) is told to everyone who can reach it, and nothing else is.

use crate::options::Options;
use crate::refusal::Refusal;
use crate::tokens::{Fault, Tokens};
use ripsawbean::unspell;
use std::net::IpAddr;
use std::sync::Arc;

const LOOPBACK_NAMES: [&str; 3] = ["127.0.0.1", "localhost", "[::1]"];
// Where the port is this one, browsers leave it out.
const HTTP_PORT: u16 = 80;
const HTTPS_PORT: u16 = 443;

/// Which right a request wants.
#[derive(Clone, Copy, Debug, PartialEq, Eq)]
pub enum Right {
    Read,
    Write,
    /// To have the names of consumers, and to say what they have stored.
    Consume,
    Operate,
    /// One of the four, whichever.
    Any,
    /// Also who shows no token.
    Nobody,
}

impl Right {
    pub fn name(self) -> &'static str {
        match self {
            Right::Read => "read",
            Right::Write => "write",
            Right::Consume => "consume",
            Right::Operate => "operate",
            Right::Any => "do anything",
            Right::Nobody => "nobody",
        }
    }
}

/// A span of keys: at or above `lo`, and below `hi` where there is one.
#[derive(Clone, Debug, Default, PartialEq, Eq)]
pub struct Keys {
    pub lo: Vec<u8>,
    pub hi: Option<Vec<u8>>,
}

impl Keys {
    pub fn holds(&self, key: &[u8]) -> bool {
        key >= self.lo.as_slice() && self.hi.as_ref().is_none_or(|hi| key < hi.as_slice())
    }

    /// Whether all keys at or above `lo` and below `hi` are in it.
    pub fn covers(&self, lo: &[u8], hi: Option<&[u8]>) -> bool {
        let ends_within = match (&self.hi, hi) {
            (None, _) => true,
            (Some(own), Some(hi)) => hi <= own.as_slice(),
            (Some(_), None) => false,
        };
        lo >= self.lo.as_slice() && ends_within
    }

    /// The same of bounds that are spelled as in a line, or `None` where they spell no bytes.
    pub fn covers_spelled(&self, lo: &[u8], hi: &[u8]) -> Option<bool> {
        let bytes = |word| unspell(std::str::from_utf8(word).ok()?);
        let hi = bytes(hi)?;
        Some(self.covers(&bytes(lo)?, Some(hi.as_slice()).filter(|hi| !hi.is_empty())))
    }

    /// Whether it has every key.
    pub fn is_all(&self) -> bool {
        self.lo.is_empty() && self.hi.is_none()
    }
}

/// Who asks, by the token that was shown.
#[derive(Clone, Debug)]
pub struct Who {
    name: Arc<str>,
    rights: Vec<Right>,
    keys: Keys,
}

impl Who {
    /// Who may do everything: where there is no token, or just one.
    pub fn anyone() -> Who {
        Who::of("", &[Right::Read, Right::Write, Right::Consume, Right::Operate])
    }

    pub fn of(name: &str, rights: &[Right]) -> Who {
        Who { name: name.into(), rights: rights.to_vec(), keys: Keys::default() }
    }

    pub fn with_keys(self, keys: Keys) -> Who {
        Who { keys, ..self }
    }

    pub fn name(&self) -> &str {
        &self.name
    }

    /// The name, for whoever keeps it.
    pub fn shared_name(&self) -> Arc<str> {
        self.name.clone()
    }

    pub fn may(&self, right: Right) -> bool {
        match right {
            Right::Any => !self.rights.is_empty(),
            _ => self.rights.contains(&right),
        }
    }

    pub fn keys(&self) -> &Keys {
        &self.keys
    }
}

/// What the gate looks at of a request: each header's values, as they came.
#[derive(Clone, Debug, Default)]
pub struct Head<'a> {
    /// The host that the target names, where it is a whole URL.
    pub target: Option<&'a [u8]>,
    pub host: Vec<&'a [u8]>,
    pub origin: Vec<&'a [u8]>,
    pub fetch_site: Vec<&'a [u8]>,
    pub authorization: Vec<&'a [u8]>,
}

pub struct Gate {
    hosts: Vec<String>,
    tokens: Option<Tokens>,
}

impl Gate {
    pub fn new(options: &Options, port: u16) -> Result<Gate, Fault> {
        let tokens = options.tokens.as_ref().map(Tokens::read).transpose()?;
        let usual = if options.tls.is_some() { HTTPS_PORT } else { HTTP_PORT };
        Ok(Gate { hosts: hosts_of(options.address, port, &options.host, usual), tokens })
    }

    pub fn tokens(&self) -> Option<&Tokens> {
        self.tokens.as_ref()
    }

    pub fn check(&self, head: &Head<'_>, right: Right) -> Result<Who, Refusal> {
        if right == Right::Nobody {
            return Ok(Who::of("", &[]));
        }
        self.check_host(head)?;
        self.check_origin(head)?;
        let Some(tokens) = &self.tokens else { return Ok(Who::anyone()) };
        let who =
            shown_in(&head.authorization).and_then(|shown| tokens.who(&shown)).ok_or_else(Refusal::unauthorized)?;
        if !who.may(right) {
            return Err(Refusal::no_right(right));
        }
        Ok(who)
    }

    /// The host of a target counts in place of Host, as RFC 9112 has it.
    fn check_host(&self, head: &Head<'_>) -> Result<(), Refusal> {
        if head.host.len() > 1 {
            return Err(Refusal::new(400, "host", "a request names one host"));
        }
        match head.target.or(head.host.first().copied()) {
            Some(host) if self.is_own(host) => Ok(()),
            _ => Err(other_host()),
        }
    }

    fn check_origin(&self, head: &Head<'_>) -> Result<(), Refusal> {
        let is_own_page = |origin: &&[u8]| {
            let host = origin.strip_prefix(b"http://").or_else(|| origin.strip_prefix(b"https://"));
            host.is_some_and(|host| self.is_own(host))
        };
        let is_own_site = |site: &&[u8]| matches!(*site, b"none" | b"same-origin");
        if head.origin.iter().all(is_own_page) && head.fetch_site.iter().all(is_own_site) {
            return Ok(());
        }
        Err(Refusal::new(403, "origin", "a page of another site asks"))
    }

    fn is_own(&self, host: &[u8]) -> bool {
        self.hosts.iter().any(|own| own.as_bytes() == host)
    }
}

fn other_host() -> Refusal {
    Refusal::new(403, "host", "the server isn't called by this name; --host adds one")
}

/// What Host may say: a name of loopback or the address, with the port; a further name also without one.
fn hosts_of(address: IpAddr, port: u16, further: &[String], usual: u16) -> Vec<String> {
    let address = match address {
        IpAddr::V4(it) => it.to_string(),
        IpAddr::V6(it) => format!("[{it}]"),
    };
    let own: Vec<&str> = LOOPBACK_NAMES.into_iter().chain([address.as_str()]).collect();
    let names = own.iter().copied().chain(further.iter().map(String::as_str));
    let mut hosts: Vec<String> = names.map(|name| format!("{name}:{port}")).collect();
    hosts.extend(further.iter().cloned());
    if port == usual {
        hosts.extend(own.iter().map(ToString::to_string));
    }
    hosts
}

/// The token that a header shows: behind Bearer, or as the password of Basic, which browsers send.
fn shown_in(authorization: &[&[u8]]) -> Option<Vec<u8>> {
    let [header] = authorization else { return None };
    let space = header.iter().position(|&byte| byte == b' ')?;
    let (kind, word) = (&header[..space], &header[space + 1..]);
    if !kind.eq_ignore_ascii_case(b"basic") {
        return Some(word.to_vec());
    }
    let pair = base64::decode(word).ok()?;
    let colon = pair.iter().position(|&byte| byte == b':')?;
    Some(pair[colon + 1..].to_vec())
}

#[cfg(test)]
mod tests {
    use super::*;
    use crate::testing::{file, options, Dice};

    const TOKEN: &str = "0123456789abcdef";

    fn gate(words: &[&str]) -> Gate {
        Gate::new(&options(words), 7077).expect("a gate")
    }

    fn gate_with_token() -> Gate {
        let file = file(TOKEN.as_bytes());
        gate(&["--token", file.to_str().expect("a name")])
    }

    fn head<'a>(host: &'a str, origin: Option<&'a str>, site: Option<&'a str>, shown: Option<&'a str>) -> Head<'a> {
        let all = |value: Option<&'a str>| value.map(str::as_bytes).into_iter().collect();
        Head {
            target: None,
            host: vec![host.as_bytes()],
            origin: all(origin),
            fetch_site: all(site),
            authorization: all(shown),
        }
    }

    fn error(gate: &Gate, head: &Head<'_>) -> Option<(u16, &'static str)> {
        gate.check(head, Right::Read).err().map(|refusal| (refusal.status, refusal.error))
    }

    #[test]
    fn hosts() {
        let gate = gate(&["--host", "data.example"]);
        for own in ["127.0.0.1:7077", "localhost:7077", "[::1]:7077", "data.example", "data.example:7077"] {
            assert_eq!(error(&gate, &head(own, None, None, None)), None, "{own}");
        }
        let others =
            ["", "localhost", "localhost:7078", "LOCALHOST:7077", "evil.example", "localhost:7077.evil.example"];
        for other in others {
            assert_eq!(error(&gate, &head(other, None, None, None)), Some((403, "host")), "{other}");
        }
        assert_eq!(error(&gate, &Head::default()), Some((403, "host")));
        let two = Head { host: vec![b"localhost:7077", b"localhost:7077"], ..Head::default() };
        assert_eq!(error(&gate, &two), Some((400, "host")));
    }

    #[test]
    fn a_target_counts_in_place_of_host() {
        let gate = gate(&[]);
        let asks = |target: &'static str, host: &[&'static str]| {
            let host = host.iter().map(|host| host.as_bytes()).collect();
            error(&gate, &Head { target: Some(target.as_bytes()), host, ..Head::default() })
        };
        let own = "localhost:7077";
        assert_eq!([asks(own, &[own]), asks(own, &["evil.example"]), asks(own, &[])], [None; 3]);
        for other in ["evil.example", "", "localhost", "user@localhost:7077", "localhost:7077@evil.example"] {
            assert_eq!(asks(other, &[own]), Some((403, "host")), "{other}");
        }
        assert_eq!(asks(own, &[own, own]), Some((400, "host")));
    }

    #[test]
    fn hosts_where_browsers_leave_the_port_out() {
        let hosts = hosts_of("10.0.0.7".parse().expect("an address"), 80, &[], HTTP_PORT);
        assert!(hosts.contains(&"10.0.0.7".to_string()) && hosts.contains(&"localhost".to_string()));
        let hosts = hosts_of("::1".parse().expect("an address"), 80, &[], HTTPS_PORT);
        assert!(hosts.contains(&"[::1]:80".to_string()) && !hosts.contains(&"[::1]".to_string()));
        let tls = ["--tls-cert", "a", "--tls-key", "b"];
        for (words, port, is_usual) in
            [(&[][..], HTTP_PORT, true), (&[], HTTPS_PORT, false), (&tls, HTTPS_PORT, true), (&tls, HTTP_PORT, false)]
        {
            let gate = Gate::new(&options(words), port).expect("a gate");
            assert_eq!(error(&gate, &head("localhost", None, None, None)).is_none(), is_usual, "{words:?} {port}");
        }
    }

    #[test]
    fn pages_of_other_sites() {
        let gate = gate(&[]);
        let asks = |origin, site| error(&gate, &head("localhost:7077", origin, site, None));
        assert_eq!(asks(Some("http://localhost:7077"), Some("same-origin")), None);
        assert_eq!(asks(Some("https://127.0.0.1:7077"), Some("none")), None);
        for origin in ["null", "", "http://evil.example", "http://localhost:8080", "ftp://localhost:7077"] {
            assert_eq!(asks(Some(origin), None), Some((403, "origin")), "{origin}");
        }
        for site in ["cross-site", "same-site", "", "Same-Origin"] {
            assert_eq!(asks(None, Some(site)), Some((403, "origin")), "{site}");
        }
    }

    #[test]
    fn the_token_is_shown_as_bearer_or_as_a_password() {
        let gate = gate_with_token();
        let asks = |shown: Option<&str>| error(&gate, &head("localhost:7077", None, None, shown));
        let basic = |pair: &str| format!("Basic {}", base64::encode(pair));
        assert_eq!(asks(Some(&format!("Bearer {TOKEN}"))), None);
        assert_eq!(asks(Some(&format!("bearer {TOKEN}"))), None);
        assert_eq!(asks(Some(&basic(&format!("anyone:{TOKEN}")))), None);
        for shown in ["", TOKEN, "Bearer", "Bearer ", "Basic !", "Bearer 0123456789abcdeg", &basic(TOKEN)] {
            assert_eq!(asks(Some(shown)), Some((401, "token")), "{shown}");
        }
        assert_eq!(asks(None), Some((401, "token")));
        let shown = format!("Bearer {TOKEN}");
        let twice = Head { authorization: vec![shown.as_bytes(); 2], ..head("localhost:7077", None, None, None) };
        assert_eq!(error(&gate, &twice), Some((401, "token")));
    }

    #[test]
    fn a_right_is_asked_for() {
        let file = file(format!("board read - - {TOKEN}").as_bytes());
        let gate = gate(&["--tokens", file.to_str().expect("a name")]);
        let shown = format!("Bearer {TOKEN}");
        let head = head("localhost:7077", None, None, Some(&shown));
        assert_eq!(gate.check(&head, Right::Read).expect("it may").name(), "board");
        let refused = |right| gate.check(&head, right).expect_err("it may not").line();
        let line = "{\"error\":\"right\",\"why\":\"this token has no right to write\"}\n";
        assert_eq!(refused(Right::Write), line);
        assert!(refused(Right::Operate).contains("to operate"));
    }

    #[test]
    fn any_of_the_rights_is_one() {
        for right in [Right::Read, Right::Write, Right::Operate] {
            assert!(Who::of("one", &[right]).may(Right::Any));
        }
        assert!(!Who::of("none", &[]).may(Right::Any));
    }

    #[test]
    fn everyone_may_ask_whether_it_lives() {
        assert!(gate_with_token().check(&Head::default(), Right::Nobody).is_ok());
    }

    #[test]
    fn spans_of_keys() {
        let keys = Keys { lo: b"b".to_vec(), hi: Some(b"d".to_vec()) };
        assert!(keys.holds(b"b") && keys.holds(b"c\xff") && !keys.holds(b"a\xff") && !keys.holds(b"d"));
        assert!(keys.covers(b"b", Some(b"d")) && keys.covers(b"c", Some(b"c")) && !keys.is_all());
        assert!(!keys.covers(b"", Some(b"c")) && !keys.covers(b"c", None) && !keys.covers(b"c", Some(b"d\0")));
        assert!(Keys::default().covers(b"", None) && Keys::default().is_all());
        assert_eq!([keys.covers_spelled(b"b", b"c%20"), keys.covers_spelled(b"b", b"-")], [Some(true), Some(false)]);
        assert_eq!([keys.covers_spelled(b"b", b"%2"), keys.covers_spelled(b"\xff", b"c")], [None, None]);
    }

    #[test]
    fn any_header_is_judged() {
        let gate = gate_with_token();
        let mut dice = Dice::new(5);
        let words: [&[u8]; 8] =
            [b"Bearer ", b"Basic ", b"YTpi", b"=", TOKEN.as_bytes(), b"\xff", b":", b"localhost:7077"];
        dice.each(|dice| {
            let [host, origin, shown] = [(); 3].map(|()| dice.some(&words, 5));
            let target = Some(dice.some(&words, 3)).filter(|_| dice.one_in(2));
            let head = Head {
                target: target.as_deref(),
                host: vec![&host],
                origin: vec![&origin],
                fetch_site: vec![],
                authorization: vec![&shown],
            };
            let passes = gate.check(&head, Right::Read).is_ok();
            let host = target.as_ref().unwrap_or(&host);
            assert!(!passes || (host == b"localhost:7077" && shown.ends_with(TOKEN.as_bytes())));
        });
    }
}
