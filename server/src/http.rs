//! The only module that knows hyper: connections, requests, bodies, answers.
//!
//! `main` hands over each connection, and `serve` gives each of its requests to `routes`.
//!
//! ```text
//! request -> Request                                         headers as bytes, the body as it comes
//! Response::whole("text/plain; charset=utf-8", text)         a body that is there
//! let (response, sender) = Response::stream(..)              a body that comes piece by piece
//! ```
//!
//! 1. A body has a limit of bytes and of time, and so have all together that aren't answered (`shares`). What is too long
//!    is read away for a while, so that its client, which still sends, gets to read the answer.
//! 2. A piece is handed over once the one before was taken, so at most two wait beside what the socket holds.
//! 3. A connection that serves a request is busy until its answer was handed to the socket, but for `BUFFER` bytes.

use crate::connections::{Busy, Connection};
use crate::gate::{Head, Right, Who};
use crate::journal::Ticket;
use crate::refusal::Refusal;
use crate::routes::{self, Server};
use crate::shares::{Client, Held, Table, FREE};
use bytes::Bytes;
use http_body::SizeHint;
use hyper::body::HttpBody;
use hyper::header::{HeaderName, HeaderValue};
use hyper::server::conn::Http;
use hyper::service::service_fn;
use hyper::{HeaderMap, StatusCode, Version};
use std::convert::Infallible;
use std::fmt;
use std::future::Future;
use std::pin::Pin;
use std::sync::atomic::{AtomicBool, Ordering};
use std::sync::Arc;
use std::task::{Context, Poll};
use std::time::{Duration, Instant};
use tokio::io::{AsyncRead, AsyncWrite};
use tokio::sync::mpsc;

/// The number of what the server and its clients agree on, which each answer tells. It rises where a client of the one
/// before would break.
const PROTOCOL: &str = "1";
/// The answer to a connection for which there is no room.
pub const FULL: &[u8] =
    b"HTTP/1.1 503 Service Unavailable\r\nRipsawbean-Protocol: 1\r\nContent-Length: 0\r\nConnection: close\r\n\r\n";
/// Bytes that hyper keeps of one connection in either direction.
const BUFFER: usize = 1 << 16;
/// The status of a connection that becomes a WebSocket.
const SWITCHING: u16 = 101;
/// How much of a body that nobody wants is read away, and for how long.
const LINGER_BYTES: usize = 64 << 20;
/// The header that names the database. Each answer has it. A request that has it is refused by another database.
const IDENTITY: &str = "ripsawbean-identity";
const LINGER: Duration = Duration::from_secs(2);

/// What a path is asked for with.
#[derive(Clone, Copy, Debug, PartialEq, Eq)]
pub enum Method {
    Get,
    /// As `Get`, and the answer's body is left out.
    Head,
    Post,
    Put,
    Delete,
    Other,
}

impl Method {
    pub fn name(self) -> &'static str {
        match self {
            Method::Get => "GET",
            Method::Head => "HEAD",
            Method::Post => "POST",
            Method::Put => "PUT",
            Method::Delete => "DELETE",
            Method::Other => "other",
        }
    }
}

/// A connection after its upgrade.
pub trait Stream: AsyncRead + AsyncWrite + Send + Unpin {}
impl<T: AsyncRead + AsyncWrite + Send + Unpin> Stream for T {}

/// A request that passed the gate.
pub struct Request {
    pub method: Method,
    pub path: String,
    /// What stands behind the question mark, as it came.
    pub query: String,
    pub who: Who,
    pub client: Client,
    pub connection: Arc<Connection>,
    bodies: Arc<Table>,
    /// Its body counts as long as it is answered.
    held: Option<Held>,
    inner: hyper::Request<hyper::Body>,
}

impl Request {
    fn new(inner: hyper::Request<hyper::Body>, who: Who, connection: Arc<Connection>, server: &Server) -> Request {
        let (path, query) = (inner.uri().path().to_string(), inner.uri().query().unwrap_or("").to_string());
        let (method, bodies) = (method_of(&inner), server.bodies.clone());
        let client = Client::new(connection.peer.ip(), &who);
        Request { method, path, query, who, client, connection, bodies, held: None, inner }
    }

    /// A header's value, where it is given once or more: the first one.
    pub fn header(&self, name: &str) -> Option<&[u8]> {
        self.inner.headers().get(name).map(HeaderValue::as_bytes)
    }

    /// All values of a header as one list, as text: empty where it isn't given, or is no text.
    pub fn list(&self, name: &str) -> String {
        list_in(self.inner.headers(), name)
    }

    /// The body, of so many bytes at most, that comes within this time.
    pub async fn body(&mut self, most: usize, within: Duration) -> Result<Vec<u8>, Refusal> {
        let end = Instant::now() + within;
        let mut held = self.bodies.begin(&self.client);
        let read = {
            // Also where it comes at once: else a crowd of half bodies is busy for a moment, and others make room.
            let _waits = self.connection.waits();
            tokio::time::timeout_at(end.into(), whole(self.inner.body_mut(), most, &mut held)).await
        };
        let refusal = match read {
            Ok(Ok(data)) => {
                self.held = Some(held);
                return Ok(data);
            }
            Ok(Err(refusal)) => refusal,
            Err(_) => return Err(Refusal::slow()),
        };
        // Whoever still sends would see its connection reset, and not the answer.
        let _waits = self.connection.waits();
        let _ = tokio::time::timeout_at(end.into(), drain(self.inner.body_mut())).await;
        Err(refusal)
    }

    /// Whether a body follows it, also one of no bytes whose length isn't told.
    pub fn has_body(&self) -> bool {
        !self.inner.body().is_end_stream()
    }

    /// Whether it is of HTTP/1.1, and not of an older version.
    pub fn is_of_1_1(&self) -> bool {
        self.inner.version() == Version::HTTP_11
    }

    /// The connection, once the answer 101 was written. It is asked for before that answer is given.
    pub fn upgraded(&mut self) -> impl Future<Output = Option<Box<dyn Stream>>> {
        let upgrade = hyper::upgrade::on(&mut self.inner);
        async { upgrade.await.ok().map(|stream| Box::new(stream) as Box<dyn Stream>) }
    }
}

async fn whole(body: &mut hyper::Body, most: usize, held: &mut Held) -> Result<Vec<u8>, Refusal> {
    let told = usize::try_from(body.size_hint().lower()).unwrap_or(usize::MAX);
    if told > most {
        return Err(Refusal::too_long());
    }
    let mut data = Vec::with_capacity(told.min(FREE));
    while let Some(piece) = body.data().await {
        let piece = piece.map_err(|_| Refusal::new(400, "http", "the body is cut"))?;
        if data.len() + piece.len() > most {
            return Err(Refusal::too_long());
        }
        held.grow(data.len() + piece.len())?;
        data.extend_from_slice(&piece);
    }
    Ok(data)
}

async fn drain(body: &mut hyper::Body) {
    let mut left = LINGER_BYTES;
    while let Some(Ok(piece)) = body.data().await {
        left = left.saturating_sub(piece.len());
        if left == 0 {
            return;
        }
    }
}

fn list_in(headers: &HeaderMap, name: &str) -> String {
    let values: Vec<&str> = headers.get_all(name).iter().filter_map(|value| value.to_str().ok()).collect();
    values.join(",")
}

/// An answer.
#[derive(Debug)]
pub struct Response {
    pub status: u16,
    pub headers: Vec<(&'static str, String)>,
    body: Body,
    /// What it rests on, where that is less than all that was done before.
    pub rests: Option<Ticket>,
}

impl Response {
    /// An answer of status 200 with a whole body.
    pub fn whole(content_type: &'static str, body: impl Into<Bytes>) -> Response {
        let body = Body::new(Content::Whole(body.into()));
        Response { status: 200, headers: vec![("content-type", content_type.into())], body, rests: None }
    }

    /// An answer that has no body.
    pub fn empty(status: u16) -> Response {
        Response { status, headers: Vec::new(), body: Body::new(Content::Whole(Bytes::new())), rests: None }
    }

    /// An answer of status 200 whose body comes piece by piece.
    pub fn stream(content_type: &'static str) -> (Response, Sender) {
        let (sender, pieces) = mpsc::channel(1);
        let shared = Arc::new(Shared::default());
        let body = Body::new(Content::Pieces(pieces, shared.clone()));
        let response =
            Response { status: 200, headers: vec![("content-type", content_type.into())], body, rests: None };
        (response, Sender { sender, shared })
    }

    /// The answer 101 of a WebSocket.
    pub fn switching(accept: String) -> Response {
        let headers = vec![
            ("upgrade", "websocket".to_string()),
            ("connection", "Upgrade".to_string()),
            ("sec-websocket-accept", accept),
        ];
        Response { status: SWITCHING, headers, body: Body::new(Content::Whole(Bytes::new())), rests: None }
    }

    /// A refusal's answer: its line, as application/json.
    pub fn refused(refusal: &Refusal) -> Response {
        let mut response = Response::whole("application/json; charset=utf-8", refusal.line());
        (response.status, response.rests) = (refusal.status, refusal.rests);
        response.headers.extend(refusal.headers().map(|(name, value)| (name, value.to_string())));
        response
    }

    /// Bytes of its body, where that is there.
    pub fn length(&self) -> usize {
        match &self.body.content {
            Content::Whole(bytes) => bytes.len(),
            Content::Pieces(..) => 0,
        }
    }

    /// Keeps something until the answer was handed to the socket.
    pub fn keeping(mut self, kept: impl Send + Sync + 'static) -> Response {
        self.body.kept = Some(Kept(Box::new(kept)));
        self
    }

    /// It is told once this is durable, and needn't wait for all that was done before.
    pub fn resting_on(self, ticket: Ticket) -> Response {
        Response { rests: Some(ticket), ..self }
    }

    pub fn with(mut self, name: &'static str, value: impl Into<String>) -> Response {
        self.headers.push((name, value.into()));
        self
    }

    fn into_inner(self, busy: Option<Busy>) -> hyper::Response<Body> {
        let mut response = hyper::Response::new(self.body);
        response.body_mut().busy = busy;
        *response.status_mut() = StatusCode::from_u16(self.status).unwrap_or(StatusCode::INTERNAL_SERVER_ERROR);
        let headers = response.headers_mut();
        for (name, value) in self.headers {
            // Names are written here, and values are digits and names: whatever else comes is left out.
            let name = HeaderName::from_bytes(name.as_bytes());
            if let (Ok(name), Ok(value)) = (name, HeaderValue::from_str(&value)) {
                headers.insert(name, value);
            }
        }
        headers.insert("ripsawbean-protocol", HeaderValue::from_static(PROTOCOL));
        headers.insert("x-content-type-options", HeaderValue::from_static("nosniff"));
        headers.insert("cross-origin-resource-policy", HeaderValue::from_static("same-origin"));
        response
    }
}

/// An answer's body, which keeps its connection busy.
#[derive(Debug)]
struct Body {
    content: Content,
    busy: Option<Busy>,
    kept: Option<Kept>,
}

/// Whatever ends with the body.
struct Kept(#[allow(dead_code)] Box<dyn Send + Sync>);

impl fmt::Debug for Kept {
    fn fmt(&self, f: &mut fmt::Formatter<'_>) -> fmt::Result {
        f.write_str("Kept")
    }
}

#[derive(Debug)]
enum Content {
    Whole(Bytes),
    Pieces(mpsc::Receiver<Bytes>, Arc<Shared>),
}

impl Body {
    fn new(content: Content) -> Body {
        Body { content, busy: None, kept: None }
    }
}

/// What both ends of a body know.
#[derive(Debug, Default)]
struct Shared {
    is_cut: AtomicBool,
}

/// The body was cut, so that the connection has to end.
#[derive(Debug)]
struct Cut;

impl fmt::Display for Cut {
    fn fmt(&self, f: &mut fmt::Formatter<'_>) -> fmt::Result {
        f.write_str("the answer is cut")
    }
}

impl std::error::Error for Cut {}

impl HttpBody for Body {
    type Data = Bytes;
    type Error = Cut;

    fn poll_data(mut self: Pin<&mut Self>, context: &mut Context<'_>) -> Poll<Option<Result<Bytes, Cut>>> {
        match &mut self.content {
            Content::Whole(bytes) if bytes.is_empty() => Poll::Ready(None),
            // Whoever takes a piece asks for the next one once there is room for it, and a body that is taken is dropped.
            Content::Whole(bytes) => Poll::Ready(Some(Ok(bytes.split_to(bytes.len().min(BUFFER))))),
            Content::Pieces(pieces, shared) => pieces.poll_recv(context).map(|piece| match piece {
                Some(piece) => Some(Ok(piece)),
                None => shared.is_cut.load(Ordering::Acquire).then_some(Err(Cut)),
            }),
        }
    }

    fn poll_trailers(self: Pin<&mut Self>, _: &mut Context<'_>) -> Poll<Result<Option<HeaderMap>, Cut>> {
        Poll::Ready(Ok(None))
    }

    fn is_end_stream(&self) -> bool {
        matches!(&self.content, Content::Whole(bytes) if bytes.is_empty())
    }

    fn size_hint(&self) -> SizeHint {
        match &self.content {
            Content::Whole(bytes) => SizeHint::with_exact(bytes.len() as u64),
            Content::Pieces(..) => SizeHint::default(),
        }
    }
}

/// The reader is gone.
#[derive(Clone, Copy, Debug, PartialEq, Eq)]
pub struct Gone;

/// The pieces of a body. Dropped it ends the body as it should end; `cut` ends the connection.
#[derive(Debug)]
pub struct Sender {
    sender: mpsc::Sender<Bytes>,
    shared: Arc<Shared>,
}

impl Sender {
    /// Waits until the connection has taken all pieces, so that it has room for one.
    pub async fn room(&self) -> Result<(), Gone> {
        self.sender.reserve().await.map(drop).map_err(|_| Gone)
    }

    /// Hands over a piece, once there is room for it.
    pub async fn send(&self, piece: Bytes) -> Result<(), Gone> {
        if piece.is_empty() {
            return Ok(());
        }
        self.sender.send(piece).await.map_err(|_| Gone)
    }

    /// Waits until the reader is gone.
    pub async fn gone(&self) {
        self.sender.closed().await;
    }

    /// Ends the connection, so that no reader takes what came for the whole.
    pub fn cut(self) {
        self.shared.is_cut.store(true, Ordering::Release);
    }
}

/// Serves the requests of a connection, one after another, until it ends. Once the server ends, the request that is
/// served is the last one.
pub async fn serve(stream: impl Stream + 'static, server: Arc<Server>, connection: Arc<Connection>) {
    let service = service_fn(|request| answer(server.clone(), connection.clone(), request));
    let mut http = Http::new();
    http.http1_only(true).max_buf_size(BUFFER).http1_keep_alive(true);
    let serving = http.serve_connection(stream, service).with_upgrades();
    tokio::pin!(serving);
    tokio::select! {
        _ = &mut serving => return,
        () = server.ending() => serving.as_mut().graceful_shutdown(),
        () = connection.cut_off() => return,
    }
    tokio::select! {
        _ = serving => {}
        () = connection.cut_off() => {}
    }
}

async fn answer(
    server: Arc<Server>,
    connection: Arc<Connection>,
    mut inner: hyper::Request<hyper::Body>,
) -> Result<hyper::Response<Body>, Infallible> {
    let right = routes::right_of(method_of(&inner), inner.uri().path());
    let judged = server.gate.check(&head_of(&inner), right);
    let admitted = judged.and_then(|who| {
        check_coding(inner.headers())?;
        let busy = connection.asks(&Client::new(connection.peer.ip(), &who))?;
        Ok((who, busy))
    });
    let (who, busy) = match admitted {
        Ok(admitted) => admitted,
        Err(refusal) => {
            let fields = [("peer", connection.peer.to_string().into()), ("error", refusal.error.into())];
            server.log.info("refused", &fields);
            let _ = tokio::time::timeout(LINGER, drain(inner.body_mut())).await;
            return Ok(Response::refused(&refusal).into_inner(None));
        }
    };
    let request = Request::new(inner, who, connection, &server);
    // Who has no right is told that the server lives, whatever database was meant.
    let is_stranger = !request.who.may(Right::Any);
    let is_meant = |named: &[u8]| named == server.identity.as_bytes();
    let answered = match is_stranger || request.header(IDENTITY).is_none_or(is_meant) {
        true => routes::handle(&server, request).await,
        false => Err(other_database(&server, request).await),
    };
    let mut response = answered.unwrap_or_else(|refusal| Response::refused(&refusal));
    // Whatever an answer says rests on what was done before.
    let rests = response.rests.unwrap_or_else(|| server.door.all());
    if !server.door.until_within(rests, server.options.patience).await {
        response = Response::refused(&Refusal::no_lease());
    }
    let response = response.with(IDENTITY, server.identity.as_str());
    if response.status != SWITCHING {
        busy.answers();
    }
    Ok(response.into_inner(Some(busy)))
}

/// Whoever still sends gets to read the refusal.
async fn other_database(server: &Server, mut request: Request) -> Refusal {
    let _waits = request.connection.waits();
    let _ = tokio::time::timeout(LINGER, drain(request.inner.body_mut())).await;
    Refusal::other_identity(&server.identity)
}

/// hyper takes each body whose last coding is chunked, as if it were the only one.
fn check_coding(headers: &HeaderMap) -> Result<(), Refusal> {
    let given =
        headers.get_all("transfer-encoding").iter().flat_map(|value| value.as_bytes().split(|&byte| byte == b','));
    let codings: Vec<&[u8]> = given.map(<[u8]>::trim_ascii).filter(|coding| !coding.is_empty()).collect();
    match codings.as_slice() {
        [] => Ok(()),
        [coding] if coding.eq_ignore_ascii_case(b"chunked") => Ok(()),
        _ => Err(Refusal::other_coding()),
    }
}

fn head_of(inner: &hyper::Request<hyper::Body>) -> Head<'_> {
    let all = |name: &str| inner.headers().get_all(name).iter().map(HeaderValue::as_bytes).collect();
    Head {
        target: inner.uri().authority().map(|it| it.as_str().as_bytes()),
        host: all("host"),
        origin: all("origin"),
        fetch_site: all("sec-fetch-site"),
        authorization: all("authorization"),
    }
}

fn method_of(inner: &hyper::Request<hyper::Body>) -> Method {
    match *inner.method() {
        hyper::Method::GET => Method::Get,
        hyper::Method::HEAD => Method::Head,
        hyper::Method::POST => Method::Post,
        hyper::Method::PUT => Method::Put,
        hyper::Method::DELETE => Method::Delete,
        _ => Method::Other,
    }
}

#[cfg(test)]
mod tests;
