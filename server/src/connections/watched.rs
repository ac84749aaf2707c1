//! A connection's stream, which sees what is read and written.
//!
//! It is generic over what it wraps, so that it fits below TLS as well.
//!
//! 1. A write that gets no byte away for `patience` cuts the connection, unless that one is exempt. The time runs anew
//!    with each byte that goes.
//! 2. While a feed is streamed, a byte that is read cuts the connection: nobody would ever take what it is part of, so
//!    a flood of requests, or bytes behind an upgrade that isn't one, can't pile up.
//! 3. A read gives `AT_ONCE` bytes at most. So whatever a body's chunks are like, the work for one read is bounded, and
//!    others get their turn between two.
//! 4. After a cut each read and write fails.

use super::Connection;
use std::future::Future;
use std::io::{self, IoSlice};
use std::pin::Pin;
use std::sync::atomic::Ordering;
use std::sync::Arc;
use std::task::{ready, Context, Poll};
use std::time::Duration;
use tokio::io::{AsyncRead, AsyncWrite, ReadBuf};
use tokio::time::{sleep, Sleep};

const AT_ONCE: usize = 1 << 14; // bytes

#[derive(Clone, Copy, PartialEq, Eq)]
enum Call {
    Write,
    Flush,
    Shutdown,
}

pub struct Watched<S> {
    stream: S,
    connection: Arc<Connection>,
    patience: Duration,
    /// What waits for the reader, and until when it may.
    waits: Option<(Call, Pin<Box<Sleep>>)>,
}

impl<S> Watched<S> {
    pub(super) fn new(stream: S, connection: Arc<Connection>, patience: Duration) -> Watched<S> {
        Watched { stream, connection, patience, waits: None }
    }

    fn check(&self) -> io::Result<()> {
        match self.connection.is_cut() {
            true => Err(io::Error::new(io::ErrorKind::ConnectionAborted, "the connection is cut")),
            false => Ok(()),
        }
    }

    fn wrote(&mut self, result: Poll<io::Result<usize>>, context: &mut Context) -> Poll<io::Result<usize>> {
        if let Poll::Ready(Ok(count)) = result {
            self.connection.all.written.fetch_add(count as u64, Ordering::Relaxed);
        }
        self.judge(Call::Write, result, context)
    }

    /// Lets a result through, and cuts the connection where there is none for too long.
    fn judge<T>(&mut self, call: Call, result: Poll<io::Result<T>>, context: &mut Context) -> Poll<io::Result<T>> {
        if result.is_ready() {
            self.waits.take_if(|(one, _)| *one == call);
            return result;
        }
        loop {
            let (_, timer) = self.waits.get_or_insert_with(|| (call, Box::pin(sleep(self.patience))));
            ready!(timer.as_mut().poll(context));
            self.waits = None;
            if !self.connection.is_exempt() {
                self.connection.cut();
                return Poll::Ready(Err(io::Error::new(io::ErrorKind::TimedOut, "the reader takes nothing")));
            }
        }
    }
}

impl<S: AsyncRead + Unpin> AsyncRead for Watched<S> {
    fn poll_read(self: Pin<&mut Self>, context: &mut Context, buffer: &mut ReadBuf) -> Poll<io::Result<()>> {
        let this = self.get_mut();
        this.check()?;
        let most = buffer.remaining().min(AT_ONCE);
        let mut part = ReadBuf::new(buffer.initialize_unfilled_to(most));
        ready!(Pin::new(&mut this.stream).poll_read(context, &mut part))?;
        let count = part.filled().len();
        if count > 0 && this.connection.is_exempt() {
            this.connection.cut();
            return Poll::Ready(this.check());
        }
        this.connection.all.read.fetch_add(count as u64, Ordering::Relaxed);
        buffer.advance(count);
        Poll::Ready(Ok(()))
    }
}

impl<S: AsyncWrite + Unpin> AsyncWrite for Watched<S> {
    fn poll_write(self: Pin<&mut Self>, context: &mut Context, bytes: &[u8]) -> Poll<io::Result<usize>> {
        let this = self.get_mut();
        this.check()?;
        let result = Pin::new(&mut this.stream).poll_write(context, bytes);
        this.wrote(result, context)
    }

    fn poll_write_vectored(self: Pin<&mut Self>, context: &mut Context, parts: &[IoSlice]) -> Poll<io::Result<usize>> {
        let this = self.get_mut();
        this.check()?;
        let result = Pin::new(&mut this.stream).poll_write_vectored(context, parts);
        this.wrote(result, context)
    }

    fn is_write_vectored(&self) -> bool {
        self.stream.is_write_vectored()
    }

    fn poll_flush(self: Pin<&mut Self>, context: &mut Context) -> Poll<io::Result<()>> {
        let this = self.get_mut();
        this.check()?;
        let result = Pin::new(&mut this.stream).poll_flush(context);
        this.judge(Call::Flush, result, context)
    }

    fn poll_shutdown(self: Pin<&mut Self>, context: &mut Context) -> Poll<io::Result<()>> {
        let this = self.get_mut();
        this.check()?;
        let result = Pin::new(&mut this.stream).poll_shutdown(context);
        this.judge(Call::Shutdown, result, context)
    }
}
