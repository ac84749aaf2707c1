//! Rows as this server alone gives them: in pages of one snapshot, and to a feed that is far behind.

use crate::failure::{refused, Failure};
use crate::figures::Figures;
use crate::http;
use crate::ours::Feed;
use crate::peer::{Peer, Wire};
use crate::readers;
use std::thread;
use std::time::Instant;

/// How often a feed is read in each of the two ways, in turn.
const TURNS: usize = 3;
const NEXT: &[u8] = b"\"next\":\"";
/// The first row that is filled, and the span of all of them.
const FIRST: &str = "first00000000";
const SPAN: &str = "lo=first&hi=firsu";

pub fn fill(peer: &dyn Peer, count: usize) -> Result<String, Failure> {
    let began = Instant::now();
    readers::fill(peer, count)?;
    Ok(Figures::new().with("rows", count as f64).with("rate", count as f64 / began.elapsed().as_secs_f64()).told())
}

/// Each of several readers walks all rows.
pub fn pages(port: u16, readers: usize, limit: usize, count: usize) -> Result<String, Failure> {
    let began = Instant::now();
    let told = thread::scope(|scope| {
        let threads: Vec<_> = (0..readers).map(|_| scope.spawn(|| walk(port, limit))).collect();
        threads.into_iter().map(|one| one.join().unwrap_or(Err(Failure::Thread))).sum::<Result<usize, _>>()
    })?;
    let took = began.elapsed().as_secs_f64();
    if told != readers * count {
        return Err(Failure::Missing { told, wanted: readers * count });
    }
    Ok(Figures::new().with("rows", told as f64).with("rate", told as f64 / took).told())
}

/// The rows of one walk, page by page.
fn walk(port: u16, limit: usize) -> Result<usize, Failure> {
    let (mut wire, mut page, mut count) = (Wire::new(port)?, Vec::new(), 0);
    let mut path = format!("/rows?{SPAN}&limit={limit}");
    loop {
        wire.send(&http::request_with("GET", port, &path, &http::shown(0), ""))?;
        http::answer(&mut wire, &mut page)?;
        count += rows_in(&page);
        match next_in(&page) {
            Some(next) => path = next,
            None => return Ok(count),
        }
    }
}

/// Each row is an object, and so is the page. The keys and values here have no brace.
fn rows_in(page: &[u8]) -> usize {
    page.iter().filter(|byte| **byte == b'{').count() - 1
}

/// The path of the page behind, which stands last.
fn next_in(page: &[u8]) -> Option<String> {
    let end = &page[page.len().saturating_sub(1000)..];
    let at = end.windows(NEXT.len()).rposition(|part| part == NEXT)? + NEXT.len();
    let path = end[at..].split(|byte| *byte == b'"').next()?;
    String::from_utf8(path.to_vec()).ok()
}

/// A feed that goes on from before all rows were written anew, plain and with the values before.
pub fn feeds(peer: &dyn Peer, port: u16, count: usize) -> Result<String, Failure> {
    let from = place(port)?;
    readers::fill(peer, count)?;
    let mut took = [0.0; 2];
    for turn in 0..2 * TURNS {
        let before = turn % 2;
        let began = Instant::now();
        read(port, &format!("/feed?{SPAN}&{from}&before={before}"), count)?;
        took[before] += began.elapsed().as_secs_f64();
    }
    let [plain, before] = took.map(|took| (TURNS * count) as f64 / took);
    Ok(Figures::new().with("rows", count as f64).with("rate", plain).with("before", before).told())
}

/// The arguments of a feed that goes on from now, for which the server holds what comes.
fn place(port: u16) -> Result<String, Failure> {
    let (mut wire, mut identity, mut timestamp) = (Wire::new(port)?, String::new(), String::new());
    wire.send(&http::request_with("GET", port, &format!("/key/{FIRST}?hold=300"), &http::shown(0), ""))?;
    http::head_with(&mut wire, |name, value| match name {
        "ripsawbean-identity" => identity = value.to_string(),
        "ripsawbean-timestamp" => timestamp = value.to_string(),
        _ => {}
    })?;
    match identity.is_empty() || timestamp.is_empty() {
        true => Err(refused(b"the answer has no timestamp and identity")),
        false => Ok(format!("from={timestamp}&identity={identity}")),
    }
}

fn read(port: u16, path: &str, count: usize) -> Result<(), Failure> {
    let (mut feed, mut told) = (Feed::open(port, path)?, 0);
    while told < count {
        feed.lines(|_| told += 1)?;
    }
    Ok(())
}

#[cfg(test)]
mod tests {
    use super::*;

    /// Pages as server/API.md has them.
    #[test]
    fn reads_pages() {
        let row = "{\"key\":\"k1\",\"value\":\"a\",\"version\":\"14\"}";
        let page = format!("{{\"timestamp\":\"14\",\"rows\":[{row},{row}],\"next\":\"/rows?lo=k3&at=14\"}}\n");
        assert_eq!((rows_in(page.as_bytes()), next_in(page.as_bytes())), (2, Some("/rows?lo=k3&at=14".into())));
        let last = format!("{{\"timestamp\":\"14\",\"rows\":[{row}],\"next\":null}}\n");
        assert_eq!((rows_in(last.as_bytes()), next_in(last.as_bytes())), (1, None));
    }
}
