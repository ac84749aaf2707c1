//! The page of `GET /`, its scripts, and the guide's examples. `build.rs` puts them into the binary.
//!
//! The drawing code is that of `web/picture`: modules without a library, which the page imports from `/picture/`. Rows are
//! read by `clients/javascript`, which stands at `/client/`. The examples are the transcripts of docs/GUIDE.md, each under
//! the heading where it stands.
//!
//! 1. A browser that shows the page takes scripts and answers from this server alone, and no other page may frame it.

use crate::http::{Request, Response};
use crate::journal::Ticket;
use crate::json;
use crate::query::arguments;
use crate::refusal::Refusal;
use crate::routes::Server;
use std::sync::Arc;

const POLICY: &str = "default-src 'none'; script-src 'self'; style-src 'self' 'unsafe-inline'; connect-src 'self'; \
                      img-src 'self' data:; base-uri 'none'; form-action 'none'; frame-ancestors 'none'";

/// A file, as `build.rs` writes it.
struct File {
    path: &'static str,
    kind: &'static str,
    body: &'static [u8],
}

static FILES: &[File] = include!(concat!(env!("OUT_DIR"), "/page.rs"));
static EXAMPLES: &str = include_str!(concat!(env!("OUT_DIR"), "/examples.ndjson"));

/// Whether a path is one of the page's files.
pub fn has(path: &str) -> bool {
    file_at(path).is_some()
}

/// `GET` of one of the page's files.
pub async fn file(_: &Arc<Server>, request: Request) -> Result<Response, Refusal> {
    let file = file_at(&request.path).ok_or_else(Refusal::no_path)?;
    Ok(Response::whole(file.kind, file.body)
        .with("content-security-policy", POLICY)
        .with("referrer-policy", "no-referrer")
        .with("cache-control", "no-cache")
        .resting_on(Ticket::FREE))
}

/// `GET /page/examples`.
pub async fn examples(_: &Arc<Server>, request: Request) -> Result<Response, Refusal> {
    arguments(&request.path, &request.query, &[])?;
    Ok(json::lines(EXAMPLES).resting_on(Ticket::FREE))
}

fn file_at(path: &str) -> Option<&'static File> {
    FILES.iter().find(|file| file.path == path)
}

#[cfg(test)]
mod tests {
    use super::*;

    #[test]
    fn the_page_and_its_parts_are_there_by_their_kind() {
        for (path, kind) in [
            ("/", "text/html; charset=utf-8"),
            ("/page/page.css", "text/css; charset=utf-8"),
            ("/page/page.mjs", "text/javascript; charset=utf-8"),
            ("/picture/picture.mjs", "text/javascript; charset=utf-8"),
            ("/client/index.js", "text/javascript; charset=utf-8"),
        ] {
            assert_eq!(file_at(path).map(|file| file.kind), Some(kind), "{path}");
        }
        for path in ["", "/page/", "/page/..", "/page/../../README.md", "/picture", "/page/build.rs"] {
            assert!(!has(path), "{path}");
        }
    }

    #[test]
    fn files_are_whole_and_each_that_another_asks_for_is_there() {
        let page = include_str!("../page/index.html");
        assert_eq!(file_at("/").map(|file| file.body), Some(page.as_bytes()));
        let of_the_page = FILES.iter().filter(|file| !file.path.starts_with("/picture/"));
        let texts = of_the_page.map(|file| (file.path, std::str::from_utf8(file.body).expect("text")));
        let words = texts.flat_map(|(path, text)| text.split(['"', '\'']).map(move |word| (path, word)));
        let folder = |path: &str| path.rsplit_once('/').map_or(String::new(), |(folder, _)| folder.to_string());
        let asked = words.filter_map(|(path, word)| match word.strip_prefix("./") {
            Some(beside) if beside.ends_with("js") => Some(format!("{}/{beside}", folder(path))),
            _ => Some(word.to_string())
                .filter(|word| ["/page/", "/picture/", "/client/"].iter().any(|at| word.starts_with(at))),
        });
        let missing: Vec<String> = asked.filter(|path| path != "/page/examples" && !has(path)).collect();
        assert_eq!(missing, Vec::<String>::new());
    }

    #[test]
    fn examples_are_lines_of_json() {
        assert!(EXAMPLES.lines().count() > 10);
        for line in EXAMPLES.lines() {
            let value: serde_json::Value = serde_json::from_str(line).expect("JSON");
            assert!(value["heading"].is_string() && value["events"][0]["line"].is_string(), "{line}");
        }
    }
}
