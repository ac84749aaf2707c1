//! `GET /openapi.json`: /transact, /key and /rows in OpenAPI's words, for programs that make clients of them.
//!
//! Lines, streams and WebSockets aren't in it, as OpenAPI has no words for them. A test compares what it says with what
//! the server answers.

use crate::http::{Request, Response};
use crate::query::arguments;
use crate::refusal::Refusal;
use crate::routes::Server;
use std::sync::Arc;

const TEXT: &[u8] = include_bytes!("../../openapi.json");

pub async fn openapi(_: &Arc<Server>, request: Request) -> Result<Response, Refusal> {
    arguments(&request.path, &request.query, &[])?;
    Ok(Response::whole("application/json; charset=utf-8", TEXT))
}

#[cfg(test)]
mod tests {
    use super::*;

    #[test]
    fn it_has_the_paths() {
        let told: serde_json::Value = serde_json::from_slice(TEXT).expect("it is JSON");
        let paths: Vec<&str> = told["paths"].as_object().expect("paths").keys().map(String::as_str).collect();
        assert_eq!((told["openapi"].as_str(), paths), (Some("3.1.0"), vec!["/key/{key}", "/rows", "/transact"]));
    }
}
