//! Puts the page's files and the guide's examples into the binary.
//!
//! It writes `page.rs`, a table of paths with their kinds and bytes, and `examples.ndjson`.

#[path = "src/guide.rs"]
mod guide;

use std::error::Error;
use std::fmt::Write;
use std::path::{Path, PathBuf};
use std::{env, fs};

fn main() -> Result<(), Box<dyn Error>> {
    let server = PathBuf::from(env::var("CARGO_MANIFEST_DIR")?);
    let out = PathBuf::from(env::var("OUT_DIR")?);
    let mut table = String::from("&[\n");
    let (page, picture) = (server.join("page"), server.join("../web/picture"));
    let client = server.join("../clients/javascript");
    entry(&mut table, "/", &page.join("index.html"))?;
    for (place, folder) in [("/page/", &page), ("/picture/", &picture), ("/client/", &client)] {
        println!("cargo:rerun-if-changed={}", folder.display());
        for file in files_in(folder)? {
            let name = file.file_name().and_then(|name| name.to_str()).ok_or("a file's name is no text")?;
            entry(&mut table, &format!("{place}{name}"), &file)?;
        }
    }
    table.push_str("]\n");
    fs::write(out.join("page.rs"), table)?;
    let guide = server.join("../docs/GUIDE.md");
    println!("cargo:rerun-if-changed={}", guide.display());
    println!("cargo:rerun-if-changed={}", server.join("src/guide.rs").display());
    fs::write(out.join("examples.ndjson"), guide::examples_in(&fs::read_to_string(guide)?))?;
    Ok(())
}

/// The files of a folder that a browser asks for, by name.
fn files_in(folder: &Path) -> Result<Vec<PathBuf>, Box<dyn Error>> {
    let mut files = Vec::new();
    for entry in fs::read_dir(folder)? {
        let path = entry?.path();
        if kind_of(&path).is_some() {
            files.push(path);
        }
    }
    files.sort();
    Ok(files)
}

/// The table's line of a file.
fn entry(table: &mut String, path: &str, file: &Path) -> Result<(), Box<dyn Error>> {
    let kind = kind_of(file).ok_or("a browser knows no such file")?;
    let file = fs::canonicalize(file)?;
    println!("cargo:rerun-if-changed={}", file.display());
    writeln!(table, "    File {{ path: {path:?}, kind: {kind:?}, body: include_bytes!({file:?}) }},")?;
    Ok(())
}

fn kind_of(file: &Path) -> Option<&'static str> {
    Some(match file.extension()?.to_str()? {
        "html" => "text/html; charset=utf-8",
        "css" => "text/css; charset=utf-8",
        "js" | "mjs" => "text/javascript; charset=utf-8",
        _ => return None,
    })
}
