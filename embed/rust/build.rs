//! Links `libripsawbean.a`: of the folder that RIPSAWBEAN_LIB names; or of `lib/TARGET`, where a released crate has it; or
//! of `embed/out`, where `embed/build` puts it. Nothing is fetched.

use std::path::PathBuf;

fn main() {
    println!("cargo:rerun-if-env-changed=RIPSAWBEAN_LIB");
    let folder = std::env::var_os("RIPSAWBEAN_LIB").map(PathBuf::from).unwrap_or_else(folder);
    let library = folder.join("libripsawbean.a");
    if !library.exists() {
        panic!(
            "{} is not there: run embed/build, or name the folder of this target's in RIPSAWBEAN_LIB",
            library.display()
        );
    }
    println!("cargo:rerun-if-changed={}", library.display());
    println!("cargo:rustc-link-search=native={}", folder.display());
    println!("cargo:rustc-link-lib=static=ripsawbean");
}

/// The folder of the archive where none is named. A released crate has one for each target that it serves.
fn folder() -> PathBuf {
    let manifest = env!("CARGO_MANIFEST_DIR");
    let released = [manifest, "lib"].iter().collect::<PathBuf>();
    match std::env::var("TARGET") {
        Ok(target) if released.exists() => released.join(target),
        _ => [manifest, "..", "out"].iter().collect(),
    }
}
