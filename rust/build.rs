//! Links the proved archive: libhwemiduk.a or libexport.a in the folder that HWEMIDUK_LIB_DIR names; or target/staticlib/libexport.a of the repository, which
//! `bin/prove export` writes; or lib/libhwemiduk.a of the release that this crate stands in.

use std::env::var;
use std::path::{Path, PathBuf};
use std::process::exit;

fn main() {
    println!("cargo:rerun-if-env-changed=HWEMIDUK_LIB_DIR");
    let places: Vec<PathBuf> = match var("HWEMIDUK_LIB_DIR") {
        Ok(folder) if !folder.is_empty() => ["libhwemiduk.a", "libexport.a"].map(|name| Path::new(&folder).join(name)).into(),
        _ => ["target/staticlib/libexport.a", "lib/libhwemiduk.a"].map(|name| Path::new(env!("CARGO_MANIFEST_DIR")).join("..").join(name)).into(),
    };
    let Some(archive) = places.iter().find(|path| path.is_file()) else {
        eprintln!("hwemiduk: {} is not there: `bin/prove export` writes it, or set HWEMIDUK_LIB_DIR to a release's lib/", places[0].display());
        exit(1);
    };
    if var("CARGO_CFG_TARGET_ARCH").as_deref() != Ok("x86_64") {
        println!("cargo:warning=the archive is for x86-64, and cannot be linked for {}", var("TARGET").unwrap_or_default());
    }
    let (folder, name) = (archive.parent().expect("a folder"), archive.file_stem().expect("a name"));
    println!("cargo:rerun-if-changed={}", archive.display());
    println!("cargo:rustc-link-search=native={}", folder.display());
    println!("cargo:rustc-link-lib=static={}", name.to_string_lossy().trim_start_matches("lib"));
}
