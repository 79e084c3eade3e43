//! Builds the proved library with `rt lib` in crates/btt and links it.
//!
//! With BTT_STATICLIB_DIR set, the archive libbtt.a in that folder is linked as it is.
use std::env;
use std::fs;
use std::io;
use std::path::{Path, PathBuf};
use std::process::{exit, Command};
use std::time::SystemTime;

const OVERRIDE: &str = "BTT_STATICLIB_DIR";

fn main() {
    println!("cargo:rerun-if-env-changed={OVERRIDE}");
    let folder = match env::var_os(OVERRIDE) {
        Some(given) => given_folder(PathBuf::from(given)),
        None => built_folder(),
    };
    println!("cargo:rustc-link-search=native={}", folder.display());
    println!("cargo:rustc-link-lib=static=btt");
}

/// Ends the build with a message.
fn give_up(message: &str) -> ! {
    eprintln!("{message}");
    exit(1)
}

/// The folder of an archive that is built already.
fn given_folder(folder: PathBuf) -> PathBuf {
    let archive = folder.join("libbtt.a");
    println!("cargo:rerun-if-changed={}", archive.display());
    match fs::canonicalize(&archive) {
        Ok(found) => found.with_file_name(""),
        Err(error) => give_up(&format!("{OVERRIDE}: {}: {error}", archive.display())),
    }
}

/// The folder of the archive that rt builds; rt is not run where the archive is newer than every source.
fn built_folder() -> PathBuf {
    let here = env::var_os("CARGO_MANIFEST_DIR").map(PathBuf::from).unwrap_or_default();
    let root =
        fs::canonicalize(here.join("../..")).unwrap_or_else(|error| give_up(&format!("no repository two levels up: {error}")));
    let sources = sources(&root).unwrap_or_else(|error| give_up(&format!("cannot list the crates: {error}")));
    for source in &sources {
        println!("cargo:rerun-if-changed={}", source.display());
    }
    let folder = root.join("crates/btt/out");
    let newest = sources.iter().filter_map(|source| newest(source).ok()).max();
    let archive = fs::metadata(folder.join("libbtt.a")).and_then(|data| data.modified()).ok();
    if archive.is_none() || archive <= newest {
        prove(&root);
    }
    folder
}

/// What the archive is built from: the list of crates and the three folders of each. The folder out/ of a crate is not among them.
fn sources(root: &Path) -> io::Result<Vec<PathBuf>> {
    let mut sources = vec![root.join("crates.txt")];
    for entry in fs::read_dir(root.join("crates"))? {
        let folder = entry?.path();
        let parts = ["src", "specs", "proofs"].map(|part| folder.join(part));
        sources.extend(parts.into_iter().filter(|part| part.is_dir()));
    }
    Ok(sources)
}

/// The time of the last change of a file, or in a folder and all below it.
fn newest(path: &Path) -> io::Result<SystemTime> {
    let data = fs::metadata(path)?;
    let mut latest = data.modified()?;
    if data.is_dir() {
        for entry in fs::read_dir(path)? {
            latest = latest.max(newest(&entry?.path())?);
        }
    }
    Ok(latest)
}

/// Proves the library and writes its archive. What rt prints is shown only if it fails.
fn prove(root: &Path) {
    let done = Command::new("rt").arg("lib").current_dir(root.join("crates/btt")).output();
    let output = done.unwrap_or_else(|error| give_up(&format!("rt, which builds the proved library, cannot be run: {error}")));
    if !output.status.success() {
        eprintln!("{}{}", String::from_utf8_lossy(&output.stdout), String::from_utf8_lossy(&output.stderr));
        give_up("rt lib failed in crates/btt");
    }
}
