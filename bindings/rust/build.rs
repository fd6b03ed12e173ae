//! Links the archive that `sh tools/archive.sh` leaves in target/staticlib of the repository.
use std::env;
use std::path::{Path, PathBuf};

const ARCHIVE: &str = "libcleaner.a";
/// A folder that has the archive, in the place of target/staticlib.
const ELSEWHERE: &str = "SHOWCLEAN_LIBRARY";

fn main() {
    println!("cargo::rerun-if-env-changed={ELSEWHERE}");
    let folder = folder();
    let archive = folder.join(ARCHIVE);
    println!("cargo::rerun-if-changed={}", archive.display());
    match trouble(&archive) {
        Some(words) => println!("cargo::error={words}"),
        None => {
            println!("cargo::rustc-link-search=native={}", folder.display());
            println!("cargo::rustc-link-lib=static=cleaner");
        }
    }
}

fn folder() -> PathBuf {
    match env::var_os(ELSEWHERE) {
        Some(folder) => folder.into(),
        None => {
            let here = env::var("CARGO_MANIFEST_DIR").expect("cargo says where the package is");
            Path::new(&here).join("../../target/staticlib")
        }
    }
}

/// Why the archive cannot be linked, with what to do about it.
fn trouble(archive: &Path) -> Option<String> {
    let machine = env::var("CARGO_CFG_TARGET_ARCH").expect("cargo says what it builds for");
    if machine != "x86_64" {
        return Some(format!("the proved archive holds x86-64 code and cannot be linked for {machine}; docs/BINDINGS.md says what that means"));
    }
    if !archive.is_file() {
        return Some(format!(
            "there is no {}: run `sh tools/archive.sh` in the repository's root first (it proves every crate, which takes minutes), or set {ELSEWHERE} to a folder with {ARCHIVE}",
            archive.display()
        ));
    }
    None
}
