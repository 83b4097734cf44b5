// Links the archive of the crate exports, which `make archive` writes; RATTLE_STATICLIB names another folder for it. Where it is missing, the build
// ends in one sentence: without it the linker would end in a page of its own.
use std::path::{Path, PathBuf};

const ARCHIVE: &str = "libexports.a";

fn main() {
    let folder = std::env::var("RATTLE_STATICLIB").map(PathBuf::from).unwrap_or_else(|_| repository().join("crates/exports/out"));
    println!("cargo::rerun-if-env-changed=RATTLE_STATICLIB");
    println!("cargo::rerun-if-changed={}", folder.join(ARCHIVE).display());
    if !folder.join(ARCHIVE).is_file() {
        println!(
            "cargo::error={ARCHIVE} is not in {}: run `make archive` at the top of the repository, or set RATTLE_STATICLIB to the folder that has it",
            folder.display()
        );
        return;
    }
    println!("cargo::rustc-link-search=native={}", folder.display());
    println!("cargo::rustc-link-lib=static=exports");
}

/// The folder two above this crate's.
fn repository() -> PathBuf {
    let here = PathBuf::from(std::env::var("CARGO_MANIFEST_DIR").unwrap());
    here.ancestors().nth(2).map(Path::to_path_buf).unwrap_or(here)
}
