// Names LALRPOP's own files to the compiler: they are compiled where they stand, unchanged, and are no part of this repository.
// LALRPOP_SRC names their folder; the default is ../shared/docs/src/lalrpop/src beside the repository. Where they are missing, cfg `lalrpop` is off;
// with REQUIRE_LALRPOP=1 that is an error, so that a run that counts on the comparison can't skip it.
use std::path::{Path, PathBuf};

const PARTS: [(&str, &[&str]); 4] = [
    ("tools", &["util.rs"]),
    ("collections", &["collections/map.rs"]),
    ("grammar", &["grammar/consts.rs", "grammar/parse_tree.rs", "grammar/repr.rs"]),
    ("normalize", &["normalize/norm_util.rs", "normalize/resolve/mod.rs", "normalize/precedence/mod.rs", "normalize/macro_expand/mod.rs"]),
];

const STEPPING: &str = "src/in_macro_expand/stepping.rs";

fn main() {
    println!("cargo::rustc-check-cfg=cfg(lalrpop)");
    println!("cargo::rerun-if-env-changed=LALRPOP_SRC");
    println!("cargo::rerun-if-env-changed=REQUIRE_LALRPOP");
    let here = PathBuf::from(std::env::var("CARGO_MANIFEST_DIR").unwrap());
    let folder = std::env::var("LALRPOP_SRC").map(PathBuf::from).unwrap_or_else(|_| here.join("../../../shared/docs/src/lalrpop/src"));
    println!("cargo::rerun-if-changed=build.rs");
    println!("cargo::rerun-if-changed={}", folder.display());
    let mut files = PARTS.iter().flat_map(|(_, files)| files.iter());
    match files.find(|file| !folder.join(file).is_file()) {
        None => {
            println!("cargo::rustc-cfg=lalrpop");
            write_parts(&folder.canonicalize().unwrap());
        }
        Some(file) => missing(&folder, file),
    }
}

/// One sentence: a warning, or an error where the files are required.
fn missing(folder: &Path, file: &str) {
    let is_error = std::env::var("REQUIRE_LALRPOP").is_ok_and(|value| value == "1");
    let (kind, so) = if is_error { ("error", "REQUIRE_LALRPOP=1 asks for them") } else { ("warning", "what needs them is skipped") };
    println!("cargo::{kind}=LALRPOP's files are not there (no {file} in {}; LALRPOP_SRC names their folder): {so}", folder.display());
}

fn write_parts(source: &Path) {
    let out = PathBuf::from(std::env::var("OUT_DIR").unwrap());
    for (part, files) in PARTS {
        let lines: String = files.iter().map(|file| module_line(source, file)).collect();
        std::fs::write(out.join(format!("{part}.rs")), lines).unwrap();
    }
}

/// A file `x.rs` or a folder's `x/mod.rs` is the module x. What expands macros is private to its module: our steps stand behind its text there.
fn module_line(source: &Path, file: &str) -> String {
    let (name, path) = (file.trim_end_matches("/mod.rs").trim_end_matches(".rs").rsplit('/').next().unwrap(), source.join(file));
    if name == "macro_expand" {
        let ours = PathBuf::from(std::env::var("CARGO_MANIFEST_DIR").unwrap()).join(STEPPING);
        println!("cargo::rerun-if-changed={}", ours.display());
        return format!("pub mod {name} {{\n    include!({path:?});\n    include!({ours:?});\n}}\n");
    }
    format!("#[path = {path:?}]\npub mod {name};\n")
}
