// Names the files of LALRPOP 0.19.8's parser to the compiler: they are compiled where they stand and are no part of this repository. LALRPOP_CRATES
// names the folder of its crates, as Debian's librust-lalrpop-dev installs them. Where it isn't set, cfg `parser` is off.
use std::path::{Path, PathBuf};

const FILES: [(&str, &[&str]); 4] = [
    ("crates", &["lalrpop-util-0.19.8/src/lib.rs", "lalrpop-0.19.8/src/util.rs", "lalrpop-0.19.8/src/tok/mod.rs"]),
    ("collections", &["lalrpop-0.19.8/src/collections/map.rs"]),
    (
        "grammar",
        &[
            "lalrpop-0.19.8/src/grammar/consts.rs",
            "lalrpop-0.19.8/src/grammar/parse_tree.rs",
            "lalrpop-0.19.8/src/grammar/pattern.rs",
            "lalrpop-0.19.8/src/grammar/repr.rs",
        ],
    ),
    ("parser", &["lalrpop-0.19.8/src/parser/mod.rs"]),
];
const TABLES: &str = "lalrpop-0.19.8/src/parser/lrgrammar.rs";

fn main() {
    println!("cargo::rustc-check-cfg=cfg(parser)");
    println!("cargo::rerun-if-env-changed=LALRPOP_CRATES");
    println!("cargo::rerun-if-changed=build.rs");
    let Ok(folder) = std::env::var("LALRPOP_CRATES").map(PathBuf::from) else { return };
    match FILES.iter().flat_map(|(_, files)| *files).chain([&TABLES]).find(|file| !folder.join(file).is_file()) {
        None => write_parts(&folder.canonicalize().unwrap()),
        Some(file) => println!("cargo::error=LALRPOP_CRATES names {}, which has no {file}", folder.display()),
    }
}

fn write_parts(folder: &Path) {
    println!("cargo::rustc-cfg=parser");
    let out = PathBuf::from(std::env::var("OUT_DIR").unwrap());
    for (part, files) in FILES {
        let lines: String = files.iter().map(|file| module_line(folder, file)).collect();
        std::fs::write(out.join(format!("{part}.rs")), lines).unwrap();
    }
    // written for the edition of 2015: its paths begin at the root
    let tables = std::fs::read_to_string(folder.join(TABLES)).unwrap();
    let tables = ["grammar", "tok", "util", "lalrpop_util"]
        .iter()
        .fold(tables, |text, name| text.replace(&format!("\nuse {name}::"), &format!("\nuse crate::{name}::")));
    let tables = tables.replace("\nextern crate lalrpop_util as ", "\nuse crate::lalrpop_util as ");
    std::fs::write(out.join("lrgrammar.rs"), tables).unwrap();
}

/// A file `x.rs` or a folder's `x/mod.rs` is the module x, a crate's `lib.rs` the module by its name. The parser's own module would look for the tables
/// beside it.
fn module_line(folder: &Path, file: &str) -> String {
    let path = folder.join(file);
    if file == "lalrpop-0.19.8/src/parser/mod.rs" {
        let text = std::fs::read_to_string(&path).unwrap();
        let tables = "mod lrgrammar { include!(concat!(env!(\"OUT_DIR\"), \"/lrgrammar.rs\")); }";
        return text.replace("\nuse lalrpop_util;", "\nuse crate::lalrpop_util;").replace("mod lrgrammar;", tables);
    }
    let name = if file.ends_with("/lib.rs") {
        "lalrpop_util"
    } else {
        file.trim_end_matches("/mod.rs").trim_end_matches(".rs").rsplit('/').next().unwrap()
    };
    format!("#[path = {path:?}]\npub mod {name};\n")
}
