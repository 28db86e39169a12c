//! Links the archive of the proved calls: libgidzelma.a of an unpacked archive, or libexports.a, which
//! `tools/build exports` writes. `GIDZELMA_LIB_DIR` names its folder; without it that is the
//! repository's `target/staticlib`, or `lib` of the unpacked archive that this package stands in.

use std::env;
use std::path::{Path, PathBuf};
use std::process::exit;

const VARIABLE: &str = "GIDZELMA_LIB_DIR";
const LIBRARIES: [&str; 2] = ["gidzelma", "exports"];

/// The first library that a folder has.
fn library_in(folder: &Path) -> Option<&'static str> {
    LIBRARIES
        .into_iter()
        .find(|name| folder.join(format!("lib{name}.a")).is_file())
}

/// Where the library is looked for.
fn folders() -> Vec<PathBuf> {
    match env::var_os(VARIABLE) {
        Some(folder) => vec![PathBuf::from(folder)],
        None => {
            let above = Path::new(env!("CARGO_MANIFEST_DIR")).join("..");
            vec![above.join("target/staticlib"), above.join("lib")]
        }
    }
}

fn main() {
    println!("cargo:rerun-if-env-changed={VARIABLE}");
    for folder in folders() {
        if let Some(name) = library_in(&folder) {
            let archive = folder.join(format!("lib{name}.a"));
            println!("cargo:rerun-if-changed={}", archive.display());
            println!("cargo:rustc-link-search=native={}", folder.display());
            println!("cargo:rustc-link-lib=static={name}");
            return;
        }
    }
    for folder in folders() {
        eprintln!(
            "{} has no libgidzelma.a and no libexports.a",
            folder.display()
        );
    }
    eprintln!("run `tools/build exports`, or let {VARIABLE} name the folder of libgidzelma.a");
    exit(1);
}
