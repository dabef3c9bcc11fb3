// Links the archives that `bash tools/staticlib.sh engine` and `bash tools/staticlib.sh comparison` write (others: ENGINE=PATH, COMPARISON=PATH), and says which of the
// engine's functions are there.
use std::path::{Path, PathBuf};
use std::process::Command;
use std::{env, fs};

// Functions that need not be there yet, and the name under which the code asks for them.
const LATER: [(&str, &str); 4] =
    [("hicsolmab_compile", "compiler"), ("hicsolmab_style", "style_call"), ("hicsolmab_style_book", "book_call"), ("hicsolmab_run", "run_call")];

// Links the archive of a crate, which the variable may name, and gives its path.
fn link(name: &str, variable: &str) -> PathBuf {
    let default = PathBuf::from(env::var("CARGO_MANIFEST_DIR").unwrap()).join(format!("../../target/staticlib/lib{name}.a"));
    let named = env::var(variable).map_or(default, PathBuf::from);
    let archive = fs::canonicalize(&named).unwrap_or_else(|_| panic!("no {}: run bash tools/staticlib.sh {name} first", named.display()));
    println!("cargo:rerun-if-env-changed={variable}");
    // Both, so that a link that leads elsewhere now is seen.
    println!("cargo:rerun-if-changed={}", named.display());
    println!("cargo:rerun-if-changed={}", archive.display());
    // A copy of its own, since the folder of the other archive may hold one of the same name, which the linker would find first.
    let own = PathBuf::from(env::var("OUT_DIR").unwrap());
    fs::copy(&archive, own.join(format!("lib{name}.a"))).unwrap_or_else(|e| panic!("{} cannot be copied: {e}", archive.display()));
    println!("cargo:rustc-link-search=native={}", own.display());
    println!("cargo:rustc-link-lib=static={name}");
    archive
}

fn tell_which_are_there(archive: &Path) {
    let listed = Command::new("nm").arg("--defined-only").arg(archive).output().expect("nm runs");
    let symbols = String::from_utf8_lossy(&listed.stdout);
    for (function, name) in LATER {
        println!("cargo:rustc-check-cfg=cfg({name})");
        if symbols.lines().any(|line| line.ends_with(&format!(" {function}"))) {
            println!("cargo:rustc-cfg={name}");
        }
    }
}

fn main() {
    link("comparison", "COMPARISON");
    tell_which_are_there(&link("engine", "ENGINE"));
}
