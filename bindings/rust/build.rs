//! Finds the static library of the engine and links it. It is, the first of these that there is:
//!
//! 1. the file that the environment variable `HICSOLMAB_LIBRARY` names;
//! 2. `../lib/libengine.a`, where a distribution has it;
//! 3. `target/staticlib/libengine.a` of the repository;
//! 4. the same file, once `bash tools/staticlib.sh engine` has been run in the repository. That command proves the engine first, which takes minutes.
use std::path::{Path, PathBuf};
use std::process::Command;
use std::{env, fs};

const VARIABLE: &str = "HICSOLMAB_LIBRARY";
const DISTRIBUTED: &str = "../lib/libengine.a";
const REPOSITORY: &str = "../..";
const CRATES: &str = "crates.txt";
const BUILT: &str = "target/staticlib/libengine.a";

fn main() {
    println!("cargo:rerun-if-env-changed={VARIABLE}");
    let architecture = env::var("CARGO_CFG_TARGET_ARCH").unwrap_or_default();
    assert!(architecture == "x86_64", "the engine is built for x86-64 alone, and this target is {architecture}");
    let library = find();
    println!("cargo:rerun-if-changed={}", library.display());
    let folder = library.parent().expect("a file lies in a folder");
    println!("cargo:rustc-link-search=native={}", folder.display());
    println!("cargo:rustc-link-lib=static={}", link_name(&library));
}

fn find() -> PathBuf {
    if let Some(named) = env::var_os(VARIABLE) {
        let named = PathBuf::from(named);
        return fs::canonicalize(&named).unwrap_or_else(|error| panic!("{VARIABLE} names {}: {error}", named.display()));
    }
    let here = PathBuf::from(env::var_os("CARGO_MANIFEST_DIR").expect("cargo names the crate's folder"));
    let repository = here.join(REPOSITORY);
    let built = repository.join(BUILT);
    let there = |place: &Path| fs::canonicalize(place).ok();
    there(&here.join(DISTRIBUTED))
        .or_else(|| there(&built))
        .or_else(|| build(&repository).then(|| there(&built)).flatten())
        .unwrap_or_else(|| panic!("the engine's library is not there: name it in {VARIABLE}, or run `bash tools/staticlib.sh engine` in the repository"))
}

/// Runs `bash tools/staticlib.sh engine`, if this is the repository and `rt` is there. What it prints stands in the build's output. Cargo shows the warning once this
/// script has ended, `cargo -vv` shows it before, and what `rt` prints.
fn build(repository: &Path) -> bool {
    if !repository.join(CRATES).is_file() {
        return false;
    }
    println!(
        "cargo:warning=the engine's library is not there: `bash tools/staticlib.sh engine` proves and builds it, in minutes; {VARIABLE}=PATH takes another"
    );
    Command::new("bash").args(["tools/staticlib.sh", "engine"]).current_dir(repository).status().is_ok_and(|status| status.success())
}

/// `engine` for `libengine.a`.
fn link_name(library: &Path) -> &str {
    let name = library.file_name().and_then(|name| name.to_str()).unwrap_or_default();
    name.strip_prefix("lib")
        .and_then(|rest| rest.strip_suffix(".a"))
        .unwrap_or_else(|| panic!("{} is not named lib*.a, as a static library is", library.display()))
}
