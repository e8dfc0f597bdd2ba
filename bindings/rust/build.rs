//! Finds libpuchkewa.a and tells cargo to link it. It is looked for, in this order:
//!
//! 1. in the folder that the environment variable PUCHKEWA_LIB_DIR names;
//! 2. in target/staticlib of the repository that this package stands in (`bin/archive` makes it);
//! 3. in lib of the prefix that this package is installed in (`bin/install`), or of an unpacked release;
//! 4. where pkg-config says that this version is installed.
use std::env;
use std::path::{Path, PathBuf};
use std::process::Command;

const LIBRARY: &str = "libpuchkewa.a";

fn main() {
    println!("cargo:rerun-if-changed=build.rs");
    println!("cargo:rerun-if-env-changed=PUCHKEWA_LIB_DIR");
    println!("cargo:rerun-if-env-changed=PKG_CONFIG_PATH");
    let Some(folder) = folder() else {
        eprintln!("puchkewa: {LIBRARY} of version {} was not found.", env!("CARGO_PKG_VERSION"));
        eprintln!("`bin/archive` in its repository makes it, `bin/install PREFIX` installs it. PUCHKEWA_LIB_DIR may name its folder,");
        eprintln!("PKG_CONFIG_PATH that of puchkewa-static.pc.");
        std::process::exit(1);
    };
    println!("cargo:rerun-if-changed={}", folder.join(LIBRARY).display());
    println!("cargo:rustc-link-search=native={}", folder.display());
    println!("cargo:rustc-link-lib=static=puchkewa");
}

/// The folder of the library.
fn folder() -> Option<PathBuf> {
    if let Some(folder) = env::var_os("PUCHKEWA_LIB_DIR") {
        return holds(PathBuf::from(folder));
    }
    let here = PathBuf::from(env::var_os("CARGO_MANIFEST_DIR")?);
    // bindings/rust of the repository; share/puchkewa/bindings/rust of a prefix
    let repository = beside(&here, 2).filter(|top| is_this_version(top)).and_then(|top| holds(top.join("target/staticlib")));
    repository.or_else(|| beside(&here, 4).filter(|top| is_this_version(top)).and_then(|top| holds(top.join("lib")))).or_else(installed)
}

/// The folder so many levels up.
fn beside(here: &Path, levels: usize) -> Option<PathBuf> {
    here.ancestors().nth(levels).map(Path::to_path_buf)
}

fn holds(folder: PathBuf) -> Option<PathBuf> {
    folder.join(LIBRARY).is_file().then_some(folder)
}

/// Whether the header in this tree is of the version of this package.
fn is_this_version(top: &Path) -> bool {
    let line = format!("#define PUCHKEWA_VERSION \"{}\"", env!("CARGO_PKG_VERSION"));
    std::fs::read_to_string(top.join("include/puchkewa.h")).is_ok_and(|header| header.lines().any(|l| l == line))
}

/// What pkg-config says.
fn installed() -> Option<PathBuf> {
    let wanted = format!("puchkewa-static = {}", env!("CARGO_PKG_VERSION"));
    let said = Command::new("pkg-config").args(["--variable=libdir", &wanted]).output().ok()?;
    let folder = String::from_utf8(said.stdout).ok()?;
    if !said.status.success() || folder.trim().is_empty() {
        return None;
    }
    holds(PathBuf::from(folder.trim()))
}
