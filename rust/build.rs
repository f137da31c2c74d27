// SPDX-License-Identifier: Apache-2.0 OR MIT
//! Finds libbactool, and has it linked. It is the first of these:
//!
//! 1. in the folder that `BACTOOL_LIB` names by its full path;
//! 2. in `lib` of the repository, of the release or of the installation that this crate is a part of;
//! 3. where pkg-config has it.
//!
//! `BACTOOL_LINK` is `static` for the archive, or `shared` for the shared library. Without it the archive is linked if
//! it is there, and else the shared library.
use std::env;
use std::path::{Path, PathBuf};
use std::process::{exit, Command};

/// A way to link the library: its word for rustc, and the file that it needs.
#[derive(Clone, Copy)]
struct Way {
    kind: &'static str,
    file: &'static str,
}

const STATIC: Way = Way { kind: "static", file: "libbactool.a" };
const SHARED: Way = Way { kind: "dylib", file: "libbactool.so" };

fn main() {
    for variable in ["BACTOOL_LIB", "BACTOOL_LINK", "PKG_CONFIG", "PKG_CONFIG_PATH"] {
        println!("cargo:rerun-if-env-changed={variable}");
    }
    match ways().and_then(|ways| library(&ways)) {
        Ok((folder, way)) => {
            println!("cargo:rerun-if-changed={}", folder.join(way.file).display());
            println!("cargo:rustc-link-search=native={}", folder.display());
            println!("cargo:rustc-link-lib={}=bactool", way.kind);
        }
        Err(fault) => {
            eprintln!("bactool: {fault}");
            exit(1);
        }
    }
}

/// Returns the ways that `BACTOOL_LINK` allows, the preferred one first.
fn ways() -> Result<Vec<Way>, String> {
    match env::var_os("BACTOOL_LINK") {
        None => Ok(vec![STATIC, SHARED]),
        Some(word) if word == "static" => Ok(vec![STATIC]),
        Some(word) if word == "shared" => Ok(vec![SHARED]),
        Some(word) => Err(format!("BACTOOL_LINK is {word:?}, and must be static or shared")),
    }
}

/// Returns the folder that has the library, and the way to link it.
fn library(ways: &[Way]) -> Result<(PathBuf, Way), String> {
    if let Some(named) = env::var_os("BACTOOL_LIB") {
        let folder = PathBuf::from(named);
        // Cargo runs this program in the folder of the crate, so a relative path would not be one of the caller's.
        if folder.is_relative() {
            return Err(format!("BACTOOL_LIB is {folder:?}, and must be the full path of a folder"));
        }
        return library_in(&folder, ways)
            .ok_or_else(|| format!("BACTOOL_LIB is {folder:?}, and there is no {} in it", files(ways)));
    }
    let folders: Vec<PathBuf> = neighbours().into_iter().chain(folder_of_pkg_config()).collect();
    folders.iter().find_map(|folder| library_in(folder, ways)).ok_or_else(|| {
        format!(
            "there is no {} in {folders:?}, where this crate and pkg-config look for it; \
             set BACTOOL_LIB to the full path of the folder that has it",
            files(ways)
        )
    })
}

/// Returns the folders in which the library is if this crate is `rust` of the repository or of an unpacked release, or if
/// it is installed somewhere below a folder `share`.
fn neighbours() -> Vec<PathBuf> {
    let here = PathBuf::from(env::var_os("CARGO_MANIFEST_DIR").expect("cargo sets CARGO_MANIFEST_DIR"));
    let shared = here.ancestors().find(|folder| folder.ends_with("share"));
    let mut folders = vec![here.with_file_name("lib")];
    folders.extend(shared.map(|folder| folder.with_file_name("lib")));
    folders
}

/// Returns the folder that pkg-config has for the library, if it knows of one.
fn folder_of_pkg_config() -> Option<PathBuf> {
    let program = env::var_os("PKG_CONFIG").unwrap_or_else(|| "pkg-config".into());
    let output = Command::new(program).args(["--variable=libdir", "bactool"]).output().ok()?;
    let folder = String::from_utf8(output.stdout).ok()?;
    match folder.trim_end() {
        "" => None,
        folder => Some(PathBuf::from(folder)),
    }
}

/// Returns the folder with the first way whose file is in it.
fn library_in(folder: &Path, ways: &[Way]) -> Option<(PathBuf, Way)> {
    let way = ways.iter().find(|way| folder.join(way.file).is_file())?;
    Some((folder.to_owned(), *way))
}

/// Returns the names of the files that were looked for.
fn files(ways: &[Way]) -> String {
    ways.iter().map(|way| way.file).collect::<Vec<_>>().join(" or ")
}
