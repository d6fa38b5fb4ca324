//! Links libyinqocha.a from the folder that YINQOCHA_LIB names; where it names none, from that of
//! the installed package by pkg-config; where none is installed, from crates/yinqocha/out
//! of the repository. Without the feature `link` it links nothing.

use std::path::{Path, PathBuf};
use std::process::{Command, ExitCode};
use std::{env, str};

const ARCHIVE: &str = "libyinqocha.a";
/// What the choice of the folder depends on.
const VARIABLES: [&str; 4] =
    ["YINQOCHA_LIB", "PKG_CONFIG_PATH", "PKG_CONFIG_LIBDIR", "PKG_CONFIG_SYSROOT_DIR"];

fn main() -> ExitCode {
    println!("cargo:rerun-if-changed=build.rs");
    for variable in VARIABLES {
        println!("cargo:rerun-if-env-changed={variable}");
    }
    if env::var_os("CARGO_FEATURE_LINK").is_none() {
        return ExitCode::SUCCESS;
    }
    match folder() {
        Ok(folder) => {
            println!("cargo:rerun-if-changed={}", folder.join(ARCHIVE).display());
            println!("cargo:rustc-link-search=native={}", folder.display());
            println!("cargo:rustc-link-lib=static=yinqocha");
            ExitCode::SUCCESS
        }
        Err(message) => {
            eprintln!("yinqocha: {message}");
            ExitCode::FAILURE
        }
    }
}

/// The folder of the archive. One that is named and lacks it is an error: another archive than the
/// one that was asked for is never linked.
fn folder() -> Result<PathBuf, String> {
    if let Some(named) = env::var_os("YINQOCHA_LIB") {
        let folder = PathBuf::from(named);
        if folder.is_relative() {
            return Err(format!("YINQOCHA_LIB is not an absolute path: {}", folder.display()));
        }
        return holding(folder, "the folder that YINQOCHA_LIB names");
    }
    if let Some(folder) = installed() {
        return holding(folder, "the folder that pkg-config names");
    }
    let package = PathBuf::from(env::var_os("CARGO_MANIFEST_DIR").unwrap_or_default());
    let built = package.join("../../crates/yinqocha/out");
    holding(built, "crates/yinqocha/out of the repository").map_err(|message| {
        format!(
            "{message}\nMake it with 'rt lib' in crates/yinqocha, install yinqocha where \
             pkg-config finds it, or name its folder with YINQOCHA_LIB."
        )
    })
}

fn holding(folder: PathBuf, what: &str) -> Result<PathBuf, String> {
    if folder.join(ARCHIVE).is_file() {
        return Ok(folder);
    }
    Err(format!("there is no {ARCHIVE} in {what}, {}", folder.display()))
}

/// The folder of the installed library, if pkg-config is there and knows it.
fn installed() -> Option<PathBuf> {
    let said = Command::new("pkg-config").args(["--variable=libdir", "yinqocha"]).output().ok()?;
    let folder = str::from_utf8(&said.stdout).ok()?.trim();
    (said.status.success() && !folder.is_empty()).then(|| Path::new(folder).to_path_buf())
}
