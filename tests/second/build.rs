//! Links the archives that `rt lib` writes in crates/yinqocha and crates/inspect into the programs
//! that call them. YINQOCHA_ARCHIVES names another folder to take them from.

use std::{env, path::PathBuf};

/// The programs that call both libraries.
const SHEETS: [&str; 2] = ["sheets", "sheet_times"];
/// Those that call `yinqocha`, and with the feature `library` only.
const PLANS: [&str; 7] =
    ["plans", "plan_times", "best_times", "checks", "check_times", "light_days", "copies"];
/// Functions of which `copies` counts the calls: it has a function of its own for each.
const COUNTED: [&str; 2] = ["memcpy", "memmove"];

fn main() {
    println!("cargo:rerun-if-changed=build.rs");
    println!("cargo:rerun-if-env-changed=YINQOCHA_ARCHIVES");
    let package = PathBuf::from(env::var("CARGO_MANIFEST_DIR").expect("cargo sets it"));
    let named = env::var_os("YINQOCHA_ARCHIVES").map(PathBuf::from);
    let link = |library: &str, programs: &[&str]| {
        let made = || package.join("../../crates").join(library).join("out");
        let archive = named.clone().unwrap_or_else(made).join(format!("lib{library}.a"));
        println!("cargo:rerun-if-changed={}", archive.display());
        for program in programs {
            println!("cargo:rustc-link-arg-bin={program}={}", archive.display());
        }
    };
    link("yinqocha", &SHEETS);
    link("inspect", &SHEETS);
    if env::var_os("CARGO_FEATURE_LIBRARY").is_some() {
        link("yinqocha", &PLANS);
    }
    for function in COUNTED {
        println!("cargo:rustc-link-arg-bin=copies=-Wl,--wrap={function}");
    }
}
