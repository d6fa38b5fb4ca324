//! The README shows the example as it is, and what it prints.

use std::{env, process::Command};

const README: &str = include_str!("../README.md");

/// The lines of the README's block of this language.
fn block(language: &str) -> Option<&'static str> {
    let (_, rest) = README.split_once(&format!("```{language}\n"))?;
    rest.split_once("```\n").map(|(block, _)| block)
}

#[test]
fn the_readme_shows_the_example() {
    assert_eq!(block("rust"), Some(include_str!("../examples/day.rs")));
}

/// Cargo builds the examples beside the folder of the tests.
#[test]
fn the_example_prints_what_the_readme_says() {
    let test = env::current_exe().expect("the test has a path");
    let folder = test.ancestors().nth(2).expect("the test is in deps");
    let said = Command::new(folder.join("examples/day")).output().expect("the example runs");
    assert!(said.status.success());
    assert_eq!(Some(String::from_utf8_lossy(&said.stdout).as_ref()), block("text"));
}
