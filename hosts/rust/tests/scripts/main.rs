//! Runs scripts of calls (crates/test_scripts/data/README.md) through the library for hosts: those of
//! crates/test_scripts/data, or of the folder that the environment names:
//!   NONSEQ_SCRIPTS=folder cargo test --test scripts
mod calls;
mod files;
mod lent;
mod safe;
mod set_up;
mod state;
mod strict;
mod tracing;
mod words;

use files::Run;
use std::io::Write;
use std::path::PathBuf;

/// What is reported and the last line, past the test's capture, so that a run that passes is seen too.
fn say(run: &Run) {
    let lines = run.reports.iter().fold(String::new(), |lines, report| lines + report + "\n");
    write!(std::io::stdout(), "\n{lines}{}\n", run.last_line()).expect("standard output");
}

/// Every line answers what is expected, and as many were compared as by the program of the gate.
#[test]
fn scripts() {
    let own = PathBuf::from(env!("CARGO_MANIFEST_DIR")).join("../../crates/test_scripts");
    let named = std::env::var_os("NONSEQ_SCRIPTS").map(PathBuf::from);
    let folder = named.clone().unwrap_or(own.join("data"));
    let run = Run::over(&|name| std::fs::read(folder.join(name)).ok());
    say(&run);
    assert!(run.reports.is_empty(), "{}", run.last_line());
    if named.is_none() {
        let told = std::fs::read_to_string(own.join("stdout")).expect("crates/test_scripts/stdout");
        assert_eq!(told.lines().last(), Some(&*run.last_line()));
    }
}
