//! Every script of crates/test_scripts/data: `scenegen scripts DIR SEED` writes the files of scripts and index.txt there,
//! the worked scenes to DIR/scenes, to DIR/stdout what a run prints in which nothing differs, and to DIR/table.md what
//! the small scenes, lists of calls, limits, closed cylinders, mirrors and detectors facing nowhere cover.
use super::calls::Source;
use super::script::Script;
use super::stage::{Stage, Tally};
use super::*;

/// The seed of the scripts that are stored, and the first seed of their random scenes under each filter.
const STORED: u64 = 20261117;
const STORED_SAMPLE: u64 = 30000;
/// A file is ended before it would have more bytes.
const FILE_BYTES: usize = 400_000;
/// The bytes that an answer is written to.
pub const ANSWER_BYTES: usize = 131_072;

/// What the scripts about one of document 02's additions are made of: so many small scenes of a kind, in which some
/// things must be met so often at least, and so many lists of calls on scenes from a source.
pub struct About {
    pub what: &'static str,
    pub kind: &'static scenes::Kind,
    pub scenes: usize,
    pub least: &'static [(&'static str, usize)],
    pub source: Source,
    pub lists: usize,
}

impl About {
    /// The scripts, with these about limits behind them, and tables of what they have.
    pub fn scripts(&self, s: &mut Sm, limits: &[Stage]) -> (Vec<Script>, String) {
        let (mut out, scenes) = scenes::of_kind(s, self.kind, self.scenes, usize::MAX);
        for &(what, least) in self.least {
            assert!(scenes.met(what) >= least, "{what}");
        }
        let (lists, split) = calls::lists(s, &self.source, self.lists);
        out.extend(lists.iter().chain(limits).map(Stage::script));
        let lists_table = Tally::of(&lists).table(&format!("lists of calls with {}", self.what), &lists) + &split.rows();
        let limits_table = Tally::of(limits).table(&format!("scripts about limits of {}", self.what), limits);
        (out, [scenes.table(&format!("scenes with {}", self.what)), lists_table, limits_table].join("\n"))
    }
}

/// Every list of scripts by the name of its files, and the table.
fn all(dir: &str, seed: u64) -> (Vec<(&'static str, Vec<Script>)>, String) {
    let (scenes, scenes_table) = scenes::scripts(seed);
    let (calls, calls_table) = calls::calls(seed);
    let (limits, limits_table) = limits::limits();
    let (closed, closed_table) = closed_scripts::scripts(seed);
    let (mirrors, mirrors_table) = mirror_scripts::scripts(seed);
    let (nowhere, nowhere_table) = nowhere_scripts::scripts(seed);
    let sample = STORED_SAMPLE.wrapping_add((seed ^ STORED).wrapping_mul(1000));
    let lists = vec![
        ("worked", worked::scripts(&format!("{dir}/scenes"))),
        ("scenes", scenes),
        ("sample", sample::scripts(sample)),
        ("calls", calls),
        ("limits", limits),
        ("closed", closed),
        ("mirrors", mirrors),
        ("nowhere", nowhere),
    ];
    (lists, [scenes_table, calls_table, limits_table, closed_table, mirrors_table, nowhere_table].join("\n"))
}

/// The files of one list as they are written.
struct Files<'a> {
    dir: &'a str,
    name: &'a str,
    number: usize,
    scripts: usize,
    text: String,
    index: &'a mut String,
}

impl Files<'_> {
    fn push(&mut self, script: &str) {
        if self.text.len() + script.len() > FILE_BYTES { self.end_file(); }
        self.text += script;
        self.scripts += 1;
    }

    fn end_file(&mut self) {
        if self.scripts == 0 { return; }
        assert!(self.text.len() <= 524_288, "a script of {} is too long for a file", self.name);
        self.number += 1;
        let file = format!("{}_{}.txt", self.name, self.number);
        let _ = writeln!(self.index, "{file} {}", self.scripts);
        std::fs::write(format!("{}/{file}", self.dir), std::mem::take(&mut self.text)).unwrap();
        self.scripts = 0;
    }
}

pub fn write(dir: &str, seed: u64) {
    let (lists, table) = all(dir, seed);
    let (mut index, mut scripts, mut lines) = (String::new(), 0, 0);
    for (name, list) in lists {
        let mut files = Files { dir, name, number: 0, scripts: 0, text: String::new(), index: &mut index };
        for s in list {
            let (text, compared) = s.ended();
            files.push(&text);
            scripts += 1;
            lines += compared;
        }
        files.end_file();
    }
    let put = |file: &str, text: String| std::fs::write(format!("{dir}/{file}"), text).unwrap();
    put("index.txt", index);
    put("stdout", format!("{scripts} scripts, {lines} lines compared, 0 differ\n"));
    put("table.md", table);
}
