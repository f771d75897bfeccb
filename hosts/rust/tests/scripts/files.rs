//! The index, the files of scripts and their lines. Whatever is not as it should be is reported, with file and line.
use crate::lent::hold;
use crate::state::{State, TEXT_ROOM};
use crate::words::{whole, Answer, Words};
use crate::{calls, set_up};

/// The most bytes of a file of scripts.
const FILE_ROOM: usize = 524_288;

/// A folder: the bytes of the file of a name, if there is one.
pub type Folder<'a> = &'a dyn Fn(&str) -> Option<Vec<u8>>;

/// What came of the scripts.
#[derive(Default)]
pub struct Run {
    pub scripts: u64,
    pub compared: u64,
    pub reports: Vec<String>,
}

/// The bytes of a file, read line by line.
struct Lines<'a> {
    bytes: &'a [u8],
    /// How many lines were read.
    line: usize,
}

impl<'a> Lines<'a> {
    fn new(bytes: &'a [u8]) -> Lines<'a> {
        Lines { bytes, line: 0 }
    }

    /// The next line that says something; none at the end.
    fn next(&mut self) -> Option<Result<&'a str, String>> {
        while !self.bytes.is_empty() {
            self.line += 1;
            let Some(end) = self.bytes.iter().position(|&b| b == b'\n') else {
                self.bytes = &[];
                return Some(Err("the last line has no newline".into()));
            };
            let line = &self.bytes[..end];
            self.bytes = &self.bytes[end + 1..];
            if !line.is_empty() && line[0] != b'#' {
                return Some(std::str::from_utf8(line).map_err(|_| "a line that is no text".into()));
            }
        }
        None
    }

    /// So many bytes, and the newline behind them.
    fn text(&mut self, many: usize) -> Result<&'a [u8], String> {
        hold(many < self.bytes.len(), "the file ends before the text does")?;
        let (text, rest) = self.bytes.split_at(many);
        hold(rest[0] == b'\n', "no newline behind the text")?;
        self.bytes = &rest[1..];
        self.line += 1 + text.iter().filter(|&&b| b == b'\n').count();
        Ok(text)
    }
}

fn split(line: &str) -> Result<Vec<&str>, String> {
    let words: Vec<&str> = line.split(' ').collect();
    hold(words.iter().all(|word| !word.is_empty()), "words are not parted by one space")?;
    Ok(words)
}

impl Run {
    pub fn over(folder: Folder) -> Run {
        let mut run = Run::default();
        let Some(bytes) = folder("index.txt") else {
            run.report("index.txt", 0, "no such file");
            return run;
        };
        let mut lines = Lines::new(&bytes);
        while let Some(line) = lines.next() {
            if let Err(why) = line.and_then(|line| run.listed(folder, line)) {
                run.report("index.txt", lines.line, &why);
            }
        }
        if run.scripts == 0 {
            run.report("index.txt", lines.line, "no scripts");
        }
        run
    }

    fn report(&mut self, file: &str, line: usize, why: &str) {
        self.reports.push(format!("{file}:{line}: {why}"));
    }

    /// A line of the index: a file's name and how many scripts it has.
    fn listed(&mut self, folder: Folder, line: &str) -> Result<(), String> {
        let words = split(line)?;
        hold(words.len() == 2, "not a name and a number")?;
        let (name, many, before) = (words[0], whole(words[1])?, self.scripts);
        let bytes = folder(name).ok_or(format!("no file {name}"))?;
        hold(bytes.len() <= FILE_ROOM, &format!("{name} has over {FILE_ROOM} bytes"))?;
        self.file(folder, name, &bytes);
        let found = self.scripts - before;
        hold(found == many, &format!("{name} is to have {many} scripts, and has {found}"))
    }

    fn file(&mut self, folder: Folder, name: &str, bytes: &[u8]) {
        let (mut lines, mut state) = (Lines::new(bytes), None);
        while let Some(line) = lines.next() {
            let at = lines.line;
            if let Err(why) = line.and_then(|line| self.line(folder, line, &mut lines, &mut state)) {
                self.report(name, at, &why);
            }
        }
        if state.is_some() {
            self.report(name, lines.line, "the file ends before the script does");
        }
    }

    fn line(&mut self, folder: Folder, line: &str, lines: &mut Lines, state: &mut Option<State>) -> Result<(), String> {
        let words = split(line)?;
        match (words[0], state.as_mut()) {
            ("script", before) => {
                let ended = before.is_none();
                *state = Some(State::new());
                hold(words.len() == 2, "a script has one name")?;
                hold(ended, "the script before has no end")
            }
            (_, None) => Err("no script has begun".into()),
            ("end", Some(_)) => {
                self.scripts += 1;
                *state = None;
                hold(words.len() == 1, "a word too many behind end")
            }
            (_, Some(state)) => self.obeyed(folder, &words, lines, state),
        }
    }

    /// A line of a script.
    fn obeyed(&mut self, folder: Folder, words: &[&str], lines: &mut Lines, state: &mut State) -> Result<(), String> {
        let verb = words[0];
        let Some(equals) = words.iter().position(|&word| word == "=") else {
            return laid_out(folder, verb, &mut Words::new(&words[1..]), lines, state);
        };
        let (given, expected) = (&words[1.min(equals)..equals], &words[equals + 1..]);
        let found = match verb {
            "written" => written(folder, &mut Words::new(given), state),
            _ => calls::make(verb, &mut Words::new(given), state),
        }?;
        self.compared += 1;
        hold(found.is(expected), &format!("expected {}, found {}", expected.join(" "), found.line()))?;
        found.otherwise.map_or(Ok(()), Err)
    }

    pub fn last_line(&self) -> String {
        format!("{} scripts, {} lines compared, {} differ", self.scripts, self.compared, self.reports.len())
    }
}

fn laid_out(folder: Folder, verb: &str, words: &mut Words, lines: &mut Lines, state: &mut State) -> Result<(), String> {
    match verb {
        "text" => {
            let many = words.at_most(TEXT_ROOM)?;
            words.end()?;
            state.text = lines.text(many)?.to_vec();
        }
        "file" => {
            let text = named(folder, words)?;
            hold(text.len() <= TEXT_ROOM, &format!("a text of over {TEXT_ROOM} bytes"))?;
            state.text = text;
        }
        _ => set_up::obey(verb, words, state)?,
    }
    Ok(())
}

fn named(folder: Folder, words: &mut Words) -> Result<Vec<u8>, String> {
    let name = words.word()?;
    words.end()?;
    folder(name).ok_or(format!("no file {name}"))
}

fn written(folder: Folder, words: &mut Words, state: &State) -> Result<Answer, String> {
    let bytes = named(folder, words)?;
    Ok(Answer::default().whole((bytes == state.written) as u32))
}
