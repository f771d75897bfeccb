//! The runner itself: a script that is well formed and answered rightly, and damaged ones, each of which is reported.
use crate::files::Run;
use crate::lent::Lent;

const SCENE: &str = include_str!("../../../../crates/straymap/stdin");
const ANSWER: &str = include_str!("../../../../crates/straymap/stdout");

/// Document 01's scene by every call: `scene` stands for the set-up of its text.
const WELL_FORMED: &str = "\
# a note

script first
scene
read = 0 0 0 1 1 ?
lend 4 4 8 8
pixel 3 = 400a 4
hit 1 = 408f64 408f6c 408f74 408f7c 5004 5005 5006 5007
empty
check 0 = 0 0
check_all = 0 0
area 0 = 0 0 3ed0c6f7a0b5ed8d
cross 0 3ff 3ff 0 0 0 3ff 40813 3ff = 0 0 1 4024 3ff 3ff
part 0 = 0 0 0 4
trace 0 1 = 0 0 1 3ff 3ff 0 0 0 1 1 0 0 0 1 0 0 0
hit 0 = 3ff 3ff 3ff 40813 0 0 0 0
answer 0 131072 = 0 0 204 ?
written answer.txt = 1
irradiance 0 1 1 = 0 0 410e848
refilter 0 1 4 = 0 0 3ff 1 ?
trace_lent 0 0 7 10 1 = 17 0 1 0 0 0 0 0 0 0 0 0 0 0 0 0 0
record 8 8 4 0 0 0 1 0 = 0 0 2
record 8 8 4 0 0 0 1 0 = 12 0 2
caught 0 = ? 2
pixel 3 = 4008 2
ratio 4 3ff 3ff 0 3ff = 3ff
refusal 17 4 64 = 19 ?
map 131072 = 204 ?
written answer.txt = 1
map 203 = 204 ?
written answer.txt = 0
byte 0 0
map 64 = 19 ?
cut 0
read = 17 1 0 0 0 cbf29ce484222325
new 0 0 0 0 0 3ff 0 3ff 0 401 401 2 2 = 0 0 ? ? ? ? ? ? ? ? ? 401 ? 2 2 0 0
set totals 0 fff8
caught 0 = nan 2
used 18446744073709551615
solids 4294967295
detectors 9
check_all = 3 0
end
script second
file scene.txt
read = 0 0 0 1 1 ?
memory = e9aeaeb4152b52fd
end
";

fn folder(name: &str, index: &str, scripts: &str) -> Option<Vec<u8>> {
    let text = match name {
        "index.txt" => index,
        "a.txt" => scripts,
        "scene.txt" => SCENE,
        "answer.txt" => ANSWER,
        _ => return None,
    };
    Some(text.into())
}

fn run(index: &str, scripts: &str) -> Run {
    Run::over(&|name| folder(name, index, scripts))
}

/// What is reported of a script with one line more, its third.
fn reports(line: &str) -> Vec<String> {
    run("a.txt 1\n", &format!("script a\nlend 4 4 8 8\n{line}\nend\n")).reports
}

/// Lines that a script can't have, and what is reported of each.
const DAMAGED: [(&str, &str); 52] = [
    ("trance 0 1 = 0 0", "no line with an answer begins with trance"),
    ("emtpy", "no line without an answer begins with emtpy"),
    ("Empty", "no line without an answer begins with Empty"),
    ("=", "no line with an answer begins with ="),
    ("= 0", "no line with an answer begins with ="),
    ("memory", "no line without an answer begins with memory"),
    ("trace 0 0", "no line without an answer begins with trace"),
    ("empty = 0", "no line with an answer begins with empty"),
    ("text 0 = 0", "no line with an answer begins with text"),
    ("used", "a word is missing"),
    ("used 1 2", "a word too many: 2"),
    ("used -1", "no whole number: -1"),
    ("used +1", "no whole number: +1"),
    ("used 01", "no whole number: 01"),
    ("used 1f", "no whole number: 1f"),
    ("used 18446744073709551616", "no whole number: 18446744073709551616"),
    ("used  1", "words are not parted by one space"),
    (" used 1", "words are not parted by one space"),
    ("used 1 ", "words are not parted by one space"),
    ("used 1\r", "no whole number: 1\r"),
    ("solids 4294967296", "not below 2^32: 4294967296"),
    ("lend 4 4 8", "a word is missing"),
    ("lend 4 4 8 8 8", "a word too many: 8"),
    ("lend 8201 4 8 8", "over 8200: 8201"),
    ("set flux 4 3ff", "not below 4: 4"),
    ("set flux 0 3FF", "no double: 3FF"),
    ("set flux 0 3ff00000000000000", "no double: 3ff00000000000000"),
    ("set flux 0 nan", "no double: nan"),
    ("set hits 0 4294967296", "not below 2^32: 4294967296"),
    ("set work 0 0", "no slice is called work"),
    ("set totals 8 0", "not below 8: 8"),
    ("set ray_values 32776 0", "not below 32776: 32776"),
    ("set ray_tags 40970 0", "not below 40970: 40970"),
    ("set solid_values 1386 0", "not below 1386: 1386"),
    ("byte 0 0", "not below 0: 0"),
    ("cut 1", "over 0: 1"),
    ("text 65538", "over 65537: 65538"),
    ("text 9", "the file ends before the text does"),
    ("text 1", "no newline behind the text"),
    ("file none.txt", "no file none.txt"),
    ("file scene.txt answer.txt", "a word too many: answer.txt"),
    ("check 8 = 0 0", "not below 8: 8"),
    ("area 0 1 = 0 0 0", "a word too many: 1"),
    ("pixel 4 = 0 0", "not below 4: 4"),
    ("hit 2 = 0", "not below 2: 2"),
    ("refilter 0 1 8201 = 0 0 0 0 0", "over 8200: 8201"),
    ("part 4294967296 = 4 0 0 0", "not below 2^32: 4294967296"),
    ("trace 4097 1 = 0", "over 0: 1"),
    ("trace_lent 1387 0 0 0 0 = 0", "over 1386: 1387"),
    ("answer 0 131073 = 0 0 0 0", "over 131072: 131073"),
    ("written none.txt = 0", "no file none.txt"),
    ("ratio 3ff 3ff 0 0 = 3ff", "a word is missing"),
];

/// Lines that are well formed, and answered otherwise than they say.
const DIFFERENT: [(&str, &str); 8] = [
    ("pixel 0 = 3fd 2", "expected 3fd 2, found 3fd 1"),
    ("pixel 0 = 3fd0 1", "expected 3fd0 1, found 3fd 1"),
    ("pixel 0 = nan 1", "expected nan 1, found 3fd 1"),
    ("pixel 0 = ? 01", "expected ? 01, found 3fd 1"),
    ("pixel 0 = ?", "expected ?, found 3fd 1"),
    ("pixel 0 = ? ? ?", "expected ? ? ?, found 3fd 1"),
    ("pixel 0 =", "expected , found 3fd 1"),
    ("pixel 0 = = 3fd 1", "expected = 3fd 1, found 3fd 1"),
];

/// An index, a file of scripts, and what is reported.
const BROKEN: [(&str, &str, &[&str]); 18] = [
    ("a.txt 1\n", "script a\nempty\n", &["a.txt:2: the file ends before the script does", "index.txt:1: a.txt is to have 1 scripts, and has 0", "index.txt:1: no scripts"]),
    ("a.txt 1\n", "script a\ntext 3\nend\n", &["a.txt:3: the file ends before the script does", "index.txt:1: a.txt is to have 1 scripts, and has 0", "index.txt:1: no scripts"]),
    ("a.txt 1\n", "script a\nend", &["a.txt:2: the last line has no newline", "a.txt:2: the file ends before the script does", "index.txt:1: a.txt is to have 1 scripts, and has 0", "index.txt:1: no scripts"]),
    ("a.txt 1\n", "script a\ntext 3\n#\n\n\nused\nend\n", &["a.txt:6: a word is missing"]),
    ("a.txt 1\n", "script a\nscript b\nend\n", &["a.txt:2: the script before has no end"]),
    ("a.txt 1\n", "script a\nend\nend\n", &["a.txt:3: no script has begun"]),
    ("a.txt 1\n", "end\nscript a\nend\n", &["a.txt:1: no script has begun"]),
    ("a.txt 1\n", "empty\nscript a\nend\n", &["a.txt:1: no script has begun"]),
    ("a.txt 1\n", "script\nend\n", &["a.txt:1: a script has one name"]),
    ("a.txt 1\n", "script a b\nend\n", &["a.txt:1: a script has one name"]),
    ("a.txt 1\n", "script a\nend 1\n", &["a.txt:2: a word too many behind end"]),
    ("a.txt 2\n", "script a\nend\n", &["index.txt:1: a.txt is to have 2 scripts, and has 1"]),
    ("a.txt 1\n", "script a\nend\nscript b\nend\n", &["index.txt:1: a.txt is to have 1 scripts, and has 2"]),
    ("#\na.txt 1\nb.txt 1\n", "script a\nend\n", &["index.txt:3: no file b.txt"]),
    ("a.txt 1\na.txt\na.txt 1 1\n", "script a\nend\n", &["index.txt:2: not a name and a number", "index.txt:3: not a name and a number"]),
    ("a.txt 1\na.txt -\n", "script a\nend\n", &["index.txt:2: no whole number: -"]),
    ("a.txt 1", "script a\nend\n", &["index.txt:1: the last line has no newline", "index.txt:1: no scripts"]),
    ("", "script a\nend\n", &["index.txt:0: no scripts"]),
];

#[test]
fn damaged_lines_are_reported() {
    for (line, report) in DAMAGED.iter().chain(&DIFFERENT) {
        assert_eq!(reports(line), [format!("a.txt:3: {report}")], "{line}");
    }
}

#[test]
fn damaged_files_are_reported() {
    for (index, scripts, expected) in BROKEN {
        assert_eq!(run(index, scripts).reports, *expected, "{scripts}");
    }
    let long = format!("script a\n#{}\nend\n", " ".repeat(524_288));
    assert_eq!(run("a.txt 1\n", &long).reports[0], "index.txt:1: a.txt has over 524288 bytes");
    let none = Run::over(&|_| None);
    assert_eq!(none.reports, ["index.txt:0: no such file"]);
    let not_text = Run::over(&|name| if name == "index.txt" { Some("a.txt 1\n".into()) } else { Some(b"script a\nused \xff\nend\n".to_vec()) });
    assert_eq!(not_text.reports, ["a.txt:2: a line that is no text"]);
}

/// A number written beside what is lent is seen, on either side, and one inside is not.
#[test]
fn guards_are_held() {
    for (place, whole) in [(-1, false), (0, true), (3, true), (4, false)] {
        let mut lent = Lent::made(4, |i| i as f64);
        // SAFETY: guards stand before and behind the four.
        unsafe { lent.at_mut().offset(place).write(9.0) };
        assert_eq!(lent.is_whole(), whole, "{place}");
        assert!(!lent.is_still(&[0.0, 1.0, 2.0, 3.0]));
    }
}

#[test]
fn a_script_well_formed() {
    let run = run("a.txt 2\n", &WELL_FORMED.replace("scene\nread", &format!("text {}\n{SCENE}\nread", SCENE.len())));
    assert_eq!(run.reports, [""; 0]);
    assert_eq!(run.last_line(), "2 scripts, 32 lines compared, 0 differ");
}
