//! Scripts about scene texts that are not well formed, and some that just are: bytes changed at every field of every
//! block, texts cut short, and fields of other words. What each comes to is the plain reader's.
use super::limits::grid;
use super::reader;
use super::stage::{Beam, Plan, Stage};
use super::*;

/// Two solids, two detectors, two rays; numbers of several digits where a digit may be spoilt.
fn plan() -> Plan {
    let mut p = Plan::new(vec![grid(12, 3), grid(20, 40)]);
    p.filter = "2";
    p.bounces = 10;
    p.ambient = OpticalMedium::Constant { n: 1.25 };
    let t = Transform3D { translation: Vec3::new(1.5, 0.0, 4.0), rotation_euler_deg: Vec3::zeros(), scale: Vec3::new(1.0, 1.0, 1.0) };
    let s = obj(PrimitiveGeometry::Sphere { radius: 1.5 }, t, OpticalMedium::Constant { n: 1.5 }, SurfaceFinish::Mirror { reflectance: 0.5 });
    p.solids = vec![s.clone(), s];
    let values = [0.5, 0.25, -5.0, 0.0, 0.0, 1.0, 500.0, 0.75];
    p.beams = vec![Beam { values, bounce: 12, media: vec![0, 1, 10] }, Beam { values, bounce: 0, media: Vec::new() }];
    p
}

fn whole() -> String {
    plan().text()
}

/// Where each line starts, and each field of it.
fn fields(text: &str) -> Vec<Vec<usize>> {
    let mut at = 0;
    text.split_inclusive('\n').map(|line| {
        let start = at;
        at += line.len();
        let behind = line.bytes().enumerate().filter(|b| b.1 == b' ').map(|b| start + b.0 + 1);
        std::iter::once(start).chain(behind).collect()
    }).collect()
}

/// Reads the text with byte i another, and puts the byte back.
fn try_byte(st: &mut Stage, i: usize, b: u8) {
    let old = st.byte(i, b);
    st.read();
    st.byte(i, old);
}

/// A script over the lines of a block, with the bytes that each field's first is to become.
fn spoilt(name: &str, lines: &[usize], bytes: &[u8]) -> Stage {
    let text = whole();
    let mut st = Stage::new(name);
    st.text(&text);
    for &line in lines {
        for (k, &i) in fields(&text)[line].iter().enumerate() {
            try_byte(&mut st, i, bytes[k % bytes.len()]);
            if k % 5 == 0 && i > 0 { try_byte(&mut st, i - 1, [b'\t', b',', b'\n', b' '][k / 5 % 4]); }
        }
    }
    st.read();
    st
}

/// Bytes at the ends of lines, in the names and in the commas of lists.
fn spoilt_elsewhere() -> Stage {
    let text = whole();
    let mut st = Stage::new("damaged_ends_and_commas");
    st.text(&text);
    for (i, b) in text.bytes().enumerate().filter(|b| b.1 == b'\n') {
        try_byte(&mut st, i, b' ');
        try_byte(&mut st, i - 1, if i % 2 == 0 { b'\r' } else { b + 22 });
    }
    for (k, i) in text.bytes().enumerate().filter(|b| b.1 == b',').map(|b| b.0).enumerate() {
        if k % 9 == 0 { try_byte(&mut st, i, [b' ', b'.', b'0', b'-'][k / 9 % 4]); }
    }
    for i in [0, 17, 40] {
        for b in [0, b' ', 255] { try_byte(&mut st, i, b); }
    }
    st.read();
    st
}

/// The text cut short at the end of each line, inside it, and to nothing.
fn cut_short() -> Stage {
    let text = whole();
    let mut st = Stage::new("cut_short");
    st.scene(&plan());
    st.read();
    for line in fields(&text).iter().rev() {
        let last = line[line.len() - 1];
        for n in [last + 1, line[0] + 1, line[0]] {
            st.cut(n);
            st.read();
            if n == line[0] { st.map(40); }
        }
    }
    st
}

const LINES: [&str; 8] = [
    "threshold bounces filter ambient a b c d e f", "0 4 - 0 0 0 0 0 0 0", "shape p q r active finish rho medium a b c d e f m w",
    "2 3ff 0 0 0 2 0 0 0 0 0 0 0 0 0,0,0,0,0,0,0,0,0,0,0,0,0,0,0,0 0,0,0,0,0,0,0,0,0,0,0,0,0,0,0,0",
    "cx cy cz nx ny nz ux uy uz width height resx resy", "0 0 4024 0 0 3ff 0 3ff 0 401 401 2 2", "ox oy oz dx dy dz nm power bounce media", "3ff 3ff 0 0 0 3ff 40813 3ff 0 -",
];

/// A field of a line that becomes another word.
const WORDS: [(usize, usize, &str); 56] = [
    (1, 0, ""), (1, 0, "0000000000000000"), (1, 0, "00000000000000000"), (1, 0, "FF"), (1, 0, "-1"), (1, 0, "0x1"), (1, 0, "7ff8000000000001"), (1, 0, "fff"),
    (1, 1, "4294967295"), (1, 1, "4294967296"), (1, 1, "04"), (1, 1, "00"), (1, 1, "99999999999"), (1, 1, "18446744073709551616"), (1, 1, "-"), (1, 1, "a"),
    (1, 2, "5"), (1, 2, "4"), (1, 2, "0"), (1, 2, "--"), (1, 2, "00"), (1, 3, "3"), (1, 3, "4"), (1, 9, "0 0"),
    (3, 0, "6"), (3, 0, "5"), (3, 4, "2"), (3, 4, "1"), (3, 5, "3"), (3, 7, "3"), (3, 7, "4"), (3, 6, "7ff8"),
    (3, 14, "0,0,0,0,0,0,0,0,0,0,0,0,0,0,0"), (3, 14, "0,0,0,0,0,0,0,0,0,0,0,0,0,0,0,0,0"), (3, 15, "0,0,0,0,0,0,0,0,0,0,0,0,0,0,0,"), (3, 15, "-"),
    (5, 11, "0"), (5, 11, "4294967295"), (5, 12, "4294967296"), (5, 12, "02"), (5, 10, "g"), (5, 0, "8"),
    (7, 9, "0"), (7, 9, "0,1,2,3,4,5,6,7"), (7, 9, "0,1,2,3,4,5,6,7,8"), (7, 9, "4294967295,4294967295"), (7, 9, "4294967296"), (7, 9, "0,"), (7, 9, ",0"), (7, 9, "-,0"),
    (7, 9, "01"), (7, 9, ""), (7, 8, "4294967295"), (7, 8, "4294967296"), (7, 0, "3FF"), (7, 7, "bff"),
];

/// Document 01's scene with such a word, and with lines doubled, left out or put elsewhere.
fn other_words() -> Vec<Stage> {
    let mut st = Stage::new("other_words");
    for (line, field, word) in WORDS {
        let mut words: Vec<&str> = LINES[line].split(' ').collect();
        words[field] = word;
        let mut lines = LINES.map(str::to_string);
        lines[line] = words.join(" ");
        st.text(&(lines.join("\n") + "\n"));
        st.read();
    }
    vec![st, other_lines()]
}

fn other_lines() -> Stage {
    let mut st = Stage::new("other_lines");
    let texts = |st: &mut Stage, lines: &[&str], end: &str| { st.text(&(lines.join("\n") + end)); st.read(); st.map(40); };
    for k in 0..8 {
        let (mut twice, mut without, mut gap) = (LINES.to_vec(), LINES.to_vec(), LINES.to_vec());
        twice.insert(k, LINES[k]);
        without.remove(k);
        gap.insert(k, "");
        for lines in [twice, without, gap] { texts(&mut st, &lines, "\n"); }
    }
    let swapped = [LINES[0], LINES[1], LINES[4], LINES[5], LINES[2], LINES[3], LINES[6], LINES[7]];
    texts(&mut st, &swapped, "\n");
    for end in ["", "\r\n", "\n\n", " \n", "\n\0"] { texts(&mut st, &LINES, end); }
    st
}

pub fn stages() -> Vec<Stage> {
    let text = whole();
    assert!(reader::read(text.as_bytes()).is_ok());
    let mut all = vec![
        spoilt("damaged_names", &[0, 2, 5, 8], b"Xs c"),
        spoilt("damaged_run", &[1], b"g0-9Ax/ \nG"),
        spoilt("damaged_solids", &[3, 4], b"6gA-23: 4\t.,+x/z"),
        spoilt("damaged_detectors", &[6, 7], b"GxA -,.:\x7f\x80`0a"),
        spoilt("damaged_rays", &[9, 10], b"g A-\t,:;0x"),
        spoilt_elsewhere(),
        cut_short(),
    ];
    all.extend(other_words());
    all
}
