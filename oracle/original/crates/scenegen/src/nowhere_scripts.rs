//! Scripts about document 02's detectors facing nowhere: small scenes whose detectors have extreme poses, lists of calls,
//! batches whole and in parts, and limits: parts that are not finite, lengths at 1e-15 and at the largest double, the
//! order of 18 among other reasons to refuse, in every call that checks detectors.
use super::book::Face;
use super::calls::Source;
use super::edges::{again, all, face_at, lit, others, ready, Fault, FAULTS};
use super::limits::{facing, hit};
use super::nowhere::{extreme, LONGEST};
use super::plans::plan;
use super::script::Script;
use super::scripts::About;
use super::stage::{Plan, Stage};
use super::*;

const SCENES: usize = 18;
const LISTS: usize = 32;

const NAN: f64 = f64::NAN;
const INF: f64 = f64::INFINITY;
const PARTS: [&str; 9] = ["cx", "cy", "cz", "nx", "ny", "nz", "ux", "uy", "uz"];

type Three = [f64; 3];

// ---- one detector of two

/// A detector of the lit scene, with three parts from value k on become others.
fn with_parts(d: usize, k: usize, v: Three) -> Face {
    let mut f = lit().faces[d].clone();
    f.values[k..k + 3].copy_from_slice(&v);
    f
}

/// The same with one part become another.
fn with_part(d: usize, k: usize, x: f64) -> Face {
    let mut f = lit().faces[d].clone();
    f.values[k] = x;
    f
}

/// Makes detector d of the lists that one.
fn put(st: &mut Stage, d: usize, f: &Face) {
    let (mut values, mut tags) = (st.lists.detector_values.clone(), st.lists.detector_tags.clone());
    values[11 * d..11 * d + 11].copy_from_slice(&f.values);
    tags[2 * d..2 * d + 2].copy_from_slice(&f.tags);
    st.change("detector_values", &values);
    st.change_wholes("detector_tags", &tags);
}

/// Such detectors and one ray.
fn short(faces: &[Face]) -> Plan {
    Plan { faces: faces.to_vec(), solids: Vec::new(), beams: lit().beams[..1].to_vec(), ..lit() }
}

/// Their text, and its answer.
fn answered(st: &mut Stage, faces: &[Face]) {
    st.text(&short(faces).text());
    let n = st.map_text().unwrap().len();
    st.map(n);
}

/// Every call that checks detectors: of detector d alone, of all, with the memory, and of a text.
fn asked(st: &mut Stage, d: usize) {
    let (f, n, before) = (st.face(d), d as u32, st.memory.digest());
    st.make(&f);
    st.check(d);
    st.area(d);
    st.cross(d, [1.0, 0.5, 0.0, 0.0, 0.0, [1.0, -1.0][d], 500.0, 1.0]);
    st.check_all();
    st.part(n);
    st.irradiance(n, 1, 0);
    st.refilter(n, 4 * n, [4, 3][d]);
    st.answer(2, 40);
    st.record(&hit(1 - n, 0.5, 0.5, 0.25));
    st.trace_lent([84, 8, 24, 30], 3);
    assert!(st.trace(0, 3) && (st.last.is_ok() || st.memory.digest() == before), "a refused call changes the memory");
    st.memory();
    let faces = st.dets().there().to_vec();
    answered(st, &faces);
}

/// All that with detector d become another, in a memory with hits, and set back behind it.
fn tried(st: &mut Stage, d: usize, f: &Face) {
    again(st);
    put(st, d, f);
    asked(st, d);
    put(st, d, &lit().faces[d]);
}

fn tries(name: &str, trials: &[(usize, Face)]) -> Stage {
    let mut st = ready(name, &lit(), 30);
    for (d, f) in trials { tried(&mut st, *d, f); }
    st.note("and on with the detectors as they were");
    all(&mut st);
    st.record(&hit(1, 0.5, 0.5, 0.25));
    st.memory();
    st
}

/// Each part NaN and infinite, of the one detector or of the other.
fn not_finite() -> Vec<Stage> {
    PARTS.iter().enumerate().map(|(k, part)| {
        let trials = [(k % 2, NAN), (1 - k % 2, INF), (k % 2, -INF)].map(|(d, x)| (d, with_part(d, k, x)));
        tries(&format!("{part}_not_finite"), &trials)
    }).collect()
}

/// Parts of the centre that are finite, as large and as small as can be.
fn far_centres() -> Stage {
    let most = f64::MAX;
    let centres = [(0, [most, 0.0, 10.0]), (1, [0.0, -most, -6.0]), (0, [0.0, 0.0, 1e300]), (1, [most, -most, most]), (1, [-0.0, 5e-324, -6.0])];
    tries("centres_far_away", &centres.map(|(d, v)| (d, with_parts(d, 0, v))))
}

// ---- lengths

fn length(v: Three) -> f64 { Vec3::new(v[0], v[1], v[2]).norm() }

/// Parts in about this proportion whose length is just that: one of them is moved by some bits.
fn of_length(v: Three, wanted: f64) -> Three {
    let scaled = v.map(|x| x * wanted);
    let moved = |k: usize, by: i64| { let mut w = scaled; w[k] = f64::from_bits((w[k].to_bits() as i64 + by) as u64); w };
    let near = (0..3).filter(|&k| v[k] != 0.0).flat_map(|k| (-40..=40).map(move |by| (k, by)));
    near.map(|(k, by)| moved(k, by)).find(|&w| length(w) == wanted).unwrap()
}

fn reversed(v: Three) -> Three { [v[2], v[1], v[0]] }

/// Parts of about this length that are allowed in this order of the sum, and too short or too long in the other.
fn by_order(about: f64, is_length: fn(f64) -> bool) -> Three {
    let s = &mut Sm(18);
    loop {
        let (d, near) = (s.unit(), about * (1.0 + f64::EPSILON * (s.n(9) as f64 - 4.0)));
        let v = [d.x * near, d.y * near, d.z * near];
        if is_length(length(v)) && !is_length(length(reversed(v))) { return v; }
    }
}

/// An axis across these parts, or almost.
fn across(v: Three) -> Three {
    let k = (0..3).fold(0, |k, i| if v[i].abs() < v[k].abs() { i } else { k });
    let mut w = [0.0; 3];
    w[k] = 1.0;
    w
}

/// Each as the normal of the one detector and as the up of the other.
fn lengths(name: &str, vs: &[Three]) -> Vec<Stage> {
    let turned = |d: usize, normal: Three, up: Three| { let mut f = with_parts(d, 3, normal); f.values[6..9].copy_from_slice(&up); (d, f) };
    let normals: Vec<_> = vs.iter().map(|&v| turned(0, v, across(v))).collect();
    let ups: Vec<_> = vs.iter().map(|&v| turned(1, across(v), v)).collect();
    vec![tries(&format!("normals_{name}"), &normals), tries(&format!("ups_{name}"), &ups)]
}

const SLANTED: [Three; 3] = [[0.6, 0.8, 0.0], [2.0 / 3.0, 1.0 / 3.0, 2.0 / 3.0], [0.0, -0.28, 0.96]];

/// At 1e-15 and beside it, by one part and by several; one that the sum loses.
fn about_shortest() -> Vec<Stage> {
    let (at, above, below) = (1e-15, next(1e-15), previous(1e-15));
    let ordered = by_order(1e-15, |l| l > 1e-15);
    let mut all = lengths("of_no_length", &[[0.0; 3], [-0.0; 3], [0.0, -0.0, 0.0], [5e-324; 3], [0.0, 1e-163, 0.0], [1e-160, 0.0, -1e-160]]);
    all.extend(lengths("of_1e-15", &[[at, 0.0, 0.0], [0.0, 0.0, -at], of_length(SLANTED[0], at), of_length(SLANTED[1], at), [at, 1e-24, -1e-24]]));
    all.extend(lengths("just_longer", &[[0.0, above, 0.0], [0.0, 0.0, -above], of_length(SLANTED[1], above), of_length(SLANTED[2], above), ordered]));
    all.extend(lengths("just_shorter", &[[below, 0.0, 0.0], [0.0, 0.0, -below], of_length(SLANTED[2], below), [0.0, 1e-16, 1e-16], reversed(ordered)]));
    all
}

/// At the largest length and beside it, by one part and by several.
fn about_longest() -> Vec<Stage> {
    let ordered = by_order(LONGEST, |l| l.is_finite());
    let mut all = lengths("too_long", &[[0.0, 0.0, 1e200], [next(LONGEST), 0.0, 0.0], [0.0, -f64::MAX, 0.0], [1e154; 3], [0.0, 7.8e153, 1.1e154], reversed(ordered)]);
    all.extend(lengths("as_long_as_can_be", &[[LONGEST, 0.0, 0.0], [0.0, 0.0, previous(LONGEST)], of_length(SLANTED[1], LONGEST), [7.7e153; 3], [-LONGEST, 5e-324, 1e-300], ordered]));
    all
}

/// Up about 0.9999 along the normal, at any length that is allowed.
fn leaning() -> Stage {
    let mut st = ready("ups_almost_along_the_normal", &lit(), 30);
    let up = |share: f64, k: f64| [0.0, (1.0 - share * share).sqrt() * k, share * k];
    let edge = (0..200).map(|k| 0.9999 + 1e-16 * (k as f64 - 100.0)).collect::<Vec<f64>>();
    let beyond = |share: &f64| facing([0.0, 0.0, 1.0], up(*share, 1.0)).check(0).is_err();
    let first = edge.iter().position(beyond).unwrap();
    for share in [0.5, 0.9998, edge[first - 1], edge[first], 0.99991, 1.0, -edge[first - 1], -edge[first]] {
        for (long, k) in [(1.0, 1.0), (2e-15, 1e154), (LONGEST, 4e-15), (1e-15, 1.0), (1.0, 1e200)] {
            let f = facing([0.0, 0.0, long], up(share, k));
            put(&mut st, 0, &f);
            st.make(&f);
            st.cross(0, [1.0, 0.5, -1.0, 0.0, 0.0, 1.0, 500.0, 1.0]);
        }
    }
    st
}

// ---- order

/// Reasons of one detector: 5, 6 and 7 come before 18, and 18 before 8.
fn of_one() -> Stage {
    let mut st = ready("reasons_of_one_detector", &lit(), 20);
    all(&mut st);
    let (z, long) = ([0.0, 0.0, 1.0], [0.0, 0.0, 1e200]);
    let mut faces = vec![facing([0.0; 3], z), facing(z, [0.0; 3]), facing([0.0; 3], [0.0; 3]), facing(long, z), facing(z, long), facing(long, long)];
    faces.extend([facing([0.0, 0.0, 1e-16], z), facing([NAN; 3], [NAN; 3]), facing([0.0, 0.0, INF], [0.0, 0.0, INF]), facing(z, z)]);
    faces.push(Face { values: [NAN, 0.0, 0.0, 0.0, 0.0, 1.0, 0.0, 0.0, 1.0, 4.0, 2.0], tags: [1, 1] });
    for f in &faces {
        for (width, tags) in [(4.0, [2, 2]), (0.0, [2, 2]), (4.0, [0, 2]), (4.0, [2, 4097]), (NAN, [0, 4097]), (4.0, [0, 4097]), (-1.0, [2, 4097])] {
            let mut g = Face { tags, ..f.clone() };
            g.values[9] = width;
            st.make(&g);
        }
        put(&mut st, 0, f);
        st.check_all();
        st.trace(0, 3);
    }
    st.memory();
    st
}

/// A good detector, and one for each reason.
fn for_each_reason() -> [Face; 6] {
    let good = face_at(10.0, 1, 1);
    let with = |f: &dyn Fn(&mut Face)| { let mut g = good.clone(); f(&mut g); g };
    [
        good.clone(), with(&|g| g.values[10] = INF), with(&|g| g.tags[0] = 0), with(&|g| g.tags[1] = 4097),
        with(&|g| g.values[5] = 0.0), with(&|g| g.values[6..9].copy_from_slice(&[0.0, 0.0, -2.0])),
    ]
}

/// Two detectors, each for any reason: the first that is refused is told.
fn of_two() -> Stage {
    let mut st = ready("reasons_of_two_detectors", &lit(), 20);
    all(&mut st);
    for a in for_each_reason() {
        put(&mut st, 0, &a);
        for b in for_each_reason() {
            put(&mut st, 1, &b);
            st.check_all();
            st.part(0);
            st.trace(0, 3);
            st.answer(0, 40);
            if [&a, &b].iter().any(|f| f.check(0) == Err((18, 0))) { answered(&mut st, &[a.clone(), b]); }
        }
        st.memory();
    }
    st
}

/// Any detector of eight, the last one that is said to be there, and those behind it.
fn of_eight() -> Stage {
    let good: Vec<Face> = (0..8).map(|k| face_at(10.0 + k as f64, 1, 1)).collect();
    let bad = |d: usize| { let mut f = good[d].clone(); f.values[3 + d % 6] = [NAN, INF, -INF][d % 3]; f };
    let mut st = ready("one_of_eight", &Plan { faces: good.clone(), ..lit() }, 20);
    for d in (0..8).rev() {
        again(&mut st);
        put(&mut st, d, &bad(d));
        st.check_all();
        st.part(0);
        st.trace(0, 3);
        st.memory();
        let faces: Vec<Face> = (0..8).map(|k| if k == d { bad(d) } else { good[k].clone() }).collect();
        answered(&mut st, &faces);
        st.note("not said to be there");
        st.say_detectors(d as u32);
        st.lend(d, d, 40, 40);
        st.empty();
        st.check_all();
        st.trace(0, 3);
        st.memory();
        st.answer(0, 60);
        st.say_detectors(8);
        st.lend(8, 8, 80, 80);
        put(&mut st, d, &good[d]);
    }
    st
}

/// What comes behind 18: a full list and count, and what only a run refuses.
const LATER: [Fault; 5] = [
    Fault::Used(20), Fault::Whole("counts", 0, u32::MAX), Fault::Double("ray_values", 6, 0.0), Fault::Double("solid_values", 4, 0.5), Fault::Double("solid_values", 4, 1e200),
];

/// 18 of the first or the second detector beside every other reason to refuse a tracing.
fn beside_others() -> Vec<Stage> {
    let nowhere = [("normal_0", Fault::Double("detector_values", 5, 0.0)), ("up_nan", Fault::Double("detector_values", 18, NAN)), ("centre_infinite", Fault::Double("detector_values", 13, -INF))];
    nowhere.iter().map(|(name, a)| {
        let mut st = ready(&format!("{name}_and_other_reasons"), &lit(), 20);
        all(&mut st);
        let undo = a.make(&mut st);
        all(&mut st);
        for b in FAULTS.iter().chain(&LATER) {
            let back = b.make(&mut st);
            assert!(st.trace(0, 3));
            others(&mut st);
            back.make(&mut st);
        }
        st.note("a filter and lists that are none, before 18");
        st.refilter(0, 5, 4);
        st.answer(u32::MAX, 40);
        st.trace_lent([83, 8, 24, 30], 3);
        st.trace_lent([84, 8, 24, 30], 4);
        st.cross(0, [NAN; 8]);
        st.cross(1, [NAN; 8]);
        undo.make(&mut st);
        all(&mut st);
        st
    }).collect()
}

// ---- texts

/// A detector, a field of its line, and what that becomes.
const WORDS: [(usize, usize, &str); 16] = [
    (0, 0, "7ff"), (1, 1, "fff"), (0, 2, "7ff8"), (1, 3, "fff8"), (0, 4, "7ff0000000000001"), (1, 5, "ffffffffffffffff"), (0, 5, "8"), (1, 8, "7fefffffffffffff"),
    (0, 2, "7fefffffffffffff"), (1, 7, "0000000000000001"), (0, 7, "7f"), (1, 0, "g"), (0, 5, "0"), (1, 5, "00"), (0, 5, "00000000000000000"), (0, 5, "0"),
];

/// Words of a text that are no finite doubles, or the smallest and largest: any NaN, and what is no word before 18.
fn words() -> Stage {
    let mut st = Stage::new("words_of_detectors_facing_nowhere");
    let text = short(&lit().faces).text();
    let line = text.lines().position(|l| l.starts_with("cx ")).unwrap() + 1;
    for (d, field, word) in WORDS {
        let mut lines: Vec<String> = text.lines().map(str::to_string).collect();
        let words = lines[line + d].split(' ').enumerate().map(|(k, w)| if k == field { word } else { w });
        lines[line + d] = words.collect::<Vec<_>>().join(" ");
        st.text(&(lines.join("\n") + "\n"));
        st.read();
        st.check_all();
        let n = st.map_text().unwrap().len();
        st.map(n);
    }
    let n = st.map_text().unwrap().len();
    for room in [n - 1, n + 1, 0] { st.map(room); }
    st.note("17 before 18");
    st.cut(st.text_length() - 1);
    st.read();
    st.map(n);
    for (place, room) in [(0, 19), (7, 19), (7, 18), (u32::MAX, 40)] { st.refusal(18, place, room); }
    st
}

// ---- all

/// A scene with extreme poses.
fn extreme_plan(s: &mut Sm, style: usize) -> Plan {
    let mut p = plan(s, style);
    for f in &mut p.faces {
        if s.chance(0.7) { *f = extreme(s, f); }
    }
    p
}

fn limits() -> Vec<Stage> {
    let mut out = not_finite();
    out.push(far_centres());
    out.extend(about_shortest());
    out.extend(about_longest());
    out.extend([leaning(), of_one(), of_two(), of_eight()]);
    out.extend(beside_others());
    out.push(words());
    out
}

const ABOUT: About = About {
    what: "extreme poses",
    kind: &scenes::NOWHERE,
    scenes: SCENES,
    least: &[("detectors facing nowhere", 2), ("hits by short normals or ups", 3), ("hits by long normals or ups", 3), ("hits by ups almost along the normal", 3), ("hits by lengths at a limit", 1)],
    source: Source { name: "nowhere_", plan: extreme_plan, refusals: &[18, 5, 18, 7, 18, 8, 18, 9, 18, 17, 18, 12, 18, 3, 18, 6, 18, 4] },
    lists: LISTS,
};

pub fn scripts(seed: u64) -> (Vec<Script>, String) {
    ABOUT.scripts(&mut Sm(seed.wrapping_add(4)), &limits())
}
