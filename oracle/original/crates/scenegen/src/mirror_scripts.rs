//! Scripts about document 02's dropped light: small scenes with mirrors at the threshold, lists of calls, batches whole
//! and in parts, and limits: what a mirror reflects at the threshold and beside it, odd reflectances, sums whose order
//! shows, drops behind and inside glass, rays that reach no mirror, refusals after drops.
use super::calls::{Source, NUMBERS};
use super::edges::{again, all, beam, face_at, moved, ready, screen, slab, with};
use super::plans::plan;
use super::script::Script;
use super::scripts::About;
use super::stage::{Beam, Plan, Stage};
use super::*;

const SCENES: usize = 40;
const LISTS: usize = 36;

fn mirror(reflectance: f64) -> SurfaceFinish { SurfaceFinish::Mirror { reflectance } }

/// A mirror across the light, half as wide as a screen.
fn half_screen(x: f64, z: f64, reflectance: f64) -> NonSeqObject {
    obj(PrimitiveGeometry::Plane { half_width: 2.0, half_height: 4.0 }, moved(x, z), OpticalMedium::Air, mirror(reflectance))
}

/// A mirror that halves, a detector on each side of it, and rays of which it reflects the threshold, more and less.
fn lit() -> Plan {
    let mut p = Plan::new(vec![face_at(10.0, 2, 2), face_at(-6.0, 3, 1)]);
    p.threshold = 0.5;
    p.solids = vec![screen(6.0, mirror(0.5))];
    p.beams = vec![beam(1.0, 1.0, 0.0, 1.0, 1.0), beam(-1.0, 1.0, 0.0, 1.0, 1.25), beam(1.0, -1.0, 0.0, 1.0, 0.75)];
    p
}

/// The ratio of the last report, and of the same with any other lost.
fn ratios(st: &mut Stage) {
    let powers = st.report.powers.map(Option::unwrap);
    for lost in [powers[4], 0.0, f64::NAN, f64::MAX, -1.0] { st.ratio([powers[0], powers[1], powers[2], powers[3], lost]); }
}

fn answers(st: &mut Stage) {
    for filter in 0..5 {
        if let Some(n) = st.answer_length(filter) { st.answer(filter, n); }
    }
}

// ---- at the threshold

fn thresholds() -> Stage {
    let mut st = ready("lost_at_the_threshold", &lit(), 20);
    all(&mut st);
    ratios(&mut st);
    for t in [next(0.5), previous(0.5), 0.375, previous(0.375), next(0.375), 0.625, next(0.625), 0.75, 1.0, previous(1.0), 1.25, 0.0, 5e-324, f64::MAX] {
        with(&mut st, "run_values", 0, t);
        answers(&mut st);
    }
    st.note("one ray, of about 1 watt");
    for power in [1.0, next(1.0), previous(1.0), next(next(1.0)), 0.5, next(0.5), 0.0, 2.0] {
        st.set("ray_values", 7, power);
        st.trace(0, 1);
    }
    st.memory();
    st
}

fn reflectances() -> Stage {
    let mut st = ready("lost_by_reflectances", &lit(), 20);
    let (nan, inf) = (f64::NAN, f64::INFINITY);
    for t in [0.5, 0.0, -0.0, 5e-324, 1e-3] {
        st.set("run_values", 0, t);
        for rho in [0.0, -0.0, -0.25, -inf, -5e-324, 5e-324, 1e-3, 0.5, next(0.5), previous(0.5), previous(1.0), 1.0, next(1.0), 1.5, inf, nan] {
            with(&mut st, "solid_values", 3, rho);
        }
    }
    st.note("NaN alone, and its texts");
    st.set("solid_values", 3, nan);
    again(&mut st);
    answers(&mut st);
    ratios(&mut st);
    st
}

/// Sums that are too large, and powers of the smallest kind.
fn extremes() -> Stage {
    let mut st = ready("lost_infinite_and_subnormal", &lit(), 20);
    for (t, powers) in [(8e307, [1.6e308, 1.6e308, 1.6e308]), (8e307, [1.6e308, 1.5e308, 1.7e308]), (5e-324, [1e-323, 1.5e-323, 2e-323]), (0.0, [5e-324, 1e-323, 5e-324])] {
        st.set("run_values", 0, t);
        for (i, power) in powers.into_iter().enumerate() { st.set("ray_values", 8 * i + 7, power); }
        for rho in [0.5, 0.25, 1.0] { with(&mut st, "solid_values", 3, rho); }
        again(&mut st);
        answers(&mut st);
        ratios(&mut st);
    }
    st
}

// ---- sums

/// A mirror that reflects 1 watt of 2, and one that reflects half of what can be added to 1: twice that can, once can't.
fn uneven() -> Plan {
    let mut p = lit();
    p.threshold = 1.0;
    p.solids = vec![half_screen(2.0, 6.0, 0.5), half_screen(-2.0, 6.0, f64::EPSILON / 4.0)];
    p.beams = [1.0, -1.0, -1.0, 1.0, -1.0, -1.0, -1.0, 1.0].map(|x| beam(x, 1.0, 0.0, 1.0, 2.0)).to_vec();
    p
}

/// Every run of some of the rays: the last of a batch is added first, and each tracing starts at 0.
fn order() -> Stage {
    let p = uneven();
    let mut st = ready("order_of_lost", &p, 20);
    let n = p.beams.len();
    for from in 0..n {
        for to in from + 1..=n { st.trace(from, to - from); }
    }
    st.trace(1, 3);
    let large_first = st.report.powers[4];
    st.trace(0, 3);
    assert!(large_first == Some(1.0) && st.report.powers[4] == Some(1.0 + f64::EPSILON));
    st.memory();
    st.note("in the other order of mirrors");
    st.set("solid_values", 3, f64::EPSILON / 4.0);
    st.set("solid_values", 45, 0.5);
    for from in 0..n { st.trace(from, n - from); }
    st.map(400);
    st
}

// ---- glass

/// A slab with mirrors before and behind it, which drop of every ray that comes off it.
fn between() -> Plan {
    let mut p = Plan::new(vec![face_at(12.0, 2, 2), face_at(-9.0, 2, 1)]);
    p.threshold = 1e-3;
    p.bounces = 8;
    p.solids = vec![slab(0.0, 4.0, 1.5), half_screen(2.0, 8.0, 1e-3), half_screen(2.0, -3.0, 0.01)];
    p.beams = vec![beam(1.0, 1.0, 0.0, 1.0, 1.0), beam(1.0, -1.0, 6.0, -1.0, 0.5), beam(-1.0, 1.0, 0.0, 1.0, 0.75), beam(2.0, 1.0, 4.0, 1.0, 0.25)];
    p.beams[3].media = vec![0];
    p
}

fn beside_glass() -> Stage {
    let mut st = ready("lost_beside_glass", &between(), 60);
    all(&mut st);
    for i in 0..4 { st.trace(i, 1); }
    for rho in [1e-17, 0.5, 0.0, 1.0, 1e-3, f64::NAN] {
        for k in [45, 87] { with(&mut st, "solid_values", k, rho); }
    }
    st.note("weak rays of the glass beside them, which are absorbed");
    for t in [0.0, 0.01, 0.03, 0.04, 0.25, 0.5, 0.75, 0.96, 0.99] { with(&mut st, "run_values", 0, t); }
    answers(&mut st);
    st
}

/// A mirror in a box of glass: from outside, from inside on both sides, and from inside outwards.
fn inside_glass() -> Stage {
    let mut p = between();
    let block = PrimitiveGeometry::Box { half_x: 4.0, half_y: 4.0, half_z: 3.0 };
    p.solids = vec![obj(block, moved(0.0, 4.0), OpticalMedium::Constant { n: 1.5 }, SurfaceFinish::Specular), half_screen(1.0, 4.0, 0.05)];
    let inside = |x: f64, z: f64, way: f64| Beam { media: vec![0], ..beam(x, 1.0, z, way, 1.0) };
    p.beams = vec![beam(1.0, 1.0, 0.0, 1.0, 1.0), beam(1.0, 1.0, 9.0, -1.0, 0.5), inside(1.0, 3.0, 1.0), inside(1.0, 5.0, -1.0), inside(1.0, 5.0, 1.0), beam(-2.0, 1.0, 0.0, 1.0, 1.0)];
    let mut st = ready("lost_inside_glass", &p, 60);
    all(&mut st);
    for i in 0..p.beams.len() { st.trace(i, 1); }
    for t in [0.05, 0.048, previous(0.05), 0.025, 0.0] { with(&mut st, "run_values", 0, t); }
    for rho in [0.0, 0.5, 1.0, 1e-16, f64::NAN] { with(&mut st, "solid_values", 45, rho); }
    st
}

/// Each shape as a mirror, from outside and from inside, with rays that are dropped at once or after some mirrors.
fn shapes() -> Stage {
    let mut p = lit();
    p.bounces = 6;
    p.threshold = 0.125;
    p.solids[0].transform = moved(0.0, 4.0);
    p.beams = vec![beam(0.5, 0.25, 0.0, 1.0, 1.0), beam(0.5, 0.25, 4.25, 1.0, 1.0), beam(0.25, 0.5, 9.0, -1.0, 0.25), beam(0.25, 0.5, 4.25, -1.0, 0.75)];
    p.beams[1].values[3..6].copy_from_slice(&[0.6, 0.0, 0.8]);
    let mut st = ready("lost_by_each_shape", &p, 60);
    for (k, x) in [(0, 1.0), (1, 1.0), (2, 1.0)] { st.set("solid_values", k, x); }
    for shape in 0..6 {
        st.set_whole("solid_tags", 0, shape);
        if shape == 1 { st.set("solid_values", 1, 0.25); }
        for rho in [0.5, 0.125, 0.75, 0.0] { with(&mut st, "solid_values", 3, rho); }
        st.set("solid_values", 1, 1.0);
    }
    st
}

// ---- rays that reach no mirror

fn not_reached() -> Stage {
    let mut st = ready("mirrors_not_reached", &lit(), 20);
    for n in [0, 1, 2] {
        st.set_whole("run_tags", 0, n);
        again(&mut st);
    }
    st.note("given bounces");
    for n in [1, 2, 3, u32::MAX] {
        st.set_whole("ray_tags", 0, n);
        again(&mut st);
    }
    st.note("dim rays");
    for power in [0.5, 0.0, 0.25, next(0.5)] { with(&mut st, "ray_values", 15, power); }
    st.note("a mirror that is not active, an absorber, glass in its place, a detector before it");
    for (k, n) in [(1, 0), (2, 2), (2, 0)] {
        let old = st.set_whole("solid_tags", k, n);
        again(&mut st);
        st.set_whole("solid_tags", k, old);
    }
    for z in [5.0, 6.0, 6.5] { with(&mut st, "detector_values", 2, z); }
    st
}

/// Two mirrors that face each other: a ray is dropped after some of them, or is spent before.
fn to_and_fro() -> Stage {
    let mut p = lit();
    p.threshold = 0.0625;
    p.solids.push(screen(-2.0, mirror(0.5)));
    let mut st = ready("lost_to_and_fro", &p, 20);
    for n in [0, 1, 2, 3, 4, 5, 16] {
        st.set_whole("run_tags", 0, n);
        again(&mut st);
    }
    for t in [0.125, previous(0.125), 1e-9, 0.0] { with(&mut st, "run_values", 0, t); }
    for rho in [1.0, 0.0, f64::NAN] { with(&mut st, "solid_values", 45, rho); }
    st
}

// ---- refusals

/// Full lists and counts, of hits that come at once, by a mirror, and after a ray of the same light was dropped.
fn full() -> Vec<Stage> {
    let (mut single, mut behind) = (lit(), between());
    single.beams.extend([beam(-1.0, -1.0, 0.0, -1.0, 1.0), beam(1.0, 1.0, 0.0, 1.0, 2.0)]);
    behind.solids.truncate(2);
    let all = [("lists_full_after_drops", single), ("lists_full_behind_glass", behind), ("lists_full_between_mirrors", between())];
    all.iter().map(|(name, p)| filled(name, p)).collect()
}

fn filled(name: &str, p: &Plan) -> Stage {
    let mut st = ready(name, p, 60);
    all(&mut st);
    let (n, pixels) = (st.memory.used as usize, st.memory.flux.len());
    for room in (0..n).rev() {
        st.lend(pixels, pixels, 4 * room, 4 * room);
        again(&mut st);
        answers(&mut st);
    }
    st.lend(pixels, pixels, 400, 400);
    for d in 0..2 {
        st.empty();
        st.set_whole("counts", d, u32::MAX - 1);
        all(&mut st);
    }
    st
}

/// A block that is narrow enough to have light beside it.
fn block(x: f64, z: f64, n: f64) -> NonSeqObject {
    let narrow = PrimitiveGeometry::Box { half_x: 1.0, half_y: 4.0, half_z: 0.5 };
    obj(narrow, moved(x, z), OpticalMedium::Constant { n }, SurfaceFinish::Specular)
}

/// The rays of a plan with one that meets a block of this index before and between them.
fn barred(mut p: Plan, n: f64, bad: Beam) -> Plan {
    p.wild = n > 2.0;
    p.solids.push(block(bad.values[0], -3.0, n));
    for i in [1, 0] { p.beams.insert(i, bad.clone()); }
    p
}

/// Rays that are refused by 15, 14, 16: at once, behind a mirror, behind glass.
fn refused() -> Vec<Stage> {
    let (down, up) = (beam(3.0, 0.5, 0.0, -1.0, 2.0), beam(3.0, 0.5, 0.0, 1.0, 2.0));
    let unseen = |mut b: Beam| { b.values[6] = 0.0; b };
    let inside = |z: f64, way: f64| Beam { media: vec![1], ..beam(3.0, 0.5, z, way, 2.0) };
    let mut leaves = barred(lit(), 1e200, inside(-3.25, 1.0));
    leaves.solids.push(half_screen(3.5, -3.0, 0.5));
    let mut glass = between();
    glass.solids[1].material.finish = mirror(5e-4);
    glass.solids.pop();
    let plans = [
        ("bad_index_after_drops", barred(lit(), 0.5, down.clone())), ("bad_index_behind_a_mirror", barred(lit(), 0.5, up.clone())),
        ("bad_wavelength_after_drops", barred(lit(), 1.5, unseen(down))), ("bad_wavelength_behind_a_mirror", barred(lit(), 1.5, unseen(up))),
        ("bad_direction_after_drops", barred(lit(), 1e200, inside(-3.0, -1.0))), ("bad_direction_behind_a_mirror", leaves),
        ("bad_index_behind_glass", barred(glass, 0.5, beam(1.0, 0.5, 0.0, 1.0, 2.0))),
    ];
    plans.iter().map(|(name, p)| in_runs(name, p)).collect()
}

/// Every run of some of the rays.
fn in_runs(name: &str, p: &Plan) -> Stage {
    let mut st = ready(name, p, 60);
    for from in 0..p.beams.len() {
        for to in from + 1..=p.beams.len() {
            st.empty();
            assert!(st.trace(from, to - from));
            st.memory();
        }
        answers(&mut st);
    }
    st
}

/// Refusals before the run leave a report of zeros, whatever the one before lost.
fn before_the_run() -> Stage {
    let mut st = ready("nothing_lost_before_the_run", &lit(), 20);
    for (slice, i, x) in [("run_values", 0, -1.0), ("detector_values", 9, 0.0), ("ray_values", 7, f64::NAN)] {
        all(&mut st);
        with(&mut st, slice, i, x);
        answers(&mut st);
    }
    for (slice, i, n) in [("run_tags", 2, 4), ("solid_tags", 0, 6), ("run_tags", 0, 17), ("ray_tags", 1, 9)] {
        all(&mut st);
        let old = st.set_whole(slice, i, n);
        all(&mut st);
        st.set_whole(slice, i, old);
    }
    st.trace(0, 0);
    answers(&mut st);
    st.trace_lent([42, 4, 24, 30], 3);
    st.trace_lent([42, 4, 24, 30], 2);
    st
}

// ---- parts and texts

/// A batch in any two parts, last part first, and again into the same memory: each report has what was lost in it alone.
fn parts() -> Stage {
    let mut p = uneven();
    p.threshold = 0.5;
    p.beams.extend(lit().beams);
    p.solids.push(screen(8.0, mirror(0.25)));
    let n = p.beams.len();
    let mut st = ready("lost_in_parts", &p, 80);
    all(&mut st);
    let whole = st.memory.digest();
    for cut in 0..=n {
        st.empty();
        for (from, rays) in [(cut, n - cut), (0, cut)] {
            st.trace(from, rays);
            if st.report.counts[0] > Some(0) { st.answer(cut as u32 % 5, 700); }
        }
        st.memory();
        assert!(st.memory.digest() == whole);
    }
    for _ in 0..2 { all(&mut st); }
    st
}

/// Rooms of just the length for texts with a long, a short, no lost, and NaN.
fn texts() -> Stage {
    let mut st = ready("texts_with_lost", &lit(), 20);
    for rho in [0.5, 1.0 / 3.0, 1.0, 0.0, f64::NAN, 0.1] {
        st.set("solid_values", 3, rho);
        again(&mut st);
        let n = st.answer_length(0).unwrap();
        for room in [n, n - 1, n + 1, 0] { st.answer(0, room); }
        let text = Plan { solids: vec![screen(6.0, mirror(rho))], ..lit() }.text();
        st.text(&text);
        let n = st.map_text().unwrap().len();
        for room in [n, n - 1, n + 1] { st.map(room); }
    }
    st
}

// ---- all

/// A mirror that half of the light meets, with what it reflects of a power of two often at the threshold.
fn half_met(s: &mut Sm) -> NonSeqObject {
    let plane = PrimitiveGeometry::Plane { half_width: 0.5, half_height: s.pick(&[0.5, 4.0]) };
    let reflectance = s.pick(&[0.5, 0.5, 0.5, 0.25, 0.25, 0.125, 0.1, 0.75, 0.0, f64::NAN]);
    obj(plane, moved(0.5, s.pick(&[-4.0, -2.0, 1.5, 7.0, 8.0])), OpticalMedium::Air, mirror(reflectance))
}

/// A scene with one or two such mirrors more, in which something is lost.
fn mirror_plan(s: &mut Sm, style: usize) -> Plan {
    loop {
        let mut p = plan(s, style.max(1));
        p.threshold = s.pick(&[0.5, 0.25, 0.125, 0.0625, 0.0]);
        for _ in 0..1 + s.n(2) { p.solids.push(half_met(s)); }
        let mut st = ready("", &p, 400);
        if st.trace(0, p.beams.len()) && st.report.powers[4].is_some_and(|lost| lost != 0.0) { return p; }
    }
}

fn limits() -> Vec<Stage> {
    let mut out = vec![thresholds(), reflectances(), extremes(), order(), beside_glass(), inside_glass(), shapes(), not_reached(), to_and_fro(), before_the_run(), parts(), texts()];
    out.extend(full());
    out.extend(refused());
    out
}

const ABOUT: About = About {
    what: "mirrors",
    kind: &scenes::MIRRORS,
    scenes: SCENES,
    least: &[("dropped rays", 30), ("mirrors at the threshold", 10), ("mirrors just above it", 2), ("mirrors just below it", 2)],
    source: Source { name: "mirrors_", plan: mirror_plan, refusals: &NUMBERS },
    lists: LISTS,
};

pub fn scripts(seed: u64) -> (Vec<Script>, String) {
    ABOUT.scripts(&mut Sm(seed.wrapping_add(3)), &limits())
}
