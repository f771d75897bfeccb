//! Scripts about document 02's closed cylinder: small scenes, lists of calls, batches whole and in parts, and limits:
//! the numbers of shapes, ends that fall together, rims, odd sizes, short ways to an end.
use super::calls::{Source, NUMBERS};
use super::edges::{again, all, beam, face_at, moved, ready, with};
use super::plans::closed_plan;
use super::script::Script;
use super::scripts::About;
use super::stage::{Beam, Plan, Stage};
use super::*;

const SCENES: usize = 72;
const LISTS: usize = 60;

fn can(x: f64, z: f64, n: f64, finish: SurfaceFinish) -> NonSeqObject {
    obj(PrimitiveGeometry::ClosedCylinder { radius: 2.0, half_length: 1.0 }, moved(x, z), OpticalMedium::Constant { n }, finish)
}

/// A clear one between two detectors, an absorber beside it, and rays both ways.
fn lit() -> Plan {
    let mut p = Plan::new(vec![face_at(10.0, 2, 2), face_at(-6.0, 3, 1)]);
    p.threshold = 1e-3;
    p.solids = vec![can(0.0, 4.0, 1.5, SurfaceFinish::Specular), can(6.0, 4.0, 1.5, SurfaceFinish::Absorber)];
    p.beams = vec![beam(1.0, 1.0, 0.0, 1.0, 1.0), beam(-1.0, 1.0, 0.0, 1.0, 0.5), beam(1.0, -1.0, 8.0, -1.0, 0.25), beam(6.0, 1.0, 0.0, 1.0, 0.75)];
    p
}

// ---- limits

/// Numbers of shapes in a text: up to 5, and what is refused at its line.
fn numbers_in_texts() -> Stage {
    let text = lit().text();
    let mut st = Stage::new("shape_numbers_in_texts");
    st.scene(&lit());
    for (line, word) in [(3, "5"), (3, "6"), (4, "6"), (3, "7"), (4, "9"), (3, "05"), (4, "10"), (4, "4294967295"), (3, "4294967295"), (3, "4294967296"), (4, "3"), (4, "-"), (3, "4")] {
        let mut lines: Vec<String> = text.lines().map(str::to_string).collect();
        lines[line] = format!("{word}{}", &lines[line][1..]);
        st.text(&(lines.join("\n") + "\n"));
        st.read();
        let n = st.map_text().unwrap().len();
        st.map(n);
    }
    st
}

/// Numbers of shapes in lists: up to 5, and what is refused at the solid's place, before all but the ambient medium.
fn numbers_in_lists() -> Stage {
    let mut st = ready("shape_numbers_in_lists", &lit(), 20);
    all(&mut st);
    for (k, n) in [(0, 6), (1, 6), (1, 5), (0, u32::MAX), (1, u32::MAX), (0, 4), (0, 3), (1, 0), (1, 9)] {
        let old = st.set_whole("solid_tags", 4 * k, n);
        again(&mut st);
        st.trace_lent([84, 8, 32, 40], 4);
        st.trace(0, 0);
        st.set_whole("solid_tags", 4 * k, old);
    }
    st.note("of two the first, and one that is not active too");
    for i in [0, 4] { st.set_whole("solid_tags", i, 6); }
    all(&mut st);
    st.set_whole("solid_tags", 0, 5);
    st.set_whole("solid_tags", 5, 0);
    all(&mut st);
    st.note("before the threshold, not before the ambient medium; a solid that is not said to be there");
    st.set("run_values", 0, -1.0);
    all(&mut st);
    st.set_whole("run_tags", 2, 4);
    all(&mut st);
    st.set_whole("run_tags", 2, 0);
    st.set("run_values", 0, 1e-3);
    st.say_solids(1);
    st.trace(0, 4);
    st.memory();
    st
}

/// A half length of 0: of two ends that are equally far the lower one is met, which a ray from above leaves by.
fn thin() -> Stage {
    let mut st = ready("ends_that_fall_together", &lit(), 40);
    for q in [0.0, -0.0, 1e-300, 5e-324, 1e-9, -1.0] { with(&mut st, "solid_values", 1, q); }
    st.note("and as a medium of the rays");
    for i in 0..3 { st.set_whole("ray_tags", 10 * i + 1, 1); }
    for q in [0.0, -0.0, 1.0] { with(&mut st, "solid_values", 1, q); }
    st
}

/// A size of the clear one, or both, that is no length.
fn odd_sizes() -> Stage {
    let mut st = ready("odd_sizes_of_closed_cylinders", &lit(), 40);
    for x in [0.0, -0.0, -1.0, -2.0, f64::NAN, f64::INFINITY, f64::NEG_INFINITY, 1e200, 5e-324] {
        for i in 0..3 { with(&mut st, "solid_values", i, x); }
        let old = st.set("solid_values", 0, x);
        with(&mut st, "solid_values", 1, x);
        st.set("solid_values", 0, old);
    }
    st
}

fn slanted(x: f64, z: f64, d: [f64; 3], media: &[u32]) -> Beam {
    Beam { values: [x, 0.0, z, d[0], d[1], d[2], 500.0, 1.0], bounce: 0, media: media.to_vec() }
}

/// Rays at the rims from outside and from inside, past them and along the side, on mirrors, glass and absorbers.
fn rims() -> Stage {
    let mut p = lit();
    p.solids[1].is_active = false;
    let (up, down) = ([0.6, 0.0, 0.8], [0.6, 0.0, -0.8]);
    p.beams = vec![
        slanted(-5.0, -1.0, up, &[]), slanted(-5.0, 9.0, down, &[]), slanted(-1.0, -1.0, up, &[]), slanted(0.5, 3.0, up, &[0]),
        slanted(0.5, 5.0, down, &[0]), slanted(2.0, 0.0, [0.0, 0.0, 1.0], &[]), slanted(2.0, 4.0, [0.0, 1.0, 0.0], &[0]), slanted(-5.0, 5.0, [1.0, 0.0, 0.0], &[]),
    ];
    let mut st = ready("rims", &p, 80);
    for finish in [0, 1, 2] {
        st.set_whole("solid_tags", 2, finish);
        with(&mut st, "solid_values", 3, 0.75);
        for i in 0..p.beams.len() { st.trace(i, 1); }
        st.memory();
    }
    st
}

/// An end about 1e-9 and 1e-8 before a ray, from both sides, and z directions about 1e-12 beside it.
fn near_ends() -> Stage {
    let next = |x: f64| f64::from_bits(x.to_bits() + 1);
    let mut p = lit();
    p.solids[0].transform = moved(0.0, 0.0);
    p.beams = vec![beam(1.0, 0.0, 0.0, 1.0, 1.0)];
    let mut st = ready("ends_just_before_a_ray", &p, 40);
    for gap in [2e-8, next(1e-8), 1e-8, 5e-9, 2e-9, 1e-9, 0.0, -1e-8] {
        for z in [-1.0 - gap, 1.0 - gap] { with(&mut st, "ray_values", 2, z); }
    }
    st.note("almost across");
    st.set("ray_values", 3, 1.0);
    st.set("ray_values", 0, 0.0);
    for dz in [1e-12, next(1e-12), 9.999999999999999e-13, -1e-12, 0.0] {
        st.set("ray_values", 5, dz);
        for z in [1.0 - 5e-13, 1e-13 - 1.0] { with(&mut st, "ray_values", 2, z); }
    }
    st
}

// ---- all

const ABOUT: About = About {
    what: "closed cylinders",
    kind: &scenes::CLOSED,
    scenes: SCENES,
    least: &[("sides of closed cylinders", 20), ("ends of closed cylinders", 20), ("closed mirrors", 3), ("closed absorbers", 3)],
    source: Source { name: "closed_", plan: closed_plan, refusals: &NUMBERS },
    lists: LISTS,
};

pub fn scripts(seed: u64) -> (Vec<Script>, String) {
    let limits = [numbers_in_texts(), numbers_in_lists(), thin(), odd_sizes(), rims(), near_ends()];
    ABOUT.scripts(&mut Sm(seed.wrapping_add(2)), &limits)
}
