//! Scripts about the limits of tracings and of the texts that calls write: each limit met and passed by one, two
//! reasons to refuse at once, refusals in the run, buffers of just the length.
use super::book::Face;
use super::limits::{grid, hit};
use super::reader;
use super::stage::{Beam, Plan, Stage};
use super::*;

pub fn moved(x: f64, z: f64) -> Transform3D {
    Transform3D { translation: Vec3::new(x, 0.0, z), rotation_euler_deg: Vec3::zeros(), scale: Vec3::new(1.0, 1.0, 1.0) }
}

pub fn slab(x: f64, z: f64, n: f64) -> NonSeqObject {
    obj(PrimitiveGeometry::Box { half_x: 4.0, half_y: 4.0, half_z: 0.5 }, moved(x, z), OpticalMedium::Constant { n }, SurfaceFinish::Specular)
}

pub fn face_at(z: f64, columns: u32, rows: u32) -> Face {
    let mut f = grid(columns, rows);
    f.values[2] = z;
    f.values[9..].copy_from_slice(&[8.0, 8.0]);
    f
}

pub fn beam(x: f64, y: f64, z: f64, way: f64, power: f64) -> Beam {
    Beam { values: [x, y, z, 0.0, 0.0, way, 500.0, power], bounce: 0, media: Vec::new() }
}

/// A slab between two detectors, another one beside them, and rays both ways.
pub fn lit() -> Plan {
    let mut p = Plan::new(vec![face_at(10.0, 2, 2), face_at(-6.0, 3, 1)]);
    p.threshold = 1e-3;
    p.solids = vec![slab(0.0, 4.0, 1.5), slab(20.0, 4.0, 2.0)];
    p.beams = vec![beam(1.0, 1.0, 0.0, 1.0, 1.0), beam(-1.0, 1.0, 0.0, 1.0, 0.5), beam(1.0, -1.0, 0.0, -1.0, 0.25)];
    p
}

/// A scene read, and an empty memory for it with room for so many hits.
pub fn ready(name: &str, p: &Plan, room: usize) -> Stage {
    let mut st = Stage::new(name);
    st.scene(p);
    st.read();
    let n = st.dets().pixels().min(4096);
    st.lend(n, n, 4 * room, 4 * room);
    st.empty();
    st
}

pub fn all(st: &mut Stage) {
    let n = st.rays as usize;
    assert!(st.trace(0, n));
    st.memory();
}

pub fn again(st: &mut Stage) {
    st.empty();
    all(st);
}

fn rules() -> Vec<Stage> {
    let mut st = ready("thresholds", &lit(), 20);
    for x in [1e-3, 0.0, -0.0, 5e-324, -5e-324, -1.0, f64::NAN, f64::INFINITY, f64::NEG_INFINITY, 0.5, f64::MAX] {
        st.set("run_values", 0, x);
        again(&mut st);
    }
    let mut limit = ready("bounce_limits", &lit(), 20);
    for n in [0, 1, 2, 16, 17, 18, u32::MAX] {
        limit.set_whole("run_tags", 0, n);
        again(&mut limit);
    }
    let mut bounced = ready("given_bounces", &lit(), 20);
    for n in [3, 4, 5, 16, 17, u32::MAX] {
        bounced.set_whole("ray_tags", 0, n);
        again(&mut bounced);
    }
    let mut ambient = ready("ambient", &lit(), 20);
    for n in [0, 1, 4, u32::MAX] {
        ambient.set_whole("run_tags", 2, n);
        again(&mut ambient);
    }
    vec![st, limit, bounced, ambient]
}

fn many_solids(n: usize) -> Plan {
    let mut p = lit();
    p.solids = (0..n).map(|k| slab(if k == 31 { 0.0 } else { 40.0 }, 4.0, 1.5)).collect();
    p.solids.iter_mut().for_each(|o| o.is_active = false);
    p.solids[n.min(32) - 1].is_active = true;
    p
}

fn lists() -> Vec<Stage> {
    let mut solids = ready("solids_33", &many_solids(33), 20);
    all(&mut solids);
    solids.say_solids(32);
    again(&mut solids);
    solids.map(60);
    let mut most = ready("solids_32", &many_solids(32), 20);
    all(&mut most);
    let eight: Vec<Face> = (0..8).map(|k| face_at(10.0 + k as f64, 1, 1)).collect();
    let mut faces = ready("detectors_8", &Plan { faces: eight.clone(), ..lit() }, 20);
    all(&mut faces);
    (0..8).for_each(|d| faces.caught(d));
    let mut p = Plan { faces: eight, ..lit() };
    p.faces.push(face_at(20.0, 1, 1));
    let mut nine = Stage::new("detectors_9");
    nine.scene(&p);
    nine.read();
    nine.lend(8, 8, 20, 20);
    nine.empty();
    all(&mut nine);
    nine.check_all();
    nine.record(&hit(0, 0.0, 0.0, 1.0));
    nine.map(60);
    vec![solids, most, faces, nine, fewer()]
}

/// Detectors and solids that stand in the lists, and are not said to be there.
fn fewer() -> Stage {
    let mut st = ready("fewer_said_than_listed", &lit(), 20);
    for (n, pixels) in [(2, 7), (1, 4), (0, 0)] {
        st.say_detectors(n);
        st.lend(pixels, pixels, 80, 80);
        again(&mut st);
        st.answer(0, 400);
        st.check_all();
    }
    st.say_detectors(1);
    st.lend(4, 4, 80, 80);
    for n in [1, 0] {
        st.say_solids(n);
        again(&mut st);
    }
    st
}

/// 10 and 11 at each place of a batch, and what lies just inside of them.
fn given_rays() -> Vec<Stage> {
    let mut st = ready("bad_rays", &lit(), 20);
    let (nan, inf) = (f64::NAN, f64::INFINITY);
    for (i, k, x) in [(0, 0, nan), (1, 2, inf), (2, 5, 1.0), (2, 5, -1.0000000006), (1, 5, 1.0000000004), (0, 6, -inf), (1, 7, -5e-324), (2, 7, -0.0)] {
        let old = st.set("ray_values", 8 * i + k, x);
        again(&mut st);
        st.set("ray_values", 8 * i + k, old);
    }
    let mut media = ready("media", &lit(), 20);
    for (i, n, at, solid) in [(1, 8, 9, 1), (1, 9, 9, 1), (2, 8, 9, 2), (0, 1, 2, u32::MAX), (2, 8, 2, 2), (2, u32::MAX, 2, 0), (0, 2, 4, 9)] {
        let old = [media.set_whole("ray_tags", 10 * i + 1, n), media.set_whole("ray_tags", 10 * i + at, solid)];
        again(&mut media);
        media.set_whole("ray_tags", 10 * i + 1, old[0]);
        media.set_whole("ray_tags", 10 * i + at, old[1]);
    }
    media.note("no solids, so that none is a medium");
    media.say_solids(0);
    again(&mut media);
    media.set_whole("ray_tags", 21, 1);
    again(&mut media);
    let mut p = lit();
    p.beams[1].media = vec![1; 8];
    p.beams[2].media = vec![0; 9];
    let mut nine = ready("media_of_a_text", &p, 20);
    all(&mut nine);
    nine.trace(0, 2);
    nine.memory();
    nine.map(40);
    vec![st, media, nine]
}

/// Lengths of flux, hits, values and tags for seven pixels and five hits, one short and one long, and hits used.
const LENGTHS: [([usize; 4], u64); 16] = [
    ([6, 7, 20, 20], 0), ([8, 7, 20, 20], 0), ([7, 6, 20, 20], 0), ([7, 8, 20, 20], 0), ([7, 7, 19, 20], 0), ([7, 7, 21, 20], 0),
    ([7, 7, 20, 19], 0), ([7, 7, 20, 21], 0), ([7, 7, 18, 18], 0), ([7, 7, 22, 20], 0), ([7, 7, 20, 22], 0), ([7, 7, 24, 20], 0),
    ([7, 7, 20, 20], 6), ([7, 7, 20, 20], u64::MAX), ([7, 7, 20, 20], 5), ([7, 7, 20, 20], 4),
];

fn lengths() -> Vec<Stage> {
    let mut st = ready("lengths_in_tracings", &lit(), 5);
    for (l, used) in LENGTHS {
        let [f, c, v, t] = l;
        st.lend(f, c, v, t);
        st.used(used);
        all(&mut st);
    }
    let right = [84, 8, 24, 30];
    let mut lent = ready("lists_of_other_lengths", &lit(), 20);
    lent.trace_lent(right, 3);
    for k in 0..4 {
        for by in [-1i64, 1] {
            let mut l = right;
            l[k] = (l[k] as i64 + by) as usize;
            lent.trace_lent(l, 3);
        }
    }
    for n in [0, 2, 4, u32::MAX] { lent.trace_lent(right, n); }
    for n in [0, 1, 3] {
        lent.say_solids(n);
        lent.trace_lent(right, 3);
    }
    lent.memory();
    vec![st, lent]
}

/// A whole number of each solid that is none.
fn solid_numbers() -> Vec<Stage> {
    let mut st = ready("numbers_of_solids", &lit(), 20);
    for k in 0..2 {
        for (t, n) in [(0, 6), (1, 2), (2, 3), (3, 4), (0, u32::MAX)] {
            let old = st.set_whole("solid_tags", 4 * k + t, n);
            all(&mut st);
            st.set_whole("solid_tags", 4 * k + t, old);
        }
    }
    st.note("the last of each");
    for (t, n) in [(0, 5), (1, 1), (2, 2), (3, 3)] { st.set_whole("solid_tags", 4 + t, n); }
    all(&mut st);
    vec![st]
}

/// A reason to refuse.
#[derive(Clone, Copy)]
pub enum Fault {
    Double(&'static str, usize, f64),
    Whole(&'static str, usize, u32),
    Detectors(u32),
    Used(u64),
}

impl Fault {
    /// Makes it, and answers what unmakes it.
    pub fn make(self, st: &mut Stage) -> Fault {
        match self {
            Fault::Double(slice, i, x) => Fault::Double(slice, i, st.set(slice, i, x)),
            Fault::Whole(slice, i, n) => Fault::Whole(slice, i, st.set_whole(slice, i, n)),
            Fault::Detectors(n) => { let old = st.said; st.say_detectors(n); Fault::Detectors(old) }
            Fault::Used(n) => { let old = st.memory.used; st.used(n); Fault::Used(old) }
        }
    }
}

/// In document 01's order, for the scene above.
pub const FAULTS: [Fault; 18] = [
    Fault::Whole("run_tags", 2, 4),
    Fault::Whole("solid_tags", 4, 6),
    Fault::Double("run_values", 0, -1.0),
    Fault::Whole("run_tags", 0, 17),
    Fault::Detectors(9),
    Fault::Double("detector_values", 9, 0.0),
    Fault::Whole("detector_tags", 0, 0),
    Fault::Whole("detector_tags", 1, 4097),
    Fault::Double("detector_values", 8, 1e9),
    Fault::Double("detector_values", 21, f64::NAN),
    Fault::Whole("detector_tags", 3, 0),
    Fault::Whole("detector_tags", 2, u32::MAX),
    Fault::Double("detector_values", 19, -1e9),
    Fault::Used(21),
    Fault::Double("ray_values", 7, -1.0),
    Fault::Whole("ray_tags", 1, 9),
    Fault::Double("ray_values", 16, f64::INFINITY),
    Fault::Whole("ray_tags", 21, 9),
];

/// Each two of them at once, made in both orders of the list.
fn orders() -> Vec<Stage> {
    let mut st = ready("orders_in_tracings", &lit(), 20);
    all(&mut st);
    for (i, a) in FAULTS.iter().enumerate() {
        let undo = a.make(&mut st);
        all(&mut st);
        for b in &FAULTS[i + 1..] {
            let back = b.make(&mut st);
            assert!(st.trace(0, 3));
            back.make(&mut st);
        }
        undo.make(&mut st);
    }
    all(&mut st);
    vec![st, orders_in_others()]
}

pub fn others(st: &mut Stage) {
    st.check_all();
    st.record(&hit(0, 0.0, 0.0, 1.5));
    st.refilter(1, 4, 3);
    st.irradiance(1, 0, 0);
    st.part(1);
    st.answer(1, 10);
    st.record(&hit(2, 0.0, 0.0, 1.5));
}

fn orders_in_others() -> Stage {
    let mut st = ready("orders_in_other_calls", &lit(), 20);
    for (i, a) in FAULTS[4..14].iter().enumerate() {
        let undo = a.make(&mut st);
        others(&mut st);
        for b in &FAULTS[5 + i..14] {
            let back = b.make(&mut st);
            others(&mut st);
            back.make(&mut st);
        }
        undo.make(&mut st);
        st.memory();
    }
    st
}

// ---- refusals in the run

fn full_lists() -> Vec<Stage> {
    let mut st = ready("hit_lists_that_fill_up", &lit(), 20);
    all(&mut st);
    let n = st.memory.used as usize;
    for room in (0..=n).rev() {
        st.lend(7, 7, 4 * room, 4 * room);
        again(&mut st);
    }
    st.lend(7, 7, 8, 8);
    st.empty();
    st.set_whole("counts", 1, u32::MAX);
    st.used(2);
    all(&mut st);
    vec![st]
}

fn full_counts() -> Vec<Stage> {
    let mut st = ready("counts_that_are_full", &lit(), 20);
    for most in [u32::MAX, u32::MAX - 1, u32::MAX - 2] {
        for (slice, n) in [("counts", 2), ("hits", 7)] {
            for i in 0..n {
                st.empty();
                st.set_whole(slice, i, most);
                all(&mut st);
            }
        }
    }
    vec![st]
}

/// With another number in the lists, into the empty memory.
pub fn with(st: &mut Stage, slice: &str, i: usize, x: f64) {
    let old = st.set(slice, i, x);
    again(st);
    st.set(slice, i, old);
}

fn bad_light() -> Vec<Stage> {
    let mut nm = ready("bad_wavelengths", &lit(), 20);
    for i in 0..3 {
        for x in [0.0, -0.0, -500.0, 5e-324] { with(&mut nm, "ray_values", 8 * i + 6, x); }
    }
    let mut index = ready("bad_indices", &lit(), 20);
    for n in [1.0, 0.5, 0.9999999999999999, 0.0, -1.5, f64::NAN, f64::INFINITY] { with(&mut index, "solid_values", 4, n); }
    vec![nm, index, bad_ambient()]
}

fn bad_ambient() -> Stage {
    let mut st = ready("bad_ambient", &Plan { ambient: OpticalMedium::Constant { n: 1.0 }, ..lit() }, 20);
    for n in [1.0, 0.5, f64::NAN] { with(&mut st, "run_values", 1, n); }
    st.note("14 before 15");
    st.set("ray_values", 14, 0.0);
    with(&mut st, "run_values", 1, 0.5);
    st.note("an absorber asks for no index");
    st.set_whole("solid_tags", 2, 2);
    with(&mut st, "run_values", 1, 0.5);
    st
}

/// A ray that leaves an index of 1e200 straight into air, at each place of a batch, and at other indices.
fn not_finite() -> Vec<Stage> {
    let inside = Beam { values: [20.0, 0.0, 4.0, 0.0, 0.0, 1.0, 500.0, 1.0], bounce: 0, media: vec![1] };
    (0..4).map(|at| {
        let mut p = Plan { wild: true, ..lit() };
        p.solids[1] = slab(20.0, 4.0, 1e200);
        p.beams.insert(at, inside.clone());
        let mut st = ready(&format!("ray_{at}_not_finite"), &p, 20);
        all(&mut st);
        for n in [1e160, f64::MAX, 1e100, 1.5] { with(&mut st, "solid_values", 46, n); }
        st
    }).collect()
}

// ---- ties, mirrors, short ways, media

pub fn screen(z: f64, finish: SurfaceFinish) -> NonSeqObject {
    obj(PrimitiveGeometry::Plane { half_width: 4.0, half_height: 4.0 }, moved(0.0, z), OpticalMedium::Air, finish)
}

/// Of what is equally far a solid comes before a detector, and the first listed of each.
fn ties() -> Vec<Stage> {
    let half = SurfaceFinish::Mirror { reflectance: 0.5 };
    let mut p = lit();
    p.solids = vec![screen(10.0, half.clone()), screen(10.0, SurfaceFinish::Absorber)];
    p.faces.insert(1, face_at(10.0, 1, 2));
    let mut st = ready("ties", &p, 20);
    all(&mut st);
    st.note("the absorber first, then neither");
    st.set_whole("solid_tags", 2, 2);
    again(&mut st);
    for k in [1, 5] { st.set_whole("solid_tags", k, 0); }
    again(&mut st);
    st.note("the second detector a little nearer");
    st.set("detector_values", 13, 10.0 - 1e-9);
    again(&mut st);
    let mut edge = ready("mirror_at_the_threshold", &Plan { threshold: 0.5, solids: vec![screen(6.0, half)], ..lit() }, 20);
    for power in [1.0, 1.0 + f64::EPSILON, 1.0 - f64::EPSILON, 0.5, 0.5 + f64::EPSILON] {
        edge.set("ray_values", 7, power);
        again(&mut edge);
    }
    vec![st, edge]
}

/// Reflectances beyond 0 and 1, and none.
fn reflectances() -> Vec<Stage> {
    let mut st = ready("reflectances", &Plan { solids: vec![screen(6.0, SurfaceFinish::Mirror { reflectance: 0.5 })], ..lit() }, 20);
    for rho in [1.5, 1.0, 0.0, -0.25, f64::NAN, f64::INFINITY, 5e-324] { with(&mut st, "solid_values", 3, rho); }
    vec![st]
}

/// A screen, then a detector, about 1e-8 before a ray's start.
fn nearest() -> Vec<Stage> {
    let next = |x: f64| f64::from_bits(x.to_bits() + 1);
    let mut p = lit();
    p.solids = vec![screen(0.0, SurfaceFinish::Absorber)];
    p.faces.insert(0, face_at(0.0, 1, 1));
    p.beams.truncate(1);
    let mut st = ready("just_before_a_ray", &p, 20);
    for active in [1, 0] {
        st.set_whole("solid_tags", 1, active);
        for z in [2e-8, next(1e-8), 1e-8, 5e-9, next(1e-9), 1e-9, 0.0, -1e-8] { with(&mut st, "ray_values", 2, -z); }
    }
    vec![st]
}

/// A box in a sphere, and a ray in both that leaves the box first, whichever it entered last.
fn nested() -> Vec<Stage> {
    let clear = |g: PrimitiveGeometry, n: f64| obj(g, moved(0.0, 0.0), OpticalMedium::Constant { n }, SurfaceFinish::Specular);
    let mut p = lit();
    p.solids = vec![clear(PrimitiveGeometry::Box { half_x: 1.0, half_y: 1.0, half_z: 1.0 }, 1.5), clear(PrimitiveGeometry::Sphere { radius: 3.0 }, 2.0)];
    let inside = |media: &[u32]| Beam { values: [0.0, 0.25, 0.0, 0.6, 0.0, 0.8, 500.0, 1.0], bounce: 0, media: media.to_vec() };
    let stacks: [&[u32]; 8] = [&[1, 0], &[0, 1], &[0, 1, 0], &[1, 0, 1], &[0], &[1], &[], &[0, 0, 1, 1, 0, 1, 0, 1]];
    p.beams = stacks.iter().map(|m| inside(m)).collect();
    let mut st = ready("nested_media", &p, 80);
    all(&mut st);
    for i in 0..p.beams.len() {
        st.trace(i, 1);
        st.memory();
    }
    vec![st]
}

/// A radicand of 0: a sphere that is just touched, and a box of index 1.25 left at a sine of 0.8.
fn radicands() -> Vec<Stage> {
    let mut p = lit();
    let clear = |g: PrimitiveGeometry, n: f64| obj(g, moved(0.0, 0.0), OpticalMedium::Constant { n }, SurfaceFinish::Specular);
    p.solids = vec![clear(PrimitiveGeometry::Sphere { radius: 1.0 }, 1.5), clear(PrimitiveGeometry::Box { half_x: 30.0, half_y: 4.0, half_z: 2.0 }, 1.25)];
    p.solids[1].transform.translation.x = 40.0;
    let way = |x: f64, z: f64, d: [f64; 3], media: &[u32]| Beam { values: [x, 0.0, z, d[0], d[1], d[2], 500.0, 1.0], bounce: 0, media: media.to_vec() };
    p.beams = vec![way(1.0, -5.0, [0.0, 0.0, 1.0], &[]), way(30.0, 0.0, [0.8, 0.0, 0.6], &[1]), way(1.0, -5.0, [0.0, 0.0, 1.0], &[0])];
    let mut st = ready("radicand_0", &p, 20);
    for i in 0..3 {
        assert!(st.trace(i, 1));
        st.memory();
    }
    vec![st]
}

// ---- texts that calls write

fn buffers() -> Vec<Stage> {
    let mut st = ready("buffers", &lit(), 20);
    all(&mut st);
    for filter in 0..5 {
        let n = st.answer_length(filter).unwrap();
        for room in [n, n - 1, n + 1, 0] { st.answer(filter, room); }
    }
    for filter in [5, u32::MAX] { st.answer(filter, 500); }
    let n = st.map_text().unwrap().len();
    for room in [n, n - 1, n + 1, 0, 131072] { st.map(room); }
    let mut no = Stage::new("buffers_of_refusals");
    for (number, place) in [(0, 0), (1, 0), (9, 0), (17, 65536), (12, 4095), (u32::MAX, u32::MAX), (10, 9)] {
        let n = format!("refusal place\n{number} {place}\n").len();
        for room in [n, n - 1, n + 1, 0, 64] { no.refusal(number, place, room); }
    }
    no.note("the text is empty");
    for room in [19, 18, 20] { no.map(room); }
    vec![st, no]
}

fn ratios() -> Vec<Stage> {
    let mut st = Stage::new("ratios");
    let (nan, inf) = (f64::NAN, f64::INFINITY);
    for launched in [0.0, -0.0, -1.0, 1.0, 3.0, nan, inf, 5e-324] { st.ratio([launched, 0.25, 0.5, 0.1, 0.0]); }
    for [a, b, c] in [[nan, 0.0, 0.0], [inf, -inf, 0.0], [1e308, 1e308, -1e308], [0.3, 0.3, 0.3], [0.1, 0.2, 0.3]] { st.ratio([3.0, a, b, c, 0.0]); }
    st.note("lost has no part in it");
    for lost in [0.0, -0.0, 0.5, 2.15, -1.0, 1e300, f64::MAX, 5e-324, nan, inf, -inf] {
        for launched in [3.0, 1.0, 0.0, nan] { st.ratio([launched, 0.25, 0.5, 0.1, lost]); }
    }
    vec![st]
}

pub fn stages() -> Vec<Stage> {
    let parts: [fn() -> Vec<Stage>; 17] = [
        rules, lists, given_rays, lengths, solid_numbers, orders, full_lists, full_counts, bad_light, not_finite, ties, reflectances,
        nearest, nested, radicands, buffers, ratios,
    ];
    parts.iter().flat_map(|f| f()).collect()
}

// ---- long texts

/// A scene text with so many of the shortest rays that have no light, of just so many bytes.
fn text_of(bytes: usize) -> String {
    let p = Plan::new(vec![face_at(10.0, 1, 1)]);
    let mut t = p.text();
    let line = "0 0 0 0 0 3ff 4 0 0 -\n";
    while t.len() + 2 * line.len() <= bytes { t += line; }
    let pad = bytes - t.len() - line.len();
    let zeros = |n: usize| "0".repeat(1 + n);
    t += &format!("{} {} 0 0 0 3ff 4 0 0 -\n", zeros(pad.min(15)), zeros(pad - pad.min(15)));
    assert!(t.len() == bytes && reader::read(t.as_bytes()).is_ok());
    t
}

/// 65,537 bytes, of which the last is an empty line's, then 65,536; as many rays as may be, and one more.
fn longest() -> Stage {
    let mut st = Stage::new("text_of_65536_bytes");
    st.text(&(text_of(65536) + "\n"));
    st.read();
    st.map(60);
    st.cut(65536);
    st.read();
    st.map(300);
    let n = st.rays as usize;
    st.lend(1, 1, 4, 4);
    st.empty();
    all(&mut st);
    (n..4097).for_each(|i| { st.set("ray_values", 8 * i + 5, 1.0); });
    for n in [4096, 4097] {
        st.trace(0, n);
        st.memory();
    }
    st.note("the last ray of 4,096 that is lit, and one that is bad");
    st.set("ray_values", 8 * 4095 + 7, 1.0);
    st.trace(0, 4096);
    st.memory();
    st.set_whole("ray_tags", 10 * 4095 + 1, 9);
    st.trace(0, 4096);
    st.trace(1, 4096);
    st.trace(0, 4095);
    st.trace(4095, 1);
    st.cut(65535);
    st.read();
    st
}

/// 1,025 rays that are all caught, then 1,024: a text has room for 1,024 hits.
fn most_hits() -> Stage {
    let line = "0 0 0 0 0 3ff 4 3ff 0 -\n";
    let text = Plan::new(vec![face_at(10.0, 1, 1)]).text() + &line.repeat(1025);
    let mut st = Stage::new("text_of_1025_hits");
    st.text(&text);
    st.read();
    st.map(60);
    st.cut(text.len() - line.len());
    st.read();
    st.map(300);
    st.lend(1, 1, 4096, 4096);
    st.empty();
    all(&mut st);
    st.record(&hit(0, 0.0, 0.0, 1.0));
    st
}

/// 4,096 pixels, and one more.
fn most_pixels() -> Vec<Stage> {
    let grids = [vec![(64, 64)], vec![(64, 64), (1, 1)], vec![(4096, 1)], vec![(17, 241)], vec![(4096, 4096)]];
    grids.iter().enumerate().map(|(k, grids)| {
        let faces = grids.iter().enumerate().map(|(i, g)| face_at(10.0 + i as f64, g.0, g.1)).collect();
        let mut p = Plan { faces, ..lit() };
        // where there are too many pixels and a bad ray, the pixels are the reason
        if k == 4 { p.beams[0].values[7] = -1.0; }
        let mut st = Stage::new(&format!("text_of_pixels_{k}"));
        st.scene(&p);
        st.read();
        let text = st.map_text().unwrap();
        st.map(text.len());
        let n = st.dets().pixels().min(4097);
        st.lend(n, n, 40, 40);
        st.empty();
        all(&mut st);
        st.answer(0, 900);
        st
    }).collect()
}

pub fn texts() -> Vec<Stage> {
    let mut all = vec![longest(), most_hits()];
    all.extend(most_pixels());
    all
}
