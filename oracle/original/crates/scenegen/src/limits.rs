//! Scripts about the limits of calls: of detectors, recordings, filters and readings here; of tracings in `edges`, of
//! texts in `damage`.
use super::book::{Face, Hit};
use super::calls::NUMBERS;
use super::script::Script;
use super::stage::{Plan, Stage, Tally};
use super::{damage, edges};

/// 4 by 2 mm in the plane z = 0, x to the right, y up.
pub fn grid(columns: u32, rows: u32) -> Face {
    Face { values: [0.0, 0.0, 0.0, 0.0, 0.0, 1.0, 0.0, 1.0, 0.0, 4.0, 2.0], tags: [columns, rows] }
}

fn sized(width: f64, height: f64) -> Face {
    let mut f = grid(1, 1);
    f.values[9..].copy_from_slice(&[width, height]);
    f
}

pub fn facing(normal: [f64; 3], up: [f64; 3]) -> Face {
    let mut f = grid(1, 1);
    f.values[3..6].copy_from_slice(&normal);
    f.values[6..9].copy_from_slice(&up);
    f
}

const Z: [f64; 3] = [0.0, 0.0, 1.0];

/// 587.5 nm, 3 bounces, a reflection and 2 total reflections.
pub fn hit(detector: u32, x: f64, y: f64, flux: f64) -> Hit {
    Hit { values: [x, y, flux, 587.5], tags: [detector, 3, 1, 2] }
}

fn two() -> Vec<Face> {
    vec![grid(2, 2), grid(3, 1)]
}

/// These detectors, each as if it had caught 20 hits of 10 watts together.
fn on(name: &str, faces: &[Face]) -> Stage {
    let mut st = Stage::new(name);
    st.scene(&Plan::new(faces.to_vec()));
    st.read();
    for d in 0..faces.len().min(8) {
        st.set("totals", d, 10.0);
        st.set_whole("counts", d, 20);
    }
    st
}

/// A recording, and all that it may change.
fn record(st: &mut Stage, h: &Hit) {
    let used = st.memory.used;
    st.record(h);
    st.memory();
    if st.memory.used > used {
        st.hit(used as usize);
        st.caught(h.tags[0] as usize);
    }
}

/// The same on slices of these lengths, filled with the pattern, and with so many hits used.
fn record_lent(st: &mut Stage, lengths: [usize; 4], used: u64, h: &Hit) {
    let [f, c, v, t] = lengths;
    st.lend(f, c, v, t);
    st.used(used);
    record(st, h);
}

fn eight_detectors() -> Vec<Stage> {
    let mut st = on("eight_detectors", &vec![grid(1, 1); 8]);
    let h = hit(7, 0.0, 0.0, 1.5);
    record_lent(&mut st, [8, 8, 8, 8], 0, &h);
    st.pixel(7);
    for n in [9, u32::MAX] {
        st.say_detectors(n);
        record_lent(&mut st, [8, 8, 8, 8], 0, &h);
        st.check_all();
    }
    vec![st]
}

/// A hit on one detector, and where it falls.
fn falls(name: &str, f: Face, x: f64, y: f64, pixel: usize) -> Stage {
    let n = f.pixels();
    let mut st = on(name, &[f]);
    record_lent(&mut st, [n, n, 8, 8], 0, &hit(0, x, y, 1.5));
    st.pixel(pixel);
    st
}

/// A detector made, and as the second of two with a hit on the first.
fn made_and_second(name: &str, f: Face) -> Stage {
    let pixels = (1 + f.pixels()).min(4098);
    let mut st = on(name, &[grid(1, 1), f.clone()]);
    st.make(&f);
    st.check(1);
    st.check_all();
    record_lent(&mut st, [pixels, pixels, 8, 8], 0, &hit(0, 0.0, 0.0, 1.5));
    st.area(1);
    st.cross(1, [1.0, 0.5, -5.0, 0.0, 0.0, 1.0, 587.5, 1.0]);
    st.part(0);
    st.irradiance(0, 0, 0);
    st.refilter(0, 2, 1);
    st.answer(0, 60);
    st
}

fn resolutions() -> Vec<Stage> {
    let mut all = vec![
        falls("row_of_4096", grid(4096, 1), 2.0, 0.0, 4095),
        falls("column_of_4096", grid(1, 4096), 0.0, 1.0, 4095),
        falls("x_and_y_beyond", grid(2, 2), 1e300, 1e300, 3),
        falls("x_at_the_edge_y_nan", grid(2, 2), -2.0, f64::NAN, 0),
    ];
    all[0].make(&grid(4096, 1));
    for (columns, rows) in [(4097, 1), (1, 4097), (0, 1), (1, 0), (4096, 0), (u32::MAX, 1)] {
        all.push(made_and_second(&format!("resolution_{columns}_{rows}"), grid(columns, rows)));
    }
    all
}

fn sizes() -> Vec<Stage> {
    let (nan, inf) = (f64::NAN, f64::INFINITY);
    let bad = [(0.0, 2.0), (-0.0, 2.0), (-4.0, 2.0), (nan, 2.0), (inf, 2.0), (4.0, 0.0), (4.0, inf), (5e-324, f64::MAX)];
    bad.iter().enumerate().map(|(k, &(w, h))| made_and_second(&format!("size_{k}"), sized(w, h))).collect()
}

fn axes() -> Vec<Stage> {
    let ups = [[0.0, 0.0, 2.0], [0.0, 0.0, -3.0], [0.0141, 0.0, 1.0], [0.0142, 0.0, 1.0]];
    let mut faces: Vec<Face> = ups.iter().map(|&up| facing(Z, up)).collect();
    faces.push(facing([0.0; 3], Z));
    faces.iter().enumerate().map(|(k, f)| made_and_second(&format!("axes_{k}"), f.clone())).collect()
}

fn several_bad() -> Vec<Stage> {
    let (good, thin, none, flat) = (grid(1, 1), sized(0.0, 2.0), grid(0, 1), facing(Z, Z));
    let with = |f: &Face, tags: [u32; 2], height: f64| { let mut g = f.clone(); g.tags = tags; g.values[10] = height; g };
    let lists = [
        (vec![good.clone(), thin.clone(), none.clone()], 3),
        (vec![good.clone(), none.clone(), thin.clone()], 3),
        (vec![flat.clone(), thin.clone(), good.clone()], 3),
        (vec![good.clone(), good.clone(), thin.clone()], 2),
        (vec![with(&flat, [1, 4097], 2.0), good.clone()], 2),
        (vec![with(&flat, [0, 4097], 2.0), good.clone()], 2),
        (vec![with(&flat, [0, 4097], 0.0), good.clone()], 2),
        (vec![good.clone(), grid(4097, 1), flat.clone()], 3),
    ];
    lists.iter().enumerate().map(|(k, (faces, said))| {
        let mut st = on(&format!("several_bad_{k}"), faces);
        st.say_detectors(*said);
        st.check_all();
        record_lent(&mut st, [2, 2, 8, 8], 0, &hit(0, 0.0, 0.0, 1.5));
        st
    }).collect()
}

/// Lengths of flux, hits, values and tags, and hits used, of which only the first is right for two detectors.
const LENGTHS: [([usize; 4], u64); 20] = [
    ([7, 7, 8, 8], 1), ([6, 7, 8, 8], 1), ([8, 7, 8, 8], 1), ([7, 6, 8, 8], 1), ([7, 8, 8, 8], 1), ([7, 7, 8, 4], 0), ([7, 7, 4, 8], 0), ([7, 7, 6, 6], 1),
    ([7, 7, 8, 8], 3), ([7, 7, 7, 8], 1), ([7, 7, 9, 8], 1), ([7, 7, 8, 7], 1), ([7, 7, 8, 9], 1), ([7, 7, 8, 8], u64::MAX), ([7, 7, 8, 8], 1 << 62), ([0, 0, 0, 0], 0),
    ([7, 7, 10, 8], 1), ([7, 7, 8, 10], 1), ([7, 7, 10, 10], 1), ([7, 7, 11, 8], 1),
];

fn lengths() -> Vec<Stage> {
    let mut st = on("lengths_in_recordings", &two());
    LENGTHS.iter().for_each(|&(l, used)| record_lent(&mut st, l, used, &hit(1, -2.0, 0.0, 1.5)));
    st.lend(7, 7, 8, 8);
    st.used(2);
    record(&mut st, &hit(1, -2.0, 0.0, 1.5));
    vec![st, lengths_in_filters(), lengths_in_readings()]
}

/// Two hits on detector 1 in a list that holds them, in slices of these lengths.
fn hits_of_one(st: &mut Stage, lengths: [usize; 4], used: u64) {
    let [f, c, v, t] = lengths;
    st.lend(f, c, v, t);
    (0..v.min(8)).for_each(|i| { st.set("hit_values", i, 0.5); });
    (0..t.min(8)).for_each(|i| { st.set_whole("hit_tags", i, 1); });
    st.used(used);
}

fn lengths_in_filters() -> Stage {
    let mut st = on("lengths_in_filters", &two());
    let right = ([7, 7, 8, 8], 2);
    for (l, used) in LENGTHS.into_iter().chain([right]).filter(|l| l.0[1] == 7) {
        hits_of_one(&mut st, l, used);
        for filter in [0, 2] { st.refilter(1, filter, 3); }
        st.memory();
    }
    hits_of_one(&mut st, [7, 0, 8, 8], 2);
    st.note("the counts of pixels are not lent to a filter or a reading");
    for filter in 0..5 { st.refilter(1, filter, 3); }
    for places in [0, 2, 4] {
        for filter in [0, 2, 4] { st.refilter(1, filter, places); }
    }
    st.memory();
    st
}

fn lengths_in_readings() -> Stage {
    let mut st = on("lengths_in_readings", &two());
    for flux in [6, 8, 7, 0] {
        st.lend(flux, 3, 5, 2);
        st.irradiance(1, 0, 0);
        st.memory();
    }
    for (l, used) in LENGTHS {
        let [f, c, v, t] = l;
        st.lend(f, c, v, t);
        st.used(used);
        st.answer(0, 300);
    }
    st.memory();
    st
}

fn hit_list() -> Vec<Stage> {
    let mut st = Stage::new("hit_list_of_two");
    st.scene(&Plan::new(vec![grid(1, 1)]));
    st.read();
    st.lend(1, 1, 8, 8);
    st.empty();
    (0..3).for_each(|_| record(&mut st, &hit(0, 0.0, 0.0, 1.5)));
    let mut none = on("room_for_none", &[grid(1, 1)]);
    record_lent(&mut none, [1, 1, 0, 0], 0, &hit(0, 0.0, 0.0, 1.5));
    vec![st, none]
}

fn counts() -> Vec<Stage> {
    let most = u32::MAX;
    // of the record and of the pixel, hits used, the detector that is hit
    let trials = [
        (20, most, 0, 0), (most, 1, 0, 0), (most, most, 0, 0), (most - 1, most - 1, 0, 0),
        (most, most, 2, 0), (most, most, 0, 1), (20, most - 1, 0, 0), (most - 1, 1, 0, 0),
    ];
    let mut all = Vec::new();
    for (k, (caught, pixel, used, d)) in trials.into_iter().enumerate() {
        let mut st = on(&format!("counts_{k}"), &[grid(2, 1), grid(1, 1)]);
        st.lend(3, 3, 8, 8);
        st.used(used);
        st.set_whole("counts", 0, caught);
        st.set_whole("hits", 0, pixel);
        record(&mut st, &hit(d, -2.0, 0.0, 1.5));
        st.pixel(0);
        st.pixel(2);
        record(&mut st, &hit(d, -2.0, 0.0, 1.5));
        all.push(st);
    }
    all
}

/// All calls that are asked for a detector.
fn ask(st: &mut Stage, d: u32) {
    record(st, &hit(d, 0.0, 0.0, 1.5));
    for filter in [0, 2] { st.refilter(d, filter, 3); }
    st.irradiance(d, 0, 0);
    st.part(d);
    st.memory();
}

fn not_there() -> Vec<Stage> {
    let mut st = on("not_there", &two());
    st.lend(7, 7, 8, 8);
    for d in [2, 3, 7, 8, u32::MAX] { ask(&mut st, d); }
    let mut eight = on("not_there_of_eight", &vec![grid(1, 1); 8]);
    eight.lend(8, 8, 8, 8);
    ask(&mut eight, 8);
    eight.note("the last one is there");
    eight.part(7);
    let mut none = on("none_there", &[]);
    none.lend(0, 0, 8, 8);
    ask(&mut none, 0);
    none.check_all();
    none.answer(0, 300);
    vec![st, eight, none]
}

fn two_reasons() -> Vec<Stage> {
    let thin = sized(0.0, 2.0);
    let mut nine = on("reasons_3_and_5", &[thin.clone(), thin.clone(), thin.clone()]);
    nine.lend(8, 8, 8, 8);
    nine.say_detectors(9);
    ask(&mut nine, 0);
    nine.answer(7, 50);
    let mut bad = on("reasons_5_and_4_and_9", &[grid(1, 1), thin]);
    bad.lend(2, 2, 8, 8);
    ask(&mut bad, 2);
    bad.lend(1, 1, 8, 8);
    ask(&mut bad, 0);
    bad.answer(0, 50);
    let mut four = on("reasons_4_and_9_and_12", &two());
    four.lend(6, 6, 8, 8);
    ask(&mut four, 2);
    four.used(2);
    ask(&mut four, 1);
    four.note("17 before all");
    four.refilter(9, 5, 0);
    four.answer(5, 50);
    vec![nine, bad, four]
}

/// Five on detector 1, the third on detector 0.
fn six() -> [Hit; 6] {
    let h = |d: u32, x: f64, y: f64, flux: f64, r: u32, t: u32| Hit { values: [x, y, flux, 587.5], tags: [d, 3, r, t] };
    [
        h(1, -1.0, -0.5, 0.1, 0, 0), h(1, 1.0, -0.5, 0.2, 1, 0), h(0, 1.0, 0.5, 64.0, 1, 1),
        h(1, -1.0, 0.5, 0.3, 0, 1), h(1, 1.0, 0.5, 0.4, 2, 2), h(1, -1.0, -0.5, 0.5, 0, 0),
    ]
}

fn six_hits() -> Vec<Stage> {
    let mut st = Stage::new("six_hits");
    st.scene(&Plan::new(vec![grid(1, 1), grid(2, 2)]));
    st.read();
    st.lend(5, 5, 24, 24);
    st.empty();
    for h in six() { record(&mut st, &h); }
    (0..5).for_each(|i| st.pixel(i));
    for used in [6, 0, 3] {
        st.used(used);
        for filter in [0, 1, 2, 3, 4, 5, 6, u32::MAX] {
            st.refilter(1, filter, 4);
            st.answer(filter, 400);
        }
        st.refilter(0, 3, 1);
        st.part(1);
        st.memory();
    }
    vec![st]
}

/// Pixels of any flux in an answer and in readings, and hits that bring such.
fn any_flux() -> Vec<Stage> {
    let odd = [-1.0, -0.0, f64::NAN, f64::INFINITY, 5e-324, 0.0, -f64::INFINITY];
    let mut st = on("any_flux", &two());
    st.lend(7, 7, 40, 40);
    for (i, &x) in odd.iter().enumerate() { st.set("flux", i, x); }
    st.answer(0, 400);
    for (d, px, py) in [(0, 0, 0), (0, 1, 0), (0, 0, 1), (0, 1, 1), (1, 0, 0), (1, 1, 0), (1, 2, 0)] { st.irradiance(d, px, py); }
    for (k, &x) in odd.iter().enumerate() {
        let h = Hit { values: [-1.0, 0.5, x, x], tags: [k as u32 % 2, u32::MAX, k as u32 % 3, 0] };
        record(&mut st, &h);
        for filter in [0, 1, 2] { st.answer(filter, 400); }
        st.refilter(0, 4, 4);
    }
    vec![st]
}

fn irradiances() -> Vec<Stage> {
    let mut st = on("irradiance", &two());
    st.lend(7, 7, 0, 0);
    for (d, px, py) in [(0, 1, 1), (1, 2, 0), (1, 3, 0), (1, 0, 1), (0, u32::MAX, 0), (0, 0, u32::MAX)] { st.irradiance(d, px, py); }
    let mut small = on("irradiance_of_area_0", &vec![sized(5e-324, 2.0); 2]);
    small.lend(2, 2, 0, 0);
    small.irradiance(0, 0, 0);
    vec![st, small]
}

fn areas() -> Vec<Stage> {
    let faces = [grid(2, 2), grid(4096, 4096), sized(5e-324, 2.0), sized(0.0, 2.0), grid(4097, 1), sized(f64::MAX, f64::MAX)];
    let mut st = on("pixel_area", &faces);
    (0..8).for_each(|d| st.area(d));
    vec![st]
}

fn crossings() -> Vec<Stage> {
    let mut st = on("crossings", &[grid(2, 2)]);
    let next = |x: f64| f64::from_bits(x.to_bits() + 1);
    let down = |x: f64, y: f64, z: f64| [x, y, z, 0.0, 0.0, -1.0, 587.5, 1.0];
    for (x, y) in [(2.0, 0.0), (next(2.0), 0.0), (-2.0, 0.0), (0.0, 1.0), (0.0, next(1.0)), (0.0, -1.0)] { st.cross(0, down(x, y, 5.0)); }
    for z in [1e-9, next(1e-9), -5.0] { st.cross(0, down(1.0, 0.5, z)); }
    for d in [[0.0, 0.0, 1.0], [1.0, 0.0, 0.0], [1.0, 0.0, 1e-12], [1.0, 0.0, 9.9e-13]] { st.cross(0, behind(d, 1.0)); }
    vec![st]
}

fn behind(d: [f64; 3], power: f64) -> [f64; 8] {
    [1.0, 0.5, -5.0, d[0], d[1], d[2], 587.5, power]
}

fn given_rays() -> Vec<Stage> {
    let mut st = on("given_rays", &[grid(2, 2), sized(0.0, 2.0)]);
    for z in [2.0, 0.0, 1.0000000004, 1.0000000006, 0.9999999996, 0.9999999994] { st.cross(0, behind([0.0, 0.0, z], 1.0)); }
    for power in [-1.0, -0.0, f64::NAN, f64::INFINITY, -5e-324, 0.0] { st.cross(0, behind(Z, power)); }
    for k in 0..8 {
        for bad in [f64::INFINITY, f64::NAN] {
            let mut ray = behind(Z, 1.0);
            ray[k] = bad;
            st.cross(0, ray);
        }
    }
    st.cross(1, behind(Z, -1.0));
    st.note("a detector that was never given has no size");
    st.cross(5, behind(Z, -1.0));
    st.check(5);
    vec![st]
}

fn stages() -> Vec<Stage> {
    let parts: [fn() -> Vec<Stage>; 19] = [
        eight_detectors, resolutions, sizes, axes, several_bad, lengths, hit_list, counts, not_there,
        two_reasons, six_hits, any_flux, irradiances, areas, crossings, given_rays, edges::stages, edges::texts, damage::stages,
    ];
    parts.iter().flat_map(|f| f()).collect()
}

/// The scripts, and a table of what they have. Every refusal of document 01 comes in two scripts at least.
pub fn limits() -> (Vec<Script>, String) {
    let all = stages();
    assert!(NUMBERS.iter().all(|&n| all.iter().filter(|st| st.tally.refused[n as usize] > 0).count() >= 2));
    (all.iter().map(Stage::script).collect(), Tally::of(&all).table("scripts about limits", &all))
}
