//! Lists of calls on one memory, from the empty one: batches whole, and the same batches in parts, last part first and
//! empty ones included, on a script of their own, with recordings, filters, readings and answers between, and refusals.
//! What a refused call needs is set before it and set back behind it. The memory's digest stands behind every
//! call that may write.
use super::book::{Hit, Refusal};
use super::plans::{plan, STYLES};
use super::script::Script;
use super::stage::{Plan, Stage, Tally};
use super::*;

const LISTS: usize = 440;
const MOST_TEXT: usize = 2000;
/// How often each refusal has to come at least.
const LEAST: usize = 5;
/// How many batches in parts have to have an empty part, and to be refused after a part that passed.
const LEAST_EMPTY: usize = 25;
const LEAST_LATER: usize = 60;

/// One of the first n.
fn below(s: &mut Sm, n: usize) -> usize {
    s.n(n.max(1) as u64) as usize
}

fn any_face(st: &Stage, s: &mut Sm) -> usize {
    below(s, st.said.min(8) as usize)
}

fn any_hit(st: &Stage, s: &mut Sm) -> Hit {
    let d = any_face(st, s);
    let half = |k: usize| 0.5 * st.lists.detector_values[11 * d + k];
    let x = half(9) * s.pick(&[0.0, 1.0, -1.0, 0.5, 2.0, f64::NAN]);
    let y = half(10) * s.pick(&[0.0, 1.0, -1.0, -0.5, 0.25]);
    Hit { values: [x, y, s.pick(&[1.0, 0.5, 0.1, 0.0, -0.0, -0.25, 1e300]), 640.0], tags: [d as u32, s.n(9) as u32, s.n(3) as u32, s.n(2) as u32] }
}

/// A room for a text of this length: just so long, one short, or some more.
fn room(s: &mut Sm, length: usize) -> usize {
    (length + s.pick(&[0, 1, 1, 9])).max(1) - 1
}

/// A reading of detectors alone, which no memory is lent.
fn looks(st: &mut Stage, s: &mut Sm) {
    let d = any_face(st, s);
    match s.n(6) {
        0 => st.part(d as u32),
        1 => st.area(d),
        2 => st.check(d),
        3 => st.check_all(),
        4 => { let f = st.face(d); st.make(&f) }
        _ => {
            let i = below(s, st.rays as usize);
            let ray: [f64; 8] = st.lists.ray_values[8 * i..8 * i + 8].try_into().unwrap();
            st.cross(d, ray);
        }
    }
}

/// A look at a place of the memory.
fn peeks(st: &mut Stage, s: &mut Sm) {
    match s.n(4) {
        0 => { let d = any_face(st, s); st.caught(d) }
        1 => { let i = below(s, st.memory.flux.len()); st.pixel(i) }
        2 if st.memory.used > 0 => { let i = below(s, st.memory.used as usize); st.hit(i) }
        _ => {
            let lost = [0.0, 0.5, f64::NAN, 1e300, f64::INFINITY][st.calls() % 5];
            st.ratio([s.pick(&[1.0, 2.0, 0.0]), 0.25, 0.5, s.pick(&[0.25, 0.1]), lost])
        }
    }
}

/// A call that leaves the memory.
fn quiet(st: &mut Stage, s: &mut Sm) {
    let d = any_face(st, s);
    let face = st.face(d);
    match s.n(10) {
        0..=3 => st.refilter(d as u32, s.n(5) as u32, face.pixels()),
        4 => st.irradiance(d as u32, below(s, face.tags[0] as usize + 1) as u32, below(s, face.tags[1] as usize + 1) as u32),
        5 | 6 => looks(st, s),
        7 => {
            let f = s.n(5) as u32;
            match st.answer_length(f) {
                Some(n) => st.answer(f, room(s, n)),
                None => looks(st, s),
            }
        }
        8 => match st.map_text() {
            Some(t) => st.map(room(s, t.len())),
            None => looks(st, s),
        },
        _ => peeks(st, s),
    }
}

/// A tracing of some of the rays, or a recording, and the memory behind it.
fn writes(st: &mut Stage, s: &mut Sm) {
    let rays = st.rays as usize;
    let from = below(s, rays);
    let n = below(s, rays - from + 1);
    let done = match s.n(8) {
        0..=3 => st.trace(from, n),
        4 => { let l = right_lengths(st); st.trace_lent(l, rays as u32) }
        _ => false,
    };
    if !done { record_any(st, s); }
    st.memory();
}

fn record_any(st: &mut Stage, s: &mut Sm) {
    let h = any_hit(st, s);
    st.record(&h);
}

/// How long the lists of solids and rays have to be.
fn right_lengths(st: &Stage) -> [usize; 4] {
    let (solids, rays) = (st.solids as usize, st.rays as usize);
    [42 * solids, 4 * solids, 8 * rays, 10 * rays]
}

// ---- calls that are refused

/// A call that checks all detectors.
fn asks_all(st: &mut Stage, s: &mut Sm) {
    let (d, n) = (0, st.rays as usize);
    match s.n(7) {
        0 => st.check_all(),
        1 => st.part(d),
        2 => st.irradiance(d, 0, 0),
        3 => st.refilter(d, s.n(5) as u32, st.face(0).pixels().min(9)),
        4 => st.answer(s.n(5) as u32, 40),
        5 => { let h = any_hit(st, s); st.record(&Hit { tags: [0, 1, 1, 0], ..h }) }
        _ => { st.trace(0, n); }
    }
}

/// A call that is asked for a detector that is not there.
fn asks_beyond(st: &mut Stage, s: &mut Sm) {
    let d = s.pick(&[st.said, st.said + 1, 8, u32::MAX]);
    match s.n(4) {
        0 => st.part(d),
        1 => st.irradiance(d, 0, 0),
        2 => st.refilter(d, s.n(5) as u32, 2),
        _ => { let h = any_hit(st, s); st.record(&Hit { tags: [d, 1, 1, 0], ..h }) }
    }
    st.memory();
}

/// With a double set to another for the time of a call.
fn with_double(st: &mut Stage, slice: &str, i: usize, x: f64, call: impl FnOnce(&mut Stage)) {
    let old = st.set(slice, i, x);
    call(st);
    st.memory();
    st.set(slice, i, old);
}

fn with_whole(st: &mut Stage, slice: &str, i: usize, n: u32, call: impl FnOnce(&mut Stage)) {
    let old = st.set_whole(slice, i, n);
    call(st);
    st.memory();
    st.set_whole(slice, i, old);
}

fn trace_all(st: &mut Stage) {
    let n = st.rays as usize;
    st.trace(0, n);
}

/// 3: detectors, solids or rays.
fn too_many(st: &mut Stage, s: &mut Sm) {
    match s.n(4) {
        0 => { let old = st.solids; st.say_solids(33); trace_all(st); st.memory(); st.say_solids(old); }
        1 => { st.trace(0, 4097); st.memory(); }
        _ => { let old = st.said; st.say_detectors(s.pick(&[9, 10, u32::MAX])); asks_all(st, s); st.memory(); st.say_detectors(old); }
    }
}

/// 5 to 8 or 18 of some detector, by a call for all or for that one.
fn bad_face(st: &mut Stage, s: &mut Sm, n: u32) {
    let d = any_face(st, s);
    let alone = s.chance(0.3);
    let call = |st: &mut Stage, s: &mut Sm| match alone { true if s.chance(0.5) => st.check(d), true => st.area(d), false => asks_all(st, s) };
    let k = below(s, 2);
    match n {
        5 => with_double(st, "detector_values", 11 * d + 9 + k, s.pick(&[0.0, -1.0, f64::NAN, f64::INFINITY, -0.0]), |st| call(st, s)),
        6 => with_whole(st, "detector_tags", 2 * d + k, 0, |st| call(st, s)),
        7 => with_whole(st, "detector_tags", 2 * d + k, s.pick(&[4097, u32::MAX]), |st| call(st, s)),
        18 => {
            let old = st.lists.detector_values.clone();
            let mut turned = old.clone();
            turned[11 * d..11 * d + 11].copy_from_slice(&nowhere::refused(s, &st.face(d)).values);
            st.change("detector_values", &turned);
            call(st, s);
            st.memory();
            st.change("detector_values", &old);
        }
        _ => {
            let n = 11 * d + 3;
            let old: Vec<f64> = (0..3).map(|k| st.set("detector_values", n + k, st.lists.detector_values[n + 3 + k] * 2.0)).collect();
            call(st, s);
            st.memory();
            (0..3).for_each(|k| { st.set("detector_values", n + k, old[k]); });
        }
    }
}

/// 9: more hits said to be used than there are, or a work map of another length.
fn bad_length(st: &mut Stage, s: &mut Sm) {
    let d = any_face(st, s);
    if s.chance(0.3) {
        let n = st.face(d).pixels();
        st.refilter(d as u32, s.n(5) as u32, if s.chance(0.5) { n + 1 } else { n - 1 });
        return st.memory();
    }
    let old = st.memory.used;
    st.used(s.pick(&[st.memory.hit_tags.len() as u64 / 4 + 1, u64::MAX, 1 << 62]));
    match s.n(4) {
        0 => record_any(st, s),
        1 => st.refilter(d as u32, s.n(5) as u32, st.face(d).pixels()),
        2 => st.answer(s.n(5) as u32, 30),
        _ => trace_all(st),
    }
    st.memory();
    st.used(old);
}

/// 10: a ray given to a tracing or to a crossing.
fn bad_ray(st: &mut Stage, s: &mut Sm) {
    let i = below(s, st.rays as usize);
    let k = below(s, 8);
    let bad = match k {
        7 if s.chance(0.5) => -0.5,
        3..=5 if s.chance(0.5) => 1.5,
        _ => s.pick(&[f64::NAN, f64::INFINITY, -f64::INFINITY]),
    };
    if s.chance(0.3) {
        let mut ray: [f64; 8] = st.lists.ray_values[8 * i..8 * i + 8].try_into().unwrap();
        ray[k] = bad;
        let d = any_face(st, s);
        st.cross(d, ray);
        return st.memory();
    }
    with_double(st, "ray_values", 8 * i + k, bad, trace_all);
}

/// 11: nine media, or one that is no solid.
fn bad_media(st: &mut Stage, s: &mut Sm) {
    let i = below(s, st.rays as usize);
    if s.chance(0.5) { return with_whole(st, "ray_tags", 10 * i + 1, s.pick(&[9, u32::MAX]), trace_all); }
    let old = st.set_whole("ray_tags", 10 * i + 2, st.solids + s.n(2) as u32);
    with_whole(st, "ray_tags", 10 * i + 1, 1, trace_all);
    st.set_whole("ray_tags", 10 * i + 2, old);
}

/// 12: all places of the list used.
fn full_list(st: &mut Stage, s: &mut Sm) {
    let old = st.memory.used;
    st.used(st.memory.hit_tags.len() as u64 / 4);
    if s.chance(0.5) { trace_all(st); } else { record_any(st, s); }
    st.memory();
    st.used(old);
}

/// 13: a count at the largest, or one below it.
fn full_count(st: &mut Stage, s: &mut Sm) {
    let most = u32::MAX - s.n(2) as u32;
    let (slice, i) = if s.chance(0.5) { ("counts", any_face(st, s)) } else { ("hits", below(s, st.memory.hits.len())) };
    let h = any_hit(st, s);
    let by_trace = s.chance(0.6);
    with_whole(st, slice, i, most, |st| if by_trace { trace_all(st) } else { st.record(&h) });
}

/// 14 to 16 in the run, by a ray's wavelength or a solid's index.
fn in_the_run(st: &mut Stage, s: &mut Sm, n: u32) {
    let i = below(s, st.rays as usize);
    let k = below(s, st.solids as usize);
    match n {
        14 => with_double(st, "ray_values", 8 * i + 6, s.pick(&[0.0, -640.0, -0.0]), trace_all),
        _ if st.solids == 0 => (),
        15 => with_double(st, "solid_values", 42 * k + 4, s.pick(&[0.5, 0.0, f64::NAN, f64::INFINITY]), trace_all),
        _ => {
            let old = [(1, 1), (2, k as u32)].map(|(at, n)| st.set_whole("ray_tags", 10 * i + at, n));
            with_double(st, "solid_values", 42 * k + 4, s.pick(&[1e200, 1.7e308]), trace_all);
            (0..2).for_each(|at| { st.set_whole("ray_tags", 10 * i + 1 + at, old[at]); });
        }
    }
}

/// 17: a number that is none, lists of another length, a text that is none.
fn no_such_number(st: &mut Stage, s: &mut Sm) {
    let d = any_face(st, s);
    let rays = st.rays;
    let mut lengths = right_lengths(st);
    match s.n(7) {
        0 => st.refilter(d as u32, s.pick(&[5, 6, u32::MAX]), st.face(d).pixels()),
        1 => st.answer(s.pick(&[5, u32::MAX]), 20),
        2 => return with_whole(st, "run_tags", 2, s.pick(&[4, u32::MAX]), trace_all),
        3 if st.solids > 0 => {
            let (k, t) = (below(s, st.solids as usize), below(s, 4));
            return with_whole(st, "solid_tags", 4 * k + t, [6, 2, 3, 4][t], trace_all);
        }
        4 => {
            let l = &mut lengths[below(s, 4)];
            *l = if *l > 0 && s.chance(0.5) { *l - 1 } else { *l + 1 };
            st.trace_lent(lengths, rays);
        }
        5 => {
            let i = below(s, st.text_length());
            let old = st.byte(i, s.pick(b"gX \n,-"));
            st.read();
            st.byte(i, old);
        }
        _ => { st.trace_lent(lengths, rays + 1); }
    }
    st.memory();
}

fn refused(st: &mut Stage, s: &mut Sm, n: u32) {
    match n {
        1 => with_double(st, "run_values", 0, s.pick(&[-1.0, f64::NAN, f64::INFINITY, -5e-324]), trace_all),
        2 => with_whole(st, "run_tags", 0, s.pick(&[17, 18, u32::MAX]), trace_all),
        3 => too_many(st, s),
        4 => asks_beyond(st, s),
        5..=8 | 18 => bad_face(st, s, n),
        9 => bad_length(st, s),
        10 => bad_ray(st, s),
        11 => bad_media(st, s),
        12 => full_list(st, s),
        13 => full_count(st, s),
        14..=16 => in_the_run(st, s, n),
        _ => no_such_number(st, s),
    }
}

/// Such a call, unless it comes out otherwise: then the script is as it was.
fn try_refused(st: &mut Stage, s: &mut Sm, n: u32) -> bool {
    for _ in 0..6 {
        let mut tried = st.clone();
        refused(&mut tried, s, n);
        if tried.tally.refused[n as usize] > st.tally.refused[n as usize] && tried.calls() <= 14 {
            *st = tried;
            return true;
        }
    }
    false
}

// ---- lists

/// The scene read, and an empty memory with room for so many hits.
fn start(name: &str, p: &Plan, room: usize) -> Stage {
    let mut st = Stage::new(name);
    st.scene(p);
    st.read();
    let pixels = st.dets().pixels();
    st.lend(pixels, pixels, 4 * room, 4 * room);
    st.empty();
    st
}

/// How many hits a batch brings; none where they are many or the original does not tell their order.
fn brought(p: &Plan) -> Option<usize> {
    let mut st = start("", p, 400);
    if !st.trace(0, p.beams.len()) { return None; }
    let n = st.memory.used as usize;
    (n <= 60).then_some(n)
}

/// What lists are made on: how their names start, their scenes, and the refusals that they have in turn.
pub struct Source {
    pub name: &'static str,
    pub plan: fn(&mut Sm, usize) -> Plan,
    pub refusals: &'static [u32],
}

/// Document 01's.
pub const NUMBERS: [u32; 17] = [1, 2, 3, 4, 5, 6, 7, 8, 9, 10, 11, 12, 13, 14, 15, 16, 17];

fn scene(s: &mut Sm, from: &Source, style: usize) -> (Plan, usize) {
    loop {
        let p = (from.plan)(s, style);
        if p.text().len() > MOST_TEXT { continue; }
        if let Some(n) = brought(&p) {
            if n > 0 || s.chance(0.1) { return (p, n); }
        }
    }
}

/// Whether the memory is the empty one with its plain list of hits added.
fn is_book(st: &Stage) -> bool {
    let (mut m, dets) = (st.memory.clone(), st.dets());
    m.empty();
    st.memory.list().iter().all(|h| m.put(&dets, h).is_ok()) && m.digest() == st.memory.digest()
}

/// Room for all of so many hits, or for fewer.
fn tight(s: &mut Sm, hits: usize) -> usize {
    if s.chance(0.3) { hits.saturating_sub(1 + below(s, 3)) } else { hits + below(s, 3) }
}

/// What the batches in parts came to.
#[derive(Default)]
pub struct Split {
    pairs: usize,
    /// parts traced, with rays and without
    parts: usize,
    empty: usize,
    /// batches refused after a part with rays that passed
    later: usize,
}

impl Split {
    pub fn rows(&self) -> String {
        let rows = [("batches whole and in parts", self.pairs), ("parts with rays", self.parts), ("empty parts", self.empty), ("refused after a part with rays that passed", self.later)];
        rows.iter().map(|(what, n)| format!("| {what} | {n} |\n")).collect()
    }
}

/// A batch of two rays or more, which is refused in the run where that is wanted, but not at its last ray, which is
/// traced first; the places for its hits, and where it is refused.
fn divisible(s: &mut Sm, from: &Source, style: usize, wanted: bool) -> (Plan, usize, Option<Refusal>) {
    loop {
        let (p, hits) = scene(s, from, style);
        let rays = p.beams.len();
        let room = match wanted { true if style < 5 => below(s, hits), true => tight(s, hits), false => hits + below(s, 3) };
        let mut st = start("", &p, room);
        assert!(st.trace(0, rays));
        let at = st.last.err();
        assert!(at.map_or(true, |(n, _)| (12..17).contains(&n)));
        if rays > 1 && at.map_or(!wanted, |(_, i)| i + 1 < rays) { return (p, room, at); }
    }
}

/// Where so many rays are cut, last cut first: one cut lies behind the refused ray, so that the last part passes.
fn cuts(s: &mut Sm, rays: usize, at: Option<Refusal>) -> Vec<usize> {
    let least = at.map_or(1, |(_, i)| i + 1);
    let mut all = vec![least + below(s, rays - least)];
    for _ in 0..below(s, 4) { all.push(1 + below(s, rays - 1)); }
    all.sort();
    all.dedup();
    all.reverse();
    all
}

/// The parts that are traced, last first, as their first ray and number: up to the one that is refused, and an empty one
/// somewhere before it where that is wanted.
fn parts_of(s: &mut Sm, rays: usize, at: Option<Refusal>, empty: bool) -> Vec<(usize, usize)> {
    let mut all = Vec::new();
    let mut end = rays;
    for from in cuts(s, rays, at).into_iter().chain([0]) {
        if at.map_or(true, |(_, i)| i < end) { all.push((from, end - from)); }
        end = from;
    }
    if empty {
        let k = below(s, all.len() + at.is_none() as usize);
        all.insert(k, (all.get(k).map_or(0, |&(from, n)| from + n), 0));
    }
    all
}

/// The parts traced; where the batch is refused, the last of them is, at the same ray.
fn in_parts(s: &mut Sm, st: &mut Stage, parts: &[(usize, usize)], at: Option<Refusal>) {
    for (k, &(from, n)) in parts.iter().enumerate() {
        let left = parts.len() - 1 - k;
        assert!(st.trace(from, n));
        assert!(st.last.err() == at.filter(|_| left == 0).map(|(n, i)| (n, i - from)), "a part is refused elsewhere");
        st.memory();
        if s.chance(0.5) && st.calls() + 2 * left < 12 { quiet(st, s); }
    }
}

/// A batch whole, and in parts: two scripts that leave one memory. Two of three pairs at least are refused in the
/// run, and one of four has an empty part.
fn pair(s: &mut Sm, from: &Source, k: usize, style: usize, split: &mut Split) -> Vec<Stage> {
    let (p, room, at) = divisible(s, from, style, split.pairs % 3 > 0);
    let rays = p.beams.len();
    let cut = parts_of(s, rays, at, split.pairs % 4 == 1);
    let mut whole = start(&format!("{}whole_{k}", from.name), &p, room);
    assert!(whole.trace(0, rays) && whole.last.err() == at);
    whole.memory();
    let mut parts = start(&format!("{}parts_{k}", from.name), &p, room);
    in_parts(s, &mut parts, &cut, at);
    assert!(whole.memory.digest() == parts.memory.digest() && is_book(&whole), "a batch in parts leaves another memory: {k}");
    let full = cut.iter().filter(|part| part.1 > 0).count();
    assert!(full > 1, "a batch in one part: {k}");
    split.pairs += 1;
    split.parts += full;
    split.empty += cut.len() - full;
    split.later += at.is_some() as usize;
    if s.chance(0.4) && parts.calls() < 12 { recorded_in_both(s, &mut whole, &mut parts); }
    while whole.calls() < 6 + below(s, 6) { quiet(&mut whole, s); }
    while parts.calls() < 6 { quiet(&mut parts, s); }
    vec![whole, parts]
}

fn recorded_in_both(s: &mut Sm, a: &mut Stage, b: &mut Stage) {
    let h = any_hit(a, s);
    for st in [a, b] {
        st.record(&h);
        st.memory();
    }
}

/// A list of any calls, one of them refused by this number.
fn list(s: &mut Sm, from: &Source, k: usize, style: usize, wanted: u32) -> Vec<Stage> {
    let (p, hits) = scene(s, from, style);
    // 13 to 16 need a list that is not full
    let room = if wanted > 12 || s.chance(0.6) { 3 * hits + 6 } else { tight(s, hits) };
    let mut st = start(&format!("{}list_{k}", from.name), &p, room);
    assert!(st.trace(0, p.beams.len()));
    st.memory();
    let long = 6 + below(s, 7);
    quiet(&mut st, s);
    let done = try_refused(&mut st, s, wanted);
    while st.calls() < long {
        if s.chance(0.45) { writes(&mut st, s) } else { quiet(&mut st, s) }
        if s.chance(0.25) { let n = s.pick(from.refusals); try_refused(&mut st, s, n); }
    }
    if !done { try_refused(&mut st, s, wanted); }
    if st.calls() < 14 { st.memory(); }
    // but where a count was set the memory is what its hits make
    assert!(st.tally.refused[13] > 0 || is_book(&st), "list {k}");
    vec![st]
}

/// What a refusal's list is best made of.
fn style_for(s: &mut Sm, wanted: u32) -> usize {
    match wanted {
        14 => s.pick(&[1, 3, 4, 6]),
        15 => s.pick(&[1, 4, 5]),
        16 => s.pick(&[1, 3, 7]),
        _ => below(s, STYLES.len()),
    }
}

/// So many lists, one of three of them a batch whole and in parts.
pub fn lists(s: &mut Sm, from: &Source, lists: usize) -> (Vec<Stage>, Split) {
    let (mut all, mut split, mut k) = (Vec::new(), Split::default(), 0);
    while all.len() < lists {
        k += 1;
        let wanted = from.refusals[k % from.refusals.len()];
        let style = style_for(s, if k % 3 == 0 { 1 } else { wanted });
        all.extend(if k % 3 == 0 { pair(s, from, k, style, &mut split) } else { list(s, from, k, style, wanted) });
    }
    (all, split)
}

/// The scripts, and a table of what they have. Every refusal of document 01 comes, hits stay where a run is refused, and
/// batches in parts are refused behind a part that passed.
pub fn calls(seed: u64) -> (Vec<Script>, String) {
    let (all, split) = lists(&mut Sm(seed), &Source { name: "", plan, refusals: &NUMBERS }, LISTS);
    let sum = Tally::of(&all);
    assert!(all.iter().all(|st| (5..15).contains(&st.calls())));
    assert!(NUMBERS.iter().all(|&n| sum.refused[n as usize] >= LEAST) && sum.kept >= LEAST);
    assert!(split.pairs == LISTS / 4 && split.parts >= 2 * split.pairs && split.empty >= LEAST_EMPTY && split.later >= LEAST_LATER);
    (all.iter().map(Stage::script).collect(), sum.table("lists of calls", &all) + &split.rows())
}
