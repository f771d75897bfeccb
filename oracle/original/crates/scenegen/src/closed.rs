//! Document 02's closed cylinder: scenes that have it in the place of other shapes, and tables of it in the form of
//! shapes.txt and solids.txt.
use super::*;
use optics_nonseq::closed_cylinder::{candidates, Candidate, Part};
use std::collections::{BTreeMap, BTreeSet};

/// A cylinder or a box as a closed cylinder of its sizes; none of another shape.
pub fn closed(g: &PrimitiveGeometry) -> Option<PrimitiveGeometry> {
    match *g {
        PrimitiveGeometry::Cylinder { radius, half_length } => Some(PrimitiveGeometry::ClosedCylinder { radius, half_length }),
        PrimitiveGeometry::Box { half_x, half_z, .. } => Some(PrimitiveGeometry::ClosedCylinder { radius: half_x, half_length: half_z }),
        _ => None,
    }
}

/// Every cylinder and every second box of a scene becomes a closed cylinder.
pub fn close(solids: &mut [NonSeqObject]) {
    let mut boxes = 0;
    for o in solids {
        let is_box = matches!(o.geometry, PrimitiveGeometry::Box { .. });
        boxes += is_box as usize;
        if is_box && boxes % 2 == 0 { continue; }
        if let Some(g) = closed(&o.geometry) { o.geometry = g; }
    }
}

// ---- lines

/// Radius, half length, a ray's origin and direction.
struct Line {
    p: f64,
    q: f64,
    o: [f64; 3],
    d: [f64; 3],
}

const LINES: usize = 200;
/// Of so many lines of a kind so many at most have no answer.
const MOST_NONE: usize = 90;

const KINDS: [fn(&mut Sm) -> Line; 12] = [any, whole, along, inside, tangent, tie, level, steep, near, sizes, odd_rays, long_ways];

fn next(x: f64) -> f64 { f64::from_bits(x.to_bits() + 1) }

fn before(x: f64) -> f64 { f64::from_bits(x.to_bits() - 1) }

/// The number, a neighbour, or one farther off.
fn about(s: &mut Sm, x: f64) -> f64 { s.pick(&[x, x, x, next(x), before(x), 2.0 * x, 0.5 * x]) }

fn sign(s: &mut Sm) -> f64 { s.pick(&[1.0, -1.0]) }

fn around(s: &mut Sm, r: f64, z: f64) -> Vec3 {
    let a = s.r(0.0, 6.3);
    Vec3::new(r * a.cos(), r * a.sin(), z)
}

fn aimed(p: f64, q: f64, o: Vec3, at: Vec3) -> Line {
    let d = (at - o).normalize();
    Line { p, q, o: [o.x, o.y, o.z], d: [d.x, d.y, d.z] }
}

/// A point of the solid, its surface included.
fn point(s: &mut Sm, p: f64, q: f64) -> Vec3 {
    let (r, z) = (s.r(0.0, p), s.r(-q, q));
    around(s, r, z)
}

fn any(s: &mut Sm) -> Line {
    let (p, q) = (s.r(0.3, 4.0), s.r(0.2, 4.0));
    let o = s.unit() * s.r(0.0, 9.0);
    let at = point(s, 1.3 * p, 1.3 * q);
    aimed(p, q, o, at)
}

/// Whole numbers, axes and 3-4-5 ways; rays just at the radius and just at an end.
fn whole(s: &mut Sm) -> Line {
    let (p, x, y) = s.pick(&[(1.0, 1.0, 0.0), (2.0, 0.0, -2.0), (5.0, 3.0, 4.0), (5.0, -4.0, 3.0), (5.0, 0.0, -5.0), (10.0, 6.0, -8.0), (13.0, -5.0, -12.0)]);
    let (q, far) = (s.n(6) as f64, (1 + s.n(9)) as f64);
    let any = |s: &mut Sm| s.n(13) as f64 - 6.0;
    match s.n(4) {
        0 => Line { p, q, o: [x, y, any(s)], d: [0.0, 0.0, sign(s)] },
        1 => { let k = sign(s); Line { p, q, o: [x - k * far, y, q * sign(s)], d: [k, 0.0, 0.0] } }
        2 => { let d = s.axis(); Line { p, q, o: [any(s), any(s), any(s)], d: [d.x, d.y, d.z] } }
        _ => Line { p, q, o: [any(s), any(s), any(s)], d: [s.pick(&[0.6, -0.6]), 0.0, s.pick(&[0.8, -0.8])] },
    }
}

fn along(s: &mut Sm) -> Line {
    let (p, q) = if s.chance(0.5) { ((1 + s.n(5)) as f64, s.n(5) as f64) } else { (s.r(0.5, 4.0), s.r(0.2, 4.0)) };
    let r = p * s.pick(&[0.0, 0.25, 0.5, 1.0, 1.0, 1.5]);
    let r = s.pick(&[r, r, r, next(r), if r > 0.0 { before(r) } else { r }]) * sign(s);
    let (x, y) = if s.chance(0.5) { (r, 0.0) } else { (-0.0, r) };
    let z = s.pick(&[q + 2.0, -q - 3.0, 0.5 * q, -0.25 * q, q, -q]);
    Line { p, q, o: [x, y, z], d: [s.pick(&[0.0, -0.0]), 0.0, sign(s) * s.pick(&[1.0, 1.0, 0.5, 3.0])] }
}

/// From inside to the side, to the ends, and to the rim.
fn inside(s: &mut Sm) -> Line {
    let (p, q) = (s.r(0.5, 4.0), s.r(0.2, 4.0));
    let o = point(s, 0.98 * p, 0.98 * q);
    let (r, z) = match s.n(5) { 0 | 1 => (p, s.r(-q, q)), 2 => (s.r(0.0, p), q), 3 => (s.r(0.0, p), -q), _ => (p, q * sign(s)) };
    let at = around(s, r, z);
    aimed(p, q, o, at)
}

/// Rays that touch the side, and some a little beside it.
fn tangent(s: &mut Sm) -> Line {
    let (p, q, z) = ((1 + s.n(5)) as f64, (1 + s.n(5)) as f64, 0.5 * s.n(9) as f64 - 2.0);
    let (x, back, dz) = (s.pick(&[p, p, p, next(p), before(p)]) * sign(s), s.n(7) as f64 - 1.0, s.pick(&[0.0, 0.0, 0.5, -0.5, -1.0, 0.25]));
    match s.n(3) {
        0 => Line { p, q, o: [x, -back, z], d: [0.0, 1.0, dz] },
        1 => Line { p, q, o: [back, x, z], d: [-1.0, 0.0, dz] },
        _ => {
            let (touch, k) = (around(s, p, z), s.pick(&[1.0, 1.0, 1.0 - 1e-15, 1.0 - 1e-9]));
            let way = Vec3::new(-touch.y, touch.x, dz).normalize();
            let o = Vec3::new(k * touch.x, k * touch.y, z) - way * back;
            Line { p, q, o: [o.x, o.y, o.z], d: [way.x, way.y, way.z] }
        }
    }
}

/// To a rim's point of whole numbers, or through two ends that fall together; only lines with a tie are taken.
fn tie(s: &mut Sm) -> Line {
    let (j, k) = ((1 + s.n(5)) as f64, 0.25 * (1 + s.n(24)) as f64);
    let (x, y) = s.pick(&[(3.0, 4.0), (-3.0, 4.0), (4.0, -3.0), (5.0, 0.0), (0.0, -5.0), (-5.0, 0.0), (1.0, -2.0), (0.0, 1.0)]);
    let q = match s.n(14) { 0 => 0.0, 1 => -0.0, 2 => 1e-20, _ => s.n(7) as f64 };
    let way = s.pick(&[[3.0, 4.0, 12.0], [3.0, 0.0, 4.0], [0.0, 4.0, 3.0], [1.0, 0.0, 2.0], [2.0, 1.0, 1.0], [1.0, 1.0, 1.0], [0.0, 0.0, 1.0]]);
    let k1 = s.pick(&[1.0, 1.0, 1.0, 0.5, 0.2, 0.125]);
    let d = way.map(|w| w * k1 * sign(s));
    let at = [x * j, y * j, q * sign(s)];
    Line { p: 5.0 * j, q, o: [0, 1, 2].map(|i| at[i] - k * d[i]), d }
}

/// The z direction about 1e-12.
fn level(s: &mut Sm) -> Line {
    let dz = about(s, 1e-12) * sign(s);
    let (q, end) = (s.pick(&[0.0, 1.0, 0.5, 2.0, 1e-12]), sign(s));
    match s.n(3) {
        0 => { let t = s.r(-0.2, 0.9); Line { p: 1.0, q, o: [0.0, s.r(-0.4, 0.4), end * q - t * dz], d: [sign(s), 0.0, dz] } }
        1 => Line { p: 1.0, q, o: [s.r(-1.1, 1.1), 0.0, s.r(-3.0, 3.0)], d: [0.0, s.pick(&[0.0, -0.0, 1e-13]), dz] },
        _ => Line { p: s.pick(&[1e13, 1e12, 3.0]), q, o: [s.r(-2.0, 2.0), 0.5, s.r(-q, q)], d: [0.6, sign(s) * 0.8, dz] },
    }
}

/// The squared direction across about 1e-12.
fn steep(s: &mut Sm) -> Line {
    let a = about(s, 1e-6) * sign(s);
    let (x, y) = match s.n(3) { 0 => (a, 0.0), 1 => (0.0, a), _ => (0.6 * a, 0.8 * a) };
    let q = s.pick(&[1.0, 2.0, 1e6, 1e7, f64::INFINITY]);
    let z = s.pick(&[0.0, 0.5, -0.5, -3.0, 3.0]);
    Line { p: s.pick(&[1.0, 2.0, 0.5]), q, o: [s.pick(&[0.0, 0.25, -0.75, -3.0]), s.pick(&[0.0, 0.125]), z], d: [x, y, s.pick(&[0.0, 0.0, 1.0, -1.0, 1e-3, 1e-6])] }
}

/// A first distance about 1e-9, from the side or from an end.
fn near(s: &mut Sm) -> Line {
    let gap = match s.n(8) { 0 => 0.0, 1 => 1e-8, 2 => -1e-9, _ => about(s, 1e-9) };
    let (k, aside, most) = (sign(s), s.pick(&[0.0, 0.0, 0.5, -0.25, 1.0]), s.pick(&[1.0, 2.0, 0.5]));
    match s.n(4) {
        0 => Line { p: gap.abs(), q: most, o: [0.0, 0.0, s.r(-0.5, 0.5)], d: [k, 0.0, aside] },
        1 => Line { p: 1.0, q: most, o: [k * (1.0 - gap), 0.0, s.pick(&[0.0, 0.25, most])], d: [k * sign(s), 0.0, aside] },
        2 => Line { p: most, q: gap.abs(), o: [s.r(-0.4, 0.4), 0.0, 0.0], d: [aside, 0.0, k] },
        _ => Line { p: most, q: 1.0, o: [s.r(-0.4, 0.4), 0.0, k * (1.0 - gap)], d: [aside, 0.0, k * sign(s)] },
    }
}

/// Sizes that are negative, zero, infinite or NaN.
fn sizes(s: &mut Sm) -> Line {
    let size = |s: &mut Sm| s.pick(&[f64::NAN, f64::INFINITY, f64::NEG_INFINITY, -1.0, -2.0, 0.0, -0.0, 5e-324, 1e200, 1e-200, 1.0, 2.0]);
    let (p, q) = (size(s), size(s));
    let mut l = match s.n(3) { 0 => whole(s), 1 => any(s), _ => inside(s) };
    match s.n(5) { 0 => l.p = -l.p, 1 => l.q = -l.q, 2 => l.p = p, 3 => l.q = q, _ => { l.p = p; l.q = q } }
    if s.chance(0.2) { l.o = [0.0, -0.0, 0.0]; }
    l
}

/// Rays of which parts are NaN, infinite or huge.
fn odd_rays(s: &mut Sm) -> Line {
    let mut l = match s.n(4) { 0 => whole(s), 1 => any(s), _ => inside(s) };
    let bad = match s.n(5) { 0 | 1 => s.pick(&[1e150, -1e155, 1e300, 1e18, -1e16, f64::MAX]), 2 => s.wild(), _ => s.pick(&[f64::NAN, f64::INFINITY, f64::NEG_INFINITY]) };
    let k = s.n(6) as usize;
    if k < 3 { l.o[k] = bad } else { l.d[k - 3] = bad }
    if s.chance(0.3) { l.p = s.pick(&[f64::INFINITY, 1e300, 1e160]); }
    if s.chance(0.3) { l.q = s.pick(&[f64::INFINITY, 1e300, 1e160]); }
    l
}

/// From inside, with one number that is NaN: nothing is met.
fn no_number(s: &mut Sm) -> Line {
    let mut l = inside(s);
    match s.n(8) as usize { 6 => l.p = f64::NAN, 7 => l.q = f64::NAN, k if k < 3 => l.o[k] = f64::NAN, k => l.d[k - 3] = f64::NAN }
    l
}

/// Directions that are no unit vectors.
fn long_ways(s: &mut Sm) -> Line {
    let mut l = if s.chance(0.5) { inside(s) } else { any(s) };
    let k = if s.chance(0.2) { s.pick(&[1e-160, 1e-12, 1e-9, 1e150, 1e12]) } else { s.log(1e-5, 1e5) };
    l.d = match s.n(4) { 0 => [0, 1, 2].map(|_| s.n(9) as f64 - 4.0), _ => l.d.map(|x| k * x) };
    l
}

// ---- tables

impl Line {
    fn ray(&self) -> Ray {
        let v = |a: [f64; 3]| Vec3::new(a[0], a[1], a[2]);
        Ray { origin: v(self.o), direction: v(self.d), wavelength_nm: 550.0, energy: 1.0 }
    }
    fn candidates(&self) -> Vec<Candidate> { candidates(self.p, self.q, &self.ray()) }
    /// What is answered to it. Where the side wins it is what the Rust's cylinder answers.
    fn answer(&self, won: Option<Part>) -> String {
        let (radius, half_length) = (self.p, self.q);
        let told = |g: PrimitiveGeometry| g.intersect_local(&self.ray()).map_or("-".into(), |(t, n, _)| list(&[t, n.x, n.y, n.z]));
        let answer = told(PrimitiveGeometry::ClosedCylinder { radius, half_length });
        let is_side = matches!(won, Some(Part::First | Part::Second));
        assert!(!is_side || answer == told(PrimitiveGeometry::Cylinder { radius, half_length }));
        answer
    }
}

fn list(v: &[f64]) -> String { v.iter().map(|&x| hx(x)).collect::<Vec<_>>().join(" ") }

/// The parts that are equally near, and nearer than all others: the first of them wins.
fn nearest(all: &[Candidate]) -> Vec<Part> {
    let least = all.iter().map(|c| c.t).fold(f64::INFINITY, f64::min);
    all.iter().filter(|c| c.t == least).map(|c| c.part).collect()
}

#[derive(Default)]
struct Table {
    text: String,
    seen: BTreeSet<String>,
    /// lines by the parts that are nearest in them
    won: BTreeMap<String, usize>,
}

impl Table {
    /// How many lines a part wins.
    fn of(&self, what: &str) -> usize { self.won.iter().filter(|w| w.0.split('=').next() == Some(what)).map(|w| w.1).sum() }
    /// Takes a line that is new; r counts for nothing.
    fn take(&mut self, l: &Line, parts: &[Part], r: f64) -> bool {
        if !self.seen.insert(list(&[[l.p, l.q, 0.0], l.o, l.d].concat())) { return false; }
        let _ = writeln!(self.text, "5 {} = {}", list(&[[l.p, l.q, r], l.o, l.d].concat()), l.answer(parts.first().copied()));
        let name = if parts.is_empty() { "-".into() } else { parts.iter().map(|p| format!("{p:?}")).collect::<Vec<_>>().join("=") };
        *self.won.entry(name).or_default() += 1;
        true
    }
    /// So many lines, of which so many at most have no answer.
    fn kind(&mut self, s: &mut Sm, make: fn(&mut Sm) -> Line, lines: usize, most_none: usize, ties: bool) {
        let (mut done, mut none) = (0, 0);
        while done < lines {
            let l = make(s);
            let parts = nearest(&l.candidates());
            if ties && parts.len() < 2 || parts.is_empty() && none == most_none { continue; }
            let r = if s.chance(0.3) { 0.0 } else { s.wild() };
            if !self.take(&l, &parts, r) { continue; }
            done += 1;
            none += parts.is_empty() as usize;
        }
    }
}

/// closed.txt: so many lines of each kind. Every part wins, and there are ties of each two.
pub fn shapes(put: &dyn Fn(&str, String)) {
    let s = &mut Sm(20261120);
    let mut t = Table::default();
    for (k, make) in KINDS.into_iter().enumerate() { t.kind(s, make, LINES, MOST_NONE, k == 5); }
    t.kind(s, no_number, LINES / 2, LINES / 2, false);
    let words = |all: Vec<(&str, usize)>| all.iter().map(|(name, n)| format!("{name} {n}")).collect::<Vec<_>>().join(", ");
    let parts = ["First", "Second", "Lower", "Upper", "-"].map(|part| (part, t.of(part)));
    let ties = t.won.iter().filter(|w| w.0.contains('=')).map(|w| (w.0.as_str(), *w.1)).collect();
    eprintln!("{} lines of closed cylinders, won by {}; ties: {}", t.seen.len(), words(parts.to_vec()), words(ties));
    assert!(parts[..4].iter().all(|won| won.1 >= 200) && 2 * parts[4].1 <= t.seen.len());
    assert!(["First=Lower", "First=Upper", "Second=Lower", "Second=Upper", "Lower=Upper", "First=Second"].iter().all(|tie| t.won[*tie] >= 10));
    put("closed", t.text);
}

/// closed_solids.txt: placed ones, in the styles of solids.txt.
#[cfg(feature = "given")]
pub fn placed(put: &dyn Fn(&str, String)) {
    let size = |s: &mut Sm| (1 + s.n(4)) as f64;
    let make = |s: &mut Sm, whole: bool, wild: bool| match whole {
        true => PrimitiveGeometry::ClosedCylinder { radius: size(s), half_length: size(s) },
        false => closed(&shape(s, 3, 2.5, wild)).unwrap(),
    };
    solids(&mut Sm(20261121), put, "closed_solids", 300, &make);
}
