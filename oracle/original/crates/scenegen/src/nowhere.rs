//! Detectors facing nowhere: poses (centre, normal and up) become such that 18 refuses the detector, or extreme, so that
//! it just does not.
use super::book::{Checked, Face};
use super::*;

/// The largest length: the square of the next double is not finite.
pub const LONGEST: f64 = 1.3407807929942596e154;

/// Detector i of a scene as it is given.
pub fn face(c: &Case, i: usize) -> Face {
    let (d, g) = (&c.scene.detectors[i], &c.given[i]);
    let values = [d.center.x, d.center.y, d.center.z, g.normal.x, g.normal.y, g.normal.z, g.up.x, g.up.y, g.up.z, d.width_mm, d.height_mm];
    Face { values, tags: [d.res_x as u32, d.res_y as u32] }
}

/// The checks of a scene's detectors.
pub fn check(c: &Case) -> Checked {
    (0..c.given.len()).try_for_each(|i| face(c, i).check(i))
}

/// The scene without the detectors that are refused.
pub fn leave_out(c: &mut Case) {
    let stay: Vec<usize> = (0..c.given.len()).filter(|&i| face(c, i).check(i).is_ok()).collect();
    c.scene.detectors = stay.iter().enumerate().map(|(k, &i)| Detector2D { id: k, ..c.scene.detectors[i].clone() }).collect();
    c.given = stay.iter().map(|&i| c.given[i].clone()).collect();
}

fn with_axis(f: &Face, k: usize, v: Vec3) -> Face {
    let mut g = f.clone();
    g.values[k..k + 3].copy_from_slice(&[v.x, v.y, v.z]);
    g
}

/// The same detector with a normal and up of any length that is allowed, up leaning to the normal as far as it may; some
/// with a part of the centre that is large or small.
pub fn extreme(s: &mut Sm, f: &Face) -> Face {
    let d = f.original();
    let length = |s: &mut Sm| s.pick(&[next(1e-15), 1.125e-15, 1e-14, 1e-9, 0.5, 1e9, 1e150, 1e154, previous(LONGEST), LONGEST]);
    loop {
        let share: f64 = s.pick(&[0.0, 0.5, -0.875, 0.9998, -0.9998, 0.99989999]);
        let up = d.normal * share + d.up * (1.0 - share * share).sqrt();
        let mut g = with_axis(&with_axis(f, 3, d.normal * length(s)), 6, up * length(s));
        if s.chance(0.06) { g.values[s.n(3) as usize] = s.pick(&[1e300, -f64::MAX, 5e-324, -0.0]); }
        if g.check(0).is_ok() { return g; }
    }
}

/// The same detector with a part that is not finite, or with a normal or up that is too short or too long.
pub fn refused(s: &mut Sm, f: &Face) -> Face {
    loop {
        let k = s.pick(&[3, 6]);
        let mut g = f.clone();
        match s.n(4) {
            0 | 1 => g.values[s.n(9) as usize] = s.pick(&[f64::NAN, f64::INFINITY, f64::NEG_INFINITY]),
            2 => g.values[k + s.n(3) as usize] = s.pick(&[next(LONGEST), -1.5e154, 1e200, -f64::MAX]),
            _ => g = with_axis(f, k, f.part(k).normalize() * s.pick(&[0.0, -0.0, 1e-15, previous(1e-15), 1e-16, 1e-200, 5e-324, 1.5e154, 1e200])),
        }
        if g.check(0) == Err((18, 0)) { return g; }
    }
}

/// Detector i becomes that one. Of one that is refused the original keeps its axes, by which no ray is traced.
fn put(c: &mut Case, i: usize, f: &Face) {
    c.given[i] = GivenDet { normal: f.part(3), up: f.part(6) };
    if f.check(i).is_ok() { c.scene.detectors[i] = Detector2D { id: i, ..f.original() }; }
    c.scene.detectors[i].center = f.part(0);
}

/// A share of the detectors become extreme; in a share of the scenes one or two are refused.
fn turn(s: &mut Sm, c: &mut Case, extremes: f64, share: f64) {
    let n = c.given.len();
    for i in 0..n {
        if s.chance(extremes) { let f = extreme(s, &face(c, i)); put(c, i, &f); }
    }
    if n == 0 || !s.chance(share) { return; }
    for _ in 0..1 + s.n(2) {
        let i = s.n(n as u64) as usize;
        let f = refused(s, &face(c, i));
        put(c, i, &f);
    }
}

/// About half of the scenes are refused.
pub fn half(s: &mut Sm, c: &mut Case) {
    turn(s, c, 0.6, 0.6);
}

/// All detectors are extreme, and a quarter of the scenes is refused.
pub fn quarter(s: &mut Sm, c: &mut Case) {
    turn(s, c, 1.0, 0.25);
}
