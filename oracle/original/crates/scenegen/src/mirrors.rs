//! Mirrors at the threshold: solids of a scene become mirrors that drop what arrives at them, or just do not.
use super::*;
use std::cmp::Ordering;

/// The powers that arrive at a solid; where the scene is refused, those of the rays that are not, each alone.
fn arriving(c: &Case, k: usize) -> Vec<f64> {
    let mut scene = c.scene.clone();
    scene.objects[k].material.finish = SurfaceFinish::Absorber;
    let paths = |rays: &[NonSeqRay]| cfg(c, c.bounces, true).trace_rays(&mut scene.clone(), rays, None).map(|rep| rep.paths);
    let alone = || c.rays.iter().flat_map(|r| paths(std::slice::from_ref(r)).unwrap_or_default()).collect();
    let all = paths(&c.rays).unwrap_or_else(|_| alone());
    all.iter().filter(|p| p.hit_object_id == Some(k)).map(|p| p.power_watts).collect()
}

/// The largest of them as a rule, so that the others are dropped too.
fn one_of(s: &mut Sm, powers: &[f64]) -> f64 {
    match s.n(4) {
        0 => s.pick(powers),
        1 => powers.iter().fold(f64::INFINITY, |a, &b| a.min(b)),
        _ => powers.iter().fold(0.0, |a, &b| a.max(b)),
    }
}

/// Of the reflectances about threshold / power one that mirrors a power on that side of the threshold, next to it.
fn beside(power: f64, threshold: f64, side: Ordering) -> f64 {
    let at = threshold / power;
    let away = |rho: &f64| (power * rho - threshold).abs();
    let near = (-4..=4).map(|k| f64::from_bits((at.to_bits() as i64 + k) as u64));
    near.filter(|rho| (power * rho).partial_cmp(&threshold) == Some(side)).min_by(|a, b| away(a).total_cmp(&away(b))).unwrap_or(at)
}

/// A reflectance that is none, or by which nothing or all is reflected.
fn odd(s: &mut Sm) -> f64 {
    s.pick(&[0.0, 0.0, -0.0, -0.25, f64::NEG_INFINITY, 5e-324, 1.0, 1.5, f64::INFINITY, f64::NAN, f64::NAN])
}

fn reflectance(s: &mut Sm, power: f64, threshold: f64) -> f64 {
    if threshold == 0.0 { return odd(s); }
    match s.n(16) {
        0..=6 => beside(power, threshold, Ordering::Equal),
        7..=9 => beside(power, threshold, Ordering::Less),
        10 | 11 => beside(power, threshold, Ordering::Greater),
        12 | 13 => s.r(0.0, 1.0),
        _ => odd(s),
    }
}

/// Two of three solids that light arrives at become such mirrors; most thresholds of 0 are raised.
pub fn at_threshold(s: &mut Sm, c: &mut Case) {
    if c.threshold == 0.0 && s.chance(0.75) { c.threshold = s.pick(&[1e-6, 1e-3, 0.01, 0.1, 0.25]); }
    for k in 0..c.scene.objects.len() {
        if s.chance(0.33) { continue; }
        let powers = arriving(c, k);
        if powers.is_empty() { continue; }
        let power = one_of(s, &powers);
        c.scene.objects[k].material.finish = SurfaceFinish::Mirror { reflectance: reflectance(s, power, c.threshold) };
    }
}

/// How many scenes of a batch dropped rays, how many of these lost something, and how many lost NaN.
#[derive(Default)]
pub struct Drops {
    scenes: usize,
    refused: usize,
    dropped: usize,
    lost: usize,
    nan: usize,
}

impl Drops {
    pub fn count(&mut self, c: &Case, solved: &Result<Done, (u32, usize)>) {
        self.scenes += 1;
        let Ok(d) = solved else { self.refused += 1; return };
        self.dropped += d.rep.paths.iter().any(|p| is_dropped(c, p)) as usize;
        self.lost += (d.lost != 0.0) as usize;
        self.nan += d.lost.is_nan() as usize;
    }

    pub fn told(&self) -> String {
        let Drops { scenes, refused, dropped, lost, nan } = self;
        format!("of {scenes} scenes {refused} are refused, {dropped} others drop rays, lost is not 0 in {lost}, NaN in {nan} of these")
    }
}
