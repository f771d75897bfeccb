//! Document 02's closed cylinder, from its words: every candidate that qualifies is listed, side before lower end
//! before upper, and the first of the smallest wins.
use optics_core::{Ray, Vec3};

#[derive(Debug, Clone, Copy, PartialEq)]
pub enum Part {
    /// the side at the smaller of its two distances
    First,
    Second,
    Lower,
    Upper,
}

#[derive(Debug, Clone, Copy)]
pub struct Candidate {
    pub t: f64,
    pub normal: Vec3,
    pub part: Part,
}

const NEAREST: f64 = 1e-9;
const PARALLEL: f64 = 1e-12;

/// The two distances at which a ray meets the side made endless, none where there are none.
fn side_distances(p: f64, ray: &Ray) -> Option<[f64; 2]> {
    let (o, d) = (ray.origin, ray.direction);
    let a = d.x * d.x + d.y * d.y;
    let b = 2.0 * (o.x * d.x + o.y * d.y);
    let c = o.x * o.x + o.y * o.y - p * p;
    let disc = b * b - 4.0 * a * c;
    if a < PARALLEL || disc < 0.0 { return None; }
    let root = disc.sqrt();
    Some([(-b - root) / (2.0 * a), (-b + root) / (2.0 * a)])
}

fn side(p: f64, q: f64, ray: &Ray, t: f64, part: Part) -> Option<Candidate> {
    let (o, d) = (ray.origin, ray.direction);
    let z = o.z + t * d.z;
    let normal = Vec3::new((o.x + t * d.x) / p, (o.y + t * d.y) / p, 0.0);
    (t > NEAREST && z.abs() <= q).then_some(Candidate { t, normal, part })
}

/// The end at a height, of which `out` is the z of its normal.
fn end(p: f64, height: f64, out: f64, ray: &Ray, part: Part) -> Option<Candidate> {
    let (o, d) = (ray.origin, ray.direction);
    let t = (height - o.z) / d.z;
    let (x, y) = (o.x + t * d.x, o.y + t * d.y);
    let qualifies = d.z.abs() >= PARALLEL && t > NEAREST && x * x + y * y <= p * p;
    qualifies.then_some(Candidate { t, normal: Vec3::new(0.0, 0.0, out), part })
}

/// Radius p, half length q.
pub fn candidates(p: f64, q: f64, ray: &Ray) -> Vec<Candidate> {
    let sides = side_distances(p, ray).map(|[first, second]| [side(p, q, ray, first, Part::First), side(p, q, ray, second, Part::Second)]);
    let ends = [end(p, -q, -1.0, ray, Part::Lower), end(p, q, 1.0, ray, Part::Upper)];
    sides.into_iter().flatten().chain(ends).flatten().collect()
}

pub fn nearest(p: f64, q: f64, ray: &Ray) -> Option<Candidate> {
    candidates(p, q, ray).into_iter().reduce(|best, c| if c.t < best.t { c } else { best })
}
