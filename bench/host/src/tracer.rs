//! The tracing in Rust as one would write it over the search of bench/closest: matrices and media worked
//! out beforehand, the rays still to be traced in a Vec, the operations of trace.rs, detector.rs and
//! material.rs in their order. The root is a parameter. The refusals that come in a run are given (12 to
//! 16); the scene and the rays are not checked before it, and nothing but interactions is counted.
use crate::plain::{closest, Hit, Ray, Solid, V3};
use std::ops::{Add, Mul, Sub};

impl Add for V3 {
    type Output = V3;
    fn add(self, o: V3) -> V3 {
        V3 { x: self.x + o.x, y: self.y + o.y, z: self.z + o.z }
    }
}

impl Sub for V3 {
    type Output = V3;
    fn sub(self, o: V3) -> V3 {
        V3 { x: self.x - o.x, y: self.y - o.y, z: self.z - o.z }
    }
}

impl Mul<f64> for V3 {
    type Output = V3;
    fn mul(self, k: f64) -> V3 {
        V3 { x: self.x * k, y: self.y * k, z: self.z * k }
    }
}

fn dot(a: V3, b: V3) -> f64 {
    a.x * b.x + a.y * b.y + a.z * b.z
}

fn cross(a: V3, b: V3) -> V3 {
    V3 { x: a.y * b.z - a.z * b.y, y: a.z * b.x - a.x * b.z, z: a.x * b.y - a.y * b.x }
}

fn normalize(a: V3, root: impl Fn(f64) -> f64) -> V3 {
    let l = root(dot(a, a));
    V3 { x: a.x / l, y: a.y / l, z: a.z / l }
}

#[derive(Clone, Copy)]
pub enum Medium {
    Air,
    Constant(f64),
    Sellmeier1([f64; 6]),
    Schott([f64; 6]),
}

#[derive(Clone, Copy)]
pub enum Finish {
    Specular,
    Mirror(f64),
    Absorber,
}

pub struct Detector {
    pub center: V3,
    pub normal: V3,
    pub up: V3,
    pub width: f64,
    pub height: f64,
    pub resx: usize,
    pub resy: usize,
}

pub struct Scene {
    pub solids: Vec<Solid>,
    pub materials: Vec<(Finish, Medium)>,
    pub detectors: Vec<Detector>,
    pub threshold: f64,
    pub bounces: u32,
}

/// Solids that a ray is in: 8 given and one more for each bounce.
#[derive(Clone, Copy)]
pub struct Media {
    list: [u32; 24],
    len: usize,
}

impl Media {
    pub fn new(given: &[u32]) -> Media {
        let mut list = [0; 24];
        list[..given.len()].copy_from_slice(given);
        Media { list, len: given.len() }
    }

    fn last(&self) -> Option<u32> {
        self.list[..self.len].last().copied()
    }

    fn with(mut self, solid: u32) -> Media {
        self.list[self.len] = solid;
        self.len += 1;
        self
    }

    fn without(mut self, solid: u32) -> Media {
        if let Some(at) = self.list[..self.len].iter().rposition(|&k| k == solid) {
            self.list.copy_within(at + 1..self.len, at);
            self.len -= 1;
        }
        self
    }
}

#[derive(Clone, Copy)]
pub struct Given {
    pub ray: Ray,
    pub bounce: u32,
    pub media: Media,
}

#[derive(Clone, Copy)]
struct Active {
    ray: Ray,
    bounce: u32,
    reflections: u32,
    totals: u32,
    media: Media,
}

/// What a tracing writes: the pixels of all detectors one after another, and the list of hits.
#[derive(Clone, Default)]
pub struct Maps {
    pub flux: Vec<f64>,
    pub hits: Vec<u32>,
    pub hit_values: Vec<f64>,
    pub hit_tags: Vec<u32>,
    pub used: usize,
}

#[derive(Clone, Copy, Default)]
pub struct Report {
    pub interactions: u32,
    pub launched: f64,
    pub detected: f64,
    pub absorbed: f64,
    pub escaped: f64,
}

/// A detector with its axes, worked out once a tracing.
struct Face {
    normal: V3,
    up: V3,
    right: V3,
    first: usize,
}

fn index(m: &Medium, nm: f64, root: impl Fn(f64) -> f64) -> Result<f64, u32> {
    if nm <= 0.0 || !nm.is_finite() {
        return Err(14);
    }
    let l_um = nm * 1e-3;
    let l2 = l_um * l_um;
    let n2 = match *m {
        Medium::Air => return Ok(1.0),
        Medium::Constant(n) => return if n < 1.0 || !n.is_finite() { Err(15) } else { Ok(n) },
        Medium::Sellmeier1([b1, c1, b2, c2, b3, c3]) => 1.0 + (b1 * l2) / (l2 - c1) + (b2 * l2) / (l2 - c2) + (b3 * l2) / (l2 - c3),
        Medium::Schott([a0, a1, a2, a3, a4, a5]) => {
            let i2 = 1.0 / l2;
            let i4 = i2 * i2;
            let i6 = i4 * i2;
            let i8 = i6 * i2;
            a0 + a1 * l2 + a2 * i2 + a3 * i4 + a4 * i6 + a5 * i8
        }
    };
    if n2 <= 0.0 || !n2.is_finite() { Err(15) } else { Ok(root(n2)) }
}

fn new_ray(origin: V3, direction: V3, nm: f64, power: f64) -> Result<Ray, u32> {
    let all = [origin.x, origin.y, origin.z, direction.x, direction.y, direction.z, nm, power];
    if all.iter().all(|x| x.is_finite()) { Ok(Ray { origin, direction, nm, power }) } else { Err(16) }
}

fn crossing(d: &Detector, f: &Face, r: &Ray) -> Option<(f64, f64, f64)> {
    let denom = dot(r.direction, f.normal);
    if denom.abs() < 1e-12 {
        return None;
    }
    let t = dot(d.center - r.origin, f.normal) / denom;
    if t <= 1e-9 {
        return None;
    }
    let offset = r.origin + r.direction * t - d.center;
    let (x, y) = (dot(offset, f.right), dot(offset, f.up));
    (x.abs() <= d.width * 0.5 && y.abs() <= d.height * 0.5).then_some((t, x, y))
}

fn record(m: &mut Maps, d: &Detector, f: &Face, number: usize, x: f64, y: f64, a: &Active) -> Result<(), u32> {
    let k = m.used * 4;
    if k + 4 > m.hit_values.len() {
        return Err(12);
    }
    let u = ((x + d.width * 0.5) / d.width).clamp(0.0, 0.999999);
    let v = ((y + d.height * 0.5) / d.height).clamp(0.0, 0.999999);
    let (px, py) = ((u * d.resx as f64) as usize, (v * d.resy as f64) as usize);
    let at = f.first + py * d.resx + px;
    m.hits[at] = m.hits[at].checked_add(1).ok_or(13u32)?;
    m.flux[at] += a.ray.power;
    m.hit_values[k..k + 4].copy_from_slice(&[x, y, a.ray.power, a.ray.nm]);
    m.hit_tags[k..k + 4].copy_from_slice(&[number as u32, a.bounce, a.reflections, a.totals]);
    m.used += 1;
    Ok(())
}

/// Powers of the reflected and of the transmitted ray, and the rays; no transmitted one where all is reflected.
fn split(r: &Ray, h: &Hit, n1: f64, n2: f64, root: impl Fn(f64) -> f64 + Copy) -> Result<(f64, f64, Ray, Option<Ray>), u32> {
    let n = h.normal;
    let cos1 = (-dot(r.direction, n)).clamp(0.0, 1.0);
    let eta = n1 / n2;
    let sin2 = (1.0 - cos1 * cos1).max(0.0);
    let radicand = 1.0 - eta * eta * sin2;
    let back = normalize(r.direction + n * (2.0 * cos1), root);
    let back_from = h.point + back * 1e-6;
    if radicand <= 0.0 {
        return Ok((r.power, 0.0, new_ray(back_from, back, r.nm, r.power)?, None));
    }
    let cos2 = root(radicand);
    let on = normalize(r.direction * eta + n * (eta * cos1 - cos2), root);
    let on_from = h.point + on * 1e-6;
    let rs = (n1 * cos1 - n2 * cos2) / (n1 * cos1 + n2 * cos2);
    let rp = (n2 * cos1 - n1 * cos2) / (n2 * cos1 + n1 * cos2);
    let reflectance = (0.5 * (rs * rs + rp * rp)).clamp(0.0, 1.0);
    let (p, q) = (r.power * reflectance, r.power * (1.0 - reflectance));
    Ok((p, q, new_ray(back_from, back, r.nm, p)?, Some(new_ray(on_from, on, r.nm, q)?)))
}

/// Traces the rays, last to first. `HOW` as in the search.
pub fn trace<const HOW: u8>(s: &Scene, rays: &[Given], m: &mut Maps, root: impl Fn(f64) -> f64 + Copy) -> Result<Report, u32> {
    let mut sum = Report::default();
    let mut first = 0;
    let faces: Vec<Face> = (s.detectors.iter())
        .map(|d| {
            let (n, u) = (normalize(d.normal, root), normalize(d.up, root));
            let up = normalize(u - n * dot(n, u), root);
            let f = Face { normal: n, up, right: normalize(cross(up, n), root), first };
            first += d.resx * d.resy;
            f
        })
        .collect();
    let mut queue: Vec<Active> = Vec::with_capacity(rays.len() + 17);
    for g in rays {
        sum.launched += g.ray.power;
        queue.push(Active { ray: g.ray, bounce: g.bounce, reflections: 0, totals: 0, media: g.media });
    }
    while let Some(a) = queue.pop() {
        let power = a.ray.power;
        if power <= s.threshold || a.bounce >= s.bounces {
            sum.absorbed += power;
            continue;
        }
        sum.interactions += 1;
        let mut seen: Option<(usize, f64, f64)> = None;
        let mut min_t = f64::INFINITY;
        for (k, (d, f)) in s.detectors.iter().zip(&faces).enumerate() {
            if let Some((t, x, y)) = crossing(d, f, &a.ray) {
                if t < min_t && t > 1e-8 {
                    min_t = t;
                    seen = Some((k, x, y));
                }
            }
        }
        let met = closest::<HOW>(&s.solids, &a.ray, root);
        if let Some((k, x, y)) = seen.filter(|_| met.is_none_or(|h| min_t < h.t)) {
            record(m, &s.detectors[k], &faces[k], k, x, y, &a)?;
            sum.detected += power;
            continue;
        }
        let Some(h) = met else {
            sum.escaped += power;
            continue;
        };
        let (finish, inside) = &s.materials[h.object_id];
        match *finish {
            Finish::Absorber => sum.absorbed += power,
            Finish::Mirror(rho) => {
                let p = power * rho.clamp(0.0, 1.0);
                sum.absorbed += power - p;
                let back = normalize(a.ray.direction - h.normal * (2.0 * dot(a.ray.direction, h.normal)), root);
                if p > s.threshold {
                    let ray = new_ray(h.point + back * 1e-6, back, a.ray.nm, p)?;
                    queue.push(Active { ray, bounce: a.bounce + 1, reflections: a.reflections + 1, ..a });
                }
            }
            Finish::Specular => {
                let solid = h.object_id as u32;
                let next = if h.entering { a.media.with(solid) } else { a.media.without(solid) };
                let within = |k: Option<u32>| k.map_or(&Medium::Air, |k| &s.materials[k as usize].1);
                let n1 = index(within(a.media.last()), a.ray.nm, root)?;
                let n2 = index(if h.entering { inside } else { within(next.last()) }, a.ray.nm, root)?;
                let (p, q, back, on) = split(&a.ray, &h, n1, n2, root)?;
                if p > s.threshold {
                    let total = (q <= 0.0) as u32;
                    queue.push(Active { ray: back, bounce: a.bounce + 1, reflections: a.reflections + 1 - total, totals: a.totals + total, media: a.media });
                } else {
                    sum.absorbed += p;
                }
                if q > s.threshold {
                    if let Some(ray) = on {
                        queue.push(Active { ray, bounce: a.bounce + 1, media: next, ..a });
                    }
                } else {
                    sum.absorbed += q;
                }
            }
        }
    }
    Ok(sum)
}
