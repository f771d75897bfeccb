//! The same search in Rust as one would write it: matrices worked out beforehand, solids in a Vec, the
//! operations of geometry.rs and scene.rs in their order. The root is a parameter, and so are the ways to
//! save work (`PLAIN`, `LAZY`, `KEEN`).

/// Every solid that is met gets its normal.
pub const PLAIN: u8 = 0;
/// A solid that is not nearer gets none.
pub const LAZY: u8 = 1;
/// All that the proved library saves: a normal for the nearest alone, shapes behind the ray told by signs, a box's sides
/// last, tests joined that are hard to predict.
pub const KEEN: u8 = 2;

#[derive(Clone, Copy)]
pub struct V3 {
    pub x: f64,
    pub y: f64,
    pub z: f64,
}

fn v(x: f64, y: f64, z: f64) -> V3 {
    V3 { x, y, z }
}

impl V3 {
    fn dot(self, o: V3) -> f64 {
        self.x * o.x + self.y * o.y + self.z * o.z
    }
    fn minus(self, o: V3) -> V3 {
        v(self.x - o.x, self.y - o.y, self.z - o.z)
    }
    fn over(self, k: f64) -> V3 {
        v(self.x / k, self.y / k, self.z / k)
    }
    fn finite(self) -> bool {
        self.x.is_finite() && self.y.is_finite() && self.z.is_finite()
    }
}

#[derive(Clone, Copy)]
pub struct Ray {
    pub origin: V3,
    pub direction: V3,
    pub nm: f64,
    pub power: f64,
}

impl Ray {
    fn at(&self, t: f64) -> V3 {
        let (o, d) = (self.origin, self.direction);
        v(o.x + d.x * t, o.y + d.y * t, o.z + d.z * t)
    }
}

pub type Mat = [[f64; 4]; 4];

fn times(m: &Mat, p: V3, last: f64) -> V3 {
    let row = |r: &[f64; 4]| r[0] * p.x + r[1] * p.y + r[2] * p.z + r[3] * last;
    v(row(&m[0]), row(&m[1]), row(&m[2]))
}

fn times_transposed(m: &Mat, p: V3) -> V3 {
    let col = |j: usize| m[0][j] * p.x + m[1][j] * p.y + m[2][j] * p.z + m[3][j] * 0.0;
    v(col(0), col(1), col(2))
}

pub enum Shape {
    Plane { half_width: f64, half_height: f64 },
    Disk { outer_radius: f64, inner_radius: f64 },
    Sphere { radius: f64 },
    Cylinder { radius: f64, half_length: f64 },
    Box { half: [f64; 3] },
}

pub struct Solid {
    pub shape: Shape,
    pub active: bool,
    pub m: Mat,
    pub w: Mat,
}

#[derive(Clone, Copy)]
pub struct Hit {
    pub t: f64,
    pub point: V3,
    pub normal: V3,
    pub geometric_normal: V3,
    pub object_id: usize,
    pub entering: bool,
}

fn flat(r: &Ray) -> Option<f64> {
    let dz = r.direction.z;
    if dz.abs() < 1e-12 {
        return None;
    }
    let t = -r.origin.z / dz;
    if t <= 1e-9 { None } else { Some(t) }
}

fn quadratic(a: f64, b: f64, c: f64, root: impl Fn(f64) -> f64) -> Option<(f64, f64)> {
    let disc = b * b - 4.0 * a * c;
    if disc < 0.0 {
        return None;
    }
    let q = root(disc);
    Some(((-b - q) / (2.0 * a), (-b + q) / (2.0 * a)))
}

/// Surely behind a ray from o along d, which may have any length.
fn behind(s: &Shape, o: V3, d: V3) -> bool {
    let leaves = |o: f64, d: f64, h: f64| (o * d > 0.0) & (o.abs() > h);
    match *s {
        Shape::Plane { .. } | Shape::Disk { .. } => o.z * d.z > 0.0,
        Shape::Box { half: [x, y, z] } => leaves(o.x, d.x, x) | leaves(o.y, d.y, y) | leaves(o.z, d.z, z),
        _ => false,
    }
}

/// A box by its ends first and its sides last.
fn keen_box(half: [f64; 3], r: &Ray) -> Option<(f64, V3)> {
    let (o, d) = ([r.origin.x, r.origin.y, r.origin.z], [r.direction.x, r.direction.y, r.direction.z]);
    if (0..3).any(|k| !(d[k].abs() > 1e-12) && o[k].abs() > half[k]) {
        return None;
    }
    let span = |k: usize| {
        if !(d[k].abs() > 1e-12) {
            return (-f64::INFINITY, f64::INFINITY);
        }
        let i = 1.0 / d[k];
        let face = if i >= 0.0 { -half[k] } else { half[k] };
        ((face - o[k]) * i, (-face - o[k]) * i)
    };
    let later = |t: f64, end: f64| if t > end { t } else { end };
    let sooner = |t: f64, end: f64| if t < end { t } else { end };
    let s = [span(0), span(1), span(2)];
    let n1 = later(s[0].0, -f64::INFINITY);
    let n2 = later(s[1].0, n1);
    let near = later(s[2].0, n2);
    let f1 = sooner(s[0].1, f64::INFINITY);
    let f2 = sooner(s[1].1, f1);
    let far = sooner(s[2].1, f2);
    if near > far || far <= 1e-9 {
        return None;
    }
    let side = |k: usize, sign: f64| {
        let x = if 1.0 / d[k] >= 0.0 { -sign } else { sign };
        let at = |j| if j == k { x } else { 0.0 };
        v(at(0), at(1), at(2))
    };
    if near > 1e-9 {
        let n = if s[2].0 > n2 { side(2, 1.0) } else if s[1].0 > n1 { side(1, 1.0) } else { side(0, 1.0) };
        return Some((near, n));
    }
    let whole = !(s[2].1 < f2) && !(s[1].1 < f1) && !(s[0].1 < f64::INFINITY);
    let n = if whole { v(0.0, 0.0, 0.0) } else if s[2].1 < f2 { side(2, -1.0) } else if s[1].1 < f1 { side(1, -1.0) } else { side(0, -1.0) };
    Some((far, n))
}

fn local<const HOW: u8>(s: &Shape, r: &Ray, root: impl Fn(f64) -> f64) -> Option<(f64, V3)> {
    let (o, d) = (r.origin, r.direction);
    match *s {
        Shape::Plane { half_width, half_height } => {
            let t = flat(r)?;
            let (x, y) = (o.x + t * d.x, o.y + t * d.y);
            (x.abs() <= half_width && y.abs() <= half_height).then_some((t, v(0.0, 0.0, 1.0)))
        }
        Shape::Disk { outer_radius, inner_radius } => {
            let t = flat(r)?;
            let (x, y) = (o.x + t * d.x, o.y + t * d.y);
            let r2 = x * x + y * y;
            (r2 >= inner_radius * inner_radius && r2 <= outer_radius * outer_radius).then_some((t, v(0.0, 0.0, 1.0)))
        }
        Shape::Sphere { radius } => {
            let s = radius.abs();
            let (b, c) = (2.0 * o.dot(d), o.dot(o) - s * s);
            if HOW == KEEN && c > 0.0 && (1e-150..1e150).contains(&b) {
                return None;
            }
            let (t1, t2) = quadratic(d.dot(d), b, c, root)?;
            let t = if t1 > 1e-9 {
                t1
            } else if t2 > 1e-9 {
                t2
            } else {
                return None;
            };
            Some((t, r.at(t).over(s)))
        }
        Shape::Cylinder { radius, half_length } => {
            let a = d.x * d.x + d.y * d.y;
            if a < 1e-12 {
                return None;
            }
            let (t1, t2) = quadratic(a, 2.0 * (o.x * d.x + o.y * d.y), o.x * o.x + o.y * o.y - radius * radius, root)?;
            for t in [t1, t2] {
                if t > 1e-9 && (o.z + t * d.z).abs() <= half_length {
                    return Some((t, v((o.x + t * d.x) / radius, (o.y + t * d.y) / radius, 0.0)));
                }
            }
            None
        }
        Shape::Box { half } if HOW == KEEN => keen_box(half, r),
        Shape::Box { half } => {
            let (mut near, mut far) = (-f64::INFINITY, f64::INFINITY);
            let (mut near_n, mut far_n) = (v(0.0, 0.0, 0.0), v(0.0, 0.0, 0.0));
            let mut axis = |o: f64, d: f64, h: f64, lo: V3, hi: V3| {
                if d.abs() > 1e-12 {
                    let i = 1.0 / d;
                    let (t1, t2) = ((-h - o) * i, (h - o) * i);
                    let (tn, tf, nn, nf) = if i >= 0.0 { (t1, t2, lo, hi) } else { (t2, t1, hi, lo) };
                    if tn > near {
                        near = tn;
                        near_n = nn;
                    }
                    if tf < far {
                        far = tf;
                        far_n = nf;
                    }
                    true
                } else {
                    !(o.abs() > h)
                }
            };
            if !axis(o.x, d.x, half[0], v(-1.0, 0.0, 0.0), v(1.0, 0.0, 0.0))
                || !axis(o.y, d.y, half[1], v(0.0, -1.0, 0.0), v(0.0, 1.0, 0.0))
                || !axis(o.z, d.z, half[2], v(0.0, 0.0, -1.0), v(0.0, 0.0, 1.0))
            {
                return None;
            }
            if near > far || far <= 1e-9 {
                return None;
            }
            Some(if near > 1e-9 { (near, near_n) } else { (far, far_n) })
        }
    }
}

fn unit(p: V3, root: impl Fn(f64) -> f64) -> Option<V3> {
    let l = root(p.dot(p));
    if l <= 1e-15 || !l.is_finite() { None } else { Some(p.over(l)) }
}

/// Where a ray meets a solid: the distance, the point, and the normal in the solid's coordinates.
#[derive(Clone, Copy)]
struct Approach {
    t: f64,
    point: V3,
    n: V3,
}

fn approach<const HOW: u8>(s: &Solid, r: &Ray, min_t: f64, root: impl Fn(f64) -> f64 + Copy) -> Option<Approach> {
    if !s.active {
        return None;
    }
    let (origin, d) = (times(&s.w, r.origin, 1.0), times(&s.w, r.direction, 0.0));
    if HOW == KEEN && behind(&s.shape, origin, d) {
        return None;
    }
    let q = Ray { origin, direction: unit(d, root)?, ..*r };
    if !(q.origin.finite() && q.direction.finite() && q.nm.is_finite() && q.power.is_finite()) {
        return None;
    }
    let (t_local, n) = local::<HOW>(&s.shape, &q, root)?;
    let point = times(&s.m, q.at(t_local), 1.0);
    let t = point.minus(r.origin).dot(r.direction);
    (t > 1e-8 && (HOW == PLAIN || t < min_t)).then_some(Approach { t, point, n })
}

fn arrive(s: &Solid, id: usize, r: &Ray, a: Approach, root: impl Fn(f64) -> f64) -> Option<Hit> {
    let g = unit(times_transposed(&s.w, a.n), root)?;
    let entering = r.direction.dot(g) < 0.0;
    let normal = if entering { g } else { v(-g.x, -g.y, -g.z) };
    Some(Hit { t: a.t, point: a.point, normal, geometric_normal: g, object_id: id, entering })
}

fn keen_closest(solids: &[Solid], r: &Ray, root: impl Fn(f64) -> f64 + Copy) -> Option<Hit> {
    let mut best = None;
    let mut min_t = f64::INFINITY;
    for (i, s) in solids.iter().enumerate() {
        if let Some(a) = approach::<KEEN>(s, r, min_t, root) {
            min_t = a.t;
            best = Some((i, a));
        }
    }
    let (i, a) = best?;
    arrive(&solids[i], i, r, a, root).or_else(|| closest::<LAZY>(solids, r, root))
}

pub fn closest<const HOW: u8>(solids: &[Solid], r: &Ray, root: impl Fn(f64) -> f64 + Copy) -> Option<Hit> {
    if HOW == KEEN {
        return keen_closest(solids, r, root);
    }
    let mut best = None;
    let mut min_t = f64::INFINITY;
    for (i, s) in solids.iter().enumerate() {
        if let Some(h) = approach::<HOW>(s, r, min_t, root).and_then(|a| arrive(s, i, r, a, root)) {
            if h.t < min_t {
                min_t = h.t;
                best = Some(h);
            }
        }
    }
    best
}
