//! Random scenes for the original tracer, written as document 01's scene text,
//! and the original's answer in straymap's form.
//!
//!   scenegen scene SEED          scene text (filter -)
//!   scenegen answer SEED FILTER  the original's answer under filter 0..4
//!   scenegen batch FROM COUNT DIR [closed] [nowhere] [mirrors]   writes DIR/SEED.F.in and DIR/SEED.F.out, F in 0..4;
//!                                with `closed` every cylinder and every second box of a scene is a closed cylinder of its
//!                                sizes, with `nowhere` some detectors face nowhere (head of nowhere.rs), with
//!                                `mirrors` solids are mirrors at the threshold (head of mirrors.rs)
//!   scenegen bench SEED N        ns per interaction of the original
//!   scenegen vectors DIR         tables of single functions of the original (hex bits, printed style)
//!   scenegen scripts DIR SEED    the scripts of crates/test_scripts and what it is to print (head of scripts.rs)
//! A SEED of the form tN is the "typical" bench scene number N (8 solids, 2 detectors).
use nalgebra::{Matrix4, Vector4};
use optics_core::{Ray, Vec3};
use optics_nonseq::detector::{Detector2D, RayPathFilter};
use optics_nonseq::error::NonSeqError;
use optics_nonseq::geometry::{PrimitiveGeometry, Transform3D};
use optics_nonseq::material::{NonSeqMaterial, OpticalMedium, SurfaceFinish};
use optics_nonseq::scene::{NonSeqObject, NonSeqScene};
use optics_nonseq::source::NonSeqRay;
use optics_nonseq::trace::{NonSeqTraceConfig, NonSeqTraceReport, NonSeqTracer, RayPathSegment};
use std::fmt::Write as _;

mod book;
mod calls;
mod closed;
mod closed_scripts;
mod damage;
mod edges;
mod flags;
mod limits;
mod mirror_scripts;
mod mirrors;
mod nowhere;
mod nowhere_scripts;
mod plans;
mod reader;
mod runs;
mod sample;
mod scenes;
mod script;
mod scripts;
mod stage;
mod worked;

struct Sm(u64);
impl Sm {
    fn u(&mut self) -> u64 {
        self.0 = self.0.wrapping_add(0x9E3779B97F4A7C15);
        let mut z = self.0;
        z = (z ^ (z >> 30)).wrapping_mul(0xBF58476D1CE4E5B9);
        z = (z ^ (z >> 27)).wrapping_mul(0x94D049BB133111EB);
        z ^ (z >> 31)
    }
    fn n(&mut self, k: u64) -> u64 { (self.u() >> 11) % k }
    fn f(&mut self) -> f64 { (self.u() >> 11) as f64 * (1.0 / (1u64 << 53) as f64) }
    fn r(&mut self, a: f64, b: f64) -> f64 { a + (b - a) * self.f() }
    fn chance(&mut self, p: f64) -> bool { self.f() < p }
    fn pick<T: Copy>(&mut self, xs: &[T]) -> T { xs[self.n(xs.len() as u64) as usize] }
    fn unit(&mut self) -> Vec3 {
        loop {
            let v = Vec3::new(self.r(-1.0, 1.0), self.r(-1.0, 1.0), self.r(-1.0, 1.0));
            let n = v.norm();
            if n > 0.1 && n < 1.0 { return v.normalize(); }
        }
    }
    fn axis(&mut self) -> Vec3 {
        match self.n(6) {
            0 => Vec3::new(1.0, 0.0, 0.0),
            1 => Vec3::new(-1.0, 0.0, 0.0),
            2 => Vec3::new(0.0, 1.0, 0.0),
            3 => Vec3::new(0.0, -1.0, 0.0),
            4 => Vec3::new(0.0, 0.0, 1.0),
            _ => Vec3::new(0.0, 0.0, -1.0),
        }
    }
    fn log(&mut self, a: f64, b: f64) -> f64 { (self.r(a.ln(), b.ln())).exp() }
    fn wild(&mut self) -> f64 {
        match self.n(12) {
            0 => 0.0,
            1 => -0.0,
            2 => f64::NAN,
            3 => f64::INFINITY,
            4 => -f64::INFINITY,
            5 => 1e300,
            6 => -1e300,
            7 => 5e-324,
            8 => 1e-200,
            9 => self.r(-3.0, 3.0),
            10 => f64::from_bits(self.u()),
            _ => self.r(0.0, 10.0),
        }
    }
}

#[derive(Clone)]
struct GivenDet { normal: Vec3, up: Vec3 }

#[derive(Clone)]
struct Case {
    scene: NonSeqScene,
    given: Vec<GivenDet>,
    rays: Vec<NonSeqRay>,
    bounces: usize,
    threshold: f64,
    wild: bool,
}

fn medium(s: &mut Sm, wild: bool) -> OpticalMedium {
    if wild && s.chance(0.35) {
        return match s.n(4) {
            0 => OpticalMedium::Constant { n: s.wild() },
            1 => OpticalMedium::Constant { n: s.pick(&[1.0, 0.5, 1e200, 1e17, 1e100, 1.7e308, 1.0000000000000002, 0.9999999999999999]) },
            2 => OpticalMedium::Sellmeier1 { b1: s.wild(), c1: s.wild(), b2: s.r(0.0, 1.0), c2: s.r(0.0, 0.1), b3: s.r(0.0, 1.0), c3: s.r(90.0, 110.0) },
            _ => OpticalMedium::Schott { a0: s.r(0.5, 3.0), a1: s.r(-0.1, 0.1), a2: s.wild(), a3: s.r(-1.0, 1.0), a4: s.r(-0.01, 0.01), a5: s.wild() },
        };
    }
    match s.n(5) {
        0 => OpticalMedium::Air,
        1 => OpticalMedium::Constant { n: s.pick(&[1.0, 1.5, 1.33, 2.0, 3.0]) },
        2 => OpticalMedium::Constant { n: s.r(1.0, 2.5) },
        3 => OpticalMedium::Sellmeier1 {
            b1: 1.03961212 + s.r(-0.1, 0.1), c1: 0.00600069867, b2: 0.231792344, c2: 0.0200179144, b3: 1.01046945, c3: 103.560653,
        },
        _ => OpticalMedium::Schott {
            a0: 2.2718929 + s.r(-0.2, 0.4), a1: -0.010108077, a2: 0.010592509, a3: 0.00020816965, a4: -7.6472538e-06, a5: 4.9240991e-07,
        },
    }
}

fn shape(s: &mut Sm, kind: u64, size: f64, wild: bool) -> PrimitiveGeometry {
    let d = |s: &mut Sm| if wild && s.chance(0.15) { s.wild() } else { size * s.r(0.5, 1.5) };
    match kind {
        0 => PrimitiveGeometry::Plane { half_width: d(s), half_height: d(s) },
        1 => PrimitiveGeometry::Disk { outer_radius: d(s), inner_radius: if s.chance(0.5) { 0.0 } else { 0.3 * d(s) } },
        2 => PrimitiveGeometry::Sphere { radius: d(s) * if s.chance(0.1) { -1.0 } else { 1.0 } },
        3 => PrimitiveGeometry::Cylinder { radius: d(s) * if s.chance(0.1) { -1.0 } else { 1.0 }, half_length: d(s) },
        _ => PrimitiveGeometry::Box { half_x: d(s), half_y: d(s), half_z: d(s) },
    }
}

fn ishape(s: &mut Sm) -> PrimitiveGeometry {
    let mut d = || (1 + s.n(4)) as f64;
    let (a, b, c) = (d(), d(), d());
    match s.n(5) {
        0 => PrimitiveGeometry::Plane { half_width: a, half_height: b },
        1 => PrimitiveGeometry::Disk { outer_radius: a + 1.0, inner_radius: if s.chance(0.5) { 0.0 } else { 1.0 } },
        2 => PrimitiveGeometry::Sphere { radius: a },
        3 => PrimitiveGeometry::Cylinder { radius: a, half_length: b },
        _ => PrimitiveGeometry::Box { half_x: a, half_y: b, half_z: c },
    }
}

fn scale(s: &mut Sm) -> Vec3 {
    match s.n(6) {
        0 | 1 => Vec3::new(1.0, 1.0, 1.0),
        2 => { let k = s.log(0.2, 5.0); Vec3::new(k, k, k) }
        3 => Vec3::new(s.log(0.3, 3.0), s.log(0.3, 3.0), s.log(0.3, 3.0)),
        4 => Vec3::new(s.pick(&[1.0, -1.0]), s.pick(&[1.0, -1.0]), s.pick(&[1.0, -1.0])),
        _ => Vec3::new(s.log(0.3, 3.0) * s.pick(&[1.0, -1.0]), s.log(0.3, 3.0), s.log(0.3, 3.0) * s.pick(&[1.0, -1.0])),
    }
}

fn finish(s: &mut Sm, wild: bool) -> SurfaceFinish {
    match s.n(10) {
        0..=5 => SurfaceFinish::Specular,
        6..=8 => SurfaceFinish::Mirror { reflectance: if wild && s.chance(0.3) { s.wild() } else { s.pick(&[1.0, 0.9, 0.5, 0.0, 1.5, -0.25, 0.98]) } },
        _ => SurfaceFinish::Absorber,
    }
}

fn obj(g: PrimitiveGeometry, t: Transform3D, m: OpticalMedium, f: SurfaceFinish) -> NonSeqObject {
    NonSeqObject { id: 0, name: String::new(), geometry: g, transform: t, material: NonSeqMaterial { medium: m, absorption: None, finish: f }, is_active: true }
}

fn add_det(c: &mut Case, center: Vec3, normal: Vec3, up: Vec3, w: f64, h: f64, rx: usize, ry: usize) -> bool {
    let id = c.scene.detectors.len();
    match Detector2D::new(id, "", center, normal, up, w, h, rx, ry) {
        Ok(d) => {
            c.scene.add_detector(d);
            c.given.push(GivenDet { normal, up });
            true
        }
        Err(_) => false,
    }
}

fn push_ray(c: &mut Case, o: Vec3, d: Vec3, nm: f64, p: f64, bounce: usize, media: Vec<usize>) {
    let n = d.dot(&d);
    if (n - 1.0).abs() > 1e-9 || !(n - 1.0).is_finite() || p < 0.0 { return; }
    if let Ok(ray) = Ray::new(o, d, nm, p) {
        let id = c.rays.len();
        let mut r = NonSeqRay::new(ray, id).with_medium_stack(media);
        r.bounce_count = bounce;
        c.rays.push(r);
    }
}

fn generate(seed: u64) -> Case {
    let mut sm = Sm(seed.wrapping_mul(0xD1342543DE82EF95).wrapping_add(77));
    let s = &mut sm;
    let kind = seed % 8;
    let wild = kind == 7 || kind == 4;
    let mut c = Case {
        scene: NonSeqScene::new(),
        given: Vec::new(),
        rays: Vec::new(),
        bounces: s.pick(&[0usize, 1, 2, 3, 4, 5, 6, 7, 8, 8, 9, 10, 12, 16]),
        threshold: s.pick(&[0.0, 1e-12, 1e-6, 1e-4, 1e-3, 0.01, 0.1, 0.3]),
        wild: wild || kind == 3,
    };
    let dense = seed % 61 == 17;
    if c.bounces > 9 && c.threshold < 1e-4 { c.threshold = s.pick(&[1e-4, 1e-3, 1e-2]); }
    if s.chance(0.03) { c.threshold = -0.0; c.bounces = c.bounces.min(8); }
    c.scene.ambient_medium = if s.chance(0.6) { OpticalMedium::Air } else { medium(s, wild) };
    let integer = kind == 3;
    let nsol = match kind {
        1 => 2 + s.n(7),
        2 => 1 + s.n(3),
        _ => s.n(13),
    } as usize;
    for k in 0..nsol {
        let t = match kind {
            3 => Transform3D {
                translation: Vec3::new(s.n(7) as f64 - 3.0, s.n(7) as f64 - 3.0, s.n(13) as f64 - 6.0),
                rotation_euler_deg: if s.chance(0.7) { Vec3::zeros() } else { Vec3::new(90.0 * s.n(4) as f64, 90.0 * s.n(4) as f64, 90.0 * s.n(4) as f64) },
                scale: if s.chance(0.6) { Vec3::new(1.0, 1.0, 1.0) } else { Vec3::new(s.pick(&[1.0, -1.0, 2.0, 0.5]), s.pick(&[1.0, -1.0, 2.0]), s.pick(&[1.0, -1.0, 4.0])) },
            },
            1 => Transform3D {
                translation: if s.chance(0.5) { Vec3::zeros() } else { Vec3::new(s.r(-0.3, 0.3), s.r(-0.3, 0.3), s.r(-0.3, 0.3)) },
                rotation_euler_deg: Vec3::new(s.r(-180.0, 180.0), s.r(-180.0, 180.0), s.r(-180.0, 180.0)),
                scale: scale(s),
            },
            4 => Transform3D {
                translation: Vec3::new(s.r(-5.0, 5.0), s.r(-5.0, 5.0), s.r(-5.0, 5.0)),
                rotation_euler_deg: Vec3::new(s.r(-180.0, 180.0), s.r(-180.0, 180.0), s.r(-180.0, 180.0)),
                scale: {
                    let k = s.log(1e-12, 1e12);
                    match s.n(5) {
                        0 => Vec3::new(k, k, k),
                        1 => Vec3::new(0.0, 1.0, 1.0),
                        2 => Vec3::new(s.log(1e-9, 1e9), 1.0, -1.0),
                        3 => Vec3::new(1e-160, 1e160, 1.0),
                        _ => scale(s),
                    }
                },
            },
            _ => Transform3D {
                translation: Vec3::new(s.r(-8.0, 8.0), s.r(-8.0, 8.0), s.r(-8.0, 8.0)),
                rotation_euler_deg: if s.chance(0.2) { Vec3::zeros() } else { Vec3::new(s.r(-180.0, 180.0), s.r(-180.0, 180.0), s.r(-180.0, 180.0)) },
                scale: scale(s),
            },
        };
        let g = match kind {
            3 => ishape(s),
            1 => { let sk = s.pick(&[2u64, 4, 4, 2, 3]); shape(s, sk, 6.0 / (1.0 + k as f64), false) }
            2 => { let sk = s.pick(&[4u64, 4, 3, 2]); shape(s, sk, 4.0, false) }
            4 => { let sk = s.n(5); let sz = if t.scale.x.abs() > 0.0 && s.chance(0.7) { 3.0 / t.scale.x.abs() } else { 3.0 }; shape(s, sk, sz, false) }
            _ => { let sk = s.n(5); shape(s, sk, 2.5, wild) }
        };
        let m = if kind == 3 && s.chance(0.2) { OpticalMedium::Constant { n: s.pick(&[1e200, 1e17, 1e16, 1e15, 1e9]) } } else if kind == 2 { OpticalMedium::Constant { n: s.r(1.4, 2.4) } } else { medium(s, wild) };
        let f = match kind {
            1 | 2 => if s.chance(0.9) { SurfaceFinish::Specular } else { finish(s, false) },
            6 => if s.chance(0.8) { SurfaceFinish::Mirror { reflectance: s.pick(&[1.0, 0.95, 0.5, 0.9]) } } else { finish(s, false) },
            _ => finish(s, wild),
        };
        let mut o = obj(g, t, m, f);
        o.is_active = !s.chance(0.06);
        c.scene.add_object(o);
    }
    let ndet = match kind { 3 => 1 + s.n(6), _ => s.n(9).min(1 + s.n(8)) } as usize;
    let mut room = 4096usize;
    for _ in 0..ndet {
        let rx = 1 + s.n(24) as usize;
        let ry = 1 + s.n(20) as usize;
        if rx * ry > room { continue; }
        let ok = if integer {
            let n = s.axis();
            let u = s.axis();
            let ctr = Vec3::new(s.n(7) as f64 - 3.0, s.n(7) as f64 - 3.0, s.n(15) as f64 - 7.0);
            add_det(&mut c, ctr, n, u, 2.0 * (1 + s.n(6)) as f64, 2.0 * (1 + s.n(6)) as f64, rx, ry)
        } else {
            let mut n = s.unit() * s.log(0.1, 10.0);
            let mut u = s.unit() * s.log(0.1, 10.0);
            if wild && s.chance(0.2) { n = Vec3::new(s.wild(), s.wild(), s.wild()); }
            if wild && s.chance(0.1) { u = Vec3::new(s.wild(), s.wild(), s.wild()); }
            if s.chance(0.03) { n = Vec3::zeros(); }
            let mut ctr = Vec3::new(s.r(-12.0, 12.0), s.r(-12.0, 12.0), s.r(-12.0, 12.0));
            if wild && s.chance(0.1) { ctr = Vec3::new(s.wild(), s.wild(), s.wild()); }
            let (w, h) = (s.r(1.0, 20.0), s.r(1.0, 20.0));
            add_det(&mut c, ctr, n, u, w, h, rx, ry)
        };
        if ok { room -= rx * ry; }
    }
    if dense {
        // Many hits: two glass slabs between two large detectors.
        c.bounces = 6 + s.n(5) as usize;
        c.threshold = s.pick(&[1e-9, 1e-7, 1e-5]);
        for k in 0..2 {
            let t = Transform3D { translation: Vec3::new(0.0, 0.0, 3.0 * k as f64), rotation_euler_deg: Vec3::new(s.r(-20.0, 20.0), s.r(-20.0, 20.0), 0.0), scale: Vec3::new(1.0, 1.0, 1.0) };
            c.scene.add_object(obj(PrimitiveGeometry::Box { half_x: 30.0, half_y: 30.0, half_z: 0.3 }, t, OpticalMedium::Constant { n: 1.9 }, SurfaceFinish::Specular));
        }
        for z in [-20.0, 20.0] {
            if room >= 256 && c.scene.detectors.len() < 8 && add_det(&mut c, Vec3::new(0.0, 0.0, z), Vec3::new(0.0, 0.0, 1.0), Vec3::new(0.0, 1.0, 0.0), 60.0, 60.0, 16, 16) { room -= 256; }
        }
    }
    let nsol = c.scene.objects.len();
    let nray = if dense { 60 + s.n(300) } else if c.bounces > 8 { 1 + s.n(5) } else { s.n(40) } as usize;
    for _ in 0..nray {
        let p = if wild && s.chance(0.2) { s.pick(&[0.0, -0.0, 1e-320, 1e308, 1.7e308, 5e-324, 1e-6, 0.5]) } else if s.chance(0.3) { 1.0 } else { s.r(0.0, 2.0) };
        let nm = if wild && s.chance(0.1) { s.pick(&[0.0, -0.0, -500.0, 1e-200, 1e200, 1e-3]) } else { s.pick(&[587.56, 486.13, 656.27, 400.0, 1064.0]) + if s.chance(0.3) { s.r(-50.0, 50.0) } else { 0.0 } };
        let bounce = if s.chance(0.85) { 0 } else { s.pick(&[0usize, 1, 2, 3, 5, 8, 15, 16, 17, 1000, 4294967295]) };
        let nmed = if nsol == 0 || s.chance(0.6) { 0 } else { s.n(9) as usize };
        let mut media: Vec<usize> = (0..nmed).map(|_| s.n(nsol as u64) as usize).collect();
        let (o, d) = if integer {
            let o = Vec3::new(s.n(9) as f64 - 4.0, s.n(9) as f64 - 4.0, s.n(21) as f64 - 10.0);
            let d = match s.n(4) {
                0 => s.unit(),
                1 => { let a = s.pick(&[0.6, -0.6]); let b = s.pick(&[0.8, -0.8]); match s.n(3) { 0 => Vec3::new(a, b, 0.0), 1 => Vec3::new(0.0, a, b), _ => Vec3::new(a, 0.0, b) } }
                _ => s.axis(),
            };
            (o, d)
        } else if kind == 1 || kind == 2 {
            if s.chance(0.5) {
                // start inside: a plausible stack
                if kind == 1 { let k = s.n(nsol as u64 + 1) as usize; media = (0..k.min(8)).collect(); }
                if kind == 2 && nsol > 0 { media = vec![s.n(nsol as u64) as usize]; }
                let base = if kind == 2 && !media.is_empty() { c.scene.objects[media[0]].transform.translation } else { Vec3::zeros() };
                (base + s.unit() * s.r(0.0, 1.0), s.unit())
            } else {
                let o = s.unit() * s.r(8.0, 20.0);
                let aim = s.unit() * s.r(0.0, 4.0);
                (o, (aim - o).normalize())
            }
        } else {
            let o = Vec3::new(s.r(-12.0, 12.0), s.r(-12.0, 12.0), s.r(-12.0, 12.0));
            let mut aim = if nsol > 0 && s.chance(0.7) {
                c.scene.objects[s.n(nsol as u64) as usize].transform.translation
            } else if !c.scene.detectors.is_empty() && s.chance(0.7) {
                c.scene.detectors[s.n(c.scene.detectors.len() as u64) as usize].center
            } else { s.unit() * 100.0 };
            aim = aim + s.unit() * s.r(0.0, 2.0);
            (o, (aim - o).normalize())
        };
        let d = if s.chance(0.05) { d * (1.0 + s.r(-4e-10, 4e-10)) } else { d };
        push_ray(&mut c, o, d, nm, p, bounce, media);
    }
    nowhere::leave_out(&mut c);
    c
}

/// The bench scene: 8 solids (all shapes), 2 detectors, a beam of rays along z.
fn typical(n: u64) -> Case {
    let mut sm = Sm(n.wrapping_add(4242));
    let s = &mut sm;
    let mut c = Case { scene: NonSeqScene::new(), given: Vec::new(), rays: Vec::new(), bounces: 12, threshold: 1e-3, wild: false };
    let bk7 = OpticalMedium::Sellmeier1 { b1: 1.03961212, c1: 0.00600069867, b2: 0.231792344, c2: 0.0200179144, b3: 1.01046945, c3: 103.560653 };
    let sch = OpticalMedium::Schott { a0: 2.2718929, a1: -0.010108077, a2: 0.010592509, a3: 0.00020816965, a4: -7.6472538e-06, a5: 4.9240991e-07 };
    let tr = |x: f64, y: f64, z: f64, rx: f64, ry: f64, sc: f64| Transform3D { translation: Vec3::new(x, y, z), rotation_euler_deg: Vec3::new(rx, ry, 0.0), scale: Vec3::new(1.0, 1.0, sc) };
    c.scene.add_object(obj(PrimitiveGeometry::Box { half_x: 12.0, half_y: 12.0, half_z: 1.0 }, tr(0.0, 0.0, 5.0, 3.0, 0.0, 1.0), OpticalMedium::Constant { n: 1.5 }, SurfaceFinish::Specular));
    c.scene.add_object(obj(PrimitiveGeometry::Sphere { radius: 10.0 }, tr(0.0, 0.0, 15.0, 0.0, 0.0, 0.4), bk7.clone(), SurfaceFinish::Specular));
    c.scene.add_object(obj(PrimitiveGeometry::Sphere { radius: 8.0 }, tr(1.0, 0.0, 25.0, 10.0, 5.0, 0.3), sch, SurfaceFinish::Specular));
    c.scene.add_object(obj(PrimitiveGeometry::Cylinder { radius: 14.0, half_length: 40.0 }, tr(0.0, 0.0, 20.0, 0.0, 0.0, 1.0), OpticalMedium::Air, SurfaceFinish::Mirror { reflectance: 0.5 }));
    c.scene.add_object(obj(PrimitiveGeometry::Disk { outer_radius: 14.0, inner_radius: 7.0 }, tr(0.0, 0.0, 31.0, 0.0, 0.0, 1.0), OpticalMedium::Air, SurfaceFinish::Absorber));
    c.scene.add_object(obj(PrimitiveGeometry::Box { half_x: 3.0, half_y: 3.0, half_z: 3.0 }, tr(-2.0, 1.0, 36.0, 20.0, 30.0, 1.0), bk7, SurfaceFinish::Specular));
    c.scene.add_object(obj(PrimitiveGeometry::Plane { half_width: 6.0, half_height: 6.0 }, tr(4.0, 0.0, 42.0, 40.0, 0.0, 1.0), OpticalMedium::Air, SurfaceFinish::Mirror { reflectance: 0.9 }));
    c.scene.add_object(obj(PrimitiveGeometry::Box { half_x: 14.0, half_y: 14.0, half_z: 0.5 }, tr(0.0, 0.0, 48.0, 0.0, 0.0, 1.0), OpticalMedium::Constant { n: 1.6 }, SurfaceFinish::Specular));
    add_det(&mut c, Vec3::new(0.0, 0.0, 55.0), Vec3::new(0.0, 0.0, -1.0), Vec3::new(0.0, 1.0, 0.0), 28.0, 28.0, 32, 32);
    add_det(&mut c, Vec3::new(0.0, 0.0, -6.0), Vec3::new(0.0, 0.0, 1.0), Vec3::new(0.0, 1.0, 0.0), 28.0, 28.0, 32, 32);
    for _ in 0..60 {
        let x = s.r(-8.0, 8.0);
        let y = s.r(-8.0, 8.0);
        let d = Vec3::new(s.r(-0.1, 0.1), s.r(-0.1, 0.1), 1.0).normalize();
        let nm = s.pick(&[587.56, 486.13, 656.27]);
        push_ray(&mut c, Vec3::new(x, y, -2.0), d, nm, 1.0, 0, vec![]);
    }
    c
}

/// The doubles beside one above 0.
fn next(x: f64) -> f64 { f64::from_bits(x.to_bits() + 1) }
fn previous(x: f64) -> f64 { f64::from_bits(x.to_bits() - 1) }

// ---- text ----

/// 16 hex digits, zeros at the end left out.
fn trimmed(bits: u64) -> String {
    let t = format!("{bits:016x}");
    let t = t.trim_end_matches('0');
    if t.is_empty() { "0".into() } else { t.into() }
}
fn hx(x: f64) -> String {
    if x.is_nan() { return "7ff8".into(); }
    trimmed(x.to_bits())
}
fn med_fields(m: &OpticalMedium) -> (u32, [f64; 6]) {
    match *m {
        OpticalMedium::Air => (0, [0.0; 6]),
        OpticalMedium::Constant { n } => (1, [n, 0.0, 0.0, 0.0, 0.0, 0.0]),
        OpticalMedium::Sellmeier1 { b1, c1, b2, c2, b3, c3 } => (2, [b1, c1, b2, c2, b3, c3]),
        OpticalMedium::Schott { a0, a1, a2, a3, a4, a5 } => (3, [a0, a1, a2, a3, a4, a5]),
        _ => unreachable!(),
    }
}
fn shape_fields(g: &PrimitiveGeometry) -> (u32, [f64; 3]) {
    match *g {
        PrimitiveGeometry::Plane { half_width, half_height } => (0, [half_width, half_height, 0.0]),
        PrimitiveGeometry::Disk { outer_radius, inner_radius } => (1, [outer_radius, inner_radius, 0.0]),
        PrimitiveGeometry::Sphere { radius } => (2, [radius, 0.0, 0.0]),
        PrimitiveGeometry::Cylinder { radius, half_length } => (3, [radius, half_length, 0.0]),
        PrimitiveGeometry::Box { half_x, half_y, half_z } => (4, [half_x, half_y, half_z]),
        PrimitiveGeometry::ClosedCylinder { radius, half_length } => (5, [radius, half_length, 0.0]),
        PrimitiveGeometry::Mesh { .. } => unreachable!(),
    }
}
fn mat(m: &Matrix4<f64>) -> String {
    let v: Vec<String> = m.r.iter().flatten().map(|&x| hx(x)).collect();
    v.join(",")
}
fn six(a: &[f64; 6]) -> String { a.iter().map(|&x| hx(x)).collect::<Vec<_>>().join(" ") }

fn scene_text(c: &Case, filter: &str) -> String {
    let mut o = String::new();
    let (ak, ac) = med_fields(&c.scene.ambient_medium);
    let _ = writeln!(o, "threshold bounces filter ambient a b c d e f");
    let _ = writeln!(o, "{} {} {} {} {}", hx(c.threshold), c.bounces, filter, ak, six(&ac));
    let _ = writeln!(o, "shape p q r active finish rho medium a b c d e f m w");
    for ob in &c.scene.objects {
        let (k, [p, q, r]) = shape_fields(&ob.geometry);
        let (fk, rho) = match ob.material.finish {
            SurfaceFinish::Specular => (0, 0.0),
            SurfaceFinish::Mirror { reflectance } => (1, reflectance),
            SurfaceFinish::Absorber => (2, 0.0),
            _ => unreachable!(),
        };
        let (mk, mc) = med_fields(&ob.material.medium);
        let m = ob.transform.to_matrix4();
        // A matrix without an inverse: the original never hits it; an all-zero w is a miss too.
        let w = ob.transform.inverse_matrix4().unwrap_or(Matrix4 { r: [[0.0; 4]; 4] });
        let _ = writeln!(o, "{} {} {} {} {} {} {} {} {} {} {}", k, hx(p), hx(q), hx(r), ob.is_active as u8, fk, hx(rho), mk, six(&mc), mat(&m), mat(&w));
    }
    let _ = writeln!(o, "cx cy cz nx ny nz ux uy uz width height resx resy");
    for (d, g) in c.scene.detectors.iter().zip(&c.given) {
        let v = [d.center.x, d.center.y, d.center.z, g.normal.x, g.normal.y, g.normal.z, g.up.x, g.up.y, g.up.z, d.width_mm, d.height_mm];
        let t: Vec<String> = v.iter().map(|&x| hx(x)).collect();
        let _ = writeln!(o, "{} {} {}", t.join(" "), d.res_x, d.res_y);
    }
    let _ = writeln!(o, "ox oy oz dx dy dz nm power bounce media");
    for r in &c.rays {
        let v = [r.ray.origin.x, r.ray.origin.y, r.ray.origin.z, r.ray.direction.x, r.ray.direction.y, r.ray.direction.z, r.ray.wavelength_nm, r.ray.energy];
        let t: Vec<String> = v.iter().map(|&x| hx(x)).collect();
        let md = if r.medium_stack.is_empty() { "-".into() } else { r.medium_stack.iter().map(|x| x.to_string()).collect::<Vec<_>>().join(",") };
        let _ = writeln!(o, "{} {} {}", t.join(" "), r.bounce_count, md);
    }
    o
}

// ---- the original's answer ----

fn cfg(c: &Case, bounces: usize, paths: bool) -> NonSeqTracer {
    NonSeqTracer::new(NonSeqTraceConfig { max_bounces: bounces, min_power_threshold: c.threshold, enable_branching: true, record_paths: paths })
}
fn number(e: &NonSeqError) -> u32 {
    match e {
        NonSeqError::InvalidGeometry(t) if t.starts_with("Invalid wavelength") => 14,
        NonSeqError::Material(_) => 15,
        NonSeqError::Core(_) => 16,
        other => panic!("unexpected refusal {other:?}"),
    }
}

struct Done { scene: NonSeqScene, rep: NonSeqTraceReport, lost: f64, tallies: Option<([u64; 7], bool)> }

/// Whether a step is a mirror's that drops its ray: what it mirrors is not above the threshold.
fn is_dropped(c: &Case, p: &RayPathSegment) -> bool {
    p.interaction == "MirrorReflection" && !(p.power_watts > c.threshold)
}

/// What mirrors dropped, added up in the order of the steps.
fn lost<'a>(c: &Case, paths: impl IntoIterator<Item = &'a RayPathSegment>) -> f64 {
    paths.into_iter().filter(|p| is_dropped(c, p)).fold(0.0, |sum, p| sum + p.power_watts)
}

/// The tallies of a run that was not refused, and whether `weak` is sure: from the recorded paths and a
/// second run with one more bounce.
fn tallies(c: &Case, rays: &[NonSeqRay], rep: &NonSeqTraceReport) -> Option<([u64; 7], bool)> {
    let mut s2 = c.scene.clone();
    cfg(c, c.bounces + 1, false).trace_rays(&mut s2, rays, None).ok().map(|more| {
        let lit: Vec<&NonSeqRay> = rays.iter().filter(|r| !(r.ray.energy <= c.threshold)).collect();
        let dim = (rays.len() - lit.len()) as u64;
        let past = lit.iter().filter(|r| r.bounce_count > c.bounces).count() as u64;
        let spent = (more.total_interactions - rep.total_interactions) as u64 + past;
        let n = |t: &str| rep.paths.iter().filter(|p| p.interaction == t).count() as u64;
        let caught = n("DetectorHit");
        let gone = n("EscapedToInfinity");
        let surface = rep.paths.len() as u64 - caught - gone;
        let made = dim + spent + caught + gone + surface - rays.len() as u64;
        // A total reflection told by power alone (radicand above 0) would be one short here:
        // where indices are wild and such a segment occurs, weak is left open (?).
        let weak = 2 * n("SnellFresnelSplit") + n("TotalInternalReflection") + n("MirrorReflection") - made;
        let sure = !c.wild || n("TotalInternalReflection") == 0;
        ([made, dim, spent, caught, gone, surface, weak], sure)
    })
}

fn solve(c: &Case) -> Result<Done, (u32, usize)> {
    nowhere::check(c)?;
    let mut scene = c.scene.clone();
    let res = cfg(c, c.bounces, true).trace_rays(&mut scene, &c.rays, None);
    let hits: usize = scene.detectors.iter().map(|d| d.hits.len()).sum();
    match res {
        Ok(rep) if hits <= 1024 => {
            let (lost, tallies) = (lost(c, &rep.paths), tallies(c, &c.rays, &rep));
            Ok(Done { scene, rep, lost, tallies })
        }
        _ => {
            let mut used = 0;
            for i in (0..c.rays.len()).rev() {
                let mut s1 = c.scene.clone();
                let r1 = cfg(c, c.bounces, false).trace_rays(&mut s1, &c.rays[i..i + 1], None);
                used += s1.detectors.iter().map(|d| d.hits.len()).sum::<usize>();
                if used > 1024 { return Err((12, i)); }
                if let Err(e) = r1 { return Err((number(&e), i)); }
            }
            panic!("the batch is refused but no ray is");
        }
    }
}

fn answer(a: &Result<Done, (u32, usize)>, filter: u32) -> String {
    let mut o = String::new();
    let d = match a {
        Err((n, p)) => return format!("refusal place\n{n} {p}\n"),
        Ok(d) => d,
    };
    let f = |k: u32| [RayPathFilter::All, RayPathFilter::SignalOnly, RayPathFilter::GhostsOnly, RayPathFilter::TirOnly, RayPathFilter::StrayLight][k as usize];
    let _ = writeln!(o, "rays interactions launched detected absorbed escaped lost");
    let r = &d.rep;
    let powers = [r.launched_flux_watts, r.detected_flux_watts, r.absorbed_flux_watts, r.escaped_flux_watts, d.lost].map(hx);
    let _ = writeln!(o, "{} {} {}", r.total_rays_traced, r.total_interactions, powers.join(" "));
    let _ = writeln!(o, "made dim spent caught gone surface weak");
    match &d.tallies {
        Some((t, sure)) => {
            let mut v: Vec<String> = t.iter().map(|x| x.to_string()).collect();
            if !sure { v[6] = "?".into(); }
            let _ = writeln!(o, "{}", v.join(" "));
        }
        None => { let _ = writeln!(o, "? ? ? ? ? ? ?"); }
    }
    let _ = writeln!(o, "detector hits signal stray flux");
    let mut px = String::new();
    for (i, det) in d.scene.detectors.iter().enumerate() {
        let (grid, total, count) = det.filtered_pixel_flux(f(filter));
        let _ = writeln!(o, "{} {} {} {} {}", i, count, det.filtered_pixel_flux(f(1)).2, det.filtered_pixel_flux(f(4)).2, hx(total));
        for (k, &g) in grid.iter().enumerate() {
            if g != 0.0 { let _ = writeln!(px, "{} {} {} {}", i, k % det.res_x, k / det.res_x, hx(g)); }
        }
    }
    let _ = writeln!(o, "detector px py flux");
    o + &px
}

fn case_of(t: &str) -> Case {
    match t.strip_prefix('t') {
        Some(n) => typical(n.parse().unwrap()),
        None => generate(t.parse().unwrap()),
    }
}

/// Tables of the original's single functions, one call a line, inputs before `=`.
fn vectors(dir: &str) {
    let put = |name: &str, t: String| std::fs::write(format!("{dir}/{name}.txt"), t).unwrap();
    let list = |v: &[f64]| v.iter().map(|&x| hx(x)).collect::<Vec<_>>().join(" ");
    let s = &mut Sm(20261115);
    // Rng64: seed = five draws (16 digits each), then one next_f64.
    let mut t = String::new();
    for k in 0..40u64 {
        let seed = match k { 0 => 0, 1 => 1, 2 => u64::MAX, 3 => 0x853c49e6748fea9b, 4..=20 => k, _ => s.u() };
        let mut r = optics_nonseq::source::Rng64::new(seed);
        let d: Vec<String> = (0..5).map(|_| format!("{:016x}", r.next_u64())).collect();
        let _ = writeln!(t, "{:016x} = {} {}", seed, d.join(" "), hx(r.next_f64()));
    }
    put("rng", t);
    // Square roots.
    let mut t = String::new();
    let mut xs = vec![0.0, -0.0, 1.0, 2.0, 4.0, -1.0, f64::NAN, f64::INFINITY, f64::NEG_INFINITY, f64::MAX, f64::MIN_POSITIVE, 5e-324, 1e-323, -5e-324, 2.2250738585072009e-308];
    for _ in 0..1500 { xs.push(f64::from_bits(s.u() >> 1)); }
    for _ in 0..300 { xs.push(f64::from_bits(s.u() >> (12 + s.n(50)))); }
    for _ in 0..300 {
        // About squares of short and long roots, where ties and near ties stand.
        let r = f64::from_bits((1023u64 + s.n(40) - 20) << 52 | s.u() >> 12);
        let b = (r * r).to_bits();
        for k in [b - 1, b, b + 1] { xs.push(f64::from_bits(k)); }
        let q = ((s.u() >> 38) | 1) as f64;
        xs.push(q * q);
    }
    for x in xs { let _ = writeln!(t, "{} = {}", hx(x), hx(x.sqrt())); }
    put("sqrt", t);
    // intersect_local: shape p q r ox oy oz dx dy dz = t nx ny nz, or -.
    let mut t = String::new();
    let mut some = 0;
    for k in 0..3000u64 {
        let integer = k % 3 == 0;
        let wild = k % 7 == 0;
        let g = if integer { ishape(s) } else { let sk = s.n(5); shape(s, sk, 2.5, wild) };
        let (o, d) = if integer {
            (Vec3::new(s.n(9) as f64 - 4.0, s.n(9) as f64 - 4.0, s.n(9) as f64 - 4.0), if s.chance(0.7) { s.axis() } else { Vec3::new(0.6, 0.0, -0.8) })
        } else {
            let o = Vec3::new(s.r(-5.0, 5.0), s.r(-5.0, 5.0), s.r(-5.0, 5.0));
            let a = Vec3::new(s.r(-2.0, 2.0), s.r(-2.0, 2.0), s.r(-2.0, 2.0));
            (o, if s.chance(0.1) { let e = s.log(1e-14, 1e-5); Vec3::new(e, 0.0, 1.0).normalize() } else { (a - o).normalize() })
        };
        let (n, v) = shape_fields(&g);
        let r = g.intersect_local(&Ray::new(o, d, 550.0, 1.0).unwrap());
        let a = match r { Some((u, m, _)) => { some += 1; list(&[u, m.x, m.y, m.z]) } None => "-".into() };
        let _ = writeln!(t, "{} {} {} = {}", n, list(&v), list(&[o.x, o.y, o.z, d.x, d.y, d.z]), a);
    }
    put("shapes", t);
    eprintln!("{some} of 3000 shape lines are hits");
    // crossing: cx..height resx resy ox oy oz dx dy dz = t x y px py, or - (the pixel is recording's).
    let mut t = String::new();
    let mut done = 0;
    while done < 1500 {
        let integer = done % 3 == 0;
        let (n, u) = if integer { (s.axis(), s.axis()) } else { (s.unit() * s.log(0.1, 10.0), s.unit() * s.log(0.1, 10.0)) };
        let c = if integer { Vec3::new(s.n(5) as f64 - 2.0, s.n(5) as f64 - 2.0, s.n(5) as f64 - 2.0) } else { s.unit() * s.r(0.0, 5.0) };
        let (w, h) = if integer { (2.0 * (1 + s.n(4)) as f64, 2.0 * (1 + s.n(4)) as f64) } else { (s.r(1.0, 12.0), s.r(1.0, 12.0)) };
        let (rx, ry) = (1 + s.n(64) as usize, 1 + s.n(64) as usize);
        let Ok(mut det) = Detector2D::new(0, "", c, n, u, w, h, rx, ry) else { continue };
        done += 1;
        let o = if integer { Vec3::new(s.n(9) as f64 - 4.0, s.n(9) as f64 - 4.0, s.n(9) as f64 - 4.0) } else { s.unit() * s.r(1.0, 9.0) };
        let d = if integer { s.axis() } else { (c + s.unit() * s.r(0.0, 5.0) - o).normalize() };
        let a = match det.intersect_ray(&Ray::new(o, d, 550.0, 1.0).unwrap()) {
            Some((q, x, y)) => {
                det.record_hit(x, y, 1.0, 550.0);
                let k = det.pixel_hit_counts.iter().position(|&k| k == 1).unwrap();
                format!("{} {} {}", list(&[q, x, y]), k % rx, k / rx)
            }
            None => "-".into(),
        };
        let _ = writeln!(t, "{} {} {} {} = {}", list(&[c.x, c.y, c.z, n.x, n.y, n.z, u.x, u.y, u.z, w, h]), rx, ry, list(&[o.x, o.y, o.z, d.x, d.y, d.z]), a);
    }
    put("crossing", t);
    // recording of any place: width height resx resy x y flux = px py pixel_area_m2 irradiance_at(px, py).
    let mut t = String::new();
    for _ in 0..800 {
        let (w, h) = if s.chance(0.2) { (s.log(1e-300, 1e300), s.log(1e-300, 1e300)) } else { (s.r(0.1, 20.0), s.r(0.1, 20.0)) };
        let (rx, ry) = if s.chance(0.1) { (4096, 1) } else { (1 + s.n(64) as usize, 1 + s.n(64) as usize) };
        let place = |s: &mut Sm, w: f64| match s.n(6) { 0 => s.wild(), 1 => 0.5 * w, 2 => -0.5 * w, 3 => 0.0, _ => w * s.r(-0.6, 0.6) };
        let (x, y, f) = (place(s, w), place(s, h), if s.chance(0.1) { s.wild() } else { s.r(0.0, 1.0) });
        let mut det = Detector2D::new(0, "", Vec3::zeros(), Vec3::new(0.0, 0.0, 1.0), Vec3::new(0.0, 1.0, 0.0), w, h, rx, ry).unwrap();
        det.record_hit(x, y, f, 550.0);
        let k = det.pixel_hit_counts.iter().position(|&k| k == 1).unwrap();
        let _ = writeln!(t, "{} {} {} {} = {} {} {}", list(&[w, h]), rx, ry, list(&[x, y, f]), k % rx, k / rx, list(&[det.pixel_area_m2(), det.irradiance_at(k % rx, k / rx)]));
    }
    put("recording", t);
    // refractive_index: medium a b c d e f nm = index, or the refusal as r14, r15.
    let mut t = String::new();
    for k in 0..800 {
        let m = medium(s, k % 2 == 0);
        let nm = if s.chance(0.1) { s.wild() } else { s.r(200.0, 2500.0) };
        if nm.is_nan() || nm.is_infinite() { continue; }
        let (n, c) = med_fields(&m);
        let a = match m.refractive_index(nm, None) { Ok(x) => hx(x), Err(e) => format!("r{}", number(&e)) };
        let _ = writeln!(t, "{} {} {} = {}", n, six(&c), hx(nm), a);
    }
    put("index", t);
    edges(&put);
}

/// Lines about the limits of single functions, where the random ones above seldom fall.
fn edges(put: &dyn Fn(&str, String)) {
    let s = &mut Sm(20261116);
    // Small functions of f64: x = x.abs() x.max(0.0) x.clamp(0.0, 0.999999) x.is_finite() x as usize
    // (the flag as 0 or 1, the usize as 16 hex digits).
    let mut xs = vec![
        0.0, -0.0, 1.0, -1.0, 0.5, -0.5, 0.999999, 0.9999990000000001, 0.9999989999999999, f64::NAN, f64::INFINITY, f64::NEG_INFINITY, f64::MAX, f64::MIN,
        f64::MIN_POSITIVE, -f64::MIN_POSITIVE, 5e-324, -5e-324, 4095.999999, 4096.0, 4294967295.5, 4294967296.0, 9007199254740991.5, 9007199254740993.0,
        9223372036854775807.0, 9223372036854774784.0, 18446744073709549568.0, 18446744073709551615.0, 18446744073709551616.0, 1e20, 1e300, -0.9999999999999999, -1e300,
    ];
    for _ in 0..700 { xs.push(f64::from_bits(s.u())); }
    for _ in 0..700 { let x = s.log(1e-6, 1e21); xs.push(if s.chance(0.2) { -x } else { x }); }
    for _ in 0..400 { let x = s.r(-0.1, 1.1); xs.push(x); }
    let mut t = String::new();
    for x in xs {
        let _ = writeln!(t, "{} = {} {} {} {} {:016x}", hx(x), hx(x.abs()), hx(x.max(0.0)), hx(x.clamp(0.0, 0.999999)), x.is_finite() as u32, x as usize);
    }
    put("doubles", t);
    // refractive_index at the edges of its rules: as the lines of index, any wavelength.
    let bk7 = [1.03961212, 0.00600069867, 0.231792344, 0.0200179144, 1.01046945, 103.560653];
    let sch = [2.2718929, -0.010108077, 0.010592509, 0.00020816965, -7.6472538e-6, 4.9240991e-7];
    let mut media = vec![OpticalMedium::Air];
    for n in [0.5, 0.9999999999999999, 1.0, 1.0000000000000002, -1.5, 0.0, 1e200, f64::MAX, f64::NAN, f64::INFINITY, f64::NEG_INFINITY] { media.push(OpticalMedium::Constant { n }); }
    for k in 0..7 {
        for v in [0.0, 0.25, -1e300, 1e300, f64::NAN, f64::INFINITY] {
            let (mut a, mut b) = (bk7, sch);
            if k < 6 { a[k] = v; b[k] = v; }
            let [b1, c1, b2, c2, b3, c3] = a;
            media.push(OpticalMedium::Sellmeier1 { b1, c1, b2, c2, b3, c3 });
            let [a0, a1, a2, a3, a4, a5] = b;
            media.push(OpticalMedium::Schott { a0, a1, a2, a3, a4, a5 });
        }
    }
    let mut t = String::new();
    for m in media {
        for nm in [0.0, -0.0, -550.0, f64::NAN, f64::INFINITY, f64::NEG_INFINITY, 5e-324, 1e-200, 100.0, 500.0, 550.0, 1e200, f64::MAX] {
            let (n, c) = med_fields(&m);
            let a = match m.refractive_index(nm, None) { Ok(x) => hx(x), Err(e) => format!("r{}", number(&e)) };
            let _ = writeln!(t, "{} {} {} = {}", n, six(&c), hx(nm), a);
        }
    }
    put("index_edges", t);
    // Vectors: a b k = dot cross + - *k /k neg norm normalize at.
    let num = |s: &mut Sm| match s.n(12) { 0 => s.wild(), 1 => 0.0, 2 => f64::from_bits(s.u()), 3 => s.log(1e-160, 1e160), _ => s.r(-10.0, 10.0) };
    let three = |s: &mut Sm| Vec3::new(num(s), num(s), num(s));
    let v3 = |v: Vec3| format!("{} {} {}", hx(v.x), hx(v.y), hx(v.z));
    let mut t = String::new();
    for _ in 0..800 {
        let (a, b, k) = (three(s), three(s), num(s));
        let (p, q) = (a.cross(&b), a.normalize());
        let _ = writeln!(
            t, "{} {} {} = {} {} {} {} {} {} {} {} {} {}", v3(a), v3(b), hx(k), hx(a.dot(&b)), v3(p), v3(a + b), v3(a - b), v3(a * k), v3(a / k), v3(-a), hx(a.norm()), v3(q), v3(a + b * k)
        );
    }
    put("vec3", t);
    // Matrices: sixteen numbers, v = as a point, as a direction, by the transpose as a normal.
    let mut t = String::new();
    for _ in 0..600 {
        let e: Vec<f64> = (0..16).map(|_| num(s)).collect();
        let m = Matrix4::new(e[0], e[1], e[2], e[3], e[4], e[5], e[6], e[7], e[8], e[9], e[10], e[11], e[12], e[13], e[14], e[15]);
        let v = three(s);
        let by = |m: Matrix4<f64>, last: f64| { let r = m * Vector4::new(v.x, v.y, v.z, last); v3(Vec3::new(r[0], r[1], r[2])) };
        let _ = writeln!(t, "{} {} = {} {} {}", e.iter().map(|&x| hx(x)).collect::<Vec<_>>().join(" "), v3(v), by(m, 1.0), by(m, 0.0), by(m.transpose(), 0.0));
    }
    put("mat4", t);
    shape_edges(s, put);
    closed::shapes(put);
    #[cfg(feature = "given")]
    {
        solids(s, put, "solids", 600, &|s, whole, wild| { let sk = s.n(5); if whole { ishape(s) } else { shape(s, sk, 2.5, wild) } });
        closed::placed(put);
    }
}

/// intersect_local where the random lines above seldom fall: sizes met exactly, directions about
/// 1e-12, distances about 1e-9, sizes and rays that are negative, infinite or NaN. As the lines of shapes.
fn shape_edges(s: &mut Sm, put: &dyn Fn(&str, String)) {
    let size = |s: &mut Sm| s.pick(&[1.0, 1.0, 1.0, 2.0, 0.5, 0.0, -1.0, f64::NAN, f64::INFINITY]);
    let place = |s: &mut Sm| s.pick(&[0.0, 0.0, -0.0, 1.0, -1.0, 2.0, -2.0, 0.5, -5.0, 5.0, 1e-9, -1e-9, 1.0 + 1e-9, 2e-9, -0.5]);
    let part = |s: &mut Sm| s.pick(&[0.0, 0.0, -0.0, 1.0, -1.0, 1.0, -1.0, 1e-12, -1e-12, 9.999999999999999e-13, 1.0000000000000002e-12, 1e-6, 1e-7, 0.6, -0.8, 2.0]);
    let odd = |s: &mut Sm, x: f64| if s.chance(0.01) { s.pick(&[f64::NAN, f64::INFINITY, -f64::INFINITY, 1e300]) } else { x };
    let mut t = String::new();
    let (mut done, mut hits) = (0, 0);
    while done < 2000 {
        let (a, b, c) = (size(s), size(s), size(s));
        let g = match s.n(5) {
            0 => PrimitiveGeometry::Plane { half_width: a, half_height: b },
            1 => PrimitiveGeometry::Disk { outer_radius: a, inner_radius: if s.chance(0.5) { 0.5 } else { b } },
            2 => PrimitiveGeometry::Sphere { radius: a },
            3 => PrimitiveGeometry::Cylinder { radius: a, half_length: b },
            _ => PrimitiveGeometry::Box { half_x: a, half_y: b, half_z: c },
        };
        let mut v = [place(s), place(s), place(s), part(s), part(s), part(s)];
        for x in &mut v { *x = odd(s, *x); }
        let ray = Ray { origin: Vec3::new(v[0], v[1], v[2]), direction: Vec3::new(v[3], v[4], v[5]), wavelength_nm: 550.0, energy: 1.0 };
        let r = g.intersect_local(&ray);
        if r.is_none() && done % 2 == 1 { continue; }
        done += 1;
        hits += r.is_some() as u32;
        let (n, w) = shape_fields(&g);
        let list = |v: &[f64]| v.iter().map(|&x| hx(x)).collect::<Vec<_>>().join(" ");
        let a = match r { Some((u, m, _)) => list(&[u, m.x, m.y, m.z]), None => "-".into() };
        let _ = writeln!(t, "{} {} {} = {}", n, list(&w), list(&v), a);
    }
    put("shape_edges", t);
    eprintln!("{hits} of 2000 lines at the limits of shapes are hits");
}

/// NonSeqObject::intersect: shape active p q r, the matrix and its inverse, a ray's eight doubles = t,
/// point, normal, geometric normal, 1 if entering; or -. Of every four lines one has whole numbers and
/// quarter turns, two have any rotation and scale, and one has matrices with parts that are not finite,
/// extreme or no inverses of each other. The shapes are made whole or wild as the line is.
#[cfg(feature = "given")]
fn solids(s: &mut Sm, put: &dyn Fn(&str, String), name: &str, lines: usize, make: &dyn Fn(&mut Sm, bool, bool) -> PrimitiveGeometry) {
    let list = |v: &[f64]| v.iter().map(|&x| hx(x)).collect::<Vec<_>>().join(" ");
    let mut t = String::new();
    let (mut done, mut hits) = (0, 0);
    while done < lines {
        let (whole, wild) = (done % 4 == 0, done % 4 == 3);
        let g = make(s, whole, wild);
        let tr = if whole {
            let turn = |s: &mut Sm| s.pick(&[0.0, 0.0, 90.0, 180.0, 270.0]);
            Transform3D {
                translation: Vec3::new(s.n(5) as f64 - 2.0, s.n(5) as f64 - 2.0, s.n(5) as f64 - 2.0),
                rotation_euler_deg: Vec3::new(turn(s), turn(s), turn(s)),
                scale: Vec3::new(s.pick(&[1.0, -1.0, 2.0]), s.pick(&[1.0, -1.0, 0.5]), s.pick(&[1.0, -1.0, 4.0])),
            }
        } else {
            Transform3D { translation: s.unit() * s.r(0.0, 4.0), rotation_euler_deg: Vec3::new(s.r(-180.0, 180.0), s.r(-180.0, 180.0), s.r(-180.0, 180.0)), scale: scale(s) }
        };
        nalgebra::given::MATRICES.set(None);
        let mut m = tr.to_matrix4();
        let mut w = tr.inverse_matrix4().unwrap();
        if wild {
            for _ in 0..=s.n(3) {
                let x = s.wild();
                let a = if s.chance(0.5) { &mut m } else { &mut w };
                a.r[s.n(4) as usize][s.n(4) as usize] = x;
            }
        }
        let (o, d) = if whole {
            (Vec3::new(s.n(9) as f64 - 4.0, s.n(9) as f64 - 4.0, s.n(9) as f64 - 4.0), s.axis())
        } else {
            let o = s.unit() * s.r(0.0, 9.0);
            (o, (tr.translation + s.unit() * s.r(0.0, 2.5) - o).normalize())
        };
        let mut v = [o.x, o.y, o.z, d.x, d.y, d.z, 550.0, 1.0];
        if wild && s.chance(0.05) { v[s.n(8) as usize] = s.wild(); }
        let mut ob = obj(g, tr, OpticalMedium::Air, SurfaceFinish::Specular);
        ob.is_active = !s.chance(0.02);
        let ray = Ray { origin: Vec3::new(v[0], v[1], v[2]), direction: Vec3::new(v[3], v[4], v[5]), wavelength_nm: v[6], energy: v[7] };
        nalgebra::given::MATRICES.set(Some((m, w)));
        let r = ob.intersect(&ray);
        if r.is_none() && done % 3 == 0 { continue; }
        done += 1;
        hits += r.is_some() as u32;
        let a = match r {
            Some(h) => format!(
                "{} {}", list(&[h.t, h.point.x, h.point.y, h.point.z, h.normal.x, h.normal.y, h.normal.z, h.geometric_normal.x, h.geometric_normal.y, h.geometric_normal.z]), h.entering as u32
            ),
            None => "-".into(),
        };
        let (n, p) = shape_fields(&ob.geometry);
        let flat = |m: &Matrix4<f64>| m.r.iter().flatten().map(|&x| hx(x)).collect::<Vec<_>>().join(" ");
        let _ = writeln!(t, "{} {} {} {} {} {} = {}", n, ob.is_active as u32, list(&p), flat(&m), flat(&w), list(&v), a);
    }
    put(name, t);
    eprintln!("{hits} of {lines} lines of {name} are hits");
}

/// So many scenes from a seed on, under every filter, with the original's answers.
fn batch(from: u64, count: u64, dir: &str, changes: &[String]) {
    let changed = |how: &str| changes.iter().any(|w| w == how);
    let mut drops = mirrors::Drops::default();
    for seed in from..from + count {
        let mut c = generate(seed);
        if changed("closed") { closed::close(&mut c.scene.objects); }
        if changed("nowhere") { nowhere::half(&mut Sm(seed.wrapping_mul(0xBF58476D1CE4E5B9)), &mut c); }
        if changed("mirrors") { mirrors::at_threshold(&mut Sm(seed.wrapping_mul(0x9E3779B97F4A7C15)), &mut c); }
        if scene_text(&c, "-").len() > 65536 { continue; }
        let s = solve(&c);
        drops.count(&c, &s);
        for f in 0..5u32 {
            std::fs::write(format!("{dir}/{seed}.{f}.in"), scene_text(&c, &f.to_string())).unwrap();
            std::fs::write(format!("{dir}/{seed}.{f}.out"), answer(&s, f)).unwrap();
        }
    }
    if changed("mirrors") { println!("{}", drops.told()); }
}

fn main() {
    let a: Vec<String> = std::env::args().collect();
    match a[1].as_str() {
        "scene" => print!("{}", scene_text(&case_of(&a[2]), "-")),
        "answer" => print!("{}", answer(&solve(&case_of(&a[2])), a[3].parse().unwrap())),
        "vectors" => vectors(&a[2]),
        "scripts" => scripts::write(&a[2], a[3].parse().unwrap()),
        "batch" => batch(a[2].parse().unwrap(), a[3].parse().unwrap(), &a[4], &a[5..]),
        "bench" => {
            let c = case_of(&a[2]);
            let n: usize = a[3].parse().unwrap();
            let tr = cfg(&c, c.bounces, false);
            let mut scene = c.scene.clone();
            let mut inter = 0usize;
            let t0 = std::time::Instant::now();
            let mut best = f64::INFINITY;
            for _ in 0..n {
                let t1 = std::time::Instant::now();
                scene.clear_detectors();
                let k = tr.trace_rays(&mut scene, &c.rays, None).unwrap().total_interactions;
                inter += k;
                best = best.min(t1.elapsed().as_nanos() as f64 / k as f64);
            }
            let ns = t0.elapsed().as_nanos() as f64;
            println!("{} interactions, ns per interaction: {:.1} on average, {:.1} in the best pass", inter, ns / inter as f64, best);
        }
        _ => panic!("see the head of the source"),
    }
}
