//! The nearest of the eight solids of oracle/bench/typical.in along a ray: the proved library, the
//! same search in Rust with the same software root and with the processor's, and the original, in one
//! process, pass by pass in turn. Every answer is first compared with the original's, bit for bit.
mod plain;
mod root;

use nalgebra::Matrix4;
use optics_core::Vec3;
use optics_nonseq::geometry::{PrimitiveGeometry, Transform3D};
use optics_nonseq::material::{NonSeqMaterial, OpticalMedium};
use optics_nonseq::scene::{NonSeqObject, NonSeqScene};
use plain::{Hit, Ray, Shape, Solid, KEEN, LAZY, PLAIN, V3};
use std::hint::black_box;
use std::time::Instant;

#[repr(C)]
#[derive(Clone, Copy, PartialEq, Debug)]
struct BenchHit {
    met: u32,
    solid: u32,
    entering: u32,
    t: f64,
    p: [f64; 3],
    n: [f64; 3],
    g: [f64; 3],
}

#[link(name = "bench", kind = "static")]
extern "C" {
    #[allow(clippy::too_many_arguments)]
    fn bench_closest(solid_values: *const f64, nv: usize, solid_tags: *const u32, nt: usize, count: u32, ox: f64, oy: f64, oz: f64, dx: f64, dy: f64, dz: f64) -> BenchHit;
}

struct Scene {
    original: NonSeqScene,
    solid_values: Vec<f64>,
    solid_tags: Vec<u32>,
    solids: Vec<Solid>,
}

impl Scene {
    fn new() -> Self {
        Scene { original: NonSeqScene::new(), solid_values: vec![], solid_tags: vec![], solids: vec![] }
    }

    fn add(&mut self, g: PrimitiveGeometry, transform: Transform3D) {
        let m: Matrix4<f64> = transform.to_matrix4();
        let w = transform.inverse_matrix4().unwrap();
        let (tag, size, shape) = match g {
            PrimitiveGeometry::Plane { half_width, half_height } => (0, [half_width, half_height, 0.0], Shape::Plane { half_width, half_height }),
            PrimitiveGeometry::Disk { outer_radius, inner_radius } => (1, [outer_radius, inner_radius, 0.0], Shape::Disk { outer_radius, inner_radius }),
            PrimitiveGeometry::Sphere { radius } => (2, [radius, 0.0, 0.0], Shape::Sphere { radius }),
            PrimitiveGeometry::Cylinder { radius, half_length } => (3, [radius, half_length, 0.0], Shape::Cylinder { radius, half_length }),
            PrimitiveGeometry::Box { half_x, half_y, half_z } => (4, [half_x, half_y, half_z], Shape::Box { half: [half_x, half_y, half_z] }),
            _ => unreachable!(),
        };
        self.solid_tags.extend([tag, 1, 0, 0]);
        self.solid_values.extend(size);
        self.solid_values.extend([0.0; 7]);
        self.solid_values.extend(m.r.iter().flatten());
        self.solid_values.extend(w.r.iter().flatten());
        self.solids.push(Solid { shape, active: true, m: m.r, w: w.r });
        self.original.add_object(NonSeqObject { id: 0, name: String::new(), geometry: g, transform, material: NonSeqMaterial::dielectric(OpticalMedium::Air), is_active: true });
    }

    fn typical() -> Self {
        let mut s = Self::new();
        let tr = |x, y, z, rx, ry, sc| Transform3D { translation: Vec3::new(x, y, z), rotation_euler_deg: Vec3::new(rx, ry, 0.0), scale: Vec3::new(1.0, 1.0, sc) };
        s.add(PrimitiveGeometry::Box { half_x: 12.0, half_y: 12.0, half_z: 1.0 }, tr(0.0, 0.0, 5.0, 3.0, 0.0, 1.0));
        s.add(PrimitiveGeometry::Sphere { radius: 10.0 }, tr(0.0, 0.0, 15.0, 0.0, 0.0, 0.4));
        s.add(PrimitiveGeometry::Sphere { radius: 8.0 }, tr(1.0, 0.0, 25.0, 10.0, 5.0, 0.3));
        s.add(PrimitiveGeometry::Cylinder { radius: 14.0, half_length: 40.0 }, tr(0.0, 0.0, 20.0, 0.0, 0.0, 1.0));
        s.add(PrimitiveGeometry::Disk { outer_radius: 14.0, inner_radius: 7.0 }, tr(0.0, 0.0, 31.0, 0.0, 0.0, 1.0));
        s.add(PrimitiveGeometry::Box { half_x: 3.0, half_y: 3.0, half_z: 3.0 }, tr(-2.0, 1.0, 36.0, 20.0, 30.0, 1.0));
        s.add(PrimitiveGeometry::Plane { half_width: 6.0, half_height: 6.0 }, tr(4.0, 0.0, 42.0, 40.0, 0.0, 1.0));
        s.add(PrimitiveGeometry::Box { half_x: 14.0, half_y: 14.0, half_z: 0.5 }, tr(0.0, 0.0, 48.0, 0.0, 0.0, 1.0));
        s
    }
}

fn ours(s: &Scene, r: &Ray) -> BenchHit {
    let (o, d) = (r.origin, r.direction);
    unsafe { bench_closest(s.solid_values.as_ptr(), s.solid_values.len(), s.solid_tags.as_ptr(), s.solid_tags.len(), s.solid_tags.len() as u32 / 4, o.x, o.y, o.z, d.x, d.y, d.z) }
}

fn packed(h: Option<Hit>) -> BenchHit {
    let a = |v: V3| [v.x, v.y, v.z];
    match h {
        Some(h) => BenchHit { met: 1, solid: h.object_id as u32, entering: h.entering as u32, t: h.t, p: a(h.point), n: a(h.normal), g: a(h.geometric_normal) },
        None => BenchHit { met: 0, solid: 0, entering: 0, t: 0.0, p: [0.0; 3], n: [0.0; 3], g: [0.0; 3] },
    }
}

fn original(s: &Scene, r: &Ray) -> BenchHit {
    let v = |a: V3| Vec3::new(a.x, a.y, a.z);
    let a = |v: Vec3| V3 { x: v.x, y: v.y, z: v.z };
    let ray = optics_core::Ray { origin: v(r.origin), direction: v(r.direction), wavelength_nm: r.nm, energy: r.power };
    packed(s.original.intersect_closest_object(&ray).map(|h| Hit {
        t: h.t,
        point: a(h.point),
        normal: a(h.normal),
        geometric_normal: a(h.geometric_normal),
        object_id: h.object_id,
        entering: h.entering,
    }))
}

fn bits(h: BenchHit) -> Vec<u64> {
    let mut b = vec![h.met as u64, h.solid as u64, h.entering as u64];
    b.extend([h.t].iter().chain(&h.p).chain(&h.n).chain(&h.g).map(|x| if x.is_nan() { 0x7ff8 << 48 } else { x.to_bits() }));
    b
}

/// Half of them as typical.in gives them, half from anywhere among the solids in any direction.
fn rays(n: usize) -> Vec<Ray> {
    let mut s = 20261115u64;
    let mut f = || {
        s = s.wrapping_add(0x9E3779B97F4A7C15);
        let z = (s ^ (s >> 30)).wrapping_mul(0xBF58476D1CE4E5B9);
        let z = (z ^ (z >> 27)).wrapping_mul(0x94D049BB133111EB);
        ((z ^ (z >> 31)) >> 11) as f64 / (1u64 << 53) as f64
    };
    (0..n)
        .map(|k| {
            let mut r = |a: f64, b: f64| a + (b - a) * f();
            let (o, d) = if k % 2 == 0 {
                (V3 { x: r(-8.0, 8.0), y: r(-8.0, 8.0), z: -2.0 }, V3 { x: r(-0.1, 0.1), y: r(-0.1, 0.1), z: 1.0 })
            } else {
                (V3 { x: r(-8.0, 8.0), y: r(-8.0, 8.0), z: r(-2.0, 50.0) }, V3 { x: r(-1.0, 1.0), y: r(-1.0, 1.0), z: r(-1.0, 1.0) })
            };
            let l = (d.x * d.x + d.y * d.y + d.z * d.z).sqrt();
            Ray { origin: o, direction: V3 { x: d.x / l, y: d.y / l, z: d.z / l }, nm: 550.0, power: 1.0 }
        })
        .collect()
}

fn main() {
    let s = Scene::typical();
    let many = rays(200_000);
    let few = &many[..4096];
    let ways: [(&str, fn(&Scene, &Ray) -> BenchHit); 7] = [
        ("proved", ours),
        ("Rust, software root", |s, r| packed(plain::closest::<PLAIN>(&s.solids, r, root::sqrt))),
        ("Rust, software root, no normal for the farther", |s, r| packed(plain::closest::<LAZY>(&s.solids, r, root::sqrt))),
        ("Rust, hardware root", |s, r| packed(plain::closest::<PLAIN>(&s.solids, r, f64::sqrt))),
        ("Rust, hardware root, no normal for the farther", |s, r| packed(plain::closest::<LAZY>(&s.solids, r, f64::sqrt))),
        ("Rust, hardware root, all that the library saves", |s, r| packed(plain::closest::<KEEN>(&s.solids, r, f64::sqrt))),
        ("original", original),
    ];
    if let Some(k) = std::env::args().nth(1) {
        // one way alone, for counting its instructions
        let f = ways[k.parse::<usize>().unwrap()].1;
        for r in few {
            black_box(f(black_box(&s), black_box(r)));
        }
        return;
    }
    let (mut differ, mut met) = (0, 0);
    for r in &many {
        let h = bits(original(&s, r));
        met += h[0];
        if ways[..6].iter().any(|(_, f)| bits(f(&s, r)) != h) {
            differ += 1;
        }
    }
    println!("{differ} of {} rays differ from the original, {met} meet a solid", many.len());
    let mut ns = vec![Vec::new(); ways.len()];
    for _ in 0..200 {
        for (k, (_, f)) in ways.iter().enumerate() {
            let t = Instant::now();
            for r in few {
                black_box(f(black_box(&s), black_box(r)));
            }
            ns[k].push(t.elapsed().as_nanos() as f64 / few.len() as f64);
        }
    }
    for v in &mut ns {
        v.sort_by(f64::total_cmp);
    }
    for (k, (name, _)) in ways.iter().enumerate() {
        let (b, m) = (ns[k][0], ns[k][100]);
        println!("{name}: {b:.0} ns a ray best, {m:.0} median; proved / this {:.2} best, {:.2} median", ns[0][0] / b, ns[0][100] / m);
    }
}
