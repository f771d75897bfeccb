//! The ways of tracing a scene, and their answers compared.
use crate::lists::{six, Lists};
use crate::plain::{Ray, Shape, Solid, KEEN, LAZY, PLAIN, V3};
use crate::tracer::{self, Detector, Finish, Given, Maps, Media, Medium, Report};
use crate::root;
use nonseq::ffi::{Detectors, HostConfig, HostTraced};
use optics_core::Vec3;
use optics_nonseq::detector::Detector2D;
use optics_nonseq::geometry::{PrimitiveGeometry, Transform3D};
use optics_nonseq::material::{NonSeqMaterial, OpticalMedium, SurfaceFinish};
use optics_nonseq::scene::{NonSeqObject, NonSeqScene};
use optics_nonseq::source::NonSeqRay;
use optics_nonseq::trace::{NonSeqTraceConfig, NonSeqTraceReport, NonSeqTracer};
use std::hint::black_box;
use std::time::{Duration, Instant};

fn original_scene(l: &Lists, transforms: &[Transform3D]) -> NonSeqScene {
    let mut s = NonSeqScene::new();
    let v3 = |v: &[f64]| Vec3::new(v[0], v[1], v[2]);
    assert_eq!(l.solid_tags.len(), 4 * transforms.len());
    for ((v, t), transform) in l.solids().zip(transforms) {
        let geometry = match t[0] {
            0 => PrimitiveGeometry::Plane { half_width: v[0], half_height: v[1] },
            1 => PrimitiveGeometry::Disk { outer_radius: v[0], inner_radius: v[1] },
            2 => PrimitiveGeometry::Sphere { radius: v[0] },
            3 => PrimitiveGeometry::Cylinder { radius: v[0], half_length: v[1] },
            _ => PrimitiveGeometry::Box { half_x: v[0], half_y: v[1], half_z: v[2] },
        };
        let [a, b, c, d, e, f] = six(&v[4..]);
        let medium = match t[3] {
            0 => OpticalMedium::Air,
            1 => OpticalMedium::Constant { n: a },
            2 => OpticalMedium::Sellmeier1 { b1: a, c1: b, b2: c, c2: d, b3: e, c3: f },
            _ => OpticalMedium::Schott { a0: a, a1: b, a2: c, a3: d, a4: e, a5: f },
        };
        let finish = match t[2] {
            0 => SurfaceFinish::Specular,
            1 => SurfaceFinish::Mirror { reflectance: v[3] },
            _ => SurfaceFinish::Absorber,
        };
        let (m, w) = (transform.to_matrix4().r, transform.inverse_matrix4().unwrap().r);
        let worked: Vec<u64> = m.iter().chain(&w).flatten().map(|x| x.to_bits()).collect();
        assert_eq!(worked, v[10..].iter().map(|x| x.to_bits()).collect::<Vec<_>>(), "matrices of the text");
        s.add_object(NonSeqObject { id: 0, name: String::new(), geometry, transform: transform.clone(), material: NonSeqMaterial { medium, absorption: None, finish }, is_active: t[1] == 1 });
    }
    for (k, (v, t)) in l.detectors().enumerate() {
        s.add_detector(Detector2D::new(k, "", v3(v), v3(&v[3..]), v3(&v[6..]), v[9], v[10], t[0] as usize, t[1] as usize).unwrap());
    }
    s
}

fn original_rays(l: &Lists) -> Vec<NonSeqRay> {
    let one = |(k, (v, t)): (usize, (&[f64], &[u32]))| {
        let ray = optics_core::Ray::new(Vec3::new(v[0], v[1], v[2]), Vec3::new(v[3], v[4], v[5]), v[6], v[7]).unwrap();
        let mut r = NonSeqRay::new(ray, k).with_medium_stack(t[2..2 + t[1] as usize].iter().map(|&k| k as usize).collect());
        r.bounce_count = t[0] as usize;
        r
    };
    l.given().enumerate().map(one).collect()
}

fn plain_scene(l: &Lists) -> tracer::Scene {
    let v3 = |v: &[f64]| V3 { x: v[0], y: v[1], z: v[2] };
    let matrix = |v: &[f64]| std::array::from_fn(|i| std::array::from_fn(|j| v[4 * i + j]));
    let solid = |(v, t): (&[f64], &[u32])| Solid {
        shape: match t[0] {
            0 => Shape::Plane { half_width: v[0], half_height: v[1] },
            1 => Shape::Disk { outer_radius: v[0], inner_radius: v[1] },
            2 => Shape::Sphere { radius: v[0] },
            3 => Shape::Cylinder { radius: v[0], half_length: v[1] },
            _ => Shape::Box { half: [v[0], v[1], v[2]] },
        },
        active: t[1] == 1,
        m: matrix(&v[10..26]),
        w: matrix(&v[26..42]),
    };
    let material = |(v, t): (&[f64], &[u32])| {
        let finish = match t[2] {
            0 => Finish::Specular,
            1 => Finish::Mirror(v[3]),
            _ => Finish::Absorber,
        };
        let medium = match t[3] {
            0 => Medium::Air,
            1 => Medium::Constant(v[4]),
            2 => Medium::Sellmeier1(six(&v[4..])),
            _ => Medium::Schott(six(&v[4..])),
        };
        (finish, medium)
    };
    let detector = |(v, t): (&[f64], &[u32])| Detector { center: v3(v), normal: v3(&v[3..]), up: v3(&v[6..]), width: v[9], height: v[10], resx: t[0] as usize, resy: t[1] as usize };
    tracer::Scene { solids: l.solids().map(solid).collect(), materials: l.solids().map(material).collect(), detectors: l.detectors().map(detector).collect(), threshold: l.threshold, bounces: l.bounces }
}

fn plain_rays(l: &Lists) -> Vec<Given> {
    let v3 = |v: &[f64]| V3 { x: v[0], y: v[1], z: v[2] };
    let one = |(v, t): (&[f64], &[u32])| Given { ray: Ray { origin: v3(v), direction: v3(&v[3..]), nm: v[6], power: v[7] }, bounce: t[0], media: Media::new(&t[2..2 + t[1] as usize]) };
    l.given().map(one).collect()
}

fn proved_detectors(l: &Lists) -> Detectors {
    let v3 = |v: &[f64]| nonseq::Vec3::new(v[0], v[1], v[2]);
    let mut all = Detectors { list: [nonseq::Detector::default(); 8], count: 0 };
    for (place, (v, t)) in all.list.iter_mut().zip(l.detectors()) {
        *place = nonseq::Detector::new(v3(v), v3(&v[3..]), v3(&v[6..]), (v[9], v[10]), (t[0], t[1])).unwrap();
        all.count += 1;
    }
    all
}

/// All that is traced, in each way's own form.
pub struct Bench {
    lists: Lists,
    detectors: Detectors,
    scene: NonSeqScene,
    rays: Vec<NonSeqRay>,
    plain: tracer::Scene,
    given: Vec<Given>,
    maps: Maps,
}

impl Bench {
    pub fn new((lists, transforms): (Lists, Vec<Transform3D>)) -> Bench {
        Bench { scene: original_scene(&lists, &transforms), rays: original_rays(&lists), plain: plain_scene(&lists), given: plain_rays(&lists), maps: lists.maps(), detectors: proved_detectors(&lists), lists }
    }

    /// Before each tracing, never timed.
    fn clear(&mut self) {
        self.scene.clear_detectors();
        self.maps.flux.fill(0.0);
        self.maps.hits.fill(0);
        self.maps.used = 0;
    }

    fn proved(&mut self) -> HostTraced {
        let (l, m) = (&self.lists, &mut self.maps);
        let config = HostConfig { min_power_threshold: l.threshold, max_bounces: l.bounces, ambient: 0, a: 0.0, b: 0.0, c: 0.0, d: 0.0, e: 0.0, f: 0.0 };
        unsafe {
            nonseq::ffi::nonseq_trace_rays(
                config, l.solid_values.as_ptr(), l.solid_values.len(), l.solid_tags.as_ptr(), l.solid_tags.len(), l.solid_tags.len() as u32 / 4,
                l.ray_values.as_ptr(), l.ray_values.len(), l.ray_tags.as_ptr(), l.ray_tags.len(), l.ray_tags.len() as u32 / 10, self.detectors,
                m.flux.as_mut_ptr(), m.flux.len(), m.hits.as_mut_ptr(), m.hits.len(), m.hit_values.as_mut_ptr(), m.hit_values.len(), m.hit_tags.as_mut_ptr(), m.hit_tags.len(), m.used,
            )
        }
    }

    fn original(&mut self, record_paths: bool) -> NonSeqTraceReport {
        let l = &self.lists;
        let config = NonSeqTraceConfig { max_bounces: l.bounces as usize, min_power_threshold: l.threshold, enable_branching: true, record_paths };
        NonSeqTracer::new(config).trace_rays(&mut self.scene, &self.rays, None).unwrap()
    }

    fn plain<const HOW: u8>(&mut self, root: impl Fn(f64) -> f64 + Copy) -> Report {
        tracer::trace::<HOW>(&self.plain, &self.given, &mut self.maps, root).unwrap()
    }
}

/// One tracing's answer. `flux` and `hits` are the pixels of all detectors, the totals a detector's.
pub struct Answer {
    pub counts: Vec<u32>,
    ledger: Vec<f64>,
    flux: Vec<f64>,
    hits: Vec<u32>,
    totals: Vec<f64>,
    caught: Vec<u32>,
    hit_values: Vec<f64>,
    pub hit_tags: Vec<u32>,
}

impl Answer {
    /// The maps as they stand; a detector's total is summed over its hits.
    fn of(b: &Bench, rays: u32, interactions: u32, ledger: [f64; 4], used: usize) -> Answer {
        let n = b.lists.detector_tags.len() / 2;
        let (mut totals, mut caught) = (vec![0.0; n], vec![0; n]);
        let (hit_values, hit_tags) = (b.maps.hit_values[..4 * used].to_vec(), b.maps.hit_tags[..4 * used].to_vec());
        for (p, k) in hit_values.chunks(4).zip(hit_tags.chunks(4)) {
            totals[k[0] as usize] += p[2];
            caught[k[0] as usize] += 1;
        }
        Answer { counts: vec![rays, interactions], ledger: ledger.to_vec(), flux: b.maps.flux.clone(), hits: b.maps.hits.clone(), totals, caught, hit_values, hit_tags }
    }

    fn proved(b: &mut Bench) -> Answer {
        b.clear();
        let r = b.proved();
        assert_eq!((r.refusal, r.place), (0, 0), "the library refuses");
        let l = r.report.ledger;
        Answer::of(b, r.report.total_rays_traced, r.report.total_interactions, [l.launched_flux_watts, l.detected_flux_watts, l.absorbed_flux_watts, l.escaped_flux_watts], r.used)
    }

    fn plain<const HOW: u8>(b: &mut Bench, root: impl Fn(f64) -> f64 + Copy) -> Answer {
        b.clear();
        let r = b.plain::<HOW>(root);
        Answer::of(b, b.given.len() as u32, r.interactions, [r.launched, r.detected, r.absorbed, r.escaped], b.maps.used)
    }

    /// A detector of the original keeps its own hits; the paths tell in which order they came.
    pub fn original(b: &mut Bench) -> Answer {
        b.clear();
        let r = b.original(true);
        let ds = &b.scene.detectors;
        let mut next = vec![0; ds.len()];
        let (mut hit_values, mut hit_tags) = (vec![], vec![]);
        for k in r.paths.iter().filter_map(|p| p.hit_detector_id) {
            let h = &ds[k].hits[next[k]];
            next[k] += 1;
            hit_values.extend([h.local_x, h.local_y, h.flux_watts, h.wavelength_nm]);
            hit_tags.extend([k, h.bounce_count, h.reflection_count, h.tir_count].map(|x| x as u32));
        }
        assert!(next.iter().zip(ds).all(|(&n, d)| n == d.hits.len()), "each hit is in a path");
        Answer {
            counts: vec![r.total_rays_traced as u32, r.total_interactions as u32],
            ledger: vec![r.launched_flux_watts, r.detected_flux_watts, r.absorbed_flux_watts, r.escaped_flux_watts],
            flux: ds.iter().flat_map(|d| d.pixel_flux_watts.clone()).collect(),
            hits: ds.iter().flat_map(|d| d.pixel_hit_counts.iter().map(|&x| x as u32)).collect(),
            totals: ds.iter().map(|d| d.total_flux_watts).collect(),
            caught: ds.iter().map(|d| d.total_rays_hit as u32).collect(),
            hit_values,
            hit_tags,
        }
    }

    fn numbers(&self) -> [(&str, Vec<u64>); 8] {
        let f = |v: &[f64]| v.iter().map(|x| if x.is_nan() { 0x7ff8 << 48 } else { x.to_bits() }).collect();
        let u = |v: &[u32]| v.iter().map(|&x| x as u64).collect();
        [
            ("rays, interactions", u(&self.counts)),
            ("launched, detected, absorbed, escaped", f(&self.ledger)),
            ("pixels' flux", f(&self.flux)),
            ("pixels' hits", u(&self.hits)),
            ("detectors' flux", f(&self.totals)),
            ("detectors' hits", u(&self.caught)),
            ("hit list's x, y, flux, nm", f(&self.hit_values)),
            ("hit list's detector, bounce, reflections, totals", u(&self.hit_tags)),
        ]
    }

    /// How many numbers differ from the original's; a number that only one of them has differs.
    pub fn differences(&self, name: &str, original: &Answer) -> usize {
        let mut all = 0;
        for ((what, a), (_, b)) in self.numbers().iter().zip(&original.numbers()) {
            let bad: Vec<usize> = (0..a.len().max(b.len())).filter(|&k| a.get(k) != b.get(k)).collect();
            if let Some(&k) = bad.first() {
                println!("{name}: {} of the {what} differ, the first at {k}, in hex: {:x?}, the original {:x?}", bad.len(), a.get(k), b.get(k));
            }
            all += bad.len();
        }
        all
    }
}

fn timed<T>(b: &mut Bench, f: impl FnOnce(&mut Bench) -> T) -> Duration {
    b.clear();
    let t = Instant::now();
    let r = f(black_box(b));
    let d = t.elapsed();
    black_box(r);
    d
}

/// A name, the answer to compare, and one timed tracing.
pub type Way = (&'static str, fn(&mut Bench) -> Answer, fn(&mut Bench) -> Duration);

/// The ways; the first three are the library, the original and plain Rust.
pub const WAYS: [Way; 6] = [
    ("proved", Answer::proved, |b| timed(b, Bench::proved)),
    ("original", Answer::original, |b| timed(b, |b| b.original(false))),
    ("Rust, hardware root", |b| Answer::plain::<PLAIN>(b, f64::sqrt), |b| timed(b, |b| b.plain::<PLAIN>(f64::sqrt))),
    ("Rust, hardware root, no normal for the farther", |b| Answer::plain::<LAZY>(b, f64::sqrt), |b| timed(b, |b| b.plain::<LAZY>(f64::sqrt))),
    ("Rust, hardware root, all that the library saves", |b| Answer::plain::<KEEN>(b, f64::sqrt), |b| timed(b, |b| b.plain::<KEEN>(f64::sqrt))),
    ("Rust, software root, all that the library saves", |b| Answer::plain::<KEEN>(b, root::sqrt), |b| timed(b, |b| b.plain::<KEEN>(root::sqrt))),
];
