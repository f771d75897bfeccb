//! Every call on good, damaged and limit inputs.
use nonseq::*;

const Z: Vec3 = Vec3::new(0.0, 0.0, 1.0);
const Y: Vec3 = Vec3::new(0.0, 1.0, 0.0);
const SCENE: &[u8] = include_bytes!("../../../crates/straymap/stdin");
const ANSWER: &[u8] = include_bytes!("../../../crates/straymap/stdout");

fn screen(z: f64, pixels: u32) -> Detector {
    Detector::new(Vec3::new(0.0, 0.0, z), Z, Y, (4.0, 4.0), (pixels, pixels)).unwrap()
}

fn ray(x: f64, y: f64, power: f64) -> GivenRay {
    GivenRay::new(Ray { origin: Vec3::new(x, y, 0.0), direction: Z, wavelength_nm: 550.0, energy: power })
}

fn config() -> Config {
    Config { min_power_threshold: 0.0, max_bounces: 4, ambient: Medium::Air }
}

fn moved(z: f64) -> ([f64; 16], [f64; 16]) {
    let m = |z| [1.0, 0.0, 0.0, 0.0, 0.0, 1.0, 0.0, 0.0, 0.0, 0.0, 1.0, z, 0.0, 0.0, 0.0, 1.0];
    (m(z), m(-z))
}

fn block(z: f64, medium: Medium, finish: Finish) -> Solid {
    let (matrix, inverse) = moved(z);
    Solid { shape: Shape::Box { half_x: 3.0, half_y: 3.0, half_z: 1.0 }, active: true, finish, medium, matrix, inverse }
}

fn number<T: std::fmt::Debug, E: Into<MemoryError> + std::fmt::Debug>(r: Result<T, E>) -> (u32, u32) {
    match r.unwrap_err().into() {
        MemoryError::Refused(e) => (e.number, e.place),
        MemoryError::NoMemory => panic!("no memory"),
    }
}

fn refusal<T: std::fmt::Debug>(r: Result<T, Refused>) -> (u32, u32) {
    let e = r.unwrap_err().error;
    (e.number, e.place)
}

#[test]
fn detectors() {
    let d = screen(10.0, 2);
    assert_eq!((d.res_x, d.total_rays_hit, d.total_flux_watts), (2, 0, 0.0));
    assert_eq!(d.check(), Ok(()));
    let with = |size, resolution, up| Detector::new(Vec3::default(), Z, up, size, resolution);
    assert_eq!(number(with((0.0, 4.0), (2, 2), Y)), (5, 0));
    assert_eq!(number(with((4.0, f64::NAN), (2, 2), Y)), (5, 0));
    assert_eq!(number(with((4.0, 4.0), (0, 2), Y)), (6, 0));
    assert_eq!(number(with((4.0, 4.0), (2, 4097), Y)), (7, 0));
    assert_eq!(number(with((4.0, 4.0), (2, 2), Z)), (8, 0));
    assert_eq!(number(with((4.0, 4.0), (2, 2), Vec3::new(0.0, 1e-15, 0.0))), (18, 0));
    assert_eq!(number(with((4.0, 4.0), (2, 2), Vec3::new(0.0, f64::INFINITY, 0.0))), (18, 0));
    assert!(with((4.0, 4.0), (2, 2), Vec3::new(0.0, 1e-15f64.next_up(), 0.0)).is_ok());
    assert!(with((4.0, 4.0), (4096, 4096), Y).is_ok());
    assert_eq!(number(Detector { width_mm: -1.0, ..d }.check()), (5, 0));
    assert_eq!(d.pixel_area_m2(), Ok(4e-3 / 2.0 * (4e-3 / 2.0)));
    assert_eq!(number(Detector { res_y: 0, ..d }.pixel_area_m2()), (6, 0));
}

#[test]
fn crossings() {
    let d = screen(10.0, 2);
    let r = Ray { origin: Vec3::new(1.0, -2.0, 0.0), direction: Z, wavelength_nm: 550.0, energy: 1.0 };
    assert_eq!(d.intersect_ray(&r), Ok(Some(Crossing { t: 10.0, local_x: 1.0, local_y: -2.0 })));
    assert_eq!(d.intersect_ray(&Ray { origin: Vec3::new(2.5, 0.0, 0.0), ..r }), Ok(None));
    assert_eq!(d.intersect_ray(&Ray { origin: Vec3::new(0.0, 0.0, 11.0), ..r }), Ok(None));
    assert_eq!(number(d.intersect_ray(&Ray { direction: Vec3::default(), ..r })), (10, 0));
    assert_eq!(number(d.intersect_ray(&Ray { energy: f64::INFINITY, ..r })), (10, 0));
    assert_eq!(number(Detector { height_mm: 0.0, ..d }.intersect_ray(&Ray { energy: -1.0, ..r })), (5, 0));
}

#[test]
fn memories() {
    assert_eq!(number(Memory::new(&[screen(1.0, 1); 9], 1)), (3, 0));
    assert_eq!(number(Memory::new(&[screen(1.0, 1), Detector { res_x: 0, ..screen(1.0, 1) }], 1)), (6, 1));
    let m = Memory::new(&[screen(1.0, 3), screen(2.0, 2)], 0).unwrap();
    assert_eq!((m.flux().len(), m.pixel_hits().len(), m.hits().count(), m.detectors().len()), (13, 13, 0, 2));
    assert_eq!(m.map(1).map(<[f64]>::len), Ok(4));
    assert_eq!(number(m.map(2)), (4, 0));
}

#[test]
fn the_first_scene() {
    let mut m = Memory::new(&[screen(10.0, 2)], 4).unwrap();
    let report = m.trace(&config(), &Scene::new(), &[ray(1.0, 1.0, 1.0)]).unwrap();
    assert_eq!(write_answer(&m, &report, Filter::All).unwrap(), ANSWER);
    assert_eq!(report.ledger.energy_conservation_ratio(), 1.0);
    assert_eq!(m.map(0), Ok(&[0.0, 0.0, 0.0, 1.0][..]));
    assert_eq!(m.irradiance_at(0, 1, 1), Ok(1.0 / (2e-3 * 2e-3)));
    assert_eq!(m.irradiance_at(0, 2, 1), Ok(0.0));
    assert_eq!(number(m.irradiance_at(1, 0, 0)), (4, 0));
    let hit = m.hits().next().unwrap();
    assert_eq!((hit.local_x.abs(), hit.local_y, hit.detector, hit.bounce_count), (1.0, 1.0, 0, 0));
}

/// Light goes through a tube without ends lengthwise, and is stopped by the end of one that has them; beside both it
/// passes.
#[test]
fn tubes_with_ends() {
    let (matrix, inverse) = moved(5.0);
    let hits = |shape| {
        let mut scene = Scene::new();
        scene.push(&Solid { shape, active: true, finish: Finish::Absorber, medium: Medium::Air, matrix, inverse });
        let mut m = Memory::new(&[screen(10.0, 2)], 4).unwrap();
        let report = m.trace(&config(), &scene, &[ray(0.5, 0.5, 1.0), ray(1.5, 0.5, 0.25)]).unwrap();
        (m.hits().count(), report.ledger.absorbed_flux_watts)
    };
    assert_eq!(hits(Shape::Cylinder { radius: 1.0, half_length: 2.0 }), (2, 0.0));
    assert_eq!(hits(Shape::ClosedCylinder { radius: 1.0, half_length: 2.0 }), (1, 1.0));
    assert_eq!(hits(Shape::ClosedCylinder { radius: 0.5, half_length: 2.0 }), (2, 0.0));
}

/// A mirrored ray that is not above the threshold is not made: its power is lost, it is weak, and the ratio is the
/// Rust's, without it.
#[test]
fn mirrors_at_the_threshold() {
    let mut scene = Scene::new();
    scene.push(&block(8.0, Medium::Air, Finish::Mirror { reflectance: 0.5 }));
    let mut m = Memory::new(&[screen(20.0, 2)], 4).unwrap();
    let mut traced = |energy| m.trace(&Config { min_power_threshold: 0.5, ..config() }, &scene, &[ray(0.5, 0.5, energy)]).unwrap();
    let (dropped, made) = (traced(1.0), traced(1.25));
    assert_eq!((dropped.ledger.absorbed_flux_watts, dropped.ledger.lost_flux_watts), (0.5, 0.5));
    assert_eq!((dropped.tallies.made, dropped.tallies.weak), (0, 1));
    assert_eq!(dropped.ledger.energy_conservation_ratio(), 0.5);
    assert_eq!((made.ledger.absorbed_flux_watts, made.ledger.lost_flux_watts), (0.625, 0.0));
    assert_eq!((made.tallies.made, made.tallies.weak), (1, 0));
}

/// Structs and numbers leave the same memory, bit for bit, rays that are refused too.
#[test]
fn structs_and_numbers_alike() {
    let mut scene = Scene::new();
    scene.push(&block(4.0, Medium::Constant { n: 1.5 }, Finish::Specular));
    scene.push(&block(8.0, Medium::Air, Finish::Mirror { reflectance: 0.5 }));
    let detectors = [screen(1.0, 2), Detector { normal: Vec3::new(0.0, 1.0, 1.0), ..screen(6.0, 5) }];
    let mut rays: Vec<GivenRay> = (0..40).map(|i| ray(i as f64 * 0.05 - 1.0, 0.3, 1.0 + i as f64)).collect();
    rays[7] = rays[7].inside(&[0]);
    rays[9].bounce_count = 3;
    for spoiled in [None, Some(5), Some(39)] {
        if let Some(i) = spoiled {
            rays[i].media_count = 9;
        }
        let flat: Vec<f64> = rays.iter().flat_map(|r| [r.origin.x, r.origin.y, r.origin.z, r.direction.x, r.direction.y, r.direction.z, r.wavelength_nm, r.energy]).collect();
        let ray_tags: Vec<u32> = rays.iter().flat_map(|r| [r.bounce_count, r.media_count].into_iter().chain(r.media)).collect();
        let mut a = Memory::new(&detectors, 400).unwrap();
        let mut b = a.clone();
        let x = a.trace(&config(), &scene, &rays);
        let y = b.trace_flat(&config(), &scene, &flat, &ray_tags, 40);
        assert_eq!(x, y);
        assert_eq!(a, b);
        match spoiled {
            None => assert!(x.unwrap().tallies.caught > 30),
            Some(_) => assert_eq!(refusal(x), (11, 5)),
        }
    }
}

#[test]
fn tracings_refused() {
    let fresh = || Memory::new(&[screen(10.0, 2)], 1).unwrap();
    let one = [ray(1.0, 1.0, 1.0)];
    let tried = |c: Config, s: &Scene, r: &[GivenRay]| {
        let mut m = fresh();
        let n = refusal(m.trace(&c, s, r));
        (n, m == fresh())
    };
    let none = Scene::new();
    assert_eq!(tried(Config { min_power_threshold: -1.0, ..config() }, &none, &one), ((1, 0), true));
    assert_eq!(tried(Config { max_bounces: 17, ..config() }, &none, &one), ((2, 0), true));
    assert_eq!(tried(config(), &none, &vec![one[0]; 4097]), ((3, 0), true));
    assert_eq!(tried(Config { max_bounces: 17, ..config() }, &none, &vec![one[0]; 5000]), ((2, 0), true));
    let mut many = Scene::new();
    (0..33).for_each(|_| many.push(&block(4.0, Medium::Air, Finish::Specular)));
    assert_eq!((many.len(), many.is_empty()), (33, false));
    assert_eq!(tried(config(), &many, &one), ((3, 0), true));
    assert_eq!(tried(config(), &Scene::from_numbers(vec![0.0; 41], vec![0; 4], 1), &one), ((17, 0), true));
    assert_eq!(tried(config(), &Scene::from_numbers(vec![0.0; 84], vec![0, 0, 0, 0, 6, 0, 0, 0], 2), &one), ((17, 1), true));
    assert_eq!(tried(config(), &none, &[one[0], GivenRay { energy: -1.0, ..one[0] }]), ((10, 1), true));
    assert_eq!(tried(config(), &none, &[one[0].inside(&[0])]), ((11, 0), true));
    assert_eq!(tried(config(), &none, &[one[0], one[0], one[0]]), ((12, 1), false));
    let mut glass = Scene::new();
    glass.push(&block(4.0, Medium::Constant { n: 1.5 }, Finish::Specular));
    assert_eq!(tried(config(), &glass, &[GivenRay { wavelength_nm: 0.0, ..one[0] }]), ((14, 0), true));
    let mut thin = Scene::new();
    thin.push(&block(4.0, Medium::Constant { n: 0.5 }, Finish::Specular));
    assert_eq!(tried(config(), &thin, &one), ((15, 0), true));
    let mut dense = Scene::new();
    dense.push(&block(0.0, Medium::Constant { n: 1e200 }, Finish::Specular));
    assert_eq!(tried(config(), &dense, &[one[0].inside(&[0])]), ((16, 0), true));
    let mut m = fresh();
    assert_eq!(refusal(m.trace_flat(&config(), &none, &[0.0; 7], &[0; 10], 1)), (17, 0));
    let r = ffi_ambient(4);
    assert_eq!((r.refusal, r.place, r.used), (17, 0, 5));
    let e = m.trace(&config(), &none, &[one[0], one[0]]).unwrap_err();
    assert_eq!((e.error.number, e.report.total_interactions, m.hits().count()), (12, 2, 1));
    assert!(e.to_string().contains("hit list full"));
}

fn ffi_ambient(ambient: u32) -> ffi::HostTraced {
    let config = ffi::HostConfig { min_power_threshold: 0.0, max_bounces: 1, ambient, a: 0.0, b: 0.0, c: 0.0, d: 0.0, e: 0.0, f: 0.0 };
    let detectors = ffi::Detectors { list: [Detector::default(); 8], count: 0 };
    let (mut f, mut u) = ([0.0f64; 1], [0u32; 1]);
    unsafe {
        ffi::nonseq_trace_rays(
            config, f.as_ptr(), 0, u.as_ptr(), 0, 0, f.as_ptr(), 0, u.as_ptr(), 0, 0, detectors,
            f.as_mut_ptr(), 0, u.as_mut_ptr(), 0, f.as_mut_ptr(), 0, u.as_mut_ptr(), 0, 5,
        )
    }
}

#[test]
fn recordings() {
    let mut m = Memory::new(&[screen(10.0, 2)], 1).unwrap();
    let hit = Hit { local_x: -1.0, local_y: 1.0, flux_watts: 0.5, wavelength_nm: 550.0, detector: 0, bounce_count: 1, reflection_count: 1, tir_count: 0 };
    assert_eq!(number(m.record(Hit { detector: 1, ..hit })), (4, 0));
    assert_eq!(m.record(hit), Ok(()));
    assert_eq!(m.hits().collect::<Vec<_>>(), [hit]);
    assert_eq!((m.flux(), m.pixel_hits()), (&[0.0, 0.0, 0.5, 0.0][..], &[0, 0, 1, 0][..]));
    let before = m.clone();
    assert_eq!(number(m.record(hit)), (12, 0));
    assert_eq!(m, before);
}

#[test]
fn filters() {
    let mut m = Memory::new(&[screen(10.0, 1), screen(11.0, 2)], 8).unwrap();
    let hit = |detector, flux, reflections, totals| Hit {
        local_x: 1.0, local_y: 1.0, flux_watts: flux, wavelength_nm: 550.0, detector, bounce_count: 0, reflection_count: reflections, tir_count: totals,
    };
    for h in [hit(1, 1.0, 0, 0), hit(1, 2.0, 1, 0), hit(0, 64.0, 1, 1), hit(1, 4.0, 0, 1), hit(1, 8.0, 1, 1)] {
        m.record(h).unwrap();
    }
    let under = |f| {
        let r = m.filtered(1, f).unwrap();
        (r.map[3], r.total_flux_watts, r.hit_count)
    };
    assert_eq!(Filter::ALL.map(under), [(15.0, 15.0, 4), (1.0, 1.0, 1), (10.0, 10.0, 2), (12.0, 12.0, 2), (14.0, 14.0, 3)]);
    assert_eq!(number(m.filtered(2, Filter::All)), (4, 0));
}

/// A filter's own refusals, which the wrappers can't bring about.
#[test]
fn filters_refused() {
    let detectors = ffi::Detectors { list: [screen(1.0, 2); 8], count: 1 };
    let flux = [1.0, 2.0, 3.0, 4.0];
    let mut work = [9.0; 4];
    let mut call = |filter, flux_len, work_len, used| {
        let (p, k) = ([0.0; 4], [0; 4]);
        let r = unsafe { ffi::nonseq_refilter(detectors, 0, filter, flux.as_ptr(), flux_len, work.as_mut_ptr(), work_len, p.as_ptr(), 4, k.as_ptr(), 4, used) };
        (r.refusal, r.place, r.total_flux_watts, r.hit_count, work == [9.0; 4])
    };
    assert_eq!(call(5, 4, 4, 0), (17, 0, 0.0, 0, true));
    assert_eq!(call(1, 3, 4, 0), (9, 0, 0.0, 0, true));
    assert_eq!(call(0, 4, 3, 0), (9, 0, 0.0, 0, true));
    assert_eq!(call(1, 4, 4, 2), (9, 0, 0.0, 0, true));
    assert_eq!(call(0, 4, 4, 1), (0, 0, 0.0, 0, true));
    assert_eq!(call(1, 4, 4, 0), (0, 0, 0.0, 0, false));
}

#[test]
fn texts() {
    assert_eq!(stray_map(SCENE), ANSWER);
    assert_eq!(stray_map(b""), b"refusal place\n17 1\n");
    assert_eq!(stray_map(&SCENE[..SCENE.len() - 1]), b"refusal place\n17 7\n");
    assert_eq!(stray_map(&vec![b'0'; 65_537]), b"refusal place\n17 0\n");
    let s = read_scene(SCENE).unwrap();
    assert_eq!((s.solids, s.detectors, s.rays), (0, 1, 1));
    assert_eq!((s.run_values[0], &s.run_tags[..]), (0.0, &[4, 5, 0][..]));
    assert_eq!((s.detector_values.len(), &s.detector_tags[..]), (11, &[2, 2][..]));
    assert_eq!((&s.ray_values[..], s.ray_tags[0], s.ray_tags[1]), (&[1.0, 1.0, 0.0, 0.0, 0.0, 1.0, 550.0, 1.0][..], 0, 0));
    assert_eq!(number(read_scene(b"threshold\n")), (17, 1));
    assert_eq!(write_refusal(&Error { number: 17, place: 4_294_967_295 }), b"refusal place\n17 4294967295\n");
    let mut small = [7u8; 18];
    let n = unsafe { ffi::nonseq_put_refusal(small.as_mut_ptr(), 17, 17, 4) };
    assert_eq!((n, small), (19, [7; 18]));
    let n = unsafe { ffi::nonseq_stray_map(small.as_mut_ptr(), 18, SCENE.as_ptr(), SCENE.len()) };
    assert_eq!((n, small), (ANSWER.len(), [7; 18]));
    let big = Memory::new(&[screen(1.0, 65)], 0).unwrap();
    assert_eq!(number(write_answer(&big, &Report::default(), Filter::All)), (9, 0));
}

/// What is read can be traced.
#[test]
fn a_text_read_and_traced() {
    let text = include_bytes!("../../../crates/test_scripts/data/scenes/lens.txt");
    let answer = include_bytes!("../../../crates/test_scripts/data/scenes/lens.answer.txt");
    let s = read_scene(text).unwrap();
    let v = |i: usize| Vec3::new(s.detector_values[i], s.detector_values[i + 1], s.detector_values[i + 2]);
    let d = Detector::new(v(0), v(3), v(6), (s.detector_values[9], s.detector_values[10]), (s.detector_tags[0], s.detector_tags[1])).unwrap();
    let mut m = Memory::new(&[d], 1024).unwrap();
    let rules = Config { min_power_threshold: s.run_values[0], max_bounces: s.run_tags[0], ambient: Medium::Air };
    let scene = Scene::from_numbers(s.solid_values, s.solid_tags, s.solids);
    let report = m.trace_flat(&rules, &scene, &s.ray_values, &s.ray_tags, s.rays).unwrap();
    assert_eq!(write_answer(&m, &report, Filter::All).unwrap(), answer);
    assert_eq!(stray_map(text), answer);
}

#[test]
fn errors_have_texts() {
    for n in 1..=18 {
        let e = Error { number: n, place: 3 };
        assert!(e.to_string().starts_with(&format!("refused by {n} at place 3: ")));
        assert_eq!(e.text(), TEXTS[n as usize - 1]);
    }
    assert_eq!(Error { number: 0, place: 0 }.text(), "no such refusal");
}
