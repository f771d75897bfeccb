//! Every call on a thread with the stack that the header names for it, less what is to spare, and in a process of its
//! own, so that a stack that is too small is an answer. `cargo test --test stack -- least` prints how little will do.
use nonseq::*;
use std::process::{Command, Stdio};
use std::sync::atomic::{AtomicBool, Ordering};

const HEADER: &str = include_str!("../../c/nonseq.h");

/// KiB of what the header names that a call leaves over.
const SPARE: usize = 16;

/// All that the calls are given: 32 solids, eight detectors with 4,096 pixels, and rays that part as often as is allowed.
struct Given {
    text: Vec<u8>,
    scene: Scene,
    config: Config,
    rays: Vec<GivenRay>,
    flat: (Vec<f64>, Vec<u32>),
    memory: Memory,
    hit: Hit,
}

type Call = (&'static str, fn(&mut Given) -> bool);

/// Each answers whether it was answered, and not refused.
const CALLS: [Call; 16] = [
    ("nonseq_new_detector", |_| Detector::new(Z, Z, Y, (4.0, 4.0), (16, 32)).is_ok()),
    ("nonseq_check_detector", |g| g.memory.detectors()[7].check().is_ok()),
    ("nonseq_check_detectors", |g| Memory::new(g.memory.detectors(), 1).is_ok()),
    ("nonseq_intersect_ray", |g| g.memory.detectors()[7].intersect_ray(&Ray { origin: Y, direction: Z, wavelength_nm: 550.0, energy: 1.0 }).is_ok()),
    ("nonseq_pixel_area_m2", |g| g.memory.detectors()[7].pixel_area_m2().is_ok()),
    ("nonseq_record_hit_classified", |g| g.memory.record(g.hit).is_ok()),
    ("nonseq_refilter", |g| Filter::ALL.iter().all(|&f| g.memory.filtered(7, f).is_ok())),
    ("nonseq_pixels_of", |g| g.memory.map(7).is_ok()),
    ("nonseq_irradiance_at", |g| g.memory.irradiance_at(7, 15, 31).is_ok()),
    ("nonseq_trace_rays", |g| g.memory.trace_flat(&g.config, &g.scene, &g.flat.0, &g.flat.1, g.rays.len() as u32).is_ok()),
    ("nonseq_trace_given_rays", |g| g.memory.trace(&g.config, &g.scene, &g.rays).is_ok()),
    ("nonseq_energy_conservation_ratio", |_| Ledger::default().energy_conservation_ratio() == 1.0),
    ("nonseq_read_scene", |g| read_scene(&g.text).is_ok()),
    ("nonseq_put_answer", |g| Filter::ALL.iter().all(|&f| format!("{:?}", write_answer(&g.memory, &Report::default(), f)).len() > 1000)),
    ("nonseq_put_refusal", |_| !write_refusal(&Error { number: 17, place: u32::MAX }).is_empty()),
    ("nonseq_stray_map", |g| stray_map(&g.text).starts_with(b"rays")),
];

const Y: Vec3 = Vec3::new(0.0, 1.0, 0.0);
const Z: Vec3 = Vec3::new(0.0, 0.0, 1.0);

fn hex(x: f64) -> String {
    let digits = format!("{:016x}", x.to_bits());
    match digits.trim_end_matches('0') {
        "" => "0".into(),
        short => short.into(),
    }
}

fn row(doubles: &[f64], between: &str) -> String {
    doubles.iter().map(|&x| hex(x)).collect::<Vec<_>>().join(between)
}

/// Spheres of glass along z between two screens, the other detectors beside them; a text of the same.
fn given() -> Given {
    let at = |x: f64, z: f64| [1.0, 0.0, 0.0, x, 0.0, 1.0, 0.0, 0.0, 0.0, 0.0, 1.0, z, 0.0, 0.0, 0.0, 1.0];
    let glass = [1.03961212, 0.00600069867, 0.231792344, 0.0200179144, 1.01046945, 103.560653];
    let mut scene = Scene::new();
    let names: Vec<&str> = include_str!("../../../crates/straymap/stdin").lines().collect();
    let mut text = format!("{}\n0 16 4 0 0 0 0 0 0 0\n{}\n", names[0], names[2]);
    for i in 0..32 {
        let (matrix, inverse) = (at(0.125, 3.0 * i as f64), at(-0.125, -3.0 * i as f64));
        scene.push(&Solid { shape: Shape::Sphere { radius: 1.25 }, active: true, finish: Finish::Specular, medium: Medium::Sellmeier1(glass), matrix, inverse });
        text += &format!("2 {} 0 0 1 0 0 2 {} {} {}\n", hex(1.25), row(&glass, " "), row(&matrix, ","), row(&inverse, ","));
    }
    text += &format!("{}\n", names[3]);
    let detectors = std::array::from_fn::<_, 8, _>(|i| {
        let center = Vec3::new(if i < 2 { 0.0 } else { 50.0 * i as f64 }, 0.0, if i == 1 { -9.0 } else { 99.0 });
        text += &format!("{} {} {} {} {} 16 32\n", row(&[center.x, center.y, center.z], " "), row(&[Z.x, Z.y, Z.z], " "), row(&[Y.x, Y.y, Y.z], " "), hex(30.0), hex(30.0));
        Detector::new(center, Z, Y, (30.0, 30.0), (16, 32)).unwrap()
    });
    text += &format!("{}\n", names[5]);
    let rays: Vec<GivenRay> = (0..3)
        .map(|i| GivenRay::new(Ray { origin: Vec3::new(0.25 * i as f64, 0.125, -3.0), direction: Z, wavelength_nm: 550.0, energy: 1.0 }))
        .collect();
    let mut flat = (Vec::new(), Vec::new());
    for r in &rays {
        let values = [r.origin.x, r.origin.y, r.origin.z, r.direction.x, r.direction.y, r.direction.z, r.wavelength_nm, r.energy];
        text += &format!("{} 0 -\n", row(&values, " "));
        flat.0.extend_from_slice(&values);
        flat.1.extend_from_slice(&[0; RAY_WHOLES]);
    }
    let mut memory = Memory::new(&detectors, 100_000).unwrap();
    let hit = Hit { local_x: 0.3, local_y: 0.1, flux_watts: 1.0, wavelength_nm: 550.0, detector: 7, bounce_count: 1, reflection_count: 1, tir_count: 1 };
    (0..1000).for_each(|i| memory.record(Hit { local_x: -15.0 + 0.03 * i as f64, ..hit }).unwrap());
    Given { text: text.into_bytes(), scene, config: Config { min_power_threshold: 0.0, max_bounces: 16, ambient: Medium::Air }, rays, flat, memory, hit }
}

/// One call on a thread with so many KiB.
fn make(name: &str, kib: usize) {
    let (_, call) = CALLS.iter().find(|(n, _)| *n == name).expect("a call's name");
    let mut given = given();
    let answered = AtomicBool::new(false);
    std::thread::scope(|s| {
        let there = std::thread::Builder::new().stack_size(kib << 10).spawn_scoped(s, || answered.store(call(&mut given), Ordering::Relaxed));
        there.expect("a thread").join().expect("no panic");
    });
    assert!(answered.into_inner(), "{name} was refused");
}

/// Whether the call comes back on a thread with so many KiB.
fn works(name: &str, kib: usize) -> bool {
    let me = std::env::current_exe().expect("this program");
    Command::new(me).args([name, &kib.to_string()]).stderr(Stdio::null()).status().expect("a process").success()
}

/// What the header names for a call: a line of its own, `512 KiB  nonseq_..`, or that of every other call.
fn named(name: &str) -> usize {
    let line = |words: &str| {
        let mut lines = HEADER.lines().filter_map(|l| l.trim_start_matches([' ', '*']).split_once(" KiB  ")).filter(|(_, w)| *w == words);
        lines.next().map(|(kib, _)| kib.parse().expect("a number of KiB"))
    };
    line(name).or_else(|| line("every other call")).expect("the header's lines about stacks")
}

fn least(name: &str) -> usize {
    let (mut low, mut high) = (0, 4096);
    while high - low > 4 {
        let middle = (low + high) / 2;
        if works(name, middle) { high = middle } else { low = middle }
    }
    high
}

fn main() {
    let words: Vec<String> = std::env::args().skip(1).collect();
    match &words[..] {
        [name, kib] => make(name, kib.parse().expect("KiB")),
        [word] if word == "least" => CALLS.iter().for_each(|(name, _)| println!("{:5} KiB  {name}", least(name))),
        _ => {
            assert!(!works("nonseq_stray_map", 256), "a thread of 256 KiB is no test");
            for (name, _) in CALLS {
                assert!(works(name, named(name) - SPARE), "{name} needs more stack than the header says");
            }
            println!("every call has stack enough by the header");
        }
    }
}
