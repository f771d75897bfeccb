//! What a script works on.
use crate::lent::{hold, Lent};
use crate::words::{Digest, Number};
use nonseq::ffi::{Detectors, HostConfig, HostTraced};
use nonseq::*;

/// The room of a script.
pub const TEXT_ROOM: usize = 65_537;
pub const SOLID_ROOM: usize = 33;
pub const RAY_ROOM: usize = 4_097;
pub const PLACES_ROOM: usize = 8_200;
pub const WRITTEN_ROOM: usize = 131_072;

/// The eight lists that are read from a scene text, each with all its room.
#[derive(Clone)]
pub struct Lists {
    pub run_values: Vec<f64>,
    pub run_tags: Vec<u32>,
    pub solid_values: Vec<f64>,
    pub solid_tags: Vec<u32>,
    pub detector_values: Vec<f64>,
    pub detector_tags: Vec<u32>,
    pub ray_values: Vec<f64>,
    pub ray_tags: Vec<u32>,
}

impl Lists {
    fn new() -> Lists {
        Lists {
            run_values: vec![0.0; RUN_DOUBLES],
            run_tags: vec![0; RUN_WHOLES],
            solid_values: vec![0.0; SOLID_ROOM * SOLID_DOUBLES],
            solid_tags: vec![0; SOLID_ROOM * SOLID_WHOLES],
            detector_values: vec![0.0; MAX_DETECTORS * DETECTOR_DOUBLES],
            detector_tags: vec![0; MAX_DETECTORS * DETECTOR_WHOLES],
            ray_values: vec![0.0; RAY_ROOM * RAY_DOUBLES],
            ray_tags: vec![0; RAY_ROOM * RAY_WHOLES],
        }
    }

    /// The digest of as much of the lists as so many lines fill.
    pub fn digest(&self, solids: u32, detectors: u32, rays: u32) -> Digest {
        fn front<T>(list: &[T], lines: u32, each: usize) -> &[T] {
            &list[..list.len().min(lines as usize * each)]
        }
        Digest::new()
            .list(&self.run_values)
            .list(&self.run_tags)
            .list(front(&self.solid_values, solids, SOLID_DOUBLES))
            .list(front(&self.solid_tags, solids, SOLID_WHOLES))
            .list(front(&self.detector_values, detectors, DETECTOR_DOUBLES))
            .list(front(&self.detector_tags, detectors, DETECTOR_WHOLES))
            .list(front(&self.ray_values, rays, RAY_DOUBLES))
            .list(front(&self.ray_tags, rays, RAY_WHOLES))
    }
}

/// All that calls may change.
#[derive(Clone)]
pub struct LentMemory {
    pub totals: [f64; MAX_DETECTORS],
    pub counts: [u32; MAX_DETECTORS],
    pub flux: Lent<f64>,
    pub hits: Lent<u32>,
    pub hit_values: Lent<f64>,
    pub hit_tags: Lent<u32>,
    pub used: usize,
}

impl LentMemory {
    pub fn caught_nothing(&mut self) {
        self.totals = [0.0; MAX_DETECTORS];
        self.counts = [0; MAX_DETECTORS];
    }

    pub fn digest(&self) -> Digest {
        let mut digest = Digest::new();
        for (total, count) in self.totals.iter().zip(self.counts) {
            digest.whole(total.counted());
            digest.whole(count.into());
        }
        digest = digest.list(self.flux.list()).list(self.hits.list()).list(self.hit_values.list()).list(self.hit_tags.list());
        digest.whole(self.used as u64);
        digest
    }

    /// Whether two hold the same, any NaN the same.
    pub fn same(&self, other: &LentMemory) -> bool {
        fn same<T: Number>(a: &[T], b: &[T]) -> bool {
            a.iter().map(|n| n.counted()).eq(b.iter().map(|n| n.counted()))
        }
        let caught = same(&self.totals, &other.totals) && self.counts == other.counts && self.used == other.used;
        let maps = same(self.flux.list(), other.flux.list()) && self.hits.list() == other.hits.list();
        caught && maps && same(self.hit_values.list(), other.hit_values.list()) && self.hit_tags.list() == other.hit_tags.list()
    }

    /// That nothing was written beside the lent slices.
    pub fn check(&self) -> Result<(), String> {
        let all = self.flux.is_whole() && self.hits.is_whole() && self.hit_values.is_whole() && self.hit_tags.is_whole();
        hold(all, "the call wrote beside a lent slice")
    }
}

pub struct State {
    pub text: Vec<u8>,
    pub lists: Lists,
    pub solids: u32,
    pub detectors: u32,
    pub memory: LentMemory,
    pub report: Report,
    pub written: Vec<u8>,
}

impl State {
    pub fn new() -> State {
        let memory = LentMemory {
            totals: [0.0; MAX_DETECTORS],
            counts: [0; MAX_DETECTORS],
            flux: Lent::of(&[]),
            hits: Lent::of(&[]),
            hit_values: Lent::of(&[]),
            hit_tags: Lent::of(&[]),
            used: 0,
        };
        State { text: Vec::new(), lists: Lists::new(), solids: 0, detectors: 0, memory, report: Report::default(), written: Vec::new() }
    }

    /// One of the eight detectors with what it has caught.
    pub fn detector(&self, d: usize) -> Detector {
        let v = &self.lists.detector_values[d * DETECTOR_DOUBLES..];
        let tags = &self.lists.detector_tags[d * DETECTOR_WHOLES..];
        Detector {
            center: Vec3::new(v[0], v[1], v[2]),
            normal: Vec3::new(v[3], v[4], v[5]),
            up: Vec3::new(v[6], v[7], v[8]),
            width_mm: v[9],
            height_mm: v[10],
            res_x: tags[0],
            res_y: tags[1],
            total_flux_watts: self.memory.totals[d],
            total_rays_hit: self.memory.counts[d],
        }
    }

    pub fn all_detectors(&self) -> Detectors {
        Detectors { list: std::array::from_fn(|d| self.detector(d)), count: self.detectors }
    }

    pub fn config(&self) -> HostConfig {
        let (v, tags) = (&self.lists.run_values, &self.lists.run_tags);
        HostConfig { min_power_threshold: v[0], max_bounces: tags[0], ambient: tags[2], a: v[1], b: v[2], c: v[3], d: v[4], e: v[5], f: v[6] }
    }

    /// The records that came back: only totals and counts may be new.
    pub fn recorded(&mut self, back: &Detectors, used: usize) -> Result<(), String> {
        let same = back.count == self.detectors && (0..MAX_DETECTORS).all(|d| same_face(&back.list[d], &self.detector(d)));
        hold(same, "the detectors came back changed")?;
        self.memory.totals = back.list.map(|d| d.total_flux_watts);
        self.memory.counts = back.list.map(|d| d.total_rays_hit);
        self.memory.used = used;
        self.memory.check()
    }
}

/// A detector's doubles and whole numbers, those of what it has caught last.
pub fn detector_numbers(d: &Detector) -> ([f64; 11], [u32; 2], f64, u32) {
    let (c, n, u) = (d.center, d.normal, d.up);
    let doubles = [c.x, c.y, c.z, n.x, n.y, n.z, u.x, u.y, u.z, d.width_mm, d.height_mm];
    (doubles, [d.res_x, d.res_y], d.total_flux_watts, d.total_rays_hit)
}

/// Whether two detectors are the same but for what they have caught, any NaN the same.
fn same_face(a: &Detector, b: &Detector) -> bool {
    let ((a, m, ..), (b, n, ..)) = (detector_numbers(a), detector_numbers(b));
    m == n && a.map(Number::counted) == b.map(Number::counted)
}

/// All words of a tracing's answer but the detectors.
pub fn traced_numbers(r: &HostTraced) -> ([f64; 5], [u32; 9]) {
    let (l, t) = (&r.report.ledger, &r.report.tallies);
    let watts = [l.launched_flux_watts, l.detected_flux_watts, l.absorbed_flux_watts, l.escaped_flux_watts, l.lost_flux_watts];
    let tallies = [t.made, t.dim, t.spent, t.caught, t.gone, t.surface, t.weak];
    let [a, b, c, d, e, f, g] = tallies;
    (watts, [r.report.total_rays_traced, r.report.total_interactions, a, b, c, d, e, f, g])
}
