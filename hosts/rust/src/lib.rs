//! A stray-light tracer whose every function is proved to meet its contract, for Rust programs.
//!
//! The library behind it takes lent memory only; here the buffers are owned. A [`Scene`] is a list of solids, a
//! [`Memory`] holds detectors, their maps and the list of hits; [`Memory::trace`] traces rays through a scene into
//! it, [`Memory::filtered`] is a detector's map under a filter. [`stray_map`] goes from a scene text to its answer.
//!
//! No call panics or aborts for what it is given. What is not allowed comes back as an [`Error`] with its number in
//! the documents; a buffer whose size the caller chose, and which the machine has no memory for, as
//! [`MemoryError::NoMemory`].
//! Buffers of fixed sizes or of a scene text's lists, each below 256 KiB, and clones are allocated as elsewhere in Rust.
//!
//! The library has its buffers on the stack of the thread that calls. [`stray_map`] needs a thread with 768 KiB,
//! [`Memory::trace`] 512 KiB, [`write_answer`] 256 KiB, every other call 64 KiB, whatever they are given; at least 16 KiB
//! of that are left to the thread itself. Rust's own threads have 2 MiB unless told otherwise; with less than is needed
//! the program ends. The floating-point environment must be the default: rounding to nearest, subnormal numbers kept (no
//! flush-to-zero, no denormals-are-zero), no traps.
#![deny(missing_docs)]

mod error;
pub mod ffi;
mod memory;
mod scene;
mod text;

pub use error::{Error, MemoryError, TEXTS};
pub use memory::{Filtered, Memory, Refused};
pub use scene::{Config, Finish, Medium, Scene, Shape, Solid};
pub use text::{read_scene, stray_map, write_answer, write_refusal, SceneText, MAX_ANSWER};

/// Doubles of the run in its slice.
pub const RUN_DOUBLES: usize = 7;
/// Whole numbers of the run in its slice.
pub const RUN_WHOLES: usize = 3;
/// Doubles of a solid in its slice.
pub const SOLID_DOUBLES: usize = 42;
/// Whole numbers of a solid in its slice.
pub const SOLID_WHOLES: usize = 4;
/// Doubles of a detector in its slice.
pub const DETECTOR_DOUBLES: usize = 11;
/// Whole numbers of a detector in its slice.
pub const DETECTOR_WHOLES: usize = 2;
/// Doubles of a ray in its slice.
pub const RAY_DOUBLES: usize = 8;
/// Whole numbers of a ray in its slice.
pub const RAY_WHOLES: usize = 10;
/// Doubles of a hit in its slice.
pub const HIT_DOUBLES: usize = 4;
/// Whole numbers of a hit in its slice.
pub const HIT_WHOLES: usize = 4;

/// The most solids of a scene.
pub const MAX_SOLIDS: usize = 32;
/// The most detectors of a memory.
pub const MAX_DETECTORS: usize = 8;
/// The most rays of a batch.
pub const MAX_RAYS: usize = 4096;

/// A place or a direction.
#[repr(C)]
#[derive(Clone, Copy, Debug, Default, PartialEq)]
pub struct Vec3 {
    /// Along x.
    pub x: f64,
    /// Along y.
    pub y: f64,
    /// Along z.
    pub z: f64,
}

impl Vec3 {
    /// A vector by its parts.
    pub const fn new(x: f64, y: f64, z: f64) -> Vec3 {
        Vec3 { x, y, z }
    }
}

/// A ray: where it starts, its direction, wavelength and power.
#[repr(C)]
#[derive(Clone, Copy, Debug, PartialEq)]
pub struct Ray {
    /// Where it starts.
    pub origin: Vec3,
    /// A unit vector.
    pub direction: Vec3,
    /// In nanometres.
    pub wavelength_nm: f64,
    /// Its power in watts.
    pub energy: f64,
}

/// A ray as it is given to a tracing.
#[repr(C)]
#[derive(Clone, Copy, Debug, PartialEq)]
pub struct GivenRay {
    /// Where it starts.
    pub origin: Vec3,
    /// A unit vector.
    pub direction: Vec3,
    /// In nanometres.
    pub wavelength_nm: f64,
    /// Its power in watts.
    pub energy: f64,
    /// How often it has bounced already.
    pub bounce_count: u32,
    /// How many solids it is inside of, at most 8.
    pub media_count: u32,
    /// Their numbers, the innermost last; places past the number are not read.
    pub media: [u32; 8],
}

impl GivenRay {
    /// A ray that is in no solid and has not bounced.
    pub fn new(ray: Ray) -> GivenRay {
        GivenRay {
            origin: ray.origin,
            direction: ray.direction,
            wavelength_nm: ray.wavelength_nm,
            energy: ray.energy,
            bounce_count: 0,
            media_count: 0,
            media: [0; 8],
        }
    }

    /// The same inside of solids, the innermost last. More than 8 are counted, and refused by 11 when traced.
    pub fn inside(mut self, solids: &[u32]) -> GivenRay {
        self.media_count = u32::try_from(solids.len()).unwrap_or(u32::MAX);
        for (place, &solid) in self.media.iter_mut().zip(solids) {
            *place = solid;
        }
        self
    }
}

/// A detector, and what it has caught.
#[repr(C)]
#[derive(Clone, Copy, Debug, Default, PartialEq)]
pub struct Detector {
    /// The middle of its face.
    pub center: Vec3,
    /// Across its face, of any length.
    pub normal: Vec3,
    /// Roughly along its columns.
    pub up: Vec3,
    /// Along its rows.
    pub width_mm: f64,
    /// Along its columns.
    pub height_mm: f64,
    /// How many columns.
    pub res_x: u32,
    /// How many rows.
    pub res_y: u32,
    /// The sum of the fluxes that it has caught.
    pub total_flux_watts: f64,
    /// How many hits it has caught.
    pub total_rays_hit: u32,
}

impl Detector {
    /// A detector that has caught nothing.
    pub fn new(center: Vec3, normal: Vec3, up: Vec3, size_mm: (f64, f64), resolution: (u32, u32)) -> Result<Detector, Error> {
        let r = unsafe { ffi::nonseq_new_detector(center, normal, up, size_mm.0, size_mm.1, resolution.0, resolution.1) };
        Error::check(r.refusal, r.place).map(|()| r.detector)
    }

    /// Whether it is one, by 5, 6, 7, 18 and 8 in this order.
    pub fn check(&self) -> Result<(), Error> {
        let r = unsafe { ffi::nonseq_check_detector(*self) };
        Error::check(r.refusal, r.place)
    }

    /// Where a ray crosses its face, if it does.
    pub fn intersect_ray(&self, ray: &Ray) -> Result<Option<Crossing>, Error> {
        let r = unsafe { ffi::nonseq_intersect_ray(*self, *ray) };
        Error::check(r.refusal, r.place)?;
        Ok((r.crosses == 1).then_some(Crossing { t: r.t, local_x: r.local_x, local_y: r.local_y }))
    }

    /// The area of a pixel in square metres.
    pub fn pixel_area_m2(&self) -> Result<f64, Error> {
        let r = unsafe { ffi::nonseq_pixel_area_m2(*self) };
        Error::check(r.refusal, r.place).map(|()| r.value)
    }
}

/// Where a ray crosses a detector.
#[derive(Clone, Copy, Debug, PartialEq)]
pub struct Crossing {
    /// The distance along the ray.
    pub t: f64,
    /// To the right of the detector's middle.
    pub local_x: f64,
    /// Above the detector's middle.
    pub local_y: f64,
}

/// Light that a detector caught.
#[repr(C)]
#[derive(Clone, Copy, Debug, PartialEq)]
pub struct Hit {
    /// To the right of the detector's middle.
    pub local_x: f64,
    /// Above the detector's middle.
    pub local_y: f64,
    /// In watts.
    pub flux_watts: f64,
    /// In nanometres.
    pub wavelength_nm: f64,
    /// Which detector.
    pub detector: u32,
    /// How often its ray had bounced.
    pub bounce_count: u32,
    /// How often its ray was reflected, total reflections aside.
    pub reflection_count: u32,
    /// How often its ray was totally reflected.
    pub tir_count: u32,
}

/// Where the launched power went.
#[repr(C)]
#[derive(Clone, Copy, Debug, Default, PartialEq)]
pub struct Ledger {
    /// Of all given rays.
    pub launched_flux_watts: f64,
    /// Caught by detectors.
    pub detected_flux_watts: f64,
    /// Absorbed by solids, or left with rays that went no further.
    pub absorbed_flux_watts: f64,
    /// Of rays that met nothing more.
    pub escaped_flux_watts: f64,
    /// Of mirrored rays that were not above the threshold, and so not made.
    pub lost_flux_watts: f64,
}

impl Ledger {
    /// Detected, absorbed and escaped over launched, without lost; 1 where nothing was launched.
    pub fn energy_conservation_ratio(&self) -> f64 {
        unsafe { ffi::nonseq_energy_conservation_ratio(*self) }
    }
}

/// What became of the rays.
#[repr(C)]
#[derive(Clone, Copy, Debug, Default, PartialEq, Eq)]
pub struct Tallies {
    /// Rays that came of others.
    pub made: u32,
    /// Rays at or below the threshold.
    pub dim: u32,
    /// Rays at the bounce limit.
    pub spent: u32,
    /// Rays that a detector caught.
    pub caught: u32,
    /// Rays that met nothing.
    pub gone: u32,
    /// Rays that met a solid.
    pub surface: u32,
    /// Rays that the threshold left unmade at clear solids and mirrors.
    pub weak: u32,
}

/// Ledger and tallies of a tracing.
#[repr(C)]
#[derive(Clone, Copy, Debug, Default, PartialEq)]
pub struct Report {
    /// Where the power went.
    pub ledger: Ledger,
    /// How many rays were given.
    pub total_rays_traced: u32,
    /// How often a ray met a solid, a detector or nothing.
    pub total_interactions: u32,
    /// What became of the rays.
    pub tallies: Tallies,
}

/// Which light a map counts.
#[derive(Clone, Copy, Debug, PartialEq, Eq)]
pub enum Filter {
    /// Every hit.
    All,
    /// Light with no reflection of either kind.
    SignalOnly,
    /// Light with at least one reflection; light that was only totally reflected is not in it.
    GhostsOnly,
    /// Light with at least one total reflection.
    TirOnly,
    /// Light with a reflection of either kind.
    StrayLight,
}

impl Filter {
    /// All of them, by their numbers.
    pub const ALL: [Filter; 5] = [Filter::All, Filter::SignalOnly, Filter::GhostsOnly, Filter::TirOnly, Filter::StrayLight];

    /// Document 01's number.
    pub fn number(self) -> u32 {
        self as u32
    }
}
