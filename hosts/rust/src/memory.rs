//! Detectors with their maps and the list of hits.
use crate::ffi::{self, Detectors};
use crate::{Config, Detector, Error, Filter, GivenRay, Hit, MemoryError, Report, Scene, HIT_DOUBLES, HIT_WHOLES, MAX_DETECTORS};
use std::alloc::{alloc_zeroed, Layout};

/// Up to 8 detectors, the maps of their pixels, and room for a number of hits. What the library is lent, owned.
#[derive(Clone, Debug, PartialEq)]
pub struct Memory {
    detectors: Detectors,
    flux: Vec<f64>,
    hits: Vec<u32>,
    hit_values: Vec<f64>,
    hit_tags: Vec<u32>,
    used: usize,
}

/// A tracing that was refused: why, and what had been added up until then. Before the run (1 to 11, 17 and 18) that is
/// nothing, and the memory is unchanged; in it (12 to 16) the hits of the steps before stay.
#[derive(Clone, Copy, Debug, PartialEq)]
pub struct Refused {
    /// Why, and which given ray or what else.
    pub error: Error,
    /// As the refused step found it, its interaction counted.
    pub report: Report,
}

impl std::fmt::Display for Refused {
    fn fmt(&self, f: &mut std::fmt::Formatter<'_>) -> std::fmt::Result {
        self.error.fmt(f)
    }
}

impl std::error::Error for Refused {
    fn source(&self) -> Option<&(dyn std::error::Error + 'static)> {
        Some(&self.error)
    }
}

/// A detector's map under a filter.
#[derive(Clone, Debug, PartialEq)]
pub struct Filtered {
    /// The flux of each pixel, row by row.
    pub map: Vec<f64>,
    /// The sum of the hits' fluxes.
    pub total_flux_watts: f64,
    /// How many hits.
    pub hit_count: usize,
}

/// Numbers whose zero is all bits zero.
trait Plain: Copy {}
impl Plain for f64 {}
impl Plain for u32 {}

/// So many zeros for each of so many, or no memory for them, where `vec!` would end the program. The system hands out
/// what is touched, as it does for `vec!`.
fn zeros<T: Plain>(many: usize, each: usize) -> Result<Vec<T>, MemoryError> {
    let n = many.checked_mul(each).ok_or(MemoryError::NoMemory)?;
    let layout = Layout::array::<T>(n).map_err(|_| MemoryError::NoMemory)?;
    if layout.size() == 0 {
        return Ok(Vec::new());
    }
    // SAFETY: the layout has a size; the block is the global allocator's, of n Ts' layout, and all its bits are zero.
    unsafe {
        let at = alloc_zeroed(layout).cast::<T>();
        if at.is_null() {
            return Err(MemoryError::NoMemory);
        }
        Ok(Vec::from_raw_parts(at, n, n))
    }
}

impl Memory {
    /// An empty memory with room for so many hits, of 48 bytes each, besides 12 bytes for each pixel. Refused by 3, 5 to
    /// 8 and 18; what the detectors had caught is dropped.
    pub fn new(detectors: &[Detector], capacity: usize) -> Result<Memory, MemoryError> {
        let mut list = [Detector::default(); MAX_DETECTORS];
        for (place, d) in list.iter_mut().zip(detectors) {
            *place = Detector { total_flux_watts: 0.0, total_rays_hit: 0, ..*d };
        }
        let count = u32::try_from(detectors.len()).unwrap_or(u32::MAX);
        let detectors = Detectors { list, count };
        let r = unsafe { ffi::nonseq_check_detectors(detectors) };
        Error::check(r.refusal, r.place)?;
        let pixels: usize = list[..count as usize].iter().map(|d| d.res_x as usize * d.res_y as usize).sum();
        Ok(Memory {
            detectors,
            flux: zeros(pixels, 1)?,
            hits: zeros(pixels, 1)?,
            hit_values: zeros(capacity, HIT_DOUBLES)?,
            hit_tags: zeros(capacity, HIT_WHOLES)?,
            used: 0,
        })
    }

    /// The detectors, and what they have caught.
    pub fn detectors(&self) -> &[Detector] {
        &self.detectors.list[..self.detectors.count as usize]
    }

    /// The flux of every pixel, detector after detector, each row by row.
    pub fn flux(&self) -> &[f64] {
        &self.flux
    }

    /// How many hits every pixel has caught.
    pub fn pixel_hits(&self) -> &[u32] {
        &self.hits
    }

    /// The hits in the order in which they came.
    pub fn hits(&self) -> impl Iterator<Item = Hit> + '_ {
        self.hit_values.chunks_exact(HIT_DOUBLES).zip(self.hit_tags.chunks_exact(HIT_WHOLES)).take(self.used).map(|(p, k)| Hit {
            local_x: p[0],
            local_y: p[1],
            flux_watts: p[2],
            wavelength_nm: p[3],
            detector: k[0],
            bounce_count: k[1],
            reflection_count: k[2],
            tir_count: k[3],
        })
    }

    /// Traces rays through a scene into this memory, the last ray first.
    pub fn trace(&mut self, config: &Config, scene: &Scene, rays: &[GivenRay]) -> Result<Report, Refused> {
        let r = unsafe {
            ffi::nonseq_trace_given_rays(
                config.numbers(), scene.solid_values.as_ptr(), scene.solid_values.len(), scene.solid_tags.as_ptr(), scene.solid_tags.len(), scene.count,
                rays.as_ptr(), rays.len(), self.detectors,
                self.flux.as_mut_ptr(), self.flux.len(), self.hits.as_mut_ptr(), self.hits.len(),
                self.hit_values.as_mut_ptr(), self.hit_values.len(), self.hit_tags.as_mut_ptr(), self.hit_tags.len(), self.used,
            )
        };
        self.traced(r)
    }

    /// The same with the rays as numbers: 8 doubles and 10 whole numbers a ray.
    pub fn trace_flat(&mut self, config: &Config, scene: &Scene, ray_values: &[f64], ray_tags: &[u32], given: u32) -> Result<Report, Refused> {
        let r = unsafe {
            ffi::nonseq_trace_rays(
                config.numbers(), scene.solid_values.as_ptr(), scene.solid_values.len(), scene.solid_tags.as_ptr(), scene.solid_tags.len(), scene.count,
                ray_values.as_ptr(), ray_values.len(), ray_tags.as_ptr(), ray_tags.len(), given, self.detectors,
                self.flux.as_mut_ptr(), self.flux.len(), self.hits.as_mut_ptr(), self.hits.len(),
                self.hit_values.as_mut_ptr(), self.hit_values.len(), self.hit_tags.as_mut_ptr(), self.hit_tags.len(), self.used,
            )
        };
        self.traced(r)
    }

    fn traced(&mut self, r: ffi::HostTraced) -> Result<Report, Refused> {
        self.detectors = r.detectors;
        self.used = r.used;
        match Error::check(r.refusal, r.place) {
            Ok(()) => Ok(r.report),
            Err(error) => Err(Refused { error, report: r.report }),
        }
    }

    /// One hit, wholly or not at all.
    pub fn record(&mut self, hit: Hit) -> Result<(), Error> {
        let r = unsafe {
            ffi::nonseq_record_hit_classified(
                self.detectors, self.flux.as_mut_ptr(), self.flux.len(), self.hits.as_mut_ptr(), self.hits.len(),
                self.hit_values.as_mut_ptr(), self.hit_values.len(), self.hit_tags.as_mut_ptr(), self.hit_tags.len(), self.used, hit,
            )
        };
        self.detectors = r.detectors;
        self.used = r.used;
        Error::check(r.refusal, r.place)
    }

    /// The part of the flux map that is a detector's.
    pub fn map(&self, detector: u32) -> Result<&[f64], Error> {
        let r = unsafe { ffi::nonseq_pixels_of(self.detectors, detector) };
        Error::check(r.refusal, r.place)?;
        Ok(&self.flux[r.first..r.first + r.pixels])
    }

    /// A detector's map under a filter, made anew from the list of hits; for [`Filter::All`] a copy of the stored one.
    pub fn filtered(&self, detector: u32, filter: Filter) -> Result<Filtered, MemoryError> {
        let stored = self.map(detector)?;
        let mut work = Vec::new();
        work.try_reserve_exact(stored.len())?;
        work.extend_from_slice(stored);
        let r = unsafe {
            ffi::nonseq_refilter(
                self.detectors, detector, filter.number(), self.flux.as_ptr(), self.flux.len(), work.as_mut_ptr(), work.len(),
                self.hit_values.as_ptr(), self.hit_values.len(), self.hit_tags.as_ptr(), self.hit_tags.len(), self.used,
            )
        };
        Error::check(r.refusal, r.place)?;
        Ok(Filtered { map: work, total_flux_watts: r.total_flux_watts, hit_count: r.hit_count })
    }

    /// Watts a square metre on a pixel; 0 outside the resolution.
    pub fn irradiance_at(&self, detector: u32, px: u32, py: u32) -> Result<f64, Error> {
        let r = unsafe { ffi::nonseq_irradiance_at(self.detectors, detector, self.flux.as_ptr(), self.flux.len(), px, py) };
        Error::check(r.refusal, r.place).map(|()| r.value)
    }

    pub(crate) fn write(&self, buf: &mut [u8], report: &Report, filter: Filter) -> Result<usize, Error> {
        let r = unsafe {
            ffi::nonseq_put_answer(
                buf.as_mut_ptr(), buf.len(), *report, self.detectors, filter.number(), self.flux.as_ptr(), self.flux.len(),
                self.hit_values.as_ptr(), self.hit_values.len(), self.hit_tags.as_ptr(), self.hit_tags.len(), self.used,
            )
        };
        Error::check(r.refusal, r.place).map(|()| r.length)
    }
}
