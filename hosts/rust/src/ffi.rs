//! The library's own calls and structs, as `hosts/c/nonseq.h` declares them. A slice is a pointer and a length.
#![allow(missing_docs)]

macro_rules! plain {
    ($(#[$m:meta])* $name:ident { $($field:ident: $ty:ty),* $(,)? }) => {
        $(#[$m])*
        #[repr(C)]
        #[derive(Clone, Copy, Debug, PartialEq)]
        pub struct $name { $(pub $field: $ty),* }
    };
}

plain!(HostConfig { min_power_threshold: f64, max_bounces: u32, ambient: u32, a: f64, b: f64, c: f64, d: f64, e: f64, f: f64 });
plain!(HostChecked { refusal: u32, place: u32 });
plain!(HostReading { refusal: u32, place: u32, value: f64 });
plain!(HostDetector { refusal: u32, place: u32, detector: crate::Detector });
plain!(HostCrossing { refusal: u32, place: u32, crosses: u32, t: f64, local_x: f64, local_y: f64 });
plain!(HostRecorded { refusal: u32, place: u32, used: usize, detectors: Detectors });
plain!(HostFiltered { refusal: u32, place: u32, total_flux_watts: f64, hit_count: usize });
plain!(HostPart { refusal: u32, place: u32, first: usize, pixels: usize });
plain!(HostScene { refusal: u32, place: u32, solids: u32, detectors: u32, rays: u32 });
plain!(HostText { refusal: u32, place: u32, length: usize });
plain!(HostTraced { refusal: u32, place: u32, used: usize, report: crate::Report, detectors: Detectors });
plain!(Detectors { list: [crate::Detector; 8], count: u32 });

extern "C" {
    pub fn nonseq_new_detector(center: crate::Vec3, normal: crate::Vec3, up: crate::Vec3, width_mm: f64, height_mm: f64, res_x: u32, res_y: u32) -> HostDetector;
    pub fn nonseq_check_detector(detector: crate::Detector) -> HostChecked;
    pub fn nonseq_check_detectors(detectors: Detectors) -> HostChecked;
    pub fn nonseq_intersect_ray(detector: crate::Detector, ray: crate::Ray) -> HostCrossing;
    pub fn nonseq_pixel_area_m2(detector: crate::Detector) -> HostReading;
    pub fn nonseq_record_hit_classified(
        detectors: Detectors, flux: *mut f64, flux_len: usize, hits: *mut u32, hits_len: usize,
        hit_values: *mut f64, hit_values_len: usize, hit_tags: *mut u32, hit_tags_len: usize, used: usize, hit: crate::Hit,
    ) -> HostRecorded;
    pub fn nonseq_refilter(
        detectors: Detectors, asked: u32, filter: u32, flux: *const f64, flux_len: usize, work: *mut f64, work_len: usize,
        hit_values: *const f64, hit_values_len: usize, hit_tags: *const u32, hit_tags_len: usize, used: usize,
    ) -> HostFiltered;
    pub fn nonseq_pixels_of(detectors: Detectors, asked: u32) -> HostPart;
    pub fn nonseq_irradiance_at(detectors: Detectors, asked: u32, flux: *const f64, flux_len: usize, px: u32, py: u32) -> HostReading;
    pub fn nonseq_trace_rays(
        config: HostConfig, solid_values: *const f64, solid_values_len: usize, solid_tags: *const u32, solid_tags_len: usize, count: u32,
        ray_values: *const f64, ray_values_len: usize, ray_tags: *const u32, ray_tags_len: usize, given: u32, detectors: Detectors,
        flux: *mut f64, flux_len: usize, hits: *mut u32, hits_len: usize,
        hit_values: *mut f64, hit_values_len: usize, hit_tags: *mut u32, hit_tags_len: usize, used: usize,
    ) -> HostTraced;
    pub fn nonseq_trace_given_rays(
        config: HostConfig, solid_values: *const f64, solid_values_len: usize, solid_tags: *const u32, solid_tags_len: usize, count: u32,
        rays: *const crate::GivenRay, rays_len: usize, detectors: Detectors,
        flux: *mut f64, flux_len: usize, hits: *mut u32, hits_len: usize,
        hit_values: *mut f64, hit_values_len: usize, hit_tags: *mut u32, hit_tags_len: usize, used: usize,
    ) -> HostTraced;
    pub fn nonseq_energy_conservation_ratio(ledger: crate::Ledger) -> f64;
    pub fn nonseq_read_scene(
        text: *const u8, text_len: usize, run_values: *mut f64, run_values_len: usize, run_tags: *mut u32, run_tags_len: usize,
        solid_values: *mut f64, solid_values_len: usize, solid_tags: *mut u32, solid_tags_len: usize,
        detector_values: *mut f64, detector_values_len: usize, detector_tags: *mut u32, detector_tags_len: usize,
        ray_values: *mut f64, ray_values_len: usize, ray_tags: *mut u32, ray_tags_len: usize,
    ) -> HostScene;
    pub fn nonseq_put_answer(
        buf: *mut u8, buf_len: usize, report: crate::Report, detectors: Detectors, filter: u32,
        flux: *const f64, flux_len: usize, hit_values: *const f64, hit_values_len: usize, hit_tags: *const u32, hit_tags_len: usize, used: usize,
    ) -> HostText;
    pub fn nonseq_put_refusal(buf: *mut u8, buf_len: usize, refusal: u32, place: u32) -> usize;
    pub fn nonseq_stray_map(buf: *mut u8, buf_len: usize, text: *const u8, text_len: usize) -> usize;
}
