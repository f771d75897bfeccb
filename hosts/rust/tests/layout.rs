//! Nothing checks a foreign declaration against the library: sizes and offsets by the rules of C, and calls that give
//! back or tell apart every field of every struct.
use nonseq::ffi::{self, Detectors, HostConfig};
use nonseq::{Detector, GivenRay, Hit, Ledger, Ray, Report, Vec3};
use std::mem::{offset_of, size_of};

#[test]
fn sizes() {
    assert_eq!(size_of::<Vec3>(), 24);
    assert_eq!(size_of::<Ray>(), 64);
    assert_eq!((size_of::<Detector>(), offset_of!(Detector, res_x), offset_of!(Detector, total_flux_watts)), (112, 88, 96));
    assert_eq!((size_of::<Detectors>(), offset_of!(Detectors, count)), (904, 896));
    assert_eq!((size_of::<Hit>(), offset_of!(Hit, detector)), (48, 32));
    assert_eq!((size_of::<Report>(), offset_of!(Report, tallies)), (80, 48));
    assert_eq!((size_of::<HostConfig>(), offset_of!(HostConfig, a)), (64, 16));
    assert_eq!((size_of::<GivenRay>(), offset_of!(GivenRay, media)), (104, 72));
    assert_eq!((size_of::<ffi::HostTraced>(), offset_of!(ffi::HostTraced, detectors)), (1000, 96));
    assert_eq!(size_of::<ffi::HostRecorded>(), 920);
    assert_eq!((size_of::<ffi::HostText>(), offset_of!(ffi::HostText, length)), (16, 8));
}

fn odd(k: f64) -> Detector {
    Detector {
        center: Vec3::new(k + 0.1, k + 0.2, k + 0.3),
        normal: Vec3::new(k + 0.4, k + 0.5, k + 0.6),
        up: Vec3::new(-k - 0.7, k + 0.8, k + 0.9),
        width_mm: k + 1.1,
        height_mm: k + 1.2,
        res_x: 100 + k as u32,
        res_y: 200 + k as u32,
        total_flux_watts: k + 1.3,
        total_rays_hit: 300 + k as u32,
    }
}

/// A refused recording gives every field of every record back.
#[test]
fn records_come_back() {
    let mut detectors = Detectors { list: [0.0, 1.0, 2.0, 3.0, 4.0, 5.0, 6.0, 7.0].map(odd), count: 8 };
    let hit = Hit { local_x: 0.0, local_y: 0.0, flux_watts: 1.0, wavelength_nm: 500.0, detector: 8, bounce_count: 0, reflection_count: 0, tir_count: 0 };
    for refusal in [4, 3] {
        let (mut f, mut h, mut p, mut k) = ([0.5; 1], [7; 1], [0.25; 4], [9; 4]);
        let r = unsafe { ffi::nonseq_record_hit_classified(detectors, f.as_mut_ptr(), 1, h.as_mut_ptr(), 1, p.as_mut_ptr(), 4, k.as_mut_ptr(), 4, 77, hit) };
        assert_eq!((r.refusal, r.place, r.used), (refusal, 0, 77));
        assert_eq!(r.detectors, detectors);
        assert_eq!((f, h, p, k), ([0.5; 1], [7; 1], [0.25; 4], [9; 4]));
        detectors.count = 9;
    }
}

/// A recorded hit stands in the list field by field.
#[test]
fn hits_are_written() {
    let d = Detector::new(Vec3::default(), Vec3::new(0.0, 0.0, 1.0), Vec3::new(0.0, 1.0, 0.0), (4.0, 4.0), (1, 1)).unwrap();
    let mut detectors = Detectors { list: [d; 8], count: 3 };
    detectors.list[2].total_rays_hit = 41;
    let hit = Hit { local_x: 0.5, local_y: -0.25, flux_watts: 2.0, wavelength_nm: 633.0, detector: 2, bounce_count: 11, reflection_count: 12, tir_count: 13 };
    let (mut f, mut h, mut p, mut k) = ([0.5; 3], [7; 3], [0.0; 8], [0; 8]);
    let r = unsafe { ffi::nonseq_record_hit_classified(detectors, f.as_mut_ptr(), 3, h.as_mut_ptr(), 3, p.as_mut_ptr(), 8, k.as_mut_ptr(), 8, 1, hit) };
    assert_eq!((r.refusal, r.place, r.used), (0, 0, 2));
    assert_eq!((f, h), ([0.5, 0.5, 2.5], [7, 7, 8]));
    assert_eq!(p, [0.0, 0.0, 0.0, 0.0, 0.5, -0.25, 2.0, 633.0]);
    assert_eq!(k, [0, 0, 0, 0, 2, 11, 12, 13]);
    assert_eq!((r.detectors.list[2].total_rays_hit, r.detectors.list[2].total_flux_watts), (42, 2.0));
    assert_eq!(r.detectors.list[1].total_rays_hit, 0);
}

#[test]
fn ledgers_are_read() {
    let l = Ledger { launched_flux_watts: 8.0, detected_flux_watts: 1.0, absorbed_flux_watts: 2.0, escaped_flux_watts: 4.0, lost_flux_watts: 1.0 };
    assert_eq!(l.energy_conservation_ratio(), 7.0 / 8.0);
    assert_eq!(Ledger { launched_flux_watts: 2.0, ..l }.energy_conservation_ratio(), 3.5);
    assert_eq!(Ledger { launched_flux_watts: 0.0, ..l }.energy_conservation_ratio(), 1.0);
}

/// The answer's text holds every field of a report.
#[test]
fn reports_are_written() {
    let mut report = Report::default();
    report.ledger = Ledger { launched_flux_watts: 1.0, detected_flux_watts: 2.0, absorbed_flux_watts: 4.0, escaped_flux_watts: 8.0, lost_flux_watts: 16.0 };
    report.total_rays_traced = 21;
    report.total_interactions = 22;
    report.tallies = nonseq::Tallies { made: 1, dim: 2, spent: 3, caught: 4, gone: 5, surface: 6, weak: 7 };
    let memory = nonseq::Memory::new(&[], 1).unwrap();
    let text = nonseq::write_answer(&memory, &report, nonseq::Filter::All).unwrap();
    let lines: Vec<&str> = std::str::from_utf8(&text).unwrap().lines().collect();
    assert_eq!(lines[1], "21 22 3ff 4 401 402 403");
    assert_eq!(lines[3], "1 2 3 4 5 6 7");
}
