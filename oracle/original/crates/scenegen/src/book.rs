//! The plain memory and what each call makes of it, written from document 01: detectors with their checks and document
//! 02's 18, recording, filters over the plain list of hits, readings, the texts of answers and refusals. What the
//! original can say of one detector it says: where a ray crosses, which pixel a hit falls on, sums, filtered maps,
//! areas, irradiance.
use super::script::Digest;
use super::*;
use optics_nonseq::detector::DetectorHit;

/// A refusal's number and place.
pub type Refusal = (u32, usize);
pub type Checked = Result<(), Refusal>;

/// Refusals are numbered from 1 to this.
pub const REFUSALS: usize = 18;
pub const MOST_DETECTORS: u32 = 8;
pub const MOST_RESOLUTION: u32 = 4096;
pub const MOST_PIXELS: usize = 4096;

const FILTERS: [RayPathFilter; 5] =
    [RayPathFilter::All, RayPathFilter::SignalOnly, RayPathFilter::GhostsOnly, RayPathFilter::TirOnly, RayPathFilter::StrayLight];

/// x, y, flux, wavelength; detector, bounces, reflections, total reflections.
#[derive(Clone, PartialEq, Debug)]
pub struct Hit {
    pub values: [f64; 4],
    pub tags: [u32; 4],
}

/// A hit as the original keeps it, on detector d.
pub fn hit_on(d: usize, h: &DetectorHit) -> Hit {
    let tags = [d as u32, h.bounce_count as u32, h.reflection_count as u32, h.tir_count as u32];
    Hit { values: [h.local_x, h.local_y, h.flux_watts, h.wavelength_nm], tags }
}

/// Whether a given ray's eight doubles are allowed (else 10).
pub fn is_ray(v: &[f64]) -> bool {
    let d = Vec3::new(v[3], v[4], v[5]);
    v.iter().all(|x| x.is_finite()) && !(v[7] < 0.0) && !((d.dot(&d) - 1.0).abs() > 1e-9)
}

pub fn ray_of(v: &[f64]) -> Ray {
    Ray { origin: Vec3::new(v[0], v[1], v[2]), direction: Vec3::new(v[3], v[4], v[5]), wavelength_nm: v[6], energy: v[7] }
}

/// A detector as given: centre, normal, up, width, height; columns and rows.
#[derive(Clone, PartialEq, Debug)]
pub struct Face {
    pub values: [f64; 11],
    pub tags: [u32; 2],
}

impl Face {
    /// Centre, normal or up, from value k on.
    pub fn part(&self, k: usize) -> Vec3 {
        Vec3::new(self.values[k], self.values[k + 1], self.values[k + 2])
    }
    fn made(&self) -> Result<Detector2D, NonSeqError> {
        let (w, h) = (self.values[9], self.values[10]);
        Detector2D::new(0, "", self.part(0), self.part(3), self.part(6), w, h, self.tags[0] as usize, self.tags[1] as usize)
    }
    /// The original's detector, of one that no check refuses.
    pub fn original(&self) -> Detector2D {
        self.made().unwrap()
    }
    /// A part of centre, normal or up is not finite, or the length of normal or up is at most 1e-15 or not finite.
    fn faces_nowhere(&self) -> bool {
        let lengths = [3, 6].map(|k| self.part(k).norm());
        self.values[..9].iter().any(|x| !x.is_finite()) || lengths.iter().any(|&l| l <= 1e-15 || !l.is_finite())
    }
    /// Normal times up, both of length 1.
    pub fn slant(&self) -> f64 {
        self.part(3).normalize().dot(&self.part(6).normalize())
    }
    fn refusal(&self) -> u32 {
        let sizes = &self.values[9..];
        if sizes.iter().any(|&x| x <= 0.0 || !x.is_finite()) {
            5
        } else if self.tags.contains(&0) {
            6
        } else if self.tags.iter().any(|&n| n > MOST_RESOLUTION) {
            7
        } else if self.faces_nowhere() {
            18
        } else if self.slant().abs() > 0.9999 {
            8
        } else {
            assert!(!self.slant().is_nan());
            0
        }
    }
    /// 5, 6, 7, 18, 8. The original knows neither 7 nor 18; of a detector that 18 refuses it asks for 8 next.
    pub fn check(&self, place: usize) -> Checked {
        let n = self.refusal();
        let passes = n == 0 || n == 18 && !(self.slant().abs() > 0.9999);
        assert!(n == 7 || self.made().is_ok() == passes);
        if n == 0 { Ok(()) } else { Err((n, place)) }
    }
    pub fn pixels(&self) -> usize {
        self.tags[0] as usize * self.tags[1] as usize
    }
    /// Where a ray crosses: t, x, y.
    pub fn crossing(&self, ray: &[f64]) -> Result<Option<(f64, f64, f64)>, Refusal> {
        self.check(0)?;
        if is_ray(ray) { Ok(self.original().intersect_ray(&ray_of(ray))) } else { Err((10, 0)) }
    }
    pub fn area(&self) -> Result<f64, Refusal> {
        self.check(0)?;
        Ok(self.original().pixel_area_m2())
    }
    /// Which of its pixels a hit falls on.
    fn pixel(&self, h: &Hit) -> usize {
        let mut d = self.original();
        record(&mut d, h);
        d.pixel_hit_counts.iter().position(|&n| n == 1).unwrap()
    }
}

fn record(d: &mut Detector2D, h: &Hit) {
    let [x, y, flux, nm] = h.values;
    d.record_hit_classified(x, y, flux, nm, h.tags[1] as usize, h.tags[2] as usize, h.tags[3] as usize);
}

/// Eight detectors, of which so many are said to be there.
pub struct Detectors {
    pub faces: Vec<Face>,
    pub said: u32,
}

impl Detectors {
    /// 3, then 5 to 8 and 18 of each.
    pub fn check(&self) -> Checked {
        if self.said > MOST_DETECTORS { return Err((3, 0)); }
        self.there().iter().enumerate().try_for_each(|(i, f)| f.check(i))
    }
    pub fn there(&self) -> &[Face] {
        &self.faces[..self.said as usize]
    }
    /// The same, then 4.
    pub fn check_asked(&self, d: u32) -> Checked {
        self.check()?;
        if d < self.said { Ok(()) } else { Err((4, 0)) }
    }
    /// Where a detector's pixels start.
    pub fn first(&self, d: usize) -> usize {
        self.faces[..d].iter().map(Face::pixels).sum()
    }
    pub fn pixels(&self) -> usize {
        self.first(self.said as usize)
    }
    pub fn part(&self, d: u32) -> Result<(usize, usize), Refusal> {
        self.check_asked(d)?;
        Ok((self.first(d as usize), self.faces[d as usize].pixels()))
    }
}

/// What a tracing reports: launched, detected, absorbed, escaped, lost; rays, interactions, made, dim, spent, caught,
/// gone, surface, weak. None is what the original can't say.
#[derive(Clone)]
pub struct Report {
    pub powers: [Option<f64>; 5],
    pub counts: [Option<u64>; 9],
}

impl Report {
    pub fn zeros() -> Report {
        Report { powers: [Some(0.0); 5], counts: [Some(0); 9] }
    }
}

/// The lent memory, and what each detector has caught.
#[derive(Clone)]
pub struct Memory {
    pub totals: [f64; 8],
    pub counts: [u32; 8],
    pub flux: Vec<f64>,
    pub hits: Vec<u32>,
    pub hit_values: Vec<f64>,
    pub hit_tags: Vec<u32>,
    pub used: u64,
}

impl Memory {
    /// So many places of each, filled with the pattern of scripts.
    pub fn lent(flux: usize, hits: usize, values: usize, tags: usize) -> Memory {
        Memory {
            totals: [0.0; 8],
            counts: [0; 8],
            flux: (0..flux).map(|i| i as f64 + 0.25).collect(),
            hits: (0..hits as u32).map(|i| i + 1).collect(),
            hit_values: (0..values).map(|i| i as f64 + 1000.5).collect(),
            hit_tags: (0..tags as u32).map(|i| i + 5000).collect(),
            used: 0,
        }
    }
    /// What a scene text is traced into: 4,096 pixels and 1,024 hits at the most.
    pub fn of_text(pixels: usize) -> Memory {
        let n = pixels.min(MOST_PIXELS);
        let mut m = Memory::lent(n, n, 4096, 4096);
        m.empty();
        m
    }
    pub fn empty(&mut self) {
        self.totals = [0.0; 8];
        self.counts = [0; 8];
        self.flux.fill(0.0);
        self.hits.fill(0);
        self.used = 0;
    }
    pub fn digest(&self) -> String {
        let mut d = Digest::new();
        for (t, n) in self.totals.iter().zip(&self.counts) {
            d.double(*t);
            d.whole(*n as u64);
        }
        d.doubles(&self.flux);
        d.wholes(&self.hits);
        d.doubles(&self.hit_values);
        d.wholes(&self.hit_tags);
        d.whole(self.used);
        d.hex()
    }
    fn are_hits(&self) -> bool {
        let n = self.hit_values.len();
        n == self.hit_tags.len() && n % 4 == 0 && self.used <= (n / 4) as u64
    }
    /// 9 for the flux and the list of hits, and for the counts of pixels where they are lent.
    pub fn check_lengths(&self, dets: &Detectors, counts: bool) -> Checked {
        let n = dets.pixels();
        let right = self.flux.len() == n && (!counts || self.hits.len() == n) && self.are_hits();
        if right { Ok(()) } else { Err((9, 0)) }
    }
    /// The original's detector with what it has caught.
    fn loaded(&self, dets: &Detectors, d: usize) -> Detector2D {
        let (first, n) = (dets.first(d), dets.faces[d].pixels());
        let mut o = dets.faces[d].original();
        o.pixel_flux_watts.copy_from_slice(&self.flux[first..first + n]);
        o.total_flux_watts = self.totals[d];
        o.total_rays_hit = self.counts[d] as usize;
        o
    }
    /// A hit on a detector that is there, or 12, or 13.
    pub fn put(&mut self, dets: &Detectors, h: &Hit) -> Result<(), u32> {
        let d = h.tags[0] as usize;
        let (at, pixel) = (self.used as usize, dets.first(d) + dets.faces[d].pixel(h));
        if 4 * at == self.hit_values.len() { return Err(12); }
        if self.hits[pixel] == u32::MAX || self.counts[d] == u32::MAX { return Err(13); }
        let mut o = self.loaded(dets, d);
        record(&mut o, h);
        self.flux[pixel] = o.pixel_flux_watts[pixel - dets.first(d)];
        self.totals[d] = o.total_flux_watts;
        self.counts[d] = o.total_rays_hit as u32;
        self.hits[pixel] += 1;
        self.hit_values[4 * at..4 * at + 4].copy_from_slice(&h.values);
        self.hit_tags[4 * at..4 * at + 4].copy_from_slice(&h.tags);
        self.used += 1;
        Ok(())
    }
    /// 3, 5 to 8 and 18, 4, 9, 12, 13.
    pub fn record(&mut self, dets: &Detectors, h: &Hit) -> Checked {
        dets.check_asked(h.tags[0])?;
        self.check_lengths(dets, true)?;
        self.put(dets, h).map_err(|n| (n, 0))
    }
    /// Hit i of the list.
    pub fn hit(&self, i: usize) -> Hit {
        let four = 4 * i..4 * i + 4;
        Hit { values: self.hit_values[four.clone()].try_into().unwrap(), tags: self.hit_tags[four].try_into().unwrap() }
    }
    /// The plain list of hits.
    pub fn list(&self) -> Vec<Hit> {
        (0..self.used as usize).map(|i| self.hit(i)).collect()
    }
    /// The map, total and count of a detector under a filter.
    fn filtered(&self, dets: &Detectors, d: usize, filter: usize) -> (Vec<f64>, f64, usize) {
        let mut o = self.loaded(dets, d);
        let plain = |h: &Hit| DetectorHit {
            local_x: h.values[0],
            local_y: h.values[1],
            flux_watts: h.values[2],
            wavelength_nm: h.values[3],
            bounce_count: h.tags[1] as usize,
            reflection_count: h.tags[2] as usize,
            tir_count: h.tags[3] as usize,
        };
        o.hits = self.list().iter().filter(|h| h.tags[0] as usize == d).map(plain).collect();
        o.filtered_pixel_flux(FILTERS[filter])
    }
    /// 17, 3, 5 to 8 and 18, 4, 9; total and count, and the work map refilled for all filters but All.
    pub fn refilter(&self, dets: &Detectors, d: u32, filter: u32, work: &mut Vec<f64>) -> Result<(f64, usize), Refusal> {
        if filter > 4 { return Err((17, 0)); }
        dets.check_asked(d)?;
        self.check_lengths(dets, false)?;
        if work.len() != dets.faces[d as usize].pixels() { return Err((9, 0)); }
        let (map, total, count) = self.filtered(dets, d as usize, filter as usize);
        if filter > 0 { *work = map; }
        Ok((total, count))
    }
    /// 3, 5 to 8 and 18, 4, 9 for the flux alone.
    pub fn irradiance(&self, dets: &Detectors, d: u32, px: u32, py: u32) -> Result<f64, Refusal> {
        dets.check_asked(d)?;
        if self.flux.len() != dets.pixels() { return Err((9, 0)); }
        Ok(self.loaded(dets, d as usize).irradiance_at(px as usize, py as usize))
    }
    /// 17, 3, 5 to 8 and 18, 9; the text of an answer, none where the report is not known.
    pub fn answer(&self, dets: &Detectors, report: &Report, filter: u32) -> Result<Option<String>, Refusal> {
        if filter > 4 { return Err((17, 0)); }
        dets.check()?;
        self.check_lengths(dets, false)?;
        if self.flux.len() > MOST_PIXELS { return Err((9, 0)); }
        Ok(report_text(report).map(|t| t + &self.maps_text(dets, filter as usize)))
    }
    fn maps_text(&self, dets: &Detectors, filter: usize) -> String {
        let (mut rows, mut pixels) = (String::new(), String::new());
        for (i, face) in dets.there().iter().enumerate() {
            let (map, total, count) = self.filtered(dets, i, filter);
            let (signal, stray) = (self.filtered(dets, i, 1).2, self.filtered(dets, i, 4).2);
            let _ = writeln!(rows, "{i} {count} {signal} {stray} {}", hx(total));
            let columns = face.tags[0] as usize;
            for (k, &x) in map.iter().enumerate().filter(|p| *p.1 != 0.0) {
                let _ = writeln!(pixels, "{i} {} {} {}", k % columns, k / columns, hx(x));
            }
        }
        format!("detector hits signal stray flux\n{rows}detector px py flux\n{pixels}")
    }
}

fn report_text(r: &Report) -> Option<String> {
    let powers: Option<Vec<String>> = r.powers.iter().map(|p| p.map(hx)).collect();
    let counts: Option<Vec<String>> = r.counts.iter().map(|n| n.map(|n| n.to_string())).collect();
    let (powers, counts) = (powers?, counts?);
    let first = format!("rays interactions launched detected absorbed escaped lost\n{} {}\n", counts[..2].join(" "), powers.join(" "));
    Some(format!("{first}made dim spent caught gone surface weak\n{}\n", counts[2..].join(" ")))
}

pub fn refusal_text(number: u32, place: usize) -> String {
    format!("refusal place\n{number} {place}\n")
}
