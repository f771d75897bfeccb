//! A tracing: the checks before its run, from document 01, and the run by the original. Its hits come in the order of
//! the recorded paths and are put into the plain memory one by one. Where the run is refused, by the original or
//! because a hit has no place, the batch is traced again a ray at a time, last to first. The report is then known
//!   - whole where the refused step is the first of its ray;
//!   - up to that step, but for what was absorbed and what came of clear surfaces, where a hit had no place, where the
//!     ray met mirrors alone before it, and where it comes into a solid that has no index;
//!   - else by what was launched alone, and nothing is lost where there is no mirror.
use super::book::*;
use super::reader::Lists;
use super::*;

const MOST_SOLIDS: u32 = 32;
const MOST_RAYS: u32 = 4096;
const MOST_BOUNCES: u32 = 16;
const MOST_MEDIA: u32 = 8;
/// An index above it may let so little through that a total reflection is told by its power alone.
const LARGE: f64 = 1e6;
/// A surface that is met at a smaller cosine is not surely entered.
const SLANT: f64 = 1e-6;

/// What a tracing is given: lists with so many solids and rays said to be in them. The original places a solid by its
/// transform, of which the lists hold the matrices.
pub struct Batch<'a> {
    pub lists: Lists,
    pub solids: u32,
    pub rays: u32,
    pub placed: &'a [Transform3D],
    /// whether indices may be as large as that otherwise
    pub wild: bool,
}

/// What a run came to.
pub struct Ran {
    pub refusal: Option<Refusal>,
    pub report: Report,
}

fn checked(right: bool, refusal: Refusal) -> Checked {
    if right { Ok(()) } else { Err(refusal) }
}

impl Batch<'_> {
    fn is_long(values: usize, tags: usize, strides: [usize; 2], n: u32) -> bool {
        values == strides[0] * n as usize && tags == strides[1] * n as usize
    }
    /// 17: the ambient medium, then the solids, then the rays.
    fn check_lists(&self) -> Checked {
        let l = &self.lists;
        checked(l.run_tags[2] <= 3, (17, 0))?;
        checked(Self::is_long(l.solid_values.len(), l.solid_tags.len(), [42, 4], self.solids), (17, 0))?;
        let bad = l.solid_tags.chunks(4).position(|t| t[0] > 5 || t[1] > 1 || t[2] > 2 || t[3] > 3);
        bad.map_or(Ok(()), |i| Err((17, i)))?;
        checked(Self::is_long(l.ray_values.len(), l.ray_tags.len(), [8, 10], self.rays), (17, 0))
    }
    /// 1, 2, 3.
    fn check_rules(&self, dets: &Detectors) -> Checked {
        let t = self.lists.run_values[0];
        checked(t.is_finite() && t >= 0.0, (1, 0))?;
        checked(self.lists.run_tags[0] <= MOST_BOUNCES, (2, 0))?;
        checked(self.solids <= MOST_SOLIDS && self.rays <= MOST_RAYS && dets.said <= MOST_DETECTORS, (3, 0))
    }
    /// 10, then 11, of each ray.
    fn check_rays(&self) -> Checked {
        for (i, (v, t)) in self.lists.ray_values.chunks(8).zip(self.lists.ray_tags.chunks(10)).enumerate() {
            checked(is_ray(v), (10, i))?;
            checked(t[1] <= MOST_MEDIA && t[2..2 + t[1] as usize].iter().all(|&k| k < self.solids), (11, i))?;
        }
        Ok(())
    }
    pub fn check(&self, dets: &Detectors, m: &Memory) -> Checked {
        self.check_lists()?;
        self.check_rules(dets)?;
        dets.check()?;
        m.check_lengths(dets, true)?;
        self.check_rays()
    }
    fn solid(&self, i: usize) -> NonSeqObject {
        let (v, t) = (&self.lists.solid_values[42 * i..42 * i + 42], &self.lists.solid_tags[4 * i..4 * i + 4]);
        let finish = match t[2] {
            0 => SurfaceFinish::Specular,
            1 => SurfaceFinish::Mirror { reflectance: v[3] },
            _ => SurfaceFinish::Absorber,
        };
        // one that no ray meets may stand anywhere
        let nowhere = Transform3D { translation: Vec3::zeros(), rotation_euler_deg: Vec3::zeros(), scale: Vec3::new(1.0, 1.0, 1.0) };
        assert!(i < self.placed.len() || t[1] == 0);
        let placed = self.placed.get(i).cloned().unwrap_or(nowhere);
        let mut o = obj(shape_by(t[0], v), placed, medium_by(t[3], &v[4..10]), finish);
        o.is_active = t[1] == 1;
        o
    }
    /// The same for the original.
    fn case(&self, dets: &Detectors) -> Case {
        let l = &self.lists;
        let (bounces, threshold) = (l.run_tags[0] as usize, l.run_values[0]);
        let wild = self.wild || l.solid_values.chunks(42).any(|v| v[4] > LARGE) || l.run_values[1] > LARGE;
        let mut c = Case { scene: NonSeqScene::new(), given: Vec::new(), rays: Vec::new(), bounces, threshold, wild };
        c.scene.ambient_medium = medium_by(l.run_tags[2], &l.run_values[1..]);
        c.scene.objects = (0..self.solids as usize).map(|i| NonSeqObject { id: i, ..self.solid(i) }).collect();
        c.scene.detectors = dets.there().iter().enumerate().map(|(i, f)| Detector2D { id: i, ..f.original() }).collect();
        for (i, (v, t)) in l.ray_values.chunks(8).zip(l.ray_tags.chunks(10)).enumerate() {
            let media = t[2..2 + t[1] as usize].iter().map(|&k| k as usize).collect();
            let mut r = NonSeqRay::new(ray_of(v), i).with_medium_stack(media);
            r.bounce_count = t[0] as usize;
            c.rays.push(r);
        }
        c
    }
    /// The whole tracing; none where the original does not tell the order of hits.
    pub fn trace(&self, dets: &Detectors, m: &mut Memory) -> Option<Ran> {
        match self.check(dets, m) {
            Err(refusal) => Some(Ran { refusal: Some(refusal), report: Report::zeros() }),
            Ok(()) => run(&self.case(dets), dets, m),
        }
    }
}

fn shape_by(n: u32, v: &[f64]) -> PrimitiveGeometry {
    match n {
        0 => PrimitiveGeometry::Plane { half_width: v[0], half_height: v[1] },
        1 => PrimitiveGeometry::Disk { outer_radius: v[0], inner_radius: v[1] },
        2 => PrimitiveGeometry::Sphere { radius: v[0] },
        3 => PrimitiveGeometry::Cylinder { radius: v[0], half_length: v[1] },
        4 => PrimitiveGeometry::Box { half_x: v[0], half_y: v[1], half_z: v[2] },
        _ => PrimitiveGeometry::ClosedCylinder { radius: v[0], half_length: v[1] },
    }
}

fn medium_by(n: u32, v: &[f64]) -> OpticalMedium {
    match n {
        0 => OpticalMedium::Air,
        1 => OpticalMedium::Constant { n: v[0] },
        2 => OpticalMedium::Sellmeier1 { b1: v[0], c1: v[1], b2: v[2], c2: v[3], b3: v[4], c3: v[5] },
        _ => OpticalMedium::Schott { a0: v[0], a1: v[1], a2: v[2], a3: v[3], a4: v[4], a5: v[5] },
    }
}

/// A report of the original, of these rays.
fn told(c: &Case, rays: &[NonSeqRay], rep: &NonSeqTraceReport) -> Report {
    let powers = [rep.launched_flux_watts, rep.detected_flux_watts, rep.absorbed_flux_watts, rep.escaped_flux_watts, lost(c, &rep.paths)].map(Some);
    let mut counts = [None; 9];
    counts[0] = Some(rays.len() as u64);
    counts[1] = Some(rep.total_interactions as u64);
    if let Some((t, sure)) = tallies(c, rays, rep) {
        (0..7).for_each(|k| counts[2 + k] = Some(t[k]));
        if !sure { counts[8] = None; }
    }
    Report { powers, counts }
}

/// The hits of a run that the original did not refuse, in the order of its paths.
fn in_order(scene: &NonSeqScene, rep: &NonSeqTraceReport) -> Vec<Hit> {
    let mut at = vec![0; scene.detectors.len()];
    let next = |d: usize| { at[d] += 1; hit_on(d, &scene.detectors[d].hits[at[d] - 1]) };
    rep.paths.iter().filter_map(|p| p.hit_detector_id).map(next).collect()
}

/// Puts hits into the memory up to one that is refused: how many were put, and 12 or 13.
fn put_all(dets: &Detectors, m: &mut Memory, hits: &[Hit]) -> (usize, Option<u32>) {
    for (k, h) in hits.iter().enumerate() {
        if let Err(n) = m.put(dets, h) { return (k, Some(n)); }
    }
    (hits.len(), None)
}

fn run(c: &Case, dets: &Detectors, m: &mut Memory) -> Option<Ran> {
    let (mut scene, mut after) = (c.scene.clone(), m.clone());
    if let Ok(rep) = cfg(c, c.bounces, true).trace_rays(&mut scene, &c.rays, None) {
        if put_all(dets, &mut after, &in_order(&scene, &rep)).1.is_none() {
            *m = after;
            return Some(Ran { refusal: None, report: told(c, &c.rays, &rep) });
        }
    }
    for i in (0..c.rays.len()).rev() {
        let one = Alone::traced(c, i)?;
        let (kept, full) = put_all(dets, m, &one.hits);
        if let Some(n) = full.or(one.refusal) {
            let report = if full.is_some() { one.full_at(c, i, kept) } else { Alone::refused_at(c, i) };
            return Some(Ran { refusal: Some((n, i)), report });
        }
    }
    panic!("the batch is refused but no ray is");
}

/// A ray traced alone: its hits, the original's report, or its refusal.
struct Alone {
    hits: Vec<Hit>,
    report: Option<NonSeqTraceReport>,
    refusal: Option<u32>,
}

impl Alone {
    fn traced(c: &Case, i: usize) -> Option<Alone> {
        let mut scene = c.scene.clone();
        match cfg(c, c.bounces, true).trace_rays(&mut scene, &c.rays[i..i + 1], None) {
            Ok(rep) => Some(Alone { hits: in_order(&scene, &rep), report: Some(rep), refusal: None }),
            Err(e) => {
                // Of a refused ray the original tells the order of hits on one detector alone.
                let hit: Vec<usize> = (0..scene.detectors.len()).filter(|&d| !scene.detectors[d].hits.is_empty()).collect();
                let hits = hit.iter().flat_map(|&d| scene.detectors[d].hits.iter().map(move |h| hit_on(d, h))).collect();
                (hit.len() < 2).then_some(Alone { hits, report: None, refusal: Some(number(&e)) })
            }
        }
    }
    /// What is known of the report whatever was refused.
    fn least(c: &Case) -> Report {
        let launched = cfg(c, 0, false).trace_rays(&mut c.scene.clone(), &c.rays, None).unwrap().launched_flux_watts;
        let is_mirror = |o: &NonSeqObject| o.is_active && matches!(o.material.finish, SurfaceFinish::Mirror { .. });
        let mut r = Report { powers: [None; 5], counts: [None; 9] };
        r.powers[0] = Some(launched);
        r.powers[4] = (!c.scene.objects.iter().any(is_mirror)).then_some(0.0);
        r.counts[0] = Some(c.rays.len() as u64);
        r
    }
    /// The original's report of the rays before ray i in the run, which come behind it in the list.
    fn before(c: &Case, i: usize) -> NonSeqTraceReport {
        cfg(c, c.bounces, true).trace_rays(&mut c.scene.clone(), &c.rays[i + 1..], None).unwrap()
    }
    /// The report where the first step of ray i is refused.
    fn at_once(c: &Case, i: usize) -> Report {
        let least = Self::least(c);
        let mut r = told(c, &c.rays[i + 1..], &Self::before(c, i));
        r.powers[0] = least.powers[0];
        r.counts[0] = least.counts[0];
        r.counts[1] = r.counts[1].map(|n| n + 1);
        r
    }
    /// The report where the original refuses ray i: in its first step, or in that behind the mirrors that it meets first,
    /// or where it comes into a solid that has no index.
    fn refused_at(c: &Case, i: usize) -> Report {
        let mirrors = Self::until_clear(c, i);
        let behind = cfg(c, c.rays[i].bounce_count + mirrors.len() + 1, false).trace_rays(&mut c.scene.clone(), &c.rays[i..i + 1], None);
        match behind {
            Err(_) if mirrors.is_empty() => Self::at_once(c, i),
            Err(_) => Self::up_to(c, i, &mirrors),
            Ok(_) => Self::until_index(c, i).map_or_else(|| Self::least(c), |own| Self::up_to(c, i, &own)),
        }
    }
    /// The report where ray i has a hit without a place after so many that had one.
    fn full_at(&self, c: &Case, i: usize, kept: usize) -> Report {
        let Some(own) = &self.report else { return Self::least(c) };
        let stop = own.paths.iter().enumerate().filter(|p| p.1.hit_detector_id.is_some()).nth(kept).unwrap().0;
        if stop == 0 { Self::at_once(c, i) } else { Self::up_to(c, i, &own.paths[..stop]) }
    }
    /// The recorded paths of ray i where some of the clear solids are absorbers: up to the first of these they are those
    /// that the scene has.
    fn to_absorbers(c: &Case, i: usize, which: impl Fn(&OpticalMedium) -> bool) -> Option<Vec<RayPathSegment>> {
        let mut scene = c.scene.clone();
        let clear = scene.objects.iter_mut().map(|o| &mut o.material).filter(|m| m.finish == SurfaceFinish::Specular);
        clear.filter(|m| which(&m.medium)).for_each(|m| m.finish = SurfaceFinish::Absorber);
        Some(cfg(c, c.bounces, true).trace_rays(&mut scene, &c.rays[i..i + 1], None).ok()?.paths)
    }
    /// The mirrors that ray i meets before anything else. Neither they nor absorbers ask for an index, and the
    /// original's solids have finite normals, so this run is not refused.
    fn until_clear(c: &Case, i: usize) -> Vec<RayPathSegment> {
        let all = Self::to_absorbers(c, i, |_| true).unwrap();
        all.into_iter().take_while(|p| p.interaction == "MirrorReflection").collect()
    }
    /// The paths up to the step in which ray i comes into a clear solid that has no index, where it is refused.
    fn until_index(c: &Case, i: usize) -> Option<Vec<RayPathSegment>> {
        let ray = &c.rays[i].ray;
        let without = |m: &OpticalMedium| m.refractive_index(ray.wavelength_nm, None).is_err();
        let is_it = |o: &NonSeqObject| o.material.finish == SurfaceFinish::Specular && without(&o.material.medium);
        let all = Self::to_absorbers(c, i, without)?;
        let stop = all.iter().position(|p| p.hit_object_id.is_some_and(|k| is_it(&c.scene.objects[k])))?;
        let p = &all[stop];
        let way = Ray { origin: p.start, direction: (p.end - p.start).normalize(), ..*ray };
        let hit = c.scene.intersect_closest_object(&way)?;
        let enters = Some(hit.object_id) == p.hit_object_id && way.direction.dot(&hit.geometric_normal) < -SLANT;
        enters.then(|| all[..stop].to_vec())
    }
    /// The report up to a step of ray i, with its paths before that: they say all but what was absorbed and what came
    /// of clear surfaces.
    fn up_to(c: &Case, i: usize, own: &[RayPathSegment]) -> Report {
        let before = Self::before(c, i);
        let paths = || before.paths.iter().chain(own);
        let of = |kind: &str| paths().filter(|p| p.interaction == kind).count() as u64;
        let sum = |start: f64, kind: &str| own.iter().filter(|p| p.interaction == kind).fold(start, |a, p| a + p.power_watts);
        let (caught, gone) = (of("DetectorHit"), of("EscapedToInfinity"));
        let mut r = Self::least(c);
        r.powers[1] = Some(sum(before.detected_flux_watts, "DetectorHit"));
        r.powers[3] = Some(sum(before.escaped_flux_watts, "EscapedToInfinity"));
        r.powers[4] = Some(lost(c, paths()));
        r.counts[1] = Some((before.total_interactions + own.len() + 1) as u64);
        r.counts[5] = Some(caught);
        r.counts[6] = Some(gone);
        r.counts[7] = Some(paths().count() as u64 - caught - gone);
        if own.iter().all(|p| p.interaction == "MirrorReflection") { Self::add_mirrored(&mut r, &told(c, &c.rays[i + 1..], &before), own.len()); }
        r
    }
    /// A ray that met so many mirrors and nothing else: each made one ray of it, and dropped none.
    fn add_mirrored(r: &mut Report, before: &Report, mirrors: usize) {
        r.counts[2] = before.counts[2].map(|made| made + mirrors as u64);
        for k in [3, 4, 8] { r.counts[k] = before.counts[k]; }
    }
}
