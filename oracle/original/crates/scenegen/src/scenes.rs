//! Small scenes as scripts: each is read, traced into an emptied memory, and then either more rays go into the same memory
//! or the scene is changed so that a check before the run refuses it.
use super::book::{Memory, Refusal, REFUSALS};
use super::flags::{Flags, FLAGS, KINDS};
use super::script::Script;
use super::stage::Stage;
use super::*;

const SCENES: usize = 360;
const PIXELS: usize = 120;
const ROOM: usize = 60;

fn plain(p: Vec3) -> Transform3D { Transform3D { translation: p, rotation_euler_deg: Vec3::zeros(), scale: Vec3::new(1.0, 1.0, 1.0) } }

fn turned(s: &mut Sm, reach: f64) -> Transform3D {
    Transform3D {
        translation: Vec3::new(s.r(-reach, reach), s.r(-reach, reach), s.r(-reach, reach)),
        rotation_euler_deg: if s.chance(0.4) { Vec3::zeros() } else { Vec3::new(s.r(-180.0, 180.0), s.r(-180.0, 180.0), s.r(-180.0, 180.0)) },
        scale: if s.chance(0.5) { Vec3::new(1.0, 1.0, 1.0) } else { scale(s) },
    }
}

/// The solids of a scene of some style.
fn solids(s: &mut Sm, c: &mut Case, style: u64) {
    let n = match style { 2 | 4 => 1 + s.n(2), 1 => 2 + s.n(4), 9 => 5 + s.n(4), _ => 1 + s.n(4) };
    for k in 0..n {
        let sk = s.n(5);
        let wild = style == 7;
        let o = match style {
            // one inside the other, or overlapping, all clear
            1 => { let g = s.pick(&[2u64, 4, 4, 3]); let g = shape(s, g, 5.0 / (1.0 + 0.3 * k as f64), false); let t = turned(s, 1.0); let m = medium(s, false); obj(g, t, m, SurfaceFinish::Specular) }
            // light pipes
            2 => { let g = PrimitiveGeometry::Box { half_x: s.r(0.5, 1.5), half_y: s.r(0.5, 1.5), half_z: s.r(4.0, 8.0) }; let t = plain(Vec3::new(3.5 * k as f64, 0.0, 0.0)); obj(g, t, OpticalMedium::Constant { n: s.r(1.5, 2.4) }, SurfaceFinish::Specular) }
            3 => {
                let mut t = plain(Vec3::new(s.n(5) as f64 - 2.0, s.n(5) as f64 - 2.0, s.n(9) as f64 - 4.0));
                t.scale = Vec3::new(s.pick(&[1.0, -1.0, 2.0]), s.pick(&[1.0, 0.5]), s.pick(&[1.0, -1.0]));
                let (g, m, f) = (ishape(s), medium(s, false), finish(s, false));
                obj(g, t, m, f)
            }
            // mirrors across the z axis, which keep half, a quarter or all but a little
            4 => { let f = SurfaceFinish::Mirror { reflectance: s.pick(&[0.5, 0.5, 0.25, 0.75, 1.0, 1.5, -0.5]) }; let g = if s.chance(0.5) { PrimitiveGeometry::Plane { half_width: 5.0, half_height: 5.0 } } else { PrimitiveGeometry::Disk { outer_radius: 5.0, inner_radius: 0.0 } }; obj(g, plain(Vec3::new(0.0, 0.0, 6.0 - 10.0 * k as f64)), OpticalMedium::Air, f) }
            // slabs, of which rays come off both ways
            5 => { let g = PrimitiveGeometry::Box { half_x: 20.0, half_y: 20.0, half_z: 0.4 }; let mut t = plain(Vec3::new(0.0, 0.0, 2.5 * k as f64 - 3.0)); t.rotation_euler_deg = Vec3::new(s.r(-15.0, 15.0), s.r(-15.0, 15.0), 0.0); let m = medium(s, false); obj(g, t, m, SurfaceFinish::Specular) }
            // what refuses in the run
            6 => {
                let m = match s.n(6) { 0 => OpticalMedium::Constant { n: s.pick(&[0.5, 0.0, f64::NAN, f64::INFINITY, 0.9999999999999999]) }, 1 | 2 => OpticalMedium::Constant { n: s.pick(&[1e200, 1.7e308, 1e160]) }, 3 => OpticalMedium::Sellmeier1 { b1: s.pick(&[-5.0, f64::NAN, 1e308]), c1: 0.006, b2: 0.2, c2: 0.02, b3: 1.0, c3: 103.0 }, 4 => OpticalMedium::Schott { a0: s.pick(&[0.5, f64::NAN, -1.0]), a1: 0.0, a2: 0.01, a3: 0.0, a4: 0.0, a5: 0.0 }, _ => medium(s, false) };
                let (g, t) = (shape(s, sk, 3.0, false), turned(s, 3.0));
                let f = if s.chance(0.8) { SurfaceFinish::Specular } else { finish(s, false) };
                obj(g, t, m, f)
            }
            // slabs of large indices, met straight
            10 => { let g = PrimitiveGeometry::Box { half_x: 6.0, half_y: 6.0, half_z: 0.5 }; let m = OpticalMedium::Constant { n: s.pick(&[1e200, 1.7e308, 1e160, 1e100, 1.5, 2.0]) }; obj(g, plain(Vec3::new(0.0, 0.0, 2.0 * k as f64)), m, SurfaceFinish::Specular) }
            8 => {
                let mut t = turned(s, 4.0);
                t.scale = match s.n(4) { 0 => Vec3::new(0.0, 1.0, 1.0), 1 => { let k = s.log(1e-9, 1e9); Vec3::new(k, k, k) }, 2 => Vec3::new(s.log(1e-6, 1e6), 1.0, -1.0), _ => scale(s) };
                let size = if t.scale.x.abs() > 0.0 { 3.0 / t.scale.x.abs() } else { 3.0 };
                let (g, m, f) = (shape(s, sk, size, false), medium(s, false), finish(s, false));
                obj(g, t, m, f)
            }
            _ => { let (g, t, m, f) = (shape(s, sk, 2.5, wild), turned(s, 5.0), medium(s, wild), finish(s, wild)); obj(g, t, m, f) }
        };
        c.scene.add_object(o);
        c.scene.objects.last_mut().unwrap().is_active = !s.chance(0.05);
    }
}

fn detectors(s: &mut Sm, c: &mut Case, style: u64) {
    let grids = [(1usize, 1usize), (2, 2), (3, 1), (3, 2), (1, 5), (4, 4), (5, 3), (8, 5), (2, 7)];
    let n = match style { 2 | 5 | 10 => 2, 4 => 1 + s.n(2), _ => s.n(4) };
    for k in 0..n {
        let (rx, ry) = s.pick(&grids);
        let z = Vec3::new(0.0, 0.0, 1.0);
        match style {
            2 | 4 | 5 | 10 => { let up = Vec3::new(0.0, if s.chance(0.8) { 1.0 } else { -2.0 }, s.r(-0.5, 0.5)); add_det(c, Vec3::new(0.0, 0.0, if k == 0 { -15.0 } else { 15.0 }), z, up, 60.0, 50.0, rx, ry); }
            3 => { let (n, u) = (s.axis(), s.axis()); add_det(c, Vec3::new(s.n(5) as f64 - 2.0, s.n(5) as f64 - 2.0, s.n(9) as f64 - 4.0), n, u, 2.0 * (1 + s.n(5)) as f64, 2.0 * (1 + s.n(5)) as f64, rx, ry); }
            _ => {
                let far = s.unit() * s.r(4.0, 12.0);
                let mut n = far * s.log(0.1, 10.0);
                if style == 7 && s.chance(0.15) { n = Vec3::new(s.wild(), s.wild(), s.wild()); }
                let up = s.unit() * s.log(0.1, 10.0);
                let (w, h) = (s.r(4.0, 25.0), s.r(4.0, 25.0));
                add_det(c, far, n, up, w, h, rx, ry);
            }
        }
    }
}

fn rays(s: &mut Sm, c: &mut Case, style: u64) {
    let n = c.scene.objects.len();
    let count = if s.chance(0.03) { 0 } else { 1 + s.n(if c.bounces > 9 { 3 } else { 8 }) };
    for _ in 0..count {
        let mut p = if s.chance(0.3) { 1.0 } else { s.r(0.0, 2.0) };
        let mut nm = s.pick(&[587.56, 486.13, 656.27, 400.0, 1064.0]) + if s.chance(0.2) { s.r(-50.0, 50.0) } else { 0.0 };
        let bounce = if s.chance(0.8) { 0 } else { s.pick(&[1usize, 1, 2, 3, 5, 8, 15, 16, 17, 4294967295]) };
        let mut media: Vec<usize> = if s.chance(0.75) { Vec::new() } else { (0..s.n(9)).map(|_| s.n(n as u64) as usize).collect() };
        let (o, d) = match style {
            1 => if s.chance(0.6) {
                media = (0..n).collect();
                if s.chance(0.5) { media.reverse(); }
                (s.unit() * s.r(0.0, 0.8), s.unit())
            } else { let o = s.unit() * s.r(8.0, 12.0); (o, (s.unit() * s.r(0.0, 2.0) - o).normalize()) },
            2 => { let k = s.n(n as u64) as usize; media = vec![k]; let d = Vec3::new(s.r(-0.4, 0.4), s.r(-0.4, 0.4), s.pick(&[1.0, -1.0])).normalize(); (c.scene.objects[k].transform.translation + s.unit() * s.r(0.0, 0.4), d) }
            3 => (Vec3::new(s.n(5) as f64 - 2.0, s.n(5) as f64 - 2.0, s.n(13) as f64 - 6.0), if s.chance(0.7) { s.axis() } else { Vec3::new(s.pick(&[0.6, -0.6]), 0.0, s.pick(&[0.8, -0.8])) }),
            4 => {
                // what the mirror reflects of it is the threshold, or a bit more or less
                let rho = match c.scene.objects[0].material.finish { SurfaceFinish::Mirror { reflectance } if reflectance > 0.0 && reflectance < 1.0 => reflectance, _ => 0.5 };
                let x = c.threshold / rho / s.pick(&[1.0, 1.0, rho]);
                if c.threshold > 0.0 && s.chance(0.8) { p = f64::from_bits((x.to_bits() as i64 + s.pick(&[0i64, 0, 1, -1, 2, -2])) as u64); }
                (Vec3::new(s.r(-2.0, 2.0), s.r(-2.0, 2.0), 0.0), Vec3::new(0.0, 0.0, if s.chance(0.8) { 1.0 } else { -1.0 }))
            }
            10 => { if s.chance(0.3) { let k = s.n(n as u64) as usize; media = vec![k]; (Vec3::new(1.0, s.n(3) as f64, 2.0 * k as f64), Vec3::new(0.0, 0.0, s.pick(&[1.0, -1.0]))) } else { media.clear(); (Vec3::new(1.0, s.n(3) as f64, -5.0), Vec3::new(0.0, 0.0, 1.0)) } }
            5 => (Vec3::new(s.r(-2.0, 2.0), s.r(-2.0, 2.0), -10.0), Vec3::new(s.r(-0.2, 0.2), s.r(-0.2, 0.2), 1.0).normalize()),
            _ => {
                let o = s.unit() * s.r(2.0, 10.0);
                let aim = if s.chance(0.7) { c.scene.objects[s.n(n as u64) as usize].transform.translation } else { s.unit() * 3.0 };
                (o, (aim + s.unit() * s.r(0.0, 1.5) - o).normalize())
            }
        };
        if style == 6 && s.chance(0.15) { nm = s.pick(&[0.0, -0.0, -587.0, -5e-324]); }
        if style == 7 && s.chance(0.2) { p = s.pick(&[0.0, -0.0, 1e-320, 1e308, 1.7e308, 5e-324]); }
        if style == 7 && s.chance(0.1) { nm = s.pick(&[0.0, 1e-200, 1e200, 1e-3]); }
        let d = if s.chance(0.05) { d * (1.0 + s.r(-4e-10, 4e-10)) } else { d };
        push_ray(c, o, d, nm, p, bounce, media);
    }
}

fn small(s: &mut Sm, style: u64) -> Case {
    let mut c = Case {
        scene: NonSeqScene::new(),
        given: Vec::new(),
        rays: Vec::new(),
        bounces: if s.chance(0.05) { 0 } else { s.n(17) as usize },
        threshold: s.pick(&[0.0, 0.0, 1e-9, 1e-6, 1e-3, 0.01, 0.1, 0.25, -0.0]),
        wild: matches!(style, 3 | 6 | 7 | 8 | 10),
    };
    if style == 4 { c.threshold = s.pick(&[0.5, 0.1, 0.3, 0.0, 1e-3]); c.bounces = 1 + s.n(5) as usize; }
    if style == 5 && c.threshold < 1e-4 && c.bounces > 7 { c.bounces = 4 + s.n(4) as usize; }
    c.scene.ambient_medium = if s.chance(0.7) { OpticalMedium::Air } else { medium(s, style == 7) };
    solids(s, &mut c, style);
    detectors(s, &mut c, style);
    rays(s, &mut c, style);
    nowhere::leave_out(&mut c);
    c
}

/// Changes a scene so that a check before the run refuses it; the refusal's rank in document 01's order,
/// its number and its place, or none where the scene has nothing to change.
fn spoil(s: &mut Sm, c: &mut Case, t: &mut Told, which: u64) -> Option<(u32, u32, usize)> {
    let (nd, nr, ns) = (c.scene.detectors.len(), c.rays.len(), c.scene.objects.len());
    let d = s.n(nd.max(1) as u64) as usize;
    let r = s.n(nr.max(1) as u64) as usize;
    let (det, ray) = (20 + 10 * d as u32, 100 + 10 * r as u32);
    let bad = s.pick(&[0.0, -0.0, -1.0, f64::NAN, f64::INFINITY, -f64::INFINITY]);
    match which {
        0 if nd > 0 => { c.scene.detectors[d].width_mm = bad; Some((det, 5, d)) }
        1 if nd > 0 => { c.scene.detectors[d].height_mm = bad; Some((det, 5, d)) }
        2 if nd > 0 => { if s.chance(0.5) { c.scene.detectors[d].res_x = 0 } else { c.scene.detectors[d].res_y = 0 }; Some((det + 1, 6, d)) }
        3 if nd > 0 => { if s.chance(0.5) { c.scene.detectors[d].res_x = 4097 } else { c.scene.detectors[d].res_y = 4294967295 }; Some((det + 2, 7, d)) }
        4 if nd > 0 => { let k = s.pick(&[1.0, -3.0, 0.25]); let u = s.axis(); c.given[d].normal = u * k; c.given[d].up = u; Some((det + 3, 8, d)) }
        5 => { c.threshold = s.pick(&[-1.0, -5e-324, f64::NAN, f64::INFINITY, -f64::INFINITY]); Some((2, 1, 0)) }
        6 => { c.bounces = s.pick(&[17usize, 18, 4294967295]); Some((3, 2, 0)) }
        7 => { t.detectors = s.pick(&[9u64, 4294967295]); Some((4, 3, 0)) }
        8 => { if t.pixels < PIXELS && s.chance(0.5) { t.pixels += 1 } else if t.pixels > 0 { t.pixels -= 1 } else { t.pixels = 1 }; Some((90, 9, 0)) }
        9 => { t.used = t.room as u64 + 1 + s.n(3); Some((90, 9, 0)) }
        10 | 11 if nr > 0 => {
            let q = &mut c.rays[r].ray;
            let x = s.pick(&[f64::NAN, f64::INFINITY, -f64::INFINITY]);
            match s.n(6) { 0 => q.origin.y = x, 1 => q.direction.z = x, 2 => q.wavelength_nm = x, 3 => q.energy = s.pick(&[-1.0, -5e-324, f64::NAN, f64::INFINITY]), 4 => q.direction = q.direction * s.pick(&[0.0, 1.000000001, 0.999999999, 2.0]), _ => q.origin.x = x }
            Some((ray, 10, r))
        }
        12 | 13 if nr > 0 => {
            if s.chance(0.5) { c.rays[r].medium_stack = vec![0; 9] } else { c.rays[r].medium_stack.truncate(7); c.rays[r].medium_stack.push(s.pick(&[ns, ns + 1, 4294967295])) }
            Some((ray + 1, 11, r))
        }
        14 => { t.solids = if s.chance(0.5) { ns as u64 + 1 } else { ns as u64 - 1 }; Some((0, 17, 0)) }
        15 => { t.rays = if nr == 0 || s.chance(0.5) { nr as u64 + 1 } else { nr as u64 - 1 }; Some((1, 17, 0)) }
        _ => None,
    }
}

/// What is told of a scene: how many there are of everything, and how much is lent.
#[derive(Clone)]
struct Told { solids: u64, detectors: u64, rays: u64, pixels: usize, room: usize, used: u64 }

fn told(s: &mut Sm, c: &Case, used: usize, new: usize) -> Told {
    let room = match s.n(10) { 0 | 1 if new > 0 => used + s.n(new as u64) as usize, 2 | 3 | 4 => used + new, 5 => used + new + 1, _ => used + new + s.n(5) as usize };
    Told { solids: c.scene.objects.len() as u64, detectors: c.scene.detectors.len() as u64, rays: c.rays.len() as u64, pixels: c.scene.detectors.iter().map(|d| d.res_x * d.res_y).sum(), room: room.min(ROOM), used: used as u64 }
}

/// How many hits a scene brings where there is room for all; none where it takes too many steps.
fn brought(c: &Case) -> Option<usize> {
    let mut scene = c.scene.clone();
    let res = cfg(c, c.bounces, false).trace_rays(&mut scene, &c.rays, None);
    let n = scene.detectors.iter().map(|d| d.hits.len()).sum::<usize>();
    if let Ok(r) = res { if r.total_interactions > 3000 { return None; } }
    if n > 200 { return None; }
    Some(n)
}

struct Scene { case: Case, told: Told }

/// What comes after the first tracing: more rays, or the same scene with one or two reasons to refuse it.
enum Second { More(Scene), Spoilt { scene: Scene, why: Refusal, two: bool } }

fn more(s: &mut Sm, style: u64, first: &Scene, used: usize) -> Option<Second> {
    let mut case = first.case.clone();
    case.rays.clear();
    rays(s, &mut case, style);
    let n = brought(&case)?;
    let told = told(s, &case, used, n);
    (told.room >= used).then_some(Second::More(Scene { case, told }))
}

fn spoilt(s: &mut Sm, first: &Scene, used: usize) -> Option<Second> {
    let mut case = first.case.clone();
    let mut told = Told { used: used as u64, ..first.told.clone() };
    let which = s.n(16);
    let mut why = spoil(s, &mut case, &mut told, which)?;
    let mut two = false;
    let other = s.n(16);
    if s.chance(0.3) && other / 2 != which / 2 {
        if let Some(w) = spoil(s, &mut case, &mut told, other) { two = true; why = why.min(w); }
    }
    Some(Second::Spoilt { scene: Scene { case, told }, why: (why.1, why.2), two })
}

/// One tracing as it is counted.
struct Traced { refusal: u32, bounces: usize, flags: Flags }

/// A script in the making: the number of its first scene, and its tracings.
pub struct Making { number: usize, stage: Stage, traced: Vec<Traced> }

impl Making {
    /// A scene and what comes after it; none where the original can't say enough.
    fn of(name: &str, number: usize, first: &Scene, second: Option<&Second>) -> Option<Making> {
        let mut all = first.case.clone();
        if let Some(Second::More(scene)) = second { all.rays.extend(scene.case.rays.clone()); }
        let mut m = Making { number, stage: Stage::new(&format!("{name}_{number}")), traced: Vec::new() };
        m.stage.case(&all, "-");
        m.stage.read();
        m.lend(&first.told);
        m.stage.empty();
        let n = first.case.rays.len();
        m.trace(&first.case, &[], |s| s.trace(0, n))?;
        match second {
            Some(Second::More(scene)) => m.more(scene, n)?,
            Some(Second::Spoilt { scene, why, two }) => m.spoilt(first, scene, *why, *two)?,
            None => {}
        }
        Some(m)
    }

    fn lend(&mut self, t: &Told) {
        self.stage.lend(t.pixels, t.pixels, 4 * t.room, 4 * t.room);
    }

    fn is_lent(&self, t: &Told) -> bool {
        (self.stage.memory.flux.len(), self.stage.memory.hit_values.len()) == (t.pixels, 4 * t.room)
    }

    /// The call, a note before it on what it shows, and what it leaves behind it.
    fn trace(&mut self, c: &Case, more: &[&str], call: impl Fn(&mut Stage) -> bool) -> Option<()> {
        let mut ahead = self.stage.clone();
        if !call(&mut ahead) { return None; }
        let before = self.stage.memory.clone();
        let mut flags = Flags::of(c, &before, &ahead);
        more.iter().for_each(|name| flags.set(name, true));
        self.stage.note(&format!("scene {}: {}", self.number + self.traced.len(), flags.words()));
        call(&mut self.stage);
        self.tell(&before);
        let refusal = self.stage.last.err().map_or(0, |r| r.0);
        self.traced.push(Traced { refusal, bounces: c.bounces, flags });
        Some(())
    }

    /// The memory; of the first hits since then two, the first one's detector, and the first pixel that was hit.
    fn tell(&mut self, before: &Memory) {
        let after = self.stage.memory.clone();
        self.stage.memory();
        let first = before.used as usize;
        (first..after.used as usize).take(2).for_each(|i| self.stage.hit(i));
        if after.used > before.used {
            self.stage.caught(after.hit(first).tags[0] as usize);
            self.stage.pixel((0..after.hits.len()).find(|&i| after.hits[i] != before.hits[i]).unwrap());
        }
    }

    fn used_before(&self) -> &'static [&'static str] {
        if self.stage.memory.used > 0 { &["memory used before"] } else { &[] }
    }

    /// The rays behind the first ones, in the memory that these left, or in a longer or shorter one that holds the same.
    fn more(&mut self, t: &Scene, from: usize) -> Option<()> {
        if !self.is_lent(&t.told) {
            let before = self.stage.memory.clone();
            self.lend(&t.told);
            self.stage.empty();
            self.hold(&before);
        }
        self.trace(&t.case, self.used_before(), |s| s.trace(from, t.case.rays.len()))
    }

    /// What a memory held, in another one.
    fn hold(&mut self, m: &Memory) {
        let listed = 4 * m.used as usize;
        self.stage.change("totals", &m.totals);
        self.stage.change_wholes("counts", &m.counts);
        self.stage.change("flux", &m.flux);
        self.stage.change_wholes("hits", &m.hits);
        self.stage.change("hit_values", &m.hit_values[..listed]);
        self.stage.change_wholes("hit_tags", &m.hit_tags[..listed]);
        self.stage.used(m.used);
    }

    fn spoilt(&mut self, first: &Scene, t: &Scene, why: Refusal, two: bool) -> Option<()> {
        let mut more = self.used_before().to_vec();
        if two { more.push("two reasons to refuse"); }
        self.change_lists(&t.case);
        if !self.is_lent(&t.told) { self.lend(&t.told); }
        if t.told.used != self.stage.memory.used { self.stage.used(t.told.used); }
        let (solids, rays) = (first.told.solids as usize, first.told.rays as usize);
        if t.told.detectors != first.told.detectors { self.stage.say_detectors(t.told.detectors as u32); }
        if t.told.solids != first.told.solids { self.stage.say_solids(t.told.solids as u32); }
        if (t.told.solids, t.told.rays) == (first.told.solids, first.told.rays) {
            self.trace(&t.case, &more, |s| s.trace(0, rays))?;
        } else {
            let lengths = [42 * solids, 4 * solids, 8 * rays, 10 * rays];
            self.trace(&t.case, &more, |s| s.trace_lent(lengths, t.told.rays as u32))?;
        }
        assert_eq!(self.stage.last, Err(why), "scene {}", self.number);
        Some(())
    }

    /// Makes the lists those of a scene with as many solids, detectors and rays.
    fn change_lists(&mut self, c: &Case) {
        let l = reader::read(scene_text(c, "-").as_bytes()).unwrap();
        self.stage.change("run_values", &l.run_values);
        self.stage.change_wholes("run_tags", &l.run_tags);
        self.stage.change("detector_values", &l.detector_values);
        self.stage.change_wholes("detector_tags", &l.detector_tags);
        self.stage.change("ray_values", &l.ray_values);
        self.stage.change_wholes("ray_tags", &l.ray_tags);
    }

    /// Whether its first tracing met a closed cylinder, or was refused in the run where one is active.
    fn is_closed(&self) -> bool {
        let first = &self.traced[0];
        let active = self.stage.lists.solid_tags.chunks(4).any(|t| t[..2] == [5, 1]);
        first.flags.has("closed cylinders") || active && (12..17).contains(&first.refusal)
    }

    /// Whether its first tracing dropped a mirrored ray, or nearly did.
    fn drops_or_nearly(&self) -> bool {
        let first = &self.traced[0];
        ["dropped rays", "mirrors just above it", "refused with something lost"].iter().any(|name| first.flags.has(name))
    }

    /// Whether a detector was hit, or its first tracing refused with 18.
    fn is_hit_or_nowhere(&self) -> bool {
        self.stage.memory.used > 0 || self.traced[0].refusal == 18
    }

    /// The answers under every filter, from the memory and to the text, where they are known.
    fn answers(&mut self) {
        let place = self.stage.filter_place();
        for filter in 0..5 {
            if let Some(n) = self.stage.answer_length(filter) { self.stage.answer(filter, n); }
            self.stage.byte(place, b'0' + filter as u8);
            if let Some(text) = self.stage.map_text() { self.stage.map(text.len()); }
        }
    }
}

/// How many scenes there are, and of what kinds.
pub struct Tally { all: usize, refusals: [usize; REFUSALS + 1], limits: [usize; 17], flags: [usize; KINDS] }

impl Tally {
    fn count(&mut self, t: &Traced) {
        self.all += 1;
        self.refusals[t.refusal as usize] += 1;
        if t.bounces < 17 { self.limits[t.bounces] += 1; }
        for (n, &f) in self.flags.iter_mut().zip(&t.flags.0) { *n += f as usize; }
    }

    pub fn met(&self, name: &str) -> usize {
        self.flags[FLAGS.iter().position(|&f| f == name).unwrap()]
    }

    fn new() -> Tally {
        Tally { all: 0, refusals: [0; REFUSALS + 1], limits: [0; 17], flags: [0; KINDS] }
    }

    pub fn table(&self, what: &str) -> String {
        let numbered = |ns: &[usize]| {
            ns.iter().enumerate().filter(|n| *n.1 > 0).map(|(k, n)| format!("{k}: {n}")).collect::<Vec<_>>().join(", ")
        };
        let flags = FLAGS.iter().zip(self.flags).filter(|f| f.1 > 0).map(|(name, n)| format!("{name} {n}")).collect::<Vec<_>>().join(", ");
        format!(
            "| of {} {what} | |\n|---|---|\n| refused (0: none) | {} |\n| bounce limit | {} |\n| met | {flags} |\n",
            self.all, numbered(&self.refusals), numbered(&self.limits)
        )
    }
}

/// Some of the solids become closed cylinders, in some scenes all absorbers or all mirrors.
fn close(s: &mut Sm, c: &mut Case) {
    closed::close(&mut c.scene.objects);
    let finish = match s.n(10) { 0 | 1 => SurfaceFinish::Absorber, 2 | 3 => SurfaceFinish::Mirror { reflectance: 0.75 }, _ => return };
    for o in c.scene.objects.iter_mut().filter(|o| matches!(o.geometry, PrimitiveGeometry::ClosedCylinder { .. })) {
        o.material.finish = finish.clone();
    }
}

/// What a list of small scenes is made of.
pub struct Kind {
    name: &'static str,
    styles: &'static [u64],
    change: fn(&mut Sm, &mut Case),
    keeps: fn(&Making) -> bool,
    answered: bool,
}

const PLAIN: Kind = Kind { name: "scene", styles: &[0, 1, 2, 3, 4, 5, 6, 7, 8, 9, 10, 1, 4, 6], change: |_, _| (), keeps: |_| true, answered: false };
pub const CLOSED: Kind = Kind { name: "closed", styles: &[0, 1, 2, 3, 5, 6, 7, 8, 9, 10, 1, 2], change: close, keeps: Making::is_closed, answered: true };
pub const MIRRORS: Kind = Kind { name: "mirrors", styles: &[0, 1, 2, 3, 4, 5, 6, 7, 8, 9, 1, 4, 6], change: mirrors::at_threshold, keeps: Making::drops_or_nearly, answered: true };
pub const NOWHERE: Kind = Kind { name: "nowhere", styles: &[0, 1, 2, 3, 4, 5, 6, 9, 2, 4, 5], change: nowhere::quarter, keeps: Making::is_hit_or_nowhere, answered: true };

/// The next scene; none where it takes too many steps, the original can't say enough, or little happens.
fn next(s: &mut Sm, kind: &Kind, style: u64, number: usize) -> Option<Making> {
    let mut case = small(s, style);
    (kind.change)(s, &mut case);
    let n = brought(&case)?;
    let told = told(s, &case, 0, n);
    let first = Scene { case, told };
    let alone = Making::of(kind.name, number, &first, None)?;
    let little = alone.stage.last.is_ok() && alone.stage.report.counts[1] < Some(2);
    if little && !s.chance(if first.case.bounces == 0 { 0.5 } else { 0.15 }) { return None; }
    // behind 18 neither more rays nor most other reasons show
    if alone.traced[0].refusal == 18 { return Some(alone); }
    let used = alone.stage.memory.used as usize;
    let second = if s.chance(0.2) {
        more(s, style, &first, used)
    } else if s.chance(0.45) {
        spoilt(s, &first, used)
    } else {
        None
    };
    second.and_then(|x| Making::of(kind.name, number, &first, Some(&x))).or(Some(alone))
}

/// Scripts of a kind until there are so many of them or so many scenes, and what is in them.
pub fn of_kind(s: &mut Sm, kind: &Kind, scripts: usize, scenes: usize) -> (Vec<Script>, Tally) {
    let (mut tally, mut out, mut turn) = (Tally::new(), Vec::new(), 0);
    while out.len() < scripts && tally.all < scenes {
        turn += 1;
        let style = kind.styles[turn % kind.styles.len()];
        let Some(mut m) = next(s, kind, style, tally.all).filter(kind.keeps) else { continue };
        if kind.answered { m.answers(); }
        m.traced.iter().for_each(|t| tally.count(t));
        out.push(m.stage.script());
    }
    (out, tally)
}

/// The scripts, and a table of what is in them.
pub fn scripts(seed: u64) -> (Vec<Script>, String) {
    let (out, tally) = of_kind(&mut Sm(seed), &PLAIN, usize::MAX, SCENES);
    (out, tally.table("scenes"))
}
