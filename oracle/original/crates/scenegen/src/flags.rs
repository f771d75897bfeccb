//! What a tracing of a small scene shows, so that it can be counted what the scenes cover.
use super::book::Memory;
use super::stage::Stage;
use super::*;

pub const KINDS: usize = 47;
pub const FLAGS: [&str; KINDS] = [
    "nested media", "total reflections", "chains of total reflections", "mirrors", "mirrors at the threshold", "mirrors just above it", "mirrors just below it", "absorbers",
    "several detectors hit", "given bounces", "threshold 0", "threshold above 0", "scaled solids", "planes", "disks", "spheres",
    "cylinders", "boxes", "closed cylinders", "air", "constant indices", "Sellmeier indices", "Schott indices", "memory used before", "hit list filled to its end",
    "weak rays", "dim rays", "spent rays", "escaped rays", "inactive solids", "all tallies known", "refused and all powers known", "two reasons to refuse",
    "sides of closed cylinders", "ends of closed cylinders", "closed mirrors", "closed absorbers", "dropped rays", "drops whose order shows",
    "lost 0 with dropped rays", "lost NaN", "refused with something lost", "detectors facing nowhere", "hits by short normals or ups", "hits by long normals or ups",
    "hits by ups almost along the normal", "hits by lengths at a limit",
];

#[derive(Clone)]
pub struct Flags(pub [bool; KINDS]);

impl Flags {
    /// What a tracing that was made on this memory showed.
    pub fn of(c: &Case, before: &Memory, after: &Stage) -> Flags {
        let mut f = Flags([false; KINDS]);
        f.set("threshold 0", c.threshold == 0.0);
        f.set("threshold above 0", c.threshold > 0.0);
        f.set("detectors facing nowhere", matches!(after.last, Err((18, _))));
        match after.last {
            Ok(()) => {
                f.met(c);
                f.filled(before, &after.memory);
                f.facing(after, before.used as usize);
                f.reported(after);
            }
            Err((12..=16, i)) => {
                f.met(&Case { rays: c.rays[i + 1..].to_vec(), ..c.clone() });
                f.reported(after);
                f.set("refused and all powers known", after.report.powers.iter().all(Option::is_some));
                f.set("refused with something lost", after.report.powers[4].is_some_and(|lost| lost != 0.0));
            }
            Err(_) => {}
        }
        f
    }

    pub fn set(&mut self, name: &str, v: bool) {
        let k = FLAGS.iter().position(|&n| n == name).unwrap();
        self.0[k] |= v;
    }

    pub fn has(&self, name: &str) -> bool {
        FLAGS.iter().zip(self.0).any(|f| *f.0 == name && f.1)
    }

    pub fn words(&self) -> String {
        FLAGS.iter().zip(self.0).filter(|f| f.1).map(|f| *f.0).collect::<Vec<_>>().join(", ")
    }

    fn filled(&mut self, before: &Memory, after: &Memory) {
        let hit: Vec<u32> = after.list()[before.used as usize..].iter().map(|h| h.tags[0]).collect();
        self.set("several detectors hit", hit.iter().any(|&d| d != hit[0]));
        self.set("hit list filled to its end", !hit.is_empty() && 4 * after.used == after.hit_values.len() as u64);
    }

    /// The normals and ups of the detectors that were hit.
    fn facing(&mut self, after: &Stage, first: usize) {
        for h in &after.memory.list()[first..] {
            let f = after.face(h.tags[0] as usize);
            let lengths = [3, 6].map(|k| f.part(k).norm());
            self.set("hits by short normals or ups", lengths.iter().any(|&l| l < 1e-12));
            self.set("hits by long normals or ups", lengths.iter().any(|&l| l > 1e100));
            self.set("hits by ups almost along the normal", f.slant().abs() > 0.9995);
            self.set("hits by lengths at a limit", lengths.iter().any(|&l| l == next(1e-15) || l == nowhere::LONGEST));
        }
    }

    fn reported(&mut self, after: &Stage) {
        let [_, _, tallies @ ..] = after.report.counts;
        self.set("dim rays", tallies[1] > Some(0));
        self.set("spent rays", tallies[2] > Some(0));
        self.set("weak rays", tallies[6] > Some(0));
        self.set("all tallies known", tallies.iter().all(Option::is_some));
        self.set("lost NaN", after.report.powers[4].is_some_and(f64::is_nan));
    }

    /// What rays that are not refused meet.
    fn met(&mut self, c: &Case) {
        let rep = cfg(c, c.bounces, true).trace_rays(&mut c.scene.clone(), &c.rays, None).unwrap();
        for p in &rep.paths {
            self.set("total reflections", p.interaction == "TotalInternalReflection");
            self.set("chains of total reflections", p.tir_count >= 2);
            self.set("escaped rays", p.interaction == "EscapedToInfinity");
            self.set("absorbers", p.interaction == "Absorption");
            if p.interaction == "MirrorReflection" { self.met_mirror(c.threshold, p.power_watts); }
            if let Some(k) = p.hit_object_id { self.met_solid(&c.scene.objects[k], p.end); }
        }
        self.dropped(c, &rep.paths);
        c.rays.iter().for_each(|r| self.met_first(c, r));
        self.set("inactive solids", c.scene.objects.iter().any(|o| !o.is_active));
    }

    fn met_solid(&mut self, o: &NonSeqObject, at: Vec3) {
        self.0[13 + shape_fields(&o.geometry).0 as usize] = true;
        if o.material.finish == SurfaceFinish::Specular { self.0[19 + med_fields(&o.material.medium).0 as usize] = true; }
        self.set("scaled solids", o.transform.scale != Vec3::new(1.0, 1.0, 1.0));
        if let PrimitiveGeometry::ClosedCylinder { half_length, .. } = o.geometry { self.met_closed(o, half_length, at); }
    }

    fn met_closed(&mut self, o: &NonSeqObject, half_length: f64, at: Vec3) {
        let z = (o.transform.inverse_matrix4().unwrap() * Vector4::new(at.x, at.y, at.z, 1.0))[2];
        let is_end = (z.abs() - half_length.abs()).abs() <= 1e-9 * (1.0 + half_length.abs());
        self.set(if is_end { "ends of closed cylinders" } else { "sides of closed cylinders" }, true);
        self.set("closed mirrors", matches!(o.material.finish, SurfaceFinish::Mirror { .. }));
        self.set("closed absorbers", o.material.finish == SurfaceFinish::Absorber);
    }

    fn met_mirror(&mut self, threshold: f64, power: f64) {
        self.set("mirrors", true);
        self.set("mirrors at the threshold", power == threshold);
        let near = |a: f64, b: f64| b.to_bits() > a.to_bits() && b.to_bits() - a.to_bits() <= 2;
        if threshold > 0.0 && power > 0.0 {
            self.set("mirrors just above it", near(threshold, power));
            self.set("mirrors just below it", near(power, threshold));
        }
    }

    /// What mirrors dropped, in the order of the steps and the other way.
    fn dropped(&mut self, c: &Case, paths: &[RayPathSegment]) {
        let (forth, back) = (lost(c, paths), lost(c, paths.iter().rev()));
        let some = paths.iter().any(|p| is_dropped(c, p));
        self.set("dropped rays", some);
        self.set("drops whose order shows", forth < back || back < forth);
        self.set("lost 0 with dropped rays", some && forth == 0.0);
    }

    /// What the first step of a given ray meets.
    fn met_first(&mut self, c: &Case, r: &NonSeqRay) {
        if r.ray.energy <= c.threshold || r.bounce_count >= c.bounces { return; }
        self.set("given bounces", r.bounce_count > 0);
        let one = cfg(c, r.bounce_count + 1, true).trace_rays(&mut c.scene.clone(), std::slice::from_ref(r), None).unwrap();
        if let (Some(h), Some(p)) = (c.scene.intersect_closest_object(&r.ray), one.paths.first()) {
            let newest = r.medium_stack.last() == Some(&h.object_id);
            self.set("nested media", p.interaction == "SnellFresnelSplit" && !h.entering && !newest && r.medium_stack.contains(&h.object_id));
        }
    }
}
