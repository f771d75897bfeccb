//! Small scenes for lists of calls, of numbers with few digits, so that their texts are short.
use super::book::Face;
use super::stage::{Beam, Plan};
use super::*;

/// What a scene is made for.
pub const STYLES: [&str; 8] = ["detectors alone", "slabs", "mirrors", "light pipe", "lens", "bad index", "bad wavelength", "large index"];

/// A sixteenth between two numbers.
fn short(s: &mut Sm, a: f64, b: f64) -> f64 {
    (s.r(a, b) * 16.0).round() / 16.0
}

fn at(x: f64, y: f64, z: f64) -> Transform3D {
    Transform3D { translation: Vec3::new(x, y, z), rotation_euler_deg: Vec3::zeros(), scale: Vec3::new(1.0, 1.0, 1.0) }
}

fn slab(z: f64, half: f64, n: f64) -> NonSeqObject {
    obj(PrimitiveGeometry::Box { half_x: 8.0, half_y: 8.0, half_z: half }, at(0.0, 0.0, z), OpticalMedium::Constant { n }, SurfaceFinish::Specular)
}

fn mirror(s: &mut Sm, z: f64) -> NonSeqObject {
    let plane = PrimitiveGeometry::Plane { half_width: 5.0, half_height: 5.0 };
    let g = if s.chance(0.5) { plane } else { PrimitiveGeometry::Disk { outer_radius: 5.0, inner_radius: 0.25 } };
    obj(g, at(0.0, 0.0, z), OpticalMedium::Air, SurfaceFinish::Mirror { reflectance: s.pick(&[1.0, 0.5, 0.25, 0.75]) })
}

fn glass(s: &mut Sm) -> f64 {
    s.pick(&[1.5, 1.75, 2.0, 2.5])
}

fn solids(s: &mut Sm, style: usize) -> Vec<NonSeqObject> {
    match style {
        0 => Vec::new(),
        1 => (0..1 + s.n(3)).map(|k| { let n = glass(s); slab(3.0 * k as f64, 0.5, n) }).collect(),
        2 => {
            let mut all = vec![mirror(s, 6.0)];
            if s.chance(0.6) { all.push(mirror(s, -4.0)); }
            let post = PrimitiveGeometry::Cylinder { radius: 0.5, half_length: 1.0 };
            if s.chance(0.4) { all.push(obj(post, at(1.0, 1.0, 2.0), OpticalMedium::Air, SurfaceFinish::Absorber)); }
            all
        }
        3 => {
            let pipe = PrimitiveGeometry::Box { half_x: 1.0, half_y: 1.5, half_z: 6.0 };
            vec![obj(pipe, at(0.0, 0.0, 0.0), OpticalMedium::Constant { n: glass(s) }, SurfaceFinish::Specular)]
        }
        4 => {
            let mut t = at(0.0, 0.0, 2.0);
            t.scale.z = s.pick(&[1.0, 0.5, 0.25]);
            let lens = obj(PrimitiveGeometry::Sphere { radius: 4.0 }, t, OpticalMedium::Constant { n: glass(s) }, SurfaceFinish::Specular);
            let stop = obj(PrimitiveGeometry::Disk { outer_radius: 6.0, inner_radius: 2.0 }, at(0.0, 0.0, 7.0), OpticalMedium::Air, SurfaceFinish::Absorber);
            let mut all = vec![lens, stop];
            all[1].is_active = s.chance(0.7);
            all
        }
        5 => vec![slab(0.0, 0.5, glass(s)), slab(if s.chance(0.5) { -7.0 } else { 4.0 }, 0.5, s.pick(&[0.5, 0.0, f64::NAN]))],
        6 => (0..1 + s.n(2)).map(|k| { let n = glass(s); slab(3.0 * k as f64, 0.5, n) }).collect(),
        _ => vec![slab(0.0, 0.5, s.pick(&[1e200, 1e160])), slab(4.0, 0.5, glass(s))],
    }
}

fn faces(s: &mut Sm) -> Vec<Face> {
    let n = 1 + s.n(4);
    let grids = [[1, 1], [2, 2], [3, 1], [1, 4], [2, 3], [4, 2]];
    let ends = [-9.0, 12.0];
    (0..n).map(|k| {
        let (ends, tags) = (ends[k as usize % 2], s.pick(&grids));
        let (x, z) = if k < 2 { (0.0, ends) } else { (short(s, -3.0, 3.0), ends + 1.0 - 2.0 * (k % 2) as f64) };
        let up = s.pick(&[[0.0, 1.0, 0.0], [0.0, -2.0, 0.5], [1.0, 0.0, 0.0]]);
        let size = if k < 2 { 24.0 } else { 2.0 };
        Face { values: [x, 0.0, z, 0.0, 0.0, s.pick(&[1.0, -1.0, 2.0]), up[0], up[1], up[2], size, short(s, 1.0, size)], tags }
    }).collect()
}

/// Along z, or of whole numbers of thirteenths or so, or any.
fn direction(s: &mut Sm, inside: bool) -> [f64; 3] {
    let way = s.pick(&[1.0, 1.0, -1.0]);
    match s.n(if inside { 3 } else { 5 }) {
        0 => [s.pick(&[0.6, -0.6]), 0.0, 0.8 * way],
        1 => { let d = Vec3::new(s.r(-0.6, 0.6), s.r(-0.6, 0.6), way).normalize(); [d.x, d.y, d.z] }
        2 => [0.0, s.pick(&[0.28, -0.28]), 0.96 * way],
        _ => [0.0, 0.0, way],
    }
}

fn beam(s: &mut Sm, style: usize) -> Beam {
    let inside = style == 3 || style == 7 && s.chance(0.3);
    let d = if style == 7 { [0.0, 0.0, s.pick(&[1.0, -1.0])] } else { direction(s, inside) };
    let z = if inside { 0.0 } else { s.pick(&[-5.0, -3.0, 9.0]) };
    let nm = if style == 6 && s.chance(0.3) { s.pick(&[0.0, -1.0]) } else { s.pick(&[500.0, 640.0, 1024.0]) };
    let power = s.pick(&[1.0, 0.5, 0.75, 2.0, 0.0]);
    let media = if inside { vec![0] } else { Vec::new() };
    Beam { values: [short(s, -0.9, 0.9), short(s, -0.9, 0.9), z, d[0], d[1], d[2], nm, power], bounce: if s.chance(0.1) { s.pick(&[1, 2, 17]) } else { 0 }, media }
}

/// A solid beside the light's way, which some rays meet.
fn beside(s: &mut Sm) -> NonSeqObject {
    let (x, z) = (s.pick(&[2.0, -3.0, 5.0]), short(s, -2.0, 8.0));
    let g = match s.n(3) {
        0 => PrimitiveGeometry::Sphere { radius: 1.5 },
        1 => PrimitiveGeometry::Cylinder { radius: 1.0, half_length: 2.0 },
        _ => PrimitiveGeometry::Plane { half_width: 1.0, half_height: 3.0 },
    };
    let f = match s.n(3) { 0 => SurfaceFinish::Specular, 1 => SurfaceFinish::Absorber, _ => SurfaceFinish::Mirror { reflectance: 0.75 } };
    let mut o = obj(g, at(x, 0.0, z), OpticalMedium::Constant { n: glass(s) }, f);
    o.is_active = s.chance(0.8);
    o
}

/// A closed cylinder in the light's way, upright, turned or scaled.
fn barrel(s: &mut Sm) -> NonSeqObject {
    let mut t = at(s.pick(&[0.0, 0.5, 1.0]), 0.0, short(s, -2.0, 8.0));
    match s.n(3) { 0 => t.rotation_euler_deg.x = s.pick(&[90.0, 30.0, 180.0]), 1 => t.scale = Vec3::new(1.0, s.pick(&[1.0, 2.0]), s.pick(&[0.5, -1.0, 2.0])), _ => () }
    let f = match s.n(3) { 0 => SurfaceFinish::Specular, 1 => SurfaceFinish::Absorber, _ => SurfaceFinish::Mirror { reflectance: 0.5 } };
    obj(PrimitiveGeometry::ClosedCylinder { radius: s.pick(&[0.5, 1.0, 2.0]), half_length: s.pick(&[0.5, 1.0, 3.0]) }, t, OpticalMedium::Constant { n: glass(s) }, f)
}

/// A scene of which cylinders and most boxes are closed cylinders, or that has one more.
pub fn closed_plan(s: &mut Sm, style: usize) -> Plan {
    let mut p = plan(s, style.max(1));
    for o in &mut p.solids {
        if let Some(g) = closed::closed(&o.geometry).filter(|_| s.chance(0.75)) { o.geometry = g; }
    }
    let has = p.solids.iter().any(|o| matches!(o.geometry, PrimitiveGeometry::ClosedCylinder { .. }));
    if !has || s.chance(0.2) { p.solids.push(barrel(s)); }
    p
}

pub fn plan(s: &mut Sm, style: usize) -> Plan {
    let rays = 1 + s.n(8);
    let mut solids = solids(s, style);
    if style > 0 && style < 5 && s.chance(0.4) { solids.push(beside(s)); }
    Plan {
        threshold: s.pick(&[0.0, 0.0625, 1e-3, 0.0078125]),
        bounces: s.pick(&[2, 3, 4, 5, 6, 8]),
        filter: s.pick(&["-", "0", "1", "2", "3", "4"]),
        ambient: if s.chance(0.8) { OpticalMedium::Air } else { OpticalMedium::Constant { n: 1.25 } },
        solids,
        faces: faces(s),
        beams: (0..rays).map(|_| beam(s, style)).collect(),
        wild: style == 7,
    }
}
