//! The scenes: oracle/bench/typical.in, and rows of solids along z with a beam of rays and two detectors.
use crate::lists::Lists;
use optics_core::Vec3;
use optics_nonseq::geometry::Transform3D;

/// What the solids of a row do with light.
#[derive(Clone, Copy)]
pub enum Kind {
    Clear,
    Mirrors,
    Black,
}

impl Kind {
    pub fn name(self) -> &'static str {
        match self {
            Kind::Clear => "clear",
            Kind::Mirrors => "mirrors",
            Kind::Black => "black",
        }
    }

    /// Finish, reflectance, medium and its index.
    fn numbers(self) -> (u32, f64, u32, f64) {
        match self {
            Kind::Clear => (0, 0.0, 1, 1.5),
            Kind::Mirrors => (1, 0.9, 0, 0.0),
            Kind::Black => (2, 0.0, 0, 0.0),
        }
    }
}

/// The text gives matrices, the original works them out of these; that they are the same is checked.
pub fn typical() -> (Lists, Vec<Transform3D>) {
    let tr = |x, y, z, rx, ry, sc| Transform3D { translation: Vec3::new(x, y, z), rotation_euler_deg: Vec3::new(rx, ry, 0.0), scale: Vec3::new(1.0, 1.0, sc) };
    let transforms = vec![
        tr(0.0, 0.0, 5.0, 3.0, 0.0, 1.0),
        tr(0.0, 0.0, 15.0, 0.0, 0.0, 0.4),
        tr(1.0, 0.0, 25.0, 10.0, 5.0, 0.3),
        tr(0.0, 0.0, 20.0, 0.0, 0.0, 1.0),
        tr(0.0, 0.0, 31.0, 0.0, 0.0, 1.0),
        tr(-2.0, 1.0, 36.0, 20.0, 30.0, 1.0),
        tr(4.0, 0.0, 42.0, 40.0, 0.0, 1.0),
        tr(0.0, 0.0, 48.0, 0.0, 0.0, 1.0),
    ];
    (Lists::read(include_str!("../../../oracle/bench/typical.in")), transforms)
}

/// The k-th solid of a row, the Rust's five shapes in turn: shape number and sizes.
fn shape(k: usize) -> (u32, [f64; 3]) {
    match k % 5 {
        0 => (4, [6.0, 6.0, 1.0]),
        1 => (2, [6.0, 0.0, 0.0]),
        2 => (3, [7.0, 1.0, 0.0]),
        3 => (1, [7.0, 2.0, 0.0]),
        _ => (0, [5.0, 5.0, 0.0]),
    }
}

/// n solids one behind the other, a little turned and some flattened, a detector behind them and one before.
pub fn row(n: usize, kind: Kind, rays: usize, bounces: u32) -> (Lists, Vec<Transform3D>) {
    let mut l = Lists { threshold: 1e-3, bounces, ..Lists::default() };
    let mut transforms = Vec::new();
    let (finish, rho, medium, index) = kind.numbers();
    for k in 0..n {
        let (number, sizes) = shape(k);
        let flat = if number == 2 { 0.3 } else { 1.0 };
        let t = Transform3D {
            translation: Vec3::new(0.1 * k as f64, 0.0, 5.0 + 5.0 * k as f64),
            rotation_euler_deg: Vec3::new(3.0 * (k % 4) as f64, 2.0 * (k % 3) as f64, 0.0),
            scale: Vec3::new(1.0, 1.0, flat),
        };
        l.solid_values.extend(sizes);
        l.solid_values.extend([rho, index, 0.0, 0.0, 0.0, 0.0, 0.0]);
        l.solid_values.extend(t.to_matrix4().r.iter().flatten());
        l.solid_values.extend(t.inverse_matrix4().unwrap().r.iter().flatten());
        l.solid_tags.extend([number, 1, finish, medium]);
        transforms.push(t);
    }
    for (z, facing) in [(10.0 + 5.0 * n as f64, -1.0), (-6.0, 1.0)] {
        l.detector_values.extend([0.0, 0.0, z, 0.0, 0.0, facing, 0.0, 1.0, 0.0, 28.0, 28.0]);
        l.detector_tags.extend([32, 32]);
    }
    for i in 0..rays {
        let (u, v) = (i as f64 * 0.618_033_988_749_894_9 % 1.0, i as f64 * 0.754_877_666_246_692_8 % 1.0);
        let d = Vec3::new(0.1 * (v - 0.5), 0.1 * (u - 0.5), 1.0).normalize();
        l.ray_values.extend([8.0 * (u - 0.5), 8.0 * (v - 0.5), -2.0, d.x, d.y, d.z, 587.56, 1.0]);
        l.ray_tags.extend([0; 10]);
    }
    (l, transforms)
}
