//! Solids and the rules of a tracing, as the numbers that the library takes.
use crate::ffi::HostConfig;
use crate::{MAX_SOLIDS, SOLID_DOUBLES, SOLID_WHOLES};

/// A shape in its own coordinates, sizes in millimetres.
#[derive(Clone, Copy, Debug, PartialEq)]
pub enum Shape {
    /// A rectangle across z.
    Plane {
        /// Along x.
        half_width: f64,
        /// Along y.
        half_height: f64,
    },
    /// A ring across z; an inner radius of 0 leaves no hole.
    Disk {
        /// To its edge.
        outer_radius: f64,
        /// To its hole.
        inner_radius: f64,
    },
    /// About the origin.
    Sphere {
        /// To its surface.
        radius: f64,
    },
    /// Along z, without ends: light along its axis goes through. With them it is [`Shape::ClosedCylinder`].
    Cylinder {
        /// To its side.
        radius: f64,
        /// Along z.
        half_length: f64,
    },
    /// About the origin.
    Box {
        /// Along x.
        half_x: f64,
        /// Along y.
        half_y: f64,
        /// Along z.
        half_z: f64,
    },
    /// Along z, with two flat ends.
    ClosedCylinder {
        /// To its side.
        radius: f64,
        /// To its ends.
        half_length: f64,
    },
}

/// What a surface does with light.
#[derive(Clone, Copy, Debug, PartialEq)]
pub enum Finish {
    /// Clear: it reflects and refracts.
    Specular,
    /// It reflects a share and absorbs the rest.
    Mirror {
        /// The share.
        reflectance: f64,
    },
    /// It takes all.
    Absorber,
}

/// What is inside of a solid, or around all of them.
#[derive(Clone, Copy, Debug, PartialEq)]
pub enum Medium {
    /// Index 1.
    Air,
    /// One index for all wavelengths.
    Constant {
        /// The index.
        n: f64,
    },
    /// Sellmeier's coefficients b1, c1, b2, c2, b3, c3.
    Sellmeier1([f64; 6]),
    /// Schott's coefficients a0 to a5.
    Schott([f64; 6]),
}

impl Shape {
    fn numbers(&self) -> (u32, [f64; 3]) {
        match *self {
            Shape::Plane { half_width, half_height } => (0, [half_width, half_height, 0.0]),
            Shape::Disk { outer_radius, inner_radius } => (1, [outer_radius, inner_radius, 0.0]),
            Shape::Sphere { radius } => (2, [radius, 0.0, 0.0]),
            Shape::Cylinder { radius, half_length } => (3, [radius, half_length, 0.0]),
            Shape::Box { half_x, half_y, half_z } => (4, [half_x, half_y, half_z]),
            Shape::ClosedCylinder { radius, half_length } => (5, [radius, half_length, 0.0]),
        }
    }
}

impl Finish {
    fn numbers(&self) -> (u32, f64) {
        match *self {
            Finish::Specular => (0, 0.0),
            Finish::Mirror { reflectance } => (1, reflectance),
            Finish::Absorber => (2, 0.0),
        }
    }
}

impl Medium {
    fn numbers(&self) -> (u32, [f64; 6]) {
        match *self {
            Medium::Air => (0, [0.0; 6]),
            Medium::Constant { n } => (1, [n, 0.0, 0.0, 0.0, 0.0, 0.0]),
            Medium::Sellmeier1(c) => (2, c),
            Medium::Schott(a) => (3, a),
        }
    }
}

/// A solid: its shape, where it stands, what it does with light.
#[derive(Clone, Copy, Debug, PartialEq)]
pub struct Solid {
    /// In its own coordinates.
    pub shape: Shape,
    /// Whether rays meet it.
    pub active: bool,
    /// Its surface.
    pub finish: Finish,
    /// Inside of it.
    pub medium: Medium,
    /// From its coordinates to the world's, row by row.
    pub matrix: [f64; 16],
    /// From the world's to its own, row by row. Nothing checks that the two are inverse.
    pub inverse: [f64; 16],
}

/// A list of solids; a solid's number is its place.
#[derive(Clone, Debug, Default, PartialEq)]
pub struct Scene {
    pub(crate) solid_values: Vec<f64>,
    pub(crate) solid_tags: Vec<u32>,
    /// Of the lists above, which go to the library.
    pub(crate) count: u32,
    /// Pushed on, and not kept.
    more: usize,
}

impl Scene {
    /// No solids.
    pub fn new() -> Scene {
        Scene::default()
    }

    /// A scene from the library's own numbers, 42 doubles and 4 whole numbers a solid. A wrong length or number is
    /// refused when it is traced (17).
    pub fn from_numbers(solid_values: Vec<f64>, solid_tags: Vec<u32>, count: u32) -> Scene {
        Scene { solid_values, solid_tags, count, more: 0 }
    }

    /// Whether one solid more is kept. Lists past the limit, or that do not fit their number, are refused as they are.
    fn keeps(&self) -> bool {
        let n = self.count as usize;
        n <= MAX_SOLIDS && self.solid_values.len() == SOLID_DOUBLES * n && self.solid_tags.len() == SOLID_WHOLES * n
    }

    /// One solid more, at the end. More than 32 are refused when they are traced (3); from the 34th on, and where the
    /// numbers before it are refused by 17, it is only counted.
    pub fn push(&mut self, solid: &Solid) {
        if !self.keeps() {
            self.more = self.more.saturating_add(1);
            return;
        }
        let (shape, sizes) = solid.shape.numbers();
        let (finish, rho) = solid.finish.numbers();
        let (medium, coefficients) = solid.medium.numbers();
        self.solid_values.extend_from_slice(&sizes);
        self.solid_values.push(rho);
        self.solid_values.extend_from_slice(&coefficients);
        self.solid_values.extend_from_slice(&solid.matrix);
        self.solid_values.extend_from_slice(&solid.inverse);
        self.solid_tags.extend_from_slice(&[shape, solid.active as u32, finish, medium]);
        self.count += 1;
    }

    /// How many solids.
    pub fn len(&self) -> usize {
        (self.count as usize).saturating_add(self.more)
    }

    /// Whether there are none.
    pub fn is_empty(&self) -> bool {
        self.len() == 0
    }
}

/// The rules of a tracing.
#[derive(Clone, Copy, Debug, PartialEq)]
pub struct Config {
    /// Rays at or below this power end.
    pub min_power_threshold: f64,
    /// Rays that have bounced so often end; at most 16.
    pub max_bounces: u32,
    /// Around the solids.
    pub ambient: Medium,
}

impl Config {
    pub(crate) fn numbers(&self) -> HostConfig {
        let (ambient, [a, b, c, d, e, f]) = self.ambient.numbers();
        HostConfig { min_power_threshold: self.min_power_threshold, max_bounces: self.max_bounces, ambient, a, b, c, d, e, f }
    }
}
