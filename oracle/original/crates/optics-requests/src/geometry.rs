//! The Rust's shapes, which its own text intersects, and the closed cylinder.
use crate::closed_cylinder;
use optics_core::{Ray, Triangle, Vec3};
pub use original::{NonSeqHit, Transform3D};

#[allow(dead_code)]
#[path = "../../optics-nonseq/src/geometry.rs"]
mod original;

#[derive(Debug, Clone, PartialEq)]
pub enum PrimitiveGeometry {
    Plane { half_width: f64, half_height: f64 },
    Disk { outer_radius: f64, inner_radius: f64 },
    Sphere { radius: f64 },
    Cylinder { radius: f64, half_length: f64 },
    Box { half_x: f64, half_y: f64, half_z: f64 },
    Mesh { triangles: Vec<Triangle> },
    /// Document 02's.
    ClosedCylinder { radius: f64, half_length: f64 },
}

impl PrimitiveGeometry {
    pub fn intersect_local(&self, local_ray: &Ray) -> Option<(f64, Vec3, (f64, f64))> {
        use original::PrimitiveGeometry as Original;
        match *self {
            Self::Plane { half_width, half_height } => Original::Plane { half_width, half_height }.intersect_local(local_ray),
            Self::Disk { outer_radius, inner_radius } => Original::Disk { outer_radius, inner_radius }.intersect_local(local_ray),
            Self::Sphere { radius } => Original::Sphere { radius }.intersect_local(local_ray),
            Self::Cylinder { radius, half_length } => Original::Cylinder { radius, half_length }.intersect_local(local_ray),
            Self::Box { half_x, half_y, half_z } => Original::Box { half_x, half_y, half_z }.intersect_local(local_ray),
            Self::Mesh { ref triangles } => Original::Mesh { triangles: triangles.clone() }.intersect_local(local_ray),
            Self::ClosedCylinder { radius, half_length } => {
                closed_cylinder::nearest(radius, half_length, local_ray).map(|c| (c.t, c.normal, (0.0, 0.0)))
            }
        }
    }
}
