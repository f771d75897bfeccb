//! The worked scenes of `scenes/`: a bench trainee's scenes, built here with the original's own types, and texts
//! that are to be refused. Writes NAME.txt, the scene text, and NAME.answer.txt: the original's answer, or for a
//! text that is refused before the run the number and place that the documents give, since the original has none.
//! The scripts name these files.
use super::script::Script;
use super::scripts::ANSWER_BYTES;
use super::stage::Stage;
use super::*;

struct Worked {
    dir: String,
    scripts: Vec<Script>,
}

impl Worked {
    /// The files and the script of a text with the solids of a scene.
    fn put(&mut self, name: &str, c: &Case, text: String, answer: String) {
        assert!(!answer.contains('?'), "{name}: the original can't tell a tally");
        std::fs::write(format!("{}/{name}.txt", self.dir), &text).unwrap();
        std::fs::write(format!("{}/{name}.answer.txt", self.dir), &answer).unwrap();
        let mut s = Stage::new(name);
        s.place(c);
        s.file(&format!("scenes/{name}.txt"), &text);
        s.read();
        s.map(ANSWER_BYTES);
        s.written(&format!("scenes/{name}.answer.txt"));
        assert_eq!(s.map_text(), Some(answer), "{name}");
        self.scripts.push(s.script());
    }

    fn traced(&mut self, name: &str, c: &Case, filter: &str) {
        let f = filter.parse().unwrap_or(0);
        self.put(name, c, scene_text(c, filter), answer(&solve(c), f));
    }

    fn refused(&mut self, name: &str, text: String, number: u32, place: u32) {
        self.put(name, &block(glass(1.5), 550.0), text, format!("refusal place\n{number} {place}\n"));
    }
}

fn case(bounces: usize, threshold: f64) -> Case {
    Case { scene: NonSeqScene::new(), given: Vec::new(), rays: Vec::new(), bounces, threshold, wild: false }
}

fn at(z: f64) -> Transform3D { tilted(z, 0.0) }

fn tilted(z: f64, degrees: f64) -> Transform3D {
    Transform3D { translation: Vec3::new(0.0, 0.0, z), rotation_euler_deg: Vec3::new(degrees, 0.0, 0.0), scale: Vec3::new(1.0, 1.0, 1.0) }
}

fn flattened(z: f64, k: f64) -> Transform3D { Transform3D { scale: Vec3::new(1.0, 1.0, k), ..at(z) } }

fn glass(n: f64) -> OpticalMedium { OpticalMedium::Constant { n } }

fn bk7() -> OpticalMedium {
    OpticalMedium::Sellmeier1 { b1: 1.03961212, c1: 0.00600069867, b2: 0.231792344, c2: 0.0200179144, b3: 1.01046945, c3: 103.560653 }
}

fn solid(c: &mut Case, g: PrimitiveGeometry, t: Transform3D, m: OpticalMedium) { c.scene.add_object(obj(g, t, m, SurfaceFinish::Specular)); }

fn painted(c: &mut Case, g: PrimitiveGeometry, t: Transform3D, f: SurfaceFinish) { c.scene.add_object(obj(g, t, OpticalMedium::Air, f)); }

/// A square detector across the axis, its face towards the light: `facing` is the z of its normal.
fn screen(c: &mut Case, z: f64, facing: f64, size: f64, pixels: usize) {
    assert!(add_det(c, Vec3::new(0.0, 0.0, z), Vec3::new(0.0, 0.0, facing), Vec3::new(0.0, 1.0, 0.0), size, size, pixels, pixels));
}

/// A ray in the plane of y and z, at an angle to the axis.
fn ray(c: &mut Case, x: f64, y: f64, z: f64, degrees: f64, power: f64) {
    let a = degrees.to_radians();
    let n = c.rays.len();
    push_ray(c, Vec3::new(x, y, z), Vec3::new(0.0, a.sin(), a.cos()), 587.56, power, 0, vec![]);
    assert!(c.rays.len() == n + 1);
}

/// A plate of glass, tilted: the light that goes through, and its ghosts beside it.
fn window() -> Case {
    let mut c = case(6, 1e-4);
    solid(&mut c, PrimitiveGeometry::Box { half_x: 20.0, half_y: 20.0, half_z: 1.5 }, tilted(10.0, 20.0), bk7());
    screen(&mut c, 30.0, -1.0, 20.0, 40);
    for y in [-4.0, 0.0, 4.0] {
        ray(&mut c, 0.0, y, 0.0, 0.0, 1.0);
    }
    c
}

/// A rod of glass that light goes down by total reflection.
fn pipe() -> Case {
    let mut c = case(16, 1e-3);
    solid(&mut c, PrimitiveGeometry::Box { half_x: 2.0, half_y: 2.0, half_z: 20.0 }, at(20.0), glass(1.5));
    screen(&mut c, 45.0, -1.0, 16.0, 16);
    for degrees in [0.0, 10.0, 20.0, 30.0] {
        ray(&mut c, 0.5, 0.25, -1.0, degrees, 1.0);
    }
    c
}

/// A lens in a black barrel with an iris behind it; light from the front, and light from the side.
fn lens() -> Case {
    let mut c = case(8, 1e-3);
    solid(&mut c, PrimitiveGeometry::Sphere { radius: 10.0 }, flattened(20.0, 0.3), bk7());
    painted(&mut c, PrimitiveGeometry::Cylinder { radius: 10.5, half_length: 15.0 }, at(20.0), SurfaceFinish::Absorber);
    painted(&mut c, PrimitiveGeometry::Disk { outer_radius: 10.5, inner_radius: 5.0 }, at(28.0), SurfaceFinish::Absorber);
    screen(&mut c, 40.0, -1.0, 16.0, 32);
    for y in [-8.0, -4.0, -1.0, 0.0, 1.0, 4.0, 8.0] {
        ray(&mut c, 0.0, y, 10.0, 0.0, 1.0);
    }
    for degrees in [15.0, 30.0, 45.0] {
        ray(&mut c, 0.0, -3.0, 10.0, degrees, 1.0);
    }
    c
}

/// Two balls of glass, one reaching into the other: a ray that leaves the first one is then in the second, though
/// it entered that later.
fn nested() -> Case {
    let mut c = case(8, 1e-3);
    solid(&mut c, PrimitiveGeometry::Sphere { radius: 6.0 }, at(10.0), glass(1.5));
    solid(&mut c, PrimitiveGeometry::Sphere { radius: 6.0 }, at(16.0), glass(1.8));
    screen(&mut c, 40.0, -1.0, 32.0, 16);
    ray(&mut c, 0.0, 1.0, 0.0, 0.0, 1.0);
    let inside = Vec3::new(0.0, -1.0, 8.0);
    push_ray(&mut c, inside, Vec3::new(0.0, 0.0, 1.0), 587.56, 1.0, 0, vec![0]);
    c
}

/// A mirror that halves: what is left is at the threshold for the first ray, and above it for the second.
fn mirror() -> Case {
    let mut c = case(4, 0.5);
    painted(&mut c, PrimitiveGeometry::Plane { half_width: 5.0, half_height: 5.0 }, at(10.0), SurfaceFinish::Mirror { reflectance: 0.5 });
    screen(&mut c, -5.0, 1.0, 4.0, 2);
    ray(&mut c, 1.0, 1.0, 0.0, 0.0, 1.0);
    ray(&mut c, -1.0, 1.0, 0.0, 0.0, 1.25);
    c
}

/// A sensor at the end of a bright tube behind a window; a warm body in front of it, and the headlights of a car
/// from the side. The baffle is a black ring in the tube.
fn car(baffle: bool) -> Case {
    let mut c = case(10, 1e-4);
    solid(&mut c, PrimitiveGeometry::Box { half_x: 12.0, half_y: 12.0, half_z: 0.5 }, at(10.0), glass(1.5));
    painted(&mut c, PrimitiveGeometry::Cylinder { radius: 8.0, half_length: 14.0 }, at(25.0), SurfaceFinish::Mirror { reflectance: 0.6 });
    if baffle {
        painted(&mut c, PrimitiveGeometry::Disk { outer_radius: 8.0, inner_radius: 3.0 }, at(31.0), SurfaceFinish::Absorber);
    }
    screen(&mut c, 39.5, -1.0, 6.0, 6);
    for y in [-2.0, -1.0, 0.0, 1.0, 2.0] {
        ray(&mut c, 0.5, y, 0.0, 0.0, 1.0);
    }
    for k in 0..8 {
        ray(&mut c, -0.5, -14.0 + k as f64 * 0.5, 0.0, 40.0, 1.0);
    }
    c
}

/// A black barrel before a screen, open or closed: light down its length, light that goes in at its end obliquely, and
/// light beside it.
fn barrel(closed: bool) -> Case {
    let (radius, half_length) = (5.0, 10.0);
    let open = PrimitiveGeometry::Cylinder { radius, half_length };
    let mut c = case(4, 1e-3);
    painted(&mut c, if closed { PrimitiveGeometry::ClosedCylinder { radius, half_length } } else { open }, at(20.0), SurfaceFinish::Absorber);
    screen(&mut c, 40.0, -1.0, 32.0, 16);
    for y in [-3.0, 0.5, 3.0, -7.0, 7.0] {
        ray(&mut c, 0.5, y, 0.0, 0.0, 1.0);
    }
    for (y, degrees) in [(-4.0, 10.0), (4.0, -10.0), (-6.0, 25.0)] {
        ray(&mut c, 0.5, y, 0.0, degrees, 1.0);
    }
    c
}

/// A round rod of glass: in by its lower end, down it by total reflections of the side, out by its upper end.
fn rod() -> Case {
    let mut c = case(16, 1e-3);
    solid(&mut c, PrimitiveGeometry::ClosedCylinder { radius: 2.0, half_length: 20.0 }, at(20.0), glass(1.5));
    screen(&mut c, 45.0, -1.0, 16.0, 16);
    for degrees in [0.0, 10.0, 20.0, 30.0] {
        ray(&mut c, 0.5, 0.25, -1.0, degrees, 1.0);
    }
    c
}

/// One ray on one pixel of four: document 01's scene.
fn first() -> Case {
    let mut c = case(4, 0.0);
    assert!(add_det(&mut c, Vec3::new(0.0, 0.0, 10.0), Vec3::new(0.0, 0.0, 1.0), Vec3::new(0.0, 1.0, 0.0), 4.0, 4.0, 2, 2));
    push_ray(&mut c, Vec3::new(1.0, 1.0, 0.0), Vec3::new(0.0, 0.0, 1.0), 550.0, 1.0, 0, vec![]);
    c
}

/// A block in front of the first scene's detector.
fn block(m: OpticalMedium, nm: f64) -> Case {
    let mut c = first();
    solid(&mut c, PrimitiveGeometry::Box { half_x: 2.0, half_y: 2.0, half_z: 1.0 }, at(5.0), m);
    c.rays.clear();
    push_ray(&mut c, Vec3::new(1.0, 1.0, 0.0), Vec3::new(0.0, 0.0, 1.0), nm, 1.0, 0, vec![]);
    c
}

/// A text with one line changed; lines count from 1.
fn with_line(text: &str, number: usize, line: &str) -> String {
    text.lines().enumerate().map(|(i, l)| format!("{}\n", if i + 1 == number { line } else { l })).collect()
}

fn field(text: &str, number: usize, place: usize, value: &str) -> String {
    let line = text.lines().nth(number - 1).unwrap();
    let parts: Vec<&str> = line.split(' ').enumerate().map(|(i, p)| if i == place { value } else { p }).collect();
    with_line(text, number, &parts.join(" "))
}

fn refusals(w: &mut Worked) {
    let t = scene_text(&first(), "-");
    let b = scene_text(&block(glass(1.5), 550.0), "-");
    w.refused("refused-01-threshold", field(&t, 2, 0, "bff"), 1, 0);
    w.refused("refused-02-bounces", field(&t, 2, 1, "17"), 2, 0);
    let solid = b.lines().nth(3).unwrap();
    w.refused("refused-03-solids", with_line(&b, 4, &vec![solid; 33].join("\n")), 3, 0);
    w.refused("refused-05-width", field(&t, 5, 9, "0"), 5, 0);
    w.refused("refused-06-resolution", field(&t, 5, 11, "0"), 6, 0);
    w.refused("refused-07-resolution", field(&t, 5, 12, "4097"), 7, 0);
    w.refused("refused-08-up", field(&field(&t, 5, 7, "0"), 5, 8, "3ff"), 8, 0);
    w.refused("refused-09-pixels", field(&field(&t, 5, 11, "64"), 5, 12, "65"), 9, 0);
    w.refused("refused-10-direction", field(&t, 7, 5, "4"), 10, 0);
    w.refused("refused-11-media", field(&t, 7, 9, "0"), 11, 0);
    let mut many = first();
    for _ in 0..1024 {
        push_ray(&mut many, Vec3::new(1.0, 1.0, 0.0), Vec3::new(0.0, 0.0, 1.0), 550.0, 1.0, 0, vec![]);
    }
    w.traced("refused-12-full", &many, "-");
    w.traced("refused-14-wavelength", &block(glass(1.5), 0.0), "-");
    w.traced("refused-15-index", &block(glass(0.5), 550.0), "-");
    let mut out = first();
    solid_around(&mut out);
    w.traced("refused-16-direction", &out, "-");
    w.refused("refused-17-shape", field(&b, 4, 0, "9"), 17, 4);
    w.refused("refused-17-cut", t[..t.len() - 1].into(), 17, 7);
    w.refused("refused-17-missing", t.lines().take(3).map(|l| format!("{l}\n")).collect(), 17, 4);
    w.refused("refused-18-normal", field(&t, 5, 5, "0"), 18, 0);
}

/// Document 01's example of 16: a ray that leaves an index of 1e200 straight into air.
fn solid_around(c: &mut Case) {
    solid(c, PrimitiveGeometry::Box { half_x: 2.0, half_y: 2.0, half_z: 1.0 }, at(0.0), glass(1e200));
    c.rays.clear();
    push_ray(c, Vec3::new(1.0, 1.0, 0.0), Vec3::new(0.0, 0.0, 1.0), 550.0, 1.0, 0, vec![0]);
}

/// Writes the files to a folder; the scripts that go by them.
pub fn scripts(dir: &str) -> Vec<Script> {
    std::fs::create_dir_all(dir).unwrap();
    let mut w = Worked { dir: dir.into(), scripts: Vec::new() };
    w.traced("first", &first(), "-");
    w.traced("window", &window(), "-");
    w.traced("window-ghosts", &window(), "2");
    w.traced("pipe", &pipe(), "-");
    w.traced("pipe-total", &pipe(), "3");
    w.traced("pipe-ghosts", &pipe(), "2");
    w.traced("lens", &lens(), "-");
    w.traced("lens-stray", &lens(), "4");
    w.traced("nested", &nested(), "-");
    w.traced("mirror", &mirror(), "-");
    w.traced("car", &car(false), "4");
    w.traced("car-baffle", &car(true), "4");
    w.traced("barrel-open", &barrel(false), "-");
    w.traced("barrel", &barrel(true), "-");
    w.traced("rod", &rod(), "-");
    refusals(&mut w);
    w.scripts
}
