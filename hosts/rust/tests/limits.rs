//! What a call is given makes it neither panic nor abort, however large. A call that can't have its memory says so.
use nonseq::*;
use std::alloc::{GlobalAlloc, Layout, System};
use std::cell::Cell;

/// The system's allocator; it counts the bytes that a thread asks for, and has no block above a thread's limit.
struct Counting;

thread_local! {
    static ASKED: Cell<usize> = const { Cell::new(0) };
    static LARGEST: Cell<usize> = const { Cell::new(usize::MAX) };
}

fn allowed(size: usize) -> bool {
    ASKED.set(ASKED.get().saturating_add(size));
    size <= LARGEST.get()
}

unsafe impl GlobalAlloc for Counting {
    unsafe fn alloc(&self, layout: Layout) -> *mut u8 {
        if allowed(layout.size()) { System.alloc(layout) } else { std::ptr::null_mut() }
    }
    unsafe fn alloc_zeroed(&self, layout: Layout) -> *mut u8 {
        if allowed(layout.size()) { System.alloc_zeroed(layout) } else { std::ptr::null_mut() }
    }
    unsafe fn realloc(&self, at: *mut u8, layout: Layout, size: usize) -> *mut u8 {
        if allowed(size) { System.realloc(at, layout, size) } else { std::ptr::null_mut() }
    }
    unsafe fn dealloc(&self, at: *mut u8, layout: Layout) {
        System.dealloc(at, layout)
    }
}

#[global_allocator]
static COUNTING: Counting = Counting;

/// What a call answers, and how many bytes it asked for.
fn asked<T>(call: impl FnOnce() -> T) -> (T, usize) {
    let before = ASKED.get();
    let answer = call();
    (answer, ASKED.get() - before)
}

/// What a call answers where no block may have more bytes than that.
fn short_of_memory<T>(largest: usize, call: impl FnOnce() -> T) -> T {
    LARGEST.set(largest);
    let answer = call();
    LARGEST.set(usize::MAX);
    answer
}

fn screen(pixels: u32) -> Detector {
    let (z, y) = (Vec3::new(0.0, 0.0, 1.0), Vec3::new(0.0, 1.0, 0.0));
    Detector::new(z, z, y, (4.0, 4.0), (pixels, pixels)).unwrap()
}

fn config() -> Config {
    Config { min_power_threshold: 0.0, max_bounces: 4, ambient: Medium::Air }
}

fn ball() -> Solid {
    let mut matrix = [0.0; 16];
    (0..4).for_each(|i| matrix[5 * i] = 1.0);
    Solid { shape: Shape::Sphere { radius: 1.0 }, active: true, finish: Finish::Absorber, medium: Medium::Air, matrix, inverse: matrix }
}

/// The refusal of tracing no ray through a scene.
fn traced(scene: &Scene) -> Option<(u32, u32)> {
    let refused = Memory::new(&[], 0).unwrap().trace(&config(), scene, &[]).err()?;
    Some((refused.error.number, refused.error.place))
}

const REFUSED_BY_3: MemoryError = MemoryError::Refused(Error { number: 3, place: 0 });

#[test]
fn memories_of_any_capacity() {
    let most = usize::MAX;
    for capacity in [most, most - 1, most / 4 + 2, most / 4, most / 8, most / 32 + 1, most / 64, 1 << 50] {
        assert_eq!(Memory::new(&[screen(2)], capacity), Err(MemoryError::NoMemory), "{capacity}");
    }
    assert_eq!(Memory::new(&[screen(1); 9], most), Err(REFUSED_BY_3));
    assert!(MemoryError::NoMemory.to_string().starts_with("no memory"));
    assert!(REFUSED_BY_3.to_string().starts_with("refused by 3 at place 0"));
    let mut none = Memory::new(&[screen(2)], 0).unwrap();
    let hit = Hit { local_x: 0.0, local_y: 0.0, flux_watts: 1.0, wavelength_nm: 500.0, detector: 0, bounce_count: 0, reflection_count: 0, tir_count: 0 };
    assert_eq!((none.record(hit), none.hits().count()), (Err(Error { number: 12, place: 0 }), 0));
}

/// 12 bytes a pixel and 48 a hit are asked for, and where one block of them is not to be had, nothing is made.
#[test]
fn memories_the_machine_can_not_hold() {
    let (memory, bytes) = asked(|| Memory::new(&[screen(100), screen(10)], 700).unwrap());
    assert_eq!(bytes, 12 * 10_100 + 48 * 700);
    for largest in [0, 8 * 10_100 - 1] {
        assert_eq!(short_of_memory(largest, || Memory::new(&[screen(100), screen(10)], 1)), Err(MemoryError::NoMemory));
    }
    for filter in Filter::ALL {
        assert_eq!(short_of_memory(79_999, || memory.filtered(0, filter)), Err(MemoryError::NoMemory));
        assert_eq!(short_of_memory(80_000, || memory.filtered(0, filter)).unwrap().map, vec![0.0; 10_000]);
    }
    assert_eq!(memory.filtered(2, Filter::All), Err(MemoryError::Refused(Error { number: 4, place: 0 })));
}

#[test]
fn texts_of_any_length() {
    let mut text = vec![b'\n'; 100_000_000];
    assert_eq!(asked(|| read_scene(&text)), (Err(Error { number: 17, place: 0 }), 0));
    assert_eq!(stray_map(&text), b"refusal place\n17 0\n");
    text.truncate(65_537);
    assert_eq!(asked(|| read_scene(&text)), (Err(Error { number: 17, place: 0 }), 0));
    text.truncate(65_536);
    assert_eq!(asked(|| read_scene(&text)), (Err(Error { number: 17, place: 1 }), 0));
    assert_eq!(asked(|| read_scene(b"")), (Err(Error { number: 17, place: 1 }), 0));
}

/// As many lines as a text has room for, the shortest ones: what is asked for is what their numbers take.
#[test]
fn texts_of_the_most_lines() {
    let names = include_str!("../../../crates/straymap/stdin").lines().collect::<Vec<_>>();
    let blocks = [names[2], names[3], names[5]];
    let sixteen = ["0"; 16].join(",");
    let lines = [format!("{} {sixteen} {sixteen}\n", ["0"; 14].join(" ")), format!("{}\n", ["0"; 13].join(" ")), format!("{} -\n", ["0"; 9].join(" "))];
    let bytes = [42 * 8 + 4 * 4, 11 * 8 + 2 * 4, 8 * 8 + 10 * 4];
    let frame = names[..2].iter().chain(&blocks).map(|l| l.len() + 1).sum::<usize>();
    for long in 0..3 {
        let many = (65_536 - frame) / lines[long].len();
        let mut text = format!("{}\n{}\n", names[0], names[1]);
        for (i, block) in blocks.iter().enumerate() {
            text += &format!("{block}\n{}", lines[i].repeat(if i == long { many } else { 0 }));
        }
        let (read, asked) = asked(|| read_scene(text.as_bytes()).unwrap());
        let counts = [read.solids, read.detectors, read.rays];
        assert_eq!((counts[long], counts.iter().sum::<u32>()), (many as u32, many as u32));
        assert_eq!(asked, 7 * 8 + 3 * 4 + many * bytes[long]);
        assert_eq!((read.solid_values.len(), read.detector_values.len(), read.ray_values.len()), (42 * counts[0] as usize, 11 * counts[1] as usize, 8 * counts[2] as usize));
        let scene = Scene::from_numbers(read.solid_values, read.solid_tags, read.solids);
        assert_eq!(traced(&scene), (long == 0).then_some((3, 0)));
    }
}

#[test]
fn scenes_of_any_number_of_solids() {
    let mut scene = Scene::new();
    (0..32).for_each(|_| scene.push(&ball()));
    assert_eq!((scene.len(), traced(&scene)), (32, None));
    scene.push(&ball());
    assert_eq!((scene.len(), traced(&scene)), (33, Some((3, 0))));
    let ((), bytes) = asked(|| (0..100_000).for_each(|_| scene.push(&ball())));
    assert_eq!((bytes, scene.len(), traced(&scene)), (0, 100_033, Some((3, 0))));
    let mut scene = Scene::from_numbers(Vec::new(), Vec::new(), u32::MAX);
    scene.push(&ball());
    assert_eq!((scene.len(), scene.is_empty(), traced(&scene)), (4_294_967_296, false, Some((17, 0))));
    let mut scene = Scene::from_numbers(vec![0.0; 1_000_000], Vec::new(), 0);
    let ((), bytes) = asked(|| scene.push(&ball()));
    assert_eq!((bytes, scene.len(), traced(&scene)), (0, 1, Some((17, 0))));
    let mut scene = Scene::from_numbers(vec![0.0; SOLID_DOUBLES], vec![0; SOLID_WHOLES], 1);
    scene.push(&ball());
    assert_eq!((scene.len(), traced(&scene)), (2, None));
    let mut scene = Scene::from_numbers(vec![0.0; 33 * SOLID_DOUBLES], vec![0; 33 * SOLID_WHOLES], 33);
    scene.push(&ball());
    assert_eq!((scene.len(), traced(&scene)), (34, Some((3, 0))));
}

/// Lists one longer than 2^32, which would be one long if their number were cut: pages of zeros that no memory stands
/// behind. A system that maps no such pages is told of, and nothing is tried.
#[cfg(target_os = "linux")]
#[test]
fn lists_past_the_largest_number() {
    use std::ffi::{c_int, c_void};
    extern "C" {
        fn mmap(at: *mut c_void, len: usize, prot: c_int, flags: c_int, fd: c_int, offset: i64) -> *mut c_void;
    }
    const READ: c_int = 1;
    const PRIVATE_ANONYMOUS_NO_RESERVE: c_int = 0x2 | 0x20 | 0x4000;
    fn zeros<T>() -> Option<&'static [T]> {
        let many = (1 << 32) + 1;
        // SAFETY: fresh pages, never unmapped, whose zeros are a T for the plain structs below.
        unsafe {
            let at = mmap(std::ptr::null_mut(), many * size_of::<T>(), READ, PRIVATE_ANONYMOUS_NO_RESERVE, -1, 0);
            (at as isize != -1).then(|| std::slice::from_raw_parts(at.cast::<T>(), many))
        }
    }
    let (Some(detectors), Some(rays), Some(solids)) = (zeros::<Detector>(), zeros::<GivenRay>(), zeros::<u32>()) else {
        return eprintln!("not tried: this system maps no list of 2^32 + 1");
    };
    assert_eq!(Memory::new(detectors, 1), Err(REFUSED_BY_3));
    let refused = Memory::new(&[], 1).unwrap().trace(&config(), &Scene::new(), rays).unwrap_err();
    assert_eq!(refused.error, Error { number: 3, place: 0 });
    assert_eq!(rays[0].inside(solids).media_count, u32::MAX);
}
