//! The square root against the hardware's, in one run: ns a root where no root waits for another
//! (throughput) and where each waits for the one before (latency), best and median of many passes.
//! Every root is also compared bit for bit.
use std::hint::black_box;
use std::time::Instant;

extern "C" {
    fn bench_root_sum(xs: *const f64, n: usize) -> f64;
    fn bench_root_chain(xs: *const f64, n: usize) -> f64;
}

fn ours_sum(xs: &[f64]) -> f64 {
    unsafe { bench_root_sum(xs.as_ptr(), xs.len()) }
}

fn ours_chain(xs: &[f64]) -> f64 {
    unsafe { bench_root_chain(xs.as_ptr(), xs.len()) }
}

fn hardware_sum(xs: &[f64]) -> f64 {
    let mut t = 0.0;
    for &x in xs {
        t += x.sqrt();
    }
    t
}

fn hardware_chain(xs: &[f64]) -> f64 {
    let mut t = 0.0;
    for &x in xs {
        t = (x + t).sqrt();
    }
    t
}

/// ns a root of one pass.
fn pass(f: fn(&[f64]) -> f64, xs: &[f64]) -> f64 {
    let t = Instant::now();
    black_box(f(black_box(xs)));
    t.elapsed().as_nanos() as f64 / xs.len() as f64
}

fn report(name: &str, ours: fn(&[f64]) -> f64, hardware: fn(&[f64]) -> f64, xs: &[f64]) {
    let (mut a, mut b) = (Vec::new(), Vec::new());
    for _ in 0..400 {
        a.push(pass(ours, xs));
        b.push(pass(hardware, xs));
    }
    a.sort_by(f64::total_cmp);
    b.sort_by(f64::total_cmp);
    println!("{name}: ours {:.1} best, {:.1} median; hardware {:.1} best, {:.1} median", a[0], a[200], b[0], b[200]);
}

fn main() {
    let mut s = 20261115u64;
    let mut draw = || {
        s = s.wrapping_add(0x9E3779B97F4A7C15);
        let z = (s ^ (s >> 30)).wrapping_mul(0xBF58476D1CE4E5B9);
        let z = (z ^ (z >> 27)).wrapping_mul(0x94D049BB133111EB);
        z ^ (z >> 31)
    };
    // squared lengths as a tracer meets them, then every positive normal double alike
    let near: Vec<f64> = (0..4096).map(|_| (draw() >> 11) as f64 / (1u64 << 53) as f64 * 100.0).collect();
    let wide: Vec<f64> = (0..4096).map(|_| f64::from_bits((1 + draw() % 2045) << 52 | draw() >> 12)).collect();
    let subnormal: Vec<f64> = (0..4096).map(|_| f64::from_bits(draw() >> 12)).collect();
    report("throughput, 0 to 100", ours_sum, hardware_sum, &near);
    report("throughput, any exponent", ours_sum, hardware_sum, &wide);
    report("throughput, subnormal", ours_sum, hardware_sum, &subnormal);
    report("latency, 0 to 100", ours_chain, hardware_chain, &near);

    let mut differ = 0u64;
    let total = 20_000_000u64;
    for _ in 0..total {
        let x = f64::from_bits(draw());
        let (a, b) = (ours_chain(&[x]), (x + 0.0).sqrt());
        differ += (a.to_bits() != b.to_bits() && !(a.is_nan() && b.is_nan())) as u64;
    }
    println!("{total} random bit patterns: {differ} roots differ from the hardware's");
}
