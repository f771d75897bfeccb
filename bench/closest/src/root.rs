//! The proved library's square root (crates/doubles/src/root.rt) again in Rust, so that the Rust side
//! of the comparison can be compiled with the same software root.

fn is_nearest_root(m: u64, q: u64) -> bool {
    let (h, l) = (q / 0x800_0000, q % 0x800_0000);
    let a = h * h * 4;
    let n = m + 4;
    if n < a {
        return false;
    }
    let d = n - a;
    if 0x4000_0000 <= d {
        return false;
    }
    let e = d * 0x100_0000;
    let b = h * l;
    if e < b {
        return false;
    }
    let f = e - b;
    if 0x1_0000_0000 <= f {
        return false;
    }
    let g = f * 0x1000_0000 + q;
    let c = l * l + 0x40_0000_0000_0000;
    if g <= c {
        return false;
    }
    q + q >= g - c
}

fn guess(b: u64) -> f64 {
    let n = b % 0x20_0000_0000_0000 + 0x3fe0_0000_0000_0000;
    let x = f64::from_bits(n);
    let y = f64::from_bits(0x5fe6_ed21_0000_0000 - n / 2);
    let g0 = x * y;
    let h0 = y * 0.5;
    let r0 = g0 * h0 - 1.50087894;
    let g1 = g0 * r0;
    let h1 = h0 * r0;
    let t = (g1 + 201326592.0) - 201326592.0;
    let r1 = g1 * h1 - 1.50000058;
    let g = g1 * r1;
    let h = h1 * r1;
    let d = (x - t * t) - (g - t) * (g + t);
    g + d * (h * (1.75 - g * (h * 1.5)))
}

fn nearest_root(m: u64) -> u64 {
    let (mut n, mut q, mut r) = (m, 0u64, 0u64);
    for _ in 0..53 {
        r = r * 4 + n / 0x10_0000_0000_0000;
        n = n % 0x10_0000_0000_0000 * 4;
        let t = q * 4 + 1;
        q *= 2;
        if t <= r {
            r -= t;
            q += 1;
        }
    }
    if q < r { q + 1 } else { q }
}

#[inline(never)]
fn root_slowly(b: u64) -> f64 {
    if b < 0x10_0000_0000_0000 {
        let s = b.leading_zeros() as u64 - 11;
        let d = b << s;
        return f64::from_bits((1022 - s) / 2 * 0x10_0000_0000_0000 + nearest_root(d << (s % 2)));
    }
    let e = b / 0x10_0000_0000_0000;
    let d = b % 0x10_0000_0000_0000 + 0x10_0000_0000_0000;
    f64::from_bits((e + 1021) / 2 * 0x10_0000_0000_0000 + nearest_root(d << ((e + 1) % 2)))
}

pub fn sqrt(x: f64) -> f64 {
    if x.is_nan() {
        return x;
    }
    let b = x.to_bits();
    if 0x10_0000_0000_0000 <= b {
        if b < 0x7ff0_0000_0000_0000 {
            let g = guess(b);
            if g.is_nan() {
                return root_slowly(b);
            }
            let q = g.to_bits() % 0x10_0000_0000_0000 + 0x10_0000_0000_0000;
            let e = b / 0x10_0000_0000_0000;
            let d = b % 0x10_0000_0000_0000 + 0x10_0000_0000_0000;
            if is_nearest_root(d << ((e + 1) % 2), q) {
                return f64::from_bits((e + 1021) / 2 * 0x10_0000_0000_0000 + q);
            }
            return root_slowly(b);
        }
        if b == 0x7ff0_0000_0000_0000 || b == 0x8000_0000_0000_0000 {
            return x;
        }
        return f64::NAN;
    }
    if b == 0 {
        return x;
    }
    root_slowly(b)
}
