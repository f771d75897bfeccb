//! A plain reader of scene texts, written from document 01, with document 02's numbers of shapes: what a text holds, or
//! the number of its first bad or missing line.

/// The numbers of a text's four blocks in their order.
#[derive(Clone, Default)]
pub struct Lists {
    pub run_values: Vec<f64>,
    pub run_tags: Vec<u32>,
    pub solid_values: Vec<f64>,
    pub solid_tags: Vec<u32>,
    pub detector_values: Vec<f64>,
    pub detector_tags: Vec<u32>,
    pub ray_values: Vec<f64>,
    pub ray_tags: Vec<u32>,
}

pub const MOST_TEXT: usize = 65536;
/// Doubles and whole numbers of a line of each block.
pub const STRIDES: [usize; 8] = [7, 3, 42, 4, 11, 2, 8, 10];

const RUN: &str = "threshold bounces filter ambient a b c d e f";
const SOLIDS: &str = "shape p q r active finish rho medium a b c d e f m w";
const DETECTORS: &str = "cx cy cz nx ny nz ux uy uz width height resx resy";
const RAYS: &str = "ox oy oz dx dy dz nm power bounce media";

/// The fields of a line of values: d a double, m a matrix, n any whole number, a digit one at most that, f a filter,
/// s the media.
const RUN_FIELDS: &str = "dnf3dddddd";
const SOLID_FIELDS: &str = "5ddd12d3ddddddmm";
const DETECTOR_FIELDS: &str = "dddddddddddnn";
const RAY_FIELDS: &str = "ddddddddns";

/// What a line or a block holds.
#[derive(Default)]
struct Held {
    values: Vec<f64>,
    tags: Vec<u32>,
}

fn double(t: &[u8]) -> Option<f64> {
    let digits = !t.is_empty() && t.len() <= 16 && t.iter().all(|b| b"0123456789abcdef".contains(b));
    let bits = digits.then(|| u64::from_str_radix(&format!("{:0<16}", String::from_utf8_lossy(t)), 16).unwrap())?;
    let x = f64::from_bits(bits);
    Some(if x.is_nan() { f64::NAN } else { x })
}

fn whole(t: &[u8], most: u64) -> Option<u32> {
    let plain = !t.is_empty() && t.len() <= 10 && t.iter().all(u8::is_ascii_digit) && (t[0] != b'0' || t.len() == 1);
    let n: u64 = plain.then(|| std::str::from_utf8(t).unwrap().parse().unwrap())?;
    (n <= most).then_some(n as u32)
}

/// How many there are (9 for more than 8), and the first eight.
fn media(t: &[u8]) -> Option<Vec<u32>> {
    let all: Vec<u32> = if t == b"-" { Vec::new() } else { t.split(|&b| b == b',').map(|p| whole(p, u32::MAX as u64)).collect::<Option<_>>()? };
    let mut out = vec![all.len().min(9) as u32];
    out.extend(all.iter().chain(&[0; 8]).take(8));
    Some(out)
}

fn matrix(t: &[u8]) -> Option<Vec<f64>> {
    let parts: Vec<f64> = t.split(|&b| b == b',').map(double).collect::<Option<_>>()?;
    (parts.len() == 16).then_some(parts)
}

impl Held {
    fn add(&mut self, kind: u8, t: &[u8]) -> Option<()> {
        match kind {
            b'd' => self.values.push(double(t)?),
            b'm' => self.values.extend(matrix(t)?),
            b'n' => self.tags.push(whole(t, u32::MAX as u64)?),
            b'f' => self.tags.push(if t == b"-" { 5 } else { whole(t, 4)? }),
            b's' => self.tags.extend(media(t)?),
            most => self.tags.push(whole(t, (most - b'0') as u64)?),
        }
        Some(())
    }
    fn add_line(&mut self, fields: &str, line: &[u8]) -> Option<()> {
        let parts: Vec<&[u8]> = line.split(|&b| b == b' ').collect();
        if parts.len() != fields.len() { return None; }
        fields.bytes().zip(parts).try_for_each(|(kind, t)| self.add(kind, t))
    }
}

/// What is left of a text, and the next line's number.
struct Lines<'a> {
    rest: &'a [u8],
    next: usize,
}

impl<'a> Lines<'a> {
    /// The next line, or its number where it is missing or does not end.
    fn line(&mut self) -> Result<&'a [u8], usize> {
        let end = self.rest.iter().position(|&b| b == b'\n').ok_or(self.next)?;
        let line = &self.rest[..end];
        self.rest = &self.rest[end + 1..];
        self.next += 1;
        Ok(line)
    }
    fn names(&mut self, names: &str) -> Result<(), usize> {
        let at = self.next;
        if self.line()? == names.as_bytes() { Ok(()) } else { Err(at) }
    }
    fn one(&mut self, fields: &str, held: &mut Held, line: &[u8], at: usize) -> Result<(), usize> {
        held.add_line(fields, line).ok_or(at)
    }
    /// Lines of values up to the next line of names, or up to the end where there is none.
    fn block(&mut self, fields: &str, names: Option<&str>) -> Result<Held, usize> {
        let mut held = Held::default();
        while names.is_some() || !self.rest.is_empty() {
            let at = self.next;
            let line = self.line()?;
            if Some(line) == names.map(str::as_bytes) { break; }
            self.one(fields, &mut held, line, at)?;
        }
        Ok(held)
    }
}

/// What a text holds, or the place of 17.
pub fn read(text: &[u8]) -> Result<Lists, usize> {
    if text.len() > MOST_TEXT { return Err(0); }
    let mut lines = Lines { rest: text, next: 1 };
    lines.names(RUN)?;
    let mut run = Held::default();
    let line = lines.line()?;
    lines.one(RUN_FIELDS, &mut run, line, 2)?;
    lines.names(SOLIDS)?;
    let solids = lines.block(SOLID_FIELDS, Some(DETECTORS))?;
    let detectors = lines.block(DETECTOR_FIELDS, Some(RAYS))?;
    let rays = lines.block(RAY_FIELDS, None)?;
    Ok(Lists {
        run_values: run.values,
        run_tags: run.tags,
        solid_values: solids.values,
        solid_tags: solids.tags,
        detector_values: detectors.values,
        detector_tags: detectors.tags,
        ray_values: rays.values,
        ray_tags: rays.tags,
    })
}
