//! A scene as the flat lists that the library is lent.
use crate::tracer::Maps;

/// Room for hits.
pub const HITS: usize = 1 << 18;

/// The scene's text as the flat lists that the library is lent.
#[derive(Default)]
pub struct Lists {
    pub threshold: f64,
    pub bounces: u32,
    pub solid_values: Vec<f64>,
    pub solid_tags: Vec<u32>,
    pub detector_values: Vec<f64>,
    pub detector_tags: Vec<u32>,
    pub ray_values: Vec<f64>,
    pub ray_tags: Vec<u32>,
}

fn double(t: &str) -> f64 {
    f64::from_bits(u64::from_str_radix(t, 16).unwrap() << (4 * (16 - t.len())))
}

fn doubles<'a>(t: impl IntoIterator<Item = &'a str>) -> Vec<f64> {
    t.into_iter().map(double).collect()
}

fn whole(t: &str) -> u32 {
    t.parse().unwrap()
}

impl Lists {
    pub fn read(text: &str) -> Lists {
        let mut l = Lists::default();
        let mut block = "";
        for line in text.lines() {
            let f: Vec<&str> = line.split(' ').collect();
            if ["threshold", "shape", "cx", "ox"].contains(&f[0]) {
                block = f[0];
                continue;
            }
            match block {
                "threshold" => {
                    (l.threshold, l.bounces) = (double(f[0]), whole(f[1]));
                    assert_eq!(f[3], "0", "the ambient medium is air");
                }
                "shape" => {
                    l.solid_values.extend(doubles([f[1], f[2], f[3], f[6]]));
                    l.solid_values.extend(doubles(f[8..14].iter().copied()));
                    l.solid_values.extend(doubles(f[14].split(',')));
                    l.solid_values.extend(doubles(f[15].split(',')));
                    l.solid_tags.extend([f[0], f[4], f[5], f[7]].map(whole));
                }
                "cx" => {
                    l.detector_values.extend(doubles(f[..11].iter().copied()));
                    l.detector_tags.extend([f[11], f[12]].map(whole));
                }
                _ => {
                    l.ray_values.extend(doubles(f[..8].iter().copied()));
                    let mut media: Vec<u32> = if f[9] == "-" { vec![] } else { f[9].split(',').map(whole).collect() };
                    l.ray_tags.extend([whole(f[8]), media.len() as u32]);
                    media.resize(8, 0);
                    l.ray_tags.extend(media);
                }
            }
        }
        assert_eq!((l.solid_values.len(), l.detector_values.len(), l.ray_values.len()), (l.solid_tags.len() / 4 * 42, l.detector_tags.len() / 2 * 11, l.ray_tags.len() / 10 * 8));
        l
    }

    pub fn solids(&self) -> impl Iterator<Item = (&[f64], &[u32])> {
        self.solid_values.chunks(42).zip(self.solid_tags.chunks(4))
    }

    pub fn detectors(&self) -> impl Iterator<Item = (&[f64], &[u32])> {
        self.detector_values.chunks(11).zip(self.detector_tags.chunks(2))
    }

    pub fn given(&self) -> impl Iterator<Item = (&[f64], &[u32])> {
        self.ray_values.chunks(8).zip(self.ray_tags.chunks(10))
    }

    pub fn maps(&self) -> Maps {
        let n = self.detector_tags.chunks(2).map(|p| (p[0] * p[1]) as usize).sum();
        Maps { flux: vec![0.0; n], hits: vec![0; n], hit_values: vec![0.0; 4 * HITS], hit_tags: vec![0; 4 * HITS], used: 0 }
    }
}

pub fn six(v: &[f64]) -> [f64; 6] {
    v[..6].try_into().unwrap()
}

