//! Scripts of calls with what they are to answer, as crates/test_scripts/data/README.md describes them.
use super::{hx, trimmed};

/// The digest of numbers in their order.
pub struct Digest(u64);

impl Digest {
    pub fn new() -> Digest {
        Digest(0xcbf29ce484222325)
    }
    pub fn whole(&mut self, w: u64) {
        let h = (self.0 ^ w).wrapping_mul(0x9e3779b97f4a7c15);
        self.0 = h ^ (h >> 32);
    }
    pub fn double(&mut self, x: f64) {
        self.whole(if x.is_nan() { 0x7ff8000000000000 } else { x.to_bits() });
    }
    pub fn doubles(&mut self, xs: &[f64]) {
        self.whole(xs.len() as u64);
        xs.iter().for_each(|&x| self.double(x));
    }
    pub fn wholes(&mut self, ns: &[u32]) {
        self.whole(ns.len() as u64);
        ns.iter().for_each(|&n| self.whole(n as u64));
    }
    pub fn bytes(&mut self, bs: &[u8]) {
        self.whole(bs.len() as u64);
        bs.iter().for_each(|&b| self.whole(b as u64));
    }
    pub fn hex(&self) -> String {
        trimmed(self.0)
    }
}

/// A double as it is given, and as it is expected.
pub fn given(x: f64) -> String {
    hx(x)
}

pub fn expected(x: f64) -> String {
    if x.is_nan() { "nan".into() } else { hx(x) }
}

pub fn joined<T: ToString>(words: impl IntoIterator<Item = T>) -> String {
    words.into_iter().map(|w| w.to_string()).collect::<Vec<_>>().join(" ")
}

/// One script: its lines, and how many of them are compared.
pub struct Script {
    text: String,
    pub compared: usize,
}

impl Script {
    pub fn new(name: &str) -> Script {
        Script { text: format!("script {name}\n"), compared: 0 }
    }
    pub fn note(&mut self, words: &str) {
        self.text += &format!("# {words}\n");
    }
    /// A set-up line.
    pub fn set_up(&mut self, line: &str) {
        self.text += &format!("{line}\n");
    }
    /// The scene text.
    pub fn scene_text(&mut self, text: &str) {
        self.text += &format!("text {}\n{text}\n", text.len());
    }
    /// A call with what it is to answer.
    pub fn call(&mut self, call: &str, answer: &str) {
        self.text += &format!("{call} = {answer}\n");
        self.compared += 1;
    }
    pub fn ended(self) -> (String, usize) {
        (self.text + "end\n", self.compared)
    }
}
