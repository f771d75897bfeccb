//! The words of a line, as numbers, and numbers as the words that a script expects.

/// The words of a line that were not read yet.
pub struct Words<'a>(std::slice::Iter<'a, &'a str>);

/// A whole number, decimal, below 2^64, without leading zeros.
pub fn whole(word: &str) -> Result<u64, String> {
    let digits = word.bytes().all(|b| b.is_ascii_digit()) && (word.len() == 1 || !word.starts_with('0'));
    word.parse().ok().filter(|_| digits).ok_or(format!("no whole number: {word}"))
}

/// The hex digits of a double's bits from the left.
fn double(word: &str) -> Result<f64, String> {
    let digits = word.bytes().all(|b| matches!(b, b'0'..=b'9' | b'a'..=b'f')) && (1..=16).contains(&word.len());
    let bits = u64::from_str_radix(&format!("{word:0<16}"), 16).ok().filter(|_| digits);
    bits.map(f64::from_bits).ok_or(format!("no double: {word}"))
}

impl<'a> Words<'a> {
    pub fn new(words: &'a [&'a str]) -> Words<'a> {
        Words(words.iter())
    }
    pub fn word(&mut self) -> Result<&'a str, String> {
        self.0.next().copied().ok_or("a word is missing".into())
    }
    pub fn whole(&mut self) -> Result<u64, String> {
        whole(self.word()?)
    }
    /// A whole number below 2^32.
    pub fn small(&mut self) -> Result<u32, String> {
        let n = self.whole()?;
        u32::try_from(n).map_err(|_| format!("not below 2^32: {n}"))
    }
    /// A whole number of at most so much.
    pub fn at_most(&mut self, most: usize) -> Result<usize, String> {
        let n = self.whole()?;
        usize::try_from(n).ok().filter(|&n| n <= most).ok_or(format!("over {most}: {n}"))
    }
    /// A place of so many.
    pub fn place(&mut self, many: usize) -> Result<usize, String> {
        let n = self.whole()?;
        usize::try_from(n).ok().filter(|&n| n < many).ok_or(format!("not below {many}: {n}"))
    }
    pub fn double(&mut self) -> Result<f64, String> {
        double(self.word()?)
    }
    pub fn doubles<const N: usize>(&mut self) -> Result<[f64; N], String> {
        let mut all = [0.0; N];
        for x in &mut all {
            *x = self.double()?;
        }
        Ok(all)
    }
    pub fn end(&mut self) -> Result<(), String> {
        self.0.next().map_or(Ok(()), |word| Err(format!("a word too many: {word}")))
    }
}

/// 16 hex digits, zeros at the end left out.
fn trimmed(bits: u64) -> String {
    let digits = format!("{bits:016x}");
    let t = digits.trim_end_matches('0');
    if t.is_empty() { "0".into() } else { t.into() }
}

/// What a call answers, word by word.
#[derive(Clone, Default)]
pub struct Answer {
    pub words: Vec<String>,
    /// That a second way of making the call answered otherwise.
    pub otherwise: Option<String>,
}

impl Answer {
    pub fn of(refusal: u32, place: u32) -> Answer {
        Answer::default().whole(refusal).whole(place)
    }
    pub fn whole(mut self, n: impl TryInto<u64>) -> Answer {
        self.words.push(n.try_into().ok().expect("below 2^64").to_string());
        self
    }
    pub fn double(mut self, x: f64) -> Answer {
        self.words.push(if x.is_nan() { "nan".into() } else { trimmed(x.to_bits()) });
        self
    }
    pub fn doubles(self, all: &[f64]) -> Answer {
        all.iter().fold(self, |answer, &x| answer.double(x))
    }
    pub fn wholes(self, all: &[u32]) -> Answer {
        all.iter().fold(self, |answer, &n| answer.whole(n))
    }
    pub fn digest(mut self, digest: Digest) -> Answer {
        self.words.push(trimmed(digest.0));
        self
    }
    /// The words of two answers in their order.
    pub fn then(mut self, more: Answer) -> Answer {
        self.words.extend(more.words);
        self
    }
    /// The same, beside what a second way of making the call says.
    pub fn beside(mut self, second: Result<(), String>) -> Answer {
        self.otherwise = second.err();
        self
    }
    pub fn line(&self) -> String {
        self.words.join(" ")
    }
    /// Whether it is what a script expects, word by word; `?` is anything.
    pub fn is(&self, expected: &[&str]) -> bool {
        self.words.len() == expected.len() && self.words.iter().zip(expected).all(|(found, &word)| word == "?" || word == found)
    }
}

/// The digest of numbers in their order.
pub struct Digest(u64);

impl Digest {
    pub fn new() -> Digest {
        Digest(0xcbf2_9ce4_8422_2325)
    }
    pub fn whole(&mut self, w: u64) {
        let h = (self.0 ^ w).wrapping_mul(0x9e37_79b9_7f4a_7c15);
        self.0 = h ^ (h >> 32);
    }
    /// A list: its length, then its places.
    pub fn list<T: Number>(mut self, list: &[T]) -> Digest {
        self.whole(list.len() as u64);
        list.iter().for_each(|n| self.whole(n.counted()));
        self
    }
}

/// What lists hold.
pub trait Number: Copy + PartialEq {
    /// Stands beside what is lent; no script has it.
    const GUARD: Self;
    /// As a digest counts it, any NaN the same.
    fn counted(self) -> u64;
    fn bits(self) -> u64;
}

impl Number for f64 {
    const GUARD: f64 = -1.2345678912345e-301;
    fn counted(self) -> u64 {
        if self.is_nan() { 0x7ff8_0000_0000_0000 } else { self.to_bits() }
    }
    fn bits(self) -> u64 {
        self.to_bits()
    }
}

impl Number for u32 {
    const GUARD: u32 = 0x9d3e_517b;
    fn counted(self) -> u64 {
        self.into()
    }
    fn bits(self) -> u64 {
        self.into()
    }
}

impl Number for u8 {
    const GUARD: u8 = 0xa5;
    fn counted(self) -> u64 {
        self.into()
    }
    fn bits(self) -> u64 {
        self.into()
    }
}
