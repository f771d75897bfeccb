//! A script as it is written: what it works on stands beside it as the plain book has it, so that every call's line
//! carries what the call is to answer.
use super::book::*;
use super::reader::{self, Lists, STRIDES};
use super::runs::Batch;
use super::script::{expected, given, joined, Digest, Script};
use super::*;

const ROOMS: [usize; 4] = [1, 33, 8, 4097];

/// A given ray: origin, direction, wavelength, power; bounces and media.
#[derive(Clone)]
pub struct Beam {
    pub values: [f64; 8],
    pub bounce: u32,
    pub media: Vec<u32>,
}

/// A scene before it is a text.
#[derive(Clone)]
pub struct Plan {
    pub threshold: f64,
    pub bounces: u32,
    pub filter: &'static str,
    pub ambient: OpticalMedium,
    pub solids: Vec<NonSeqObject>,
    pub faces: Vec<Face>,
    pub beams: Vec<Beam>,
    pub wild: bool,
}

fn comma<T: ToString>(xs: &[T]) -> String {
    if xs.is_empty() { return "-".into(); }
    xs.iter().map(|x| x.to_string()).collect::<Vec<_>>().join(",")
}

impl Plan {
    pub fn new(faces: Vec<Face>) -> Plan {
        Plan { threshold: 0.0, bounces: 4, filter: "-", ambient: OpticalMedium::Air, solids: Vec::new(), faces, beams: Vec::new(), wild: false }
    }
    pub fn text(&self) -> String {
        let mut c = Case { scene: NonSeqScene::new(), given: Vec::new(), rays: Vec::new(), bounces: self.bounces as usize, threshold: self.threshold, wild: false };
        c.scene.ambient_medium = self.ambient.clone();
        c.scene.objects = self.solids.clone();
        let text = scene_text(&c, self.filter);
        let (front, names) = text.split_at(text.rfind("ox oy").unwrap());
        let mut o = front.to_string();
        for f in &self.faces {
            let _ = writeln!(o, "{} {} {}", joined(f.values.map(given)), f.tags[0], f.tags[1]);
        }
        o += names;
        for b in &self.beams {
            let _ = writeln!(o, "{} {} {}", joined(b.values.map(given)), b.bounce, comma(&b.media));
        }
        o
    }
}

#[derive(Clone)]
enum Line {
    Note(String),
    SetUp(String),
    Text(String),
    Call(String, String),
}

/// How often calls were made and refused.
#[derive(Clone, Default)]
pub struct Tally {
    pub refused: [usize; REFUSALS + 1],
    /// tracings refused in the run whose hits before it stay
    pub kept: usize,
    /// tracings whose lost is not 0, is NaN, is not known
    pub lost: [usize; 3],
    pub calls: std::collections::BTreeMap<String, usize>,
}

impl Tally {
    /// That of all of these.
    pub fn of(all: &[Stage]) -> Tally {
        let mut sum = Tally::default();
        for t in all.iter().map(|st| &st.tally) {
            (0..=REFUSALS).for_each(|n| sum.refused[n] += t.refused[n]);
            sum.kept += t.kept;
            (0..3).for_each(|k| sum.lost[k] += t.lost[k]);
            for (verb, n) in &t.calls { *sum.calls.entry(verb.clone()).or_default() += n; }
        }
        sum
    }
    /// The same as a table for a reader.
    pub fn table(&self, what: &str, all: &[Stage]) -> String {
        let refused = (1..=REFUSALS).filter(|&n| self.refused[n] > 0).map(|n| format!("{n}: {}", self.refused[n])).collect::<Vec<_>>().join(", ");
        let calls = self.calls.iter().map(|(verb, n)| format!("`{verb}` {n}")).collect::<Vec<_>>().join(", ");
        let sum: usize = self.calls.values().sum();
        let kept = format!("| refused in the run, with hits before it that stay | {} |\n", self.kept);
        let lost = format!("| lost not 0, NaN, not known | {} |\n", self.lost.map(|n| n.to_string()).join(", "));
        format!("| of {} {what} | {sum} calls |\n|---|---|\n| refused | {refused} |\n{kept}{lost}| calls | {calls} |\n", all.len())
    }
}

#[derive(Clone)]
pub struct Stage {
    name: String,
    lines: Vec<Line>,
    text: Vec<u8>,
    pub lists: Lists,
    pub solids: u32,
    pub said: u32,
    pub rays: u32,
    pub memory: Memory,
    pub report: Report,
    placed: Vec<Transform3D>,
    wild: bool,
    /// whether the last call that can be refused was
    pub last: Checked,
    pub tally: Tally,
}

fn place(r: &Checked) -> String {
    let (n, p) = r.err().unwrap_or((0, 0));
    format!("{n} {p}")
}

fn known<T>(x: Option<T>, f: impl Fn(T) -> String) -> String {
    x.map_or("?".into(), f)
}

/// Length and digest of a text that is written into so many bytes, all 46 before.
fn written(text: &str, room: usize) -> String {
    let mut b = vec![46u8; room];
    if text.len() <= room { b[..text.len()].copy_from_slice(text.as_bytes()); }
    let mut d = Digest::new();
    d.bytes(&b);
    format!("{} {}", text.len(), d.hex())
}

fn written_if(text: Option<&str>, room: usize) -> String {
    text.map_or("? ?".into(), |t| written(t, room))
}

impl Stage {
    pub fn new(name: &str) -> Stage {
        let room = |k: usize| ROOMS[k / 2] * STRIDES[k];
        let (doubles, wholes) = (|k: usize| vec![0.0; room(k)], |k: usize| vec![0; room(k)]);
        Stage {
            name: name.into(),
            lines: Vec::new(),
            text: Vec::new(),
            lists: Lists {
                run_values: doubles(0), run_tags: wholes(1), solid_values: doubles(2), solid_tags: wholes(3),
                detector_values: doubles(4), detector_tags: wholes(5), ray_values: doubles(6), ray_tags: wholes(7),
            },
            solids: 0,
            said: 0,
            rays: 0,
            memory: Memory::lent(0, 0, 0, 0),
            report: Report::zeros(),
            placed: Vec::new(),
            wild: false,
            last: Ok(()),
            tally: Tally::default(),
        }
    }
    pub fn script(&self) -> Script {
        let mut s = Script::new(&self.name);
        for l in &self.lines {
            match l {
                Line::Note(t) => s.note(t),
                Line::SetUp(t) => s.set_up(t),
                Line::Text(t) => s.scene_text(t),
                Line::Call(c, a) => s.call(c, a),
            }
        }
        s
    }
    pub fn calls(&self) -> usize {
        self.lines.iter().filter(|l| matches!(l, Line::Call(..))).count()
    }

    // ---- set-up

    pub fn note(&mut self, words: &str) {
        self.lines.push(Line::Note(words.into()));
    }
    fn set_up(&mut self, line: String) {
        self.lines.push(Line::SetUp(line));
    }
    pub fn text(&mut self, text: &str) {
        self.text = text.as_bytes().to_vec();
        self.lines.push(Line::Text(text.into()));
    }
    /// A scene's text; its solids stay placed where the plan has them.
    pub fn scene(&mut self, plan: &Plan) {
        self.placed = plan.solids.iter().map(|o| o.transform.clone()).collect();
        self.wild = plan.wild;
        self.text(&plan.text());
    }
    /// The same of a scene in the original's types.
    pub fn case(&mut self, c: &Case, filter: &str) {
        self.place(c);
        self.text(&scene_text(c, filter));
    }
    /// Whose solids the text has.
    pub fn place(&mut self, c: &Case) {
        self.placed = c.scene.objects.iter().map(|o| o.transform.clone()).collect();
        self.wild = c.wild;
    }
    /// The scene text is that file, which holds this.
    pub fn file(&mut self, name: &str, text: &str) {
        self.text = text.as_bytes().to_vec();
        self.set_up(format!("file {name}"));
    }
    /// Where a text that has no filter has its `-`.
    pub fn filter_place(&self) -> usize {
        1 + self.text.windows(3).position(|w| w == b" - ").unwrap()
    }
    pub fn text_length(&self) -> usize {
        self.text.len()
    }
    /// A byte of the text becomes another; answers what it was.
    pub fn byte(&mut self, i: usize, b: u8) -> u8 {
        self.set_up(format!("byte {i} {b}"));
        std::mem::replace(&mut self.text[i], b)
    }
    pub fn cut(&mut self, n: usize) {
        self.text.truncate(n);
        self.set_up(format!("cut {n}"));
    }
    pub fn lend(&mut self, flux: usize, hits: usize, values: usize, tags: usize) {
        let old = &self.memory;
        self.memory = Memory { totals: old.totals, counts: old.counts, used: old.used, ..Memory::lent(flux, hits, values, tags) };
        self.set_up(format!("lend {flux} {hits} {values} {tags}"));
    }
    pub fn empty(&mut self) {
        self.memory.empty();
        self.set_up("empty".into());
    }
    pub fn used(&mut self, n: u64) {
        self.memory.used = n;
        self.set_up(format!("used {n}"));
    }
    pub fn say_solids(&mut self, n: u32) {
        self.solids = n;
        self.set_up(format!("solids {n}"));
    }
    pub fn say_detectors(&mut self, n: u32) {
        self.said = n;
        self.set_up(format!("detectors {n}"));
    }
    fn doubles(&mut self, slice: &str) -> &mut [f64] {
        match slice {
            "run_values" => &mut self.lists.run_values,
            "solid_values" => &mut self.lists.solid_values,
            "detector_values" => &mut self.lists.detector_values,
            "ray_values" => &mut self.lists.ray_values,
            "totals" => &mut self.memory.totals,
            "flux" => &mut self.memory.flux,
            _ => &mut self.memory.hit_values,
        }
    }
    fn wholes(&mut self, slice: &str) -> &mut [u32] {
        match slice {
            "run_tags" => &mut self.lists.run_tags,
            "solid_tags" => &mut self.lists.solid_tags,
            "detector_tags" => &mut self.lists.detector_tags,
            "ray_tags" => &mut self.lists.ray_tags,
            "counts" => &mut self.memory.counts,
            "hits" => &mut self.memory.hits,
            _ => &mut self.memory.hit_tags,
        }
    }
    /// A place of a slice of doubles becomes another; answers what it was.
    pub fn set(&mut self, slice: &str, i: usize, x: f64) -> f64 {
        self.set_up(format!("set {slice} {i} {}", given(x)));
        std::mem::replace(&mut self.doubles(slice)[i], x)
    }
    /// The same of whole numbers.
    pub fn set_whole(&mut self, slice: &str, i: usize, n: u32) -> u32 {
        self.set_up(format!("set {slice} {i} {n}"));
        std::mem::replace(&mut self.wholes(slice)[i], n)
    }
    /// Makes a slice of doubles another one, by the places that differ.
    pub fn change(&mut self, slice: &str, to: &[f64]) {
        for (i, &x) in to.iter().enumerate() {
            if given(self.doubles(slice)[i]) != given(x) { self.set(slice, i, x); }
        }
    }
    pub fn change_wholes(&mut self, slice: &str, to: &[u32]) {
        for (i, &n) in to.iter().enumerate() {
            if self.wholes(slice)[i] != n { self.set_whole(slice, i, n); }
        }
    }

    // ---- calls

    fn call(&mut self, call: String, answer: String) {
        let verb = call.split(' ').next().unwrap().to_string();
        *self.tally.calls.entry(verb).or_default() += 1;
        self.lines.push(Line::Call(call, answer));
    }
    /// A call that can be refused, with what is behind the refusal's number and place.
    fn judged(&mut self, call: String, r: Checked, rest: String) {
        self.last = r;
        self.tally.refused[r.err().map_or(0, |e| e.0 as usize)] += 1;
        self.call(call, format!("{} {rest}", place(&r)).trim_end().into());
    }
    pub fn face(&self, d: usize) -> Face {
        let values = self.lists.detector_values[11 * d..11 * d + 11].try_into().unwrap();
        Face { values, tags: self.lists.detector_tags[2 * d..2 * d + 2].try_into().unwrap() }
    }
    pub fn dets(&self) -> Detectors {
        Detectors { faces: (0..8).map(|d| self.face(d)).collect(), said: self.said }
    }
    pub fn read(&mut self) {
        match reader::read(&self.text) {
            Err(line) => self.judged("read".into(), Err((17, line)), format!("0 0 0 {}", Digest::new().hex())),
            Ok(lists) => {
                let n = [lists.solid_tags.len() / 4, lists.detector_tags.len() / 2, lists.ray_tags.len() / 10];
                [self.solids, self.said, self.rays] = n.map(|n| n as u32);
                self.take(&lists);
                self.memory.totals = [0.0; 8];
                self.memory.counts = [0; 8];
                self.judged("read".into(), Ok(()), format!("{} {}", joined(n), self.lists_digest()));
            }
        }
    }
    fn take(&mut self, from: &Lists) {
        fn put<T: Copy>(to: &mut [T], from: &[T]) {
            let n = from.len().min(to.len());
            to[..n].copy_from_slice(&from[..n]);
        }
        let to = &mut self.lists;
        put(&mut to.run_values, &from.run_values);
        put(&mut to.run_tags, &from.run_tags);
        put(&mut to.solid_values, &from.solid_values);
        put(&mut to.solid_tags, &from.solid_tags);
        put(&mut to.detector_values, &from.detector_values);
        put(&mut to.detector_tags, &from.detector_tags);
        put(&mut to.ray_values, &from.ray_values);
        put(&mut to.ray_tags, &from.ray_tags);
    }
    fn lists_digest(&self) -> String {
        let (l, mut d) = (&self.lists, Digest::new());
        let long = |k: usize| STRIDES[k] * ROOMS[k / 2].min([1, self.solids, self.said, self.rays][k / 2] as usize);
        d.doubles(&l.run_values[..long(0)]);
        d.wholes(&l.run_tags[..long(1)]);
        d.doubles(&l.solid_values[..long(2)]);
        d.wholes(&l.solid_tags[..long(3)]);
        d.doubles(&l.detector_values[..long(4)]);
        d.wholes(&l.detector_tags[..long(5)]);
        d.doubles(&l.ray_values[..long(6)]);
        d.wholes(&l.ray_tags[..long(7)]);
        d.hex()
    }
    pub fn make(&mut self, f: &Face) {
        let r = f.check(0);
        let (v, t) = if r.is_ok() { (f.values, f.tags) } else { ([0.0; 11], [0; 2]) };
        let made = format!("{} {} {} {} 0", joined(v.map(expected)), t[0], t[1], expected(0.0));
        self.judged(format!("new {} {} {}", joined(f.values.map(given)), f.tags[0], f.tags[1]), r, made);
    }
    pub fn check(&mut self, d: usize) {
        let r = self.face(d).check(0);
        self.judged(format!("check {d}"), r, String::new());
    }
    pub fn check_all(&mut self) {
        let r = self.dets().check();
        self.judged("check_all".into(), r, String::new());
    }
    pub fn cross(&mut self, d: usize, ray: [f64; 8]) {
        let r = self.face(d).crossing(&ray);
        let (t, x, y) = r.ok().flatten().unwrap_or_default();
        let crosses = matches!(r, Ok(Some(_))) as u32;
        let rest = format!("{crosses} {}", joined([t, x, y].map(expected)));
        self.judged(format!("cross {d} {}", joined(ray.map(given))), r.map(|_| ()), rest);
    }
    fn reading(&mut self, call: String, r: Result<f64, Refusal>) {
        self.judged(call, r.map(|_| ()), expected(r.unwrap_or(0.0)));
    }
    pub fn area(&mut self, d: usize) {
        let r = self.face(d).area();
        self.reading(format!("area {d}"), r);
    }
    pub fn irradiance(&mut self, d: u32, px: u32, py: u32) {
        let r = self.memory.irradiance(&self.dets(), d, px, py);
        self.reading(format!("irradiance {d} {px} {py}"), r);
    }
    pub fn record(&mut self, h: &Hit) {
        let dets = self.dets();
        let r = self.memory.record(&dets, h);
        let call = format!("record {} {}", joined(h.values.map(given)), joined(h.tags));
        self.judged(call, r, self.memory.used.to_string());
    }
    pub fn refilter(&mut self, d: u32, filter: u32, places: usize) {
        let mut work: Vec<f64> = (0..places).map(|i| i as f64 + 0.5).collect();
        let r = self.memory.refilter(&self.dets(), d, filter, &mut work);
        let (total, count) = r.unwrap_or((0.0, 0));
        let mut digest = Digest::new();
        digest.doubles(&work);
        let rest = format!("{} {count} {}", expected(total), digest.hex());
        self.judged(format!("refilter {d} {filter} {places}"), r.map(|_| ()), rest);
    }
    pub fn part(&mut self, d: u32) {
        let r = self.dets().part(d);
        let (first, pixels) = r.unwrap_or((0, 0));
        self.judged(format!("part {d}"), r.map(|_| ()), format!("{first} {pixels}"));
    }
    /// Traces lists of these lengths from ray `from` on; false, with nothing written, where the original can't say it.
    fn traced(&mut self, call: String, from: usize, lengths: [usize; 4], solids: u32, rays: u32) -> bool {
        let l = &self.lists;
        let lists = Lists {
            run_values: l.run_values.clone(),
            run_tags: l.run_tags.clone(),
            solid_values: l.solid_values[..lengths[0]].to_vec(),
            solid_tags: l.solid_tags[..lengths[1]].to_vec(),
            ray_values: l.ray_values[8 * from..8 * from + lengths[2]].to_vec(),
            ray_tags: l.ray_tags[10 * from..10 * from + lengths[3]].to_vec(),
            ..Lists::default()
        };
        let batch = Batch { lists, solids, rays, placed: &self.placed, wild: self.wild };
        let (dets, used) = (self.dets(), self.memory.used);
        let Some(ran) = batch.trace(&dets, &mut self.memory) else { return false };
        self.tally.kept += (ran.refusal.is_some() && self.memory.used > used) as usize;
        self.report = ran.report;
        let lost = self.report.powers[4];
        let kinds = [lost.is_some_and(|x| x != 0.0), lost.is_some_and(f64::is_nan), lost.is_none()];
        (0..3).for_each(|k| self.tally.lost[k] += kinds[k] as usize);
        let counts = self.report.counts.map(|n| known(n, |n: u64| n.to_string()));
        let rest = format!("{} {} {}", self.memory.used, joined(self.report.powers.map(|p| known(p, expected))), joined(counts));
        self.judged(call, ran.refusal.map_or(Ok(()), Err), rest);
        true
    }
    pub fn trace(&mut self, from: usize, n: usize) -> bool {
        let s = self.solids as usize;
        self.traced(format!("trace {from} {n}"), from, [42 * s, 4 * s, 8 * n, 10 * n], self.solids, n as u32)
    }
    pub fn trace_lent(&mut self, lengths: [usize; 4], n: u32) -> bool {
        self.traced(format!("trace_lent {} {n}", joined(lengths)), 0, lengths, self.solids, n)
    }
    /// Of launched, detected, absorbed, escaped and lost, which has no part in it.
    pub fn ratio(&mut self, powers: [f64; 5]) {
        let [launched_flux_watts, detected_flux_watts, absorbed_flux_watts, escaped_flux_watts, _] = powers;
        let r = NonSeqTraceReport { launched_flux_watts, detected_flux_watts, absorbed_flux_watts, escaped_flux_watts, total_rays_traced: 0, total_interactions: 0, paths: Vec::new() };
        self.call(format!("ratio {}", joined(powers.map(given))), expected(r.energy_conservation_ratio()));
    }
    /// How long the answer is, where it is known.
    pub fn answer_length(&self, filter: u32) -> Option<usize> {
        self.memory.answer(&self.dets(), &self.report, filter).ok().flatten().map(|t| t.len())
    }
    pub fn answer(&mut self, filter: u32, room: usize) {
        let r = self.memory.answer(&self.dets(), &self.report, filter);
        let rest = match &r {
            Ok(text) => written_if(text.as_deref(), room),
            Err(_) => written("", room),
        };
        self.judged(format!("answer {filter} {room}"), r.map(|_| ()), rest);
    }
    pub fn refusal(&mut self, n: u32, place: u32, room: usize) {
        self.call(format!("refusal {n} {place} {room}"), written(&refusal_text(n, place as usize), room));
    }
    /// The answer to the scene text; none where the original can't say all of it.
    pub fn map_text(&self) -> Option<String> {
        let lists = match reader::read(&self.text) {
            Ok(lists) => lists,
            Err(line) => return Some(refusal_text(17, line)),
        };
        let n = lists.detector_tags.len() / 2;
        let mut faces: Vec<Face> = lists.detector_values.chunks(11).zip(lists.detector_tags.chunks(2))
            .map(|(v, t)| Face { values: v.try_into().unwrap(), tags: t.try_into().unwrap() }).collect();
        faces.resize(8, Face { values: [0.0; 11], tags: [0; 2] });
        let dets = Detectors { faces, said: n as u32 };
        let mut m = Memory::of_text(if dets.check().is_ok() { dets.pixels() } else { 0 });
        let filter = if lists.run_tags[1] == 5 { 0 } else { lists.run_tags[1] };
        let (solids, rays) = (lists.solid_tags.len() as u32 / 4, lists.ray_tags.len() as u32 / 10);
        let ran = Batch { lists, solids, rays, placed: &self.placed, wild: self.wild }.trace(&dets, &mut m)?;
        match ran.refusal {
            Some((n, place)) => Some(refusal_text(n, place)),
            None => m.answer(&dets, &ran.report, filter).unwrap(),
        }
    }
    pub fn map(&mut self, room: usize) {
        self.call(format!("map {room}"), written_if(self.map_text().as_deref(), room));
    }
    /// What was written last is that file.
    pub fn written(&mut self, name: &str) {
        self.call(format!("written {name}"), "1".into());
    }
    pub fn pixel(&mut self, i: usize) {
        let answer = format!("{} {}", expected(self.memory.flux[i]), self.memory.hits[i]);
        self.call(format!("pixel {i}"), answer);
    }
    pub fn caught(&mut self, d: usize) {
        let answer = format!("{} {}", expected(self.memory.totals[d]), self.memory.counts[d]);
        self.call(format!("caught {d}"), answer);
    }
    pub fn hit(&mut self, i: usize) {
        let h = self.memory.hit(i);
        self.call(format!("hit {i}"), format!("{} {}", joined(h.values.map(expected)), joined(h.tags)));
    }
    pub fn memory(&mut self) {
        self.call("memory".into(), self.memory.digest());
    }
}
