//! Tracings by the proved library, by the original, and by the same algorithm in plain Rust with matrices worked out
//! beforehand and the processor's root, in one process, pass by pass in turn. First oracle/bench/typical.in, by all
//! ways; then rows of 1, 8 and 32 solids that are clear, mirrors or black; then how the cost grows with solids,
//! rays and bounces. Every answer is compared with the original's bit for bit before it is timed.
mod lists;
#[allow(dead_code)]
#[path = "../../closest/src/plain.rs"]
mod plain;
#[path = "../../closest/src/root.rs"]
mod root;
mod scenes;
mod tracer;
mod ways;

use lists::Lists;
use optics_nonseq::geometry::Transform3D;
use scenes::Kind;
use ways::{Answer, Bench, Way, WAYS};

/// The times of the first ways, ns an interaction, best and median pass.
struct Times {
    interactions: u32,
    hits: usize,
    differences: usize,
    ns: Vec<(f64, f64)>,
}

fn measured(scene: (Lists, Vec<Transform3D>), ways: &[Way], passes: usize) -> Times {
    let mut b = Bench::new(scene);
    let want = Answer::original(&mut b);
    let interactions = want.counts[1];
    let differences = ways.iter().map(|(name, answer, _)| answer(&mut b).differences(name, &want)).sum();
    let mut ns = vec![Vec::new(); ways.len()];
    for _ in 0..passes {
        for (k, (_, _, pass)) in ways.iter().enumerate() {
            ns[k].push(pass(&mut b).as_nanos() as f64 / interactions.max(1) as f64);
        }
    }
    let ends = |mut v: Vec<f64>| {
        v.sort_by(f64::total_cmp);
        (v[0], v[v.len() / 2])
    };
    Times { interactions, hits: want.hit_tags.len() / 4, differences, ns: ns.into_iter().map(ends).collect() }
}

fn typical() -> usize {
    let t = measured(scenes::typical(), &WAYS, 200);
    println!("typical.in: {} interactions, {} hits, differences {}", t.interactions, t.hits, t.differences);
    for ((name, _, _), (best, median)) in WAYS.iter().zip(&t.ns) {
        println!("{name}: {best:.0} ns an interaction best, {median:.0} median");
    }
    let (p, o) = (t.ns[0], t.ns[1]);
    println!("original / proved: {:.2} best, {:.2} median", o.0 / p.0, o.1 / p.1);
    for ((name, _, _), r) in WAYS.iter().zip(&t.ns).skip(2) {
        println!("proved / {name}: {:.2} best, {:.2} median", p.0 / r.0, p.1 / r.1);
    }
    t.differences
}

/// One line of a table, of the first three ways.
fn line(name: String, scene: (Lists, Vec<Transform3D>), passes: usize) -> usize {
    let t = measured(scene, &WAYS[..3], passes);
    let [p, o, r] = [t.ns[0], t.ns[1], t.ns[2]];
    println!(
        "| {name} | {} | {} | {:.0}, {:.0} | {:.0}, {:.0} | {:.0}, {:.0} | {:.2}, {:.2} | {:.2}, {:.2} |",
        t.interactions, t.hits, p.0, p.1, o.0, o.1, r.0, r.1, o.0 / p.0, o.1 / p.1, p.0 / r.0, p.1 / r.1
    );
    t.differences
}

fn head(what: &str) {
    println!("\n| {what} | interactions | hits | proved | original | Rust, hardware root | original / proved | proved / Rust |");
    println!("|---|---|---|---|---|---|---|---|");
}

fn main() {
    if let Some(k) = std::env::args().nth(1) {
        let mut b = Bench::new(scenes::typical());
        WAYS[k.parse::<usize>().unwrap()].2(&mut b);
        return;
    }
    let mut differ = typical();
    println!("\nns an interaction and ratios, best and median pass");
    head("solids");
    for kind in [Kind::Clear, Kind::Mirrors, Kind::Black] {
        for solids in [1, 8, 32] {
            differ += line(format!("{solids}, {}", kind.name()), scenes::row(solids, kind, 60, 12), 60);
        }
    }
    head("clear solids");
    for solids in [1, 2, 4, 8, 16, 32] {
        differ += line(solids.to_string(), scenes::row(solids, Kind::Clear, 60, 8), 60);
    }
    head("rays, 8 clear solids");
    for rays in [1, 8, 64, 512, 4096] {
        differ += line(rays.to_string(), scenes::row(8, Kind::Clear, rays, 4), if rays > 500 { 10 } else { 60 });
    }
    head("bounces, 8 clear solids");
    for bounces in [1, 2, 4, 8, 12, 16] {
        differ += line(bounces.to_string(), scenes::row(8, Kind::Clear, 60, bounces), 60);
    }
    println!("\ndifferences in all: {differ}");
    if differ > 0 {
        std::process::exit(1);
    }
}
