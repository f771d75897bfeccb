//! Random scenes that are answered under each of the five filters.
use super::script::Script;
use super::scripts::ANSWER_BYTES;
use super::stage::Stage;
use super::*;

const SCENES: usize = 70;
/// A scene text of more bytes is left out.
const LONGEST: usize = 9000;

/// Filters that matter, or a refusal; a scene with tallies that the original can't tell is left out.
fn is_telling(answers: &[String]) -> bool {
    let refused = answers[0].starts_with("refusal");
    let different = answers.iter().collect::<std::collections::BTreeSet<_>>().len();
    !answers.iter().any(|a| a.contains('?')) && (different > 2 || refused)
}

fn script_of(seed: u64) -> Option<Script> {
    let c = generate(seed);
    let text = scene_text(&c, "-");
    if text.len() >= LONGEST { return None; }
    let solved = solve(&c);
    let answers: Vec<String> = (0..5).map(|f| answer(&solved, f)).collect();
    if !is_telling(&answers) { return None; }
    let mut s = Stage::new(&format!("sample_{seed}"));
    s.case(&c, "-");
    s.read();
    let place = s.filter_place();
    for (filter, answer) in answers.into_iter().enumerate() {
        s.byte(place, b'0' + filter as u8);
        s.map(ANSWER_BYTES);
        assert_eq!(s.map_text(), Some(answer), "{seed}");
    }
    Some(s.script())
}

/// Those of the seeds from the first one on.
pub fn scripts(first: u64) -> Vec<Script> {
    (first..).filter_map(script_of).take(SCENES).collect()
}
