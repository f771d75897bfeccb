//! Lines that lay numbers out. `text` and `file` are read with the file, in files.rs.
use crate::lent::Lent;
use crate::state::*;
use crate::words::Words;

pub fn obey(verb: &str, words: &mut Words, state: &mut State) -> Result<(), String> {
    match verb {
        "byte" => byte(words, state),
        "cut" => cut(words, state),
        "lend" => lend(words, state),
        "empty" => empty(words, state),
        "set" => set(words, state),
        "used" => number(words, |words| words.at_most(usize::MAX), &mut state.memory.used),
        "solids" => number(words, Words::small, &mut state.solids),
        "detectors" => number(words, Words::small, &mut state.detectors),
        _ => Err(format!("no line without an answer begins with {verb}")),
    }
}

fn byte(words: &mut Words, state: &mut State) -> Result<(), String> {
    let (place, byte) = (words.place(state.text.len())?, words.at_most(255)?);
    words.end()?;
    state.text[place] = byte as u8;
    Ok(())
}

fn cut(words: &mut Words, state: &mut State) -> Result<(), String> {
    let many = words.at_most(state.text.len())?;
    words.end()?;
    state.text.truncate(many);
    Ok(())
}

fn lend(words: &mut Words, state: &mut State) -> Result<(), String> {
    let mut many = [0; 4];
    for n in &mut many {
        *n = words.at_most(PLACES_ROOM)?;
    }
    words.end()?;
    let memory = &mut state.memory;
    memory.flux = Lent::made(many[0], |i| i as f64 + 0.25);
    memory.hits = Lent::made(many[1], |i| i as u32 + 1);
    memory.hit_values = Lent::made(many[2], |i| i as f64 + 1000.5);
    memory.hit_tags = Lent::made(many[3], |i| i as u32 + 5000);
    Ok(())
}

fn empty(words: &mut Words, state: &mut State) -> Result<(), String> {
    words.end()?;
    let memory = &mut state.memory;
    memory.flux.list_mut().fill(0.0);
    memory.hits.list_mut().fill(0);
    memory.caught_nothing();
    memory.used = 0;
    Ok(())
}

fn set(words: &mut Words, state: &mut State) -> Result<(), String> {
    let (lists, memory) = (&mut state.lists, &mut state.memory);
    match words.word()? {
        "run_values" => put(words, &mut lists.run_values, Words::double),
        "run_tags" => put(words, &mut lists.run_tags, Words::small),
        "solid_values" => put(words, &mut lists.solid_values, Words::double),
        "solid_tags" => put(words, &mut lists.solid_tags, Words::small),
        "detector_values" => put(words, &mut lists.detector_values, Words::double),
        "detector_tags" => put(words, &mut lists.detector_tags, Words::small),
        "ray_values" => put(words, &mut lists.ray_values, Words::double),
        "ray_tags" => put(words, &mut lists.ray_tags, Words::small),
        "totals" => put(words, &mut memory.totals, Words::double),
        "counts" => put(words, &mut memory.counts, Words::small),
        "flux" => put(words, memory.flux.list_mut(), Words::double),
        "hits" => put(words, memory.hits.list_mut(), Words::small),
        "hit_values" => put(words, memory.hit_values.list_mut(), Words::double),
        "hit_tags" => put(words, memory.hit_tags.list_mut(), Words::small),
        other => Err(format!("no slice is called {other}")),
    }
}

fn put<'a, T>(words: &mut Words<'a>, list: &mut [T], read: fn(&mut Words<'a>) -> Result<T, String>) -> Result<(), String> {
    let place = words.place(list.len())?;
    number(words, read, &mut list[place])
}

/// The last word of a line into its place.
fn number<'a, T>(words: &mut Words<'a>, read: fn(&mut Words<'a>) -> Result<T, String>, place: &mut T) -> Result<(), String> {
    let n = read(words)?;
    words.end()?;
    *place = n;
    Ok(())
}
