//! Lines with an answer: each makes its call of the library on slices between guards, and says what came of it.
use crate::lent::{hold, Lent};
use crate::state::*;
use crate::words::{Answer, Digest, Words};
use crate::{safe, tracing};
use nonseq::ffi;
use nonseq::*;

pub fn make(verb: &str, words: &mut Words, state: &mut State) -> Result<Answer, String> {
    match verb {
        "read" => read(words, state),
        "new" => new(words),
        "check" => check(words, state),
        "check_all" => check_all(words, state),
        "cross" => cross(words, state),
        "area" => area(words, state),
        "record" => record(words, state),
        "refilter" => refilter(words, state),
        "part" => part(words, state),
        "irradiance" => irradiance(words, state),
        "trace" => tracing::trace(words, state),
        "trace_lent" => tracing::trace_lent(words, state),
        "ratio" => ratio(words),
        "answer" => answer(words, state),
        "refusal" => refusal(words, state),
        "map" => map(words, state),
        "pixel" => pixel(words, state),
        "caught" => caught(words, state),
        "hit" => hit(words, state),
        "memory" => words.end().map(|()| Answer::default().digest(state.memory.digest())),
        _ => Err(format!("no line with an answer begins with {verb}")),
    }
}

fn read(words: &mut Words, state: &mut State) -> Result<Answer, String> {
    words.end()?;
    let (text, lists) = (Lent::of(&state.text), &mut state.lists);
    let (mut rv, mut rt) = (Lent::of(&lists.run_values), Lent::of(&lists.run_tags));
    let (mut sv, mut st) = (Lent::of(&lists.solid_values), Lent::of(&lists.solid_tags));
    let (mut dv, mut dt) = (Lent::of(&lists.detector_values), Lent::of(&lists.detector_tags));
    let (mut yv, mut yt) = (Lent::of(&lists.ray_values), Lent::of(&lists.ray_tags));
    let r = unsafe {
        ffi::nonseq_read_scene(
            text.at(), text.len(), rv.at_mut(), rv.len(), rt.at_mut(), rt.len(), sv.at_mut(), sv.len(), st.at_mut(), st.len(),
            dv.at_mut(), dv.len(), dt.at_mut(), dt.len(), yv.at_mut(), yv.len(), yt.at_mut(), yt.len(),
        )
    };
    hold(text.is_still(&state.text), "the call changed the text")?;
    let doubles = [(&rv, &mut lists.run_values), (&sv, &mut lists.solid_values), (&dv, &mut lists.detector_values), (&yv, &mut lists.ray_values)];
    let wholes = [(&rt, &mut lists.run_tags), (&st, &mut lists.solid_tags), (&dt, &mut lists.detector_tags), (&yt, &mut lists.ray_tags)];
    doubles.into_iter().try_for_each(|(now, list)| taken(now, list, r.refusal))?;
    wholes.into_iter().try_for_each(|(now, list)| taken(now, list, r.refusal))?;
    let digest = if r.refusal == 0 { lists.digest(r.solids, r.detectors, r.rays) } else { Digest::new() };
    if r.refusal == 0 {
        (state.solids, state.detectors) = (r.solids, r.detectors);
        state.memory.caught_nothing();
    }
    let answer = Answer::of(r.refusal, r.place).wholes(&[r.solids, r.detectors, r.rays]).digest(digest);
    let second = safe::read(&state.text, &state.lists, &answer);
    Ok(answer.beside(second))
}

/// A list as the reader left it: a refused text leaves it.
fn taken<T: crate::words::Number>(now: &Lent<T>, list: &mut Vec<T>, refusal: u32) -> Result<(), String> {
    hold(now.is_whole(), "the call wrote beside a lent slice")?;
    hold(refusal == 0 || now.is_still(list), "a refused text was written")?;
    list.copy_from_slice(now.list());
    Ok(())
}

fn new(words: &mut Words) -> Result<Answer, String> {
    let v = words.doubles::<11>()?;
    let resolution = (words.small()?, words.small()?);
    words.end()?;
    let [center, normal, up] = [0, 3, 6].map(|i| Vec3::new(v[i], v[i + 1], v[i + 2]));
    let r = unsafe { ffi::nonseq_new_detector(center, normal, up, v[9], v[10], resolution.0, resolution.1) };
    let (doubles, resolutions, total, count) = detector_numbers(&r.detector);
    let answer = Answer::of(r.refusal, r.place).doubles(&doubles).wholes(&resolutions).double(total).whole(count);
    let second = safe::new(center, normal, up, (v[9], v[10]), resolution, &answer);
    Ok(answer.beside(second))
}

/// One of the eight detectors.
fn detector(words: &mut Words, state: &State) -> Result<Detector, String> {
    words.place(MAX_DETECTORS).map(|d| state.detector(d))
}

fn check(words: &mut Words, state: &State) -> Result<Answer, String> {
    let d = detector(words, state)?;
    words.end()?;
    let r = unsafe { ffi::nonseq_check_detector(d) };
    let answer = Answer::of(r.refusal, r.place);
    let second = safe::check(&d, &answer);
    Ok(answer.beside(second))
}

fn check_all(words: &mut Words, state: &State) -> Result<Answer, String> {
    words.end()?;
    let r = unsafe { ffi::nonseq_check_detectors(state.all_detectors()) };
    Ok(Answer::of(r.refusal, r.place))
}

fn cross(words: &mut Words, state: &State) -> Result<Answer, String> {
    let (d, v) = (detector(words, state)?, words.doubles::<8>()?);
    words.end()?;
    let ray = Ray { origin: Vec3::new(v[0], v[1], v[2]), direction: Vec3::new(v[3], v[4], v[5]), wavelength_nm: v[6], energy: v[7] };
    let r = unsafe { ffi::nonseq_intersect_ray(d, ray) };
    let answer = Answer::of(r.refusal, r.place).whole(r.crosses).doubles(&[r.t, r.local_x, r.local_y]);
    let second = safe::cross(&d, &ray, &answer);
    Ok(answer.beside(second))
}

fn area(words: &mut Words, state: &State) -> Result<Answer, String> {
    let d = detector(words, state)?;
    words.end()?;
    let r = unsafe { ffi::nonseq_pixel_area_m2(d) };
    let answer = Answer::of(r.refusal, r.place).double(r.value);
    let second = safe::area(&d, &answer);
    Ok(answer.beside(second))
}

fn record(words: &mut Words, state: &mut State) -> Result<Answer, String> {
    let [local_x, local_y, flux_watts, wavelength_nm] = words.doubles()?;
    let (detector, bounce_count, reflection_count, tir_count) = (words.small()?, words.small()?, words.small()?, words.small()?);
    words.end()?;
    let hit = Hit { local_x, local_y, flux_watts, wavelength_nm, detector, bounce_count, reflection_count, tir_count };
    let (detectors, m) = (state.all_detectors(), &mut state.memory);
    let r = unsafe {
        ffi::nonseq_record_hit_classified(
            detectors, m.flux.at_mut(), m.flux.len(), m.hits.at_mut(), m.hits.len(),
            m.hit_values.at_mut(), m.hit_values.len(), m.hit_tags.at_mut(), m.hit_tags.len(), m.used, hit,
        )
    };
    state.recorded(&r.detectors, r.used)?;
    Ok(Answer::of(r.refusal, r.place).whole(r.used as u64))
}

fn refilter(words: &mut Words, state: &State) -> Result<Answer, String> {
    let (asked, filter, places) = (words.small()?, words.small()?, words.at_most(PLACES_ROOM)?);
    words.end()?;
    let mut work = Lent::made(places, |i| i as f64 + 0.5);
    let m = &state.memory;
    let (flux, hit_values, hit_tags) = (m.flux.clone(), m.hit_values.clone(), m.hit_tags.clone());
    let r = unsafe {
        ffi::nonseq_refilter(
            state.all_detectors(), asked, filter, flux.at(), flux.len(), work.at_mut(), work.len(),
            hit_values.at(), hit_values.len(), hit_tags.at(), hit_tags.len(), m.used,
        )
    };
    hold(work.is_whole(), "the call wrote beside the work map")?;
    unchanged(m, &flux, &hit_values, &hit_tags)?;
    Ok(Answer::of(r.refusal, r.place).double(r.total_flux_watts).whole(r.hit_count as u64).digest(Digest::new().list(work.list())))
}

/// What is lent to be read only.
fn unchanged(m: &LentMemory, flux: &Lent<f64>, hit_values: &Lent<f64>, hit_tags: &Lent<u32>) -> Result<(), String> {
    let still = flux.is_still(m.flux.list()) && hit_values.is_still(m.hit_values.list()) && hit_tags.is_still(m.hit_tags.list());
    hold(still, "the call changed what it may only read")
}

fn part(words: &mut Words, state: &State) -> Result<Answer, String> {
    let asked = words.small()?;
    words.end()?;
    let r = unsafe { ffi::nonseq_pixels_of(state.all_detectors(), asked) };
    Ok(Answer::of(r.refusal, r.place).whole(r.first as u64).whole(r.pixels as u64))
}

fn irradiance(words: &mut Words, state: &State) -> Result<Answer, String> {
    let (asked, px, py) = (words.small()?, words.small()?, words.small()?);
    words.end()?;
    let flux = state.memory.flux.clone();
    let r = unsafe { ffi::nonseq_irradiance_at(state.all_detectors(), asked, flux.at(), flux.len(), px, py) };
    hold(flux.is_still(state.memory.flux.list()), "the call changed what it may only read")?;
    Ok(Answer::of(r.refusal, r.place).double(r.value))
}

fn ratio(words: &mut Words) -> Result<Answer, String> {
    let [launched_flux_watts, detected_flux_watts, absorbed_flux_watts, escaped_flux_watts, lost_flux_watts] = words.doubles()?;
    words.end()?;
    let ledger = Ledger { launched_flux_watts, detected_flux_watts, absorbed_flux_watts, escaped_flux_watts, lost_flux_watts };
    let answer = Answer::default().double(unsafe { ffi::nonseq_energy_conservation_ratio(ledger) });
    let second = safe::same("ratio", &answer, Answer::default().double(ledger.energy_conservation_ratio()));
    Ok(answer.beside(second))
}

/// So many bytes for a text, all of them dots.
fn buffer(words: &mut Words) -> Result<Lent<u8>, String> {
    let many = words.at_most(WRITTEN_ROOM)?;
    words.end()?;
    Ok(Lent::made(many, |_| b'.'))
}

/// A text of that length, whole from the buffer's start on, or not at all.
fn wrote(state: &mut State, buf: &Lent<u8>, length: usize) -> Result<Answer, String> {
    hold(buf.is_whole(), "the call wrote beside the buffer")?;
    state.written = buf.list().get(..length).unwrap_or(&[]).to_vec();
    Ok(Answer::default().whole(length as u64).digest(Digest::new().list(buf.list())))
}

fn answer(words: &mut Words, state: &mut State) -> Result<Answer, String> {
    let filter = words.small()?;
    let mut buf = buffer(words)?;
    let m = &state.memory;
    let (flux, hit_values, hit_tags) = (m.flux.clone(), m.hit_values.clone(), m.hit_tags.clone());
    let r = unsafe {
        ffi::nonseq_put_answer(
            buf.at_mut(), buf.len(), state.report, state.all_detectors(), filter, flux.at(), flux.len(),
            hit_values.at(), hit_values.len(), hit_tags.at(), hit_tags.len(), m.used,
        )
    };
    unchanged(m, &flux, &hit_values, &hit_tags)?;
    let told = wrote(state, &buf, r.length)?;
    Ok(Answer::of(r.refusal, r.place).then(told))
}

fn refusal(words: &mut Words, state: &mut State) -> Result<Answer, String> {
    let (number, place) = (words.small()?, words.small()?);
    let mut buf = buffer(words)?;
    let length = unsafe { ffi::nonseq_put_refusal(buf.at_mut(), buf.len(), number, place) };
    let told = wrote(state, &buf, length)?;
    let second = safe::text(write_refusal(&Error { number, place }), length, buf.list());
    Ok(told.beside(second))
}

fn map(words: &mut Words, state: &mut State) -> Result<Answer, String> {
    let (mut buf, text) = (buffer(words)?, Lent::of(&state.text));
    let length = unsafe { ffi::nonseq_stray_map(buf.at_mut(), buf.len(), text.at(), text.len()) };
    hold(text.is_still(&state.text), "the call changed the text")?;
    let told = wrote(state, &buf, length)?;
    let second = safe::text(stray_map(&state.text), length, buf.list());
    Ok(told.beside(second))
}

fn pixel(words: &mut Words, state: &State) -> Result<Answer, String> {
    let m = &state.memory;
    let place = words.place(m.flux.len().min(m.hits.len()))?;
    words.end()?;
    Ok(Answer::default().double(m.flux.list()[place]).whole(m.hits.list()[place]))
}

fn caught(words: &mut Words, state: &State) -> Result<Answer, String> {
    let d = words.place(MAX_DETECTORS)?;
    words.end()?;
    Ok(Answer::default().double(state.memory.totals[d]).whole(state.memory.counts[d]))
}

fn hit(words: &mut Words, state: &State) -> Result<Answer, String> {
    let m = &state.memory;
    let i = words.place((m.hit_values.len() / HIT_DOUBLES).min(m.hit_tags.len() / HIT_WHOLES))?;
    words.end()?;
    let (values, tags) = (&m.hit_values.list()[HIT_DOUBLES * i..], &m.hit_tags.list()[HIT_WHOLES * i..]);
    Ok(Answer::default().doubles(&values[..HIT_DOUBLES]).wholes(&tags[..HIT_WHOLES]))
}
