//! A tracing, and the same by rays as structs on a copy of the memory.
use crate::lent::{hold, Lent};
use crate::state::*;
use crate::words::{Answer, Words};
use nonseq::ffi::{self, HostTraced};
use nonseq::*;

/// What a tracing is lent besides the memory.
struct Given {
    solid_values: Lent<f64>,
    solid_tags: Lent<u32>,
    ray_values: Lent<f64>,
    ray_tags: Lent<u32>,
    rays: u32,
}

pub fn trace(words: &mut Words, state: &mut State) -> Result<Answer, String> {
    let from = words.at_most(RAY_ROOM)?;
    let many = words.at_most(RAY_ROOM - from)?;
    words.end()?;
    let solids = state.solids as usize;
    hold(solids <= SOLID_ROOM, "more solids than there is room for")?;
    let lists = &state.lists;
    let given = Given {
        solid_values: Lent::of(&lists.solid_values[..solids * SOLID_DOUBLES]),
        solid_tags: Lent::of(&lists.solid_tags[..solids * SOLID_WHOLES]),
        ray_values: Lent::of(&lists.ray_values[from * RAY_DOUBLES..][..many * RAY_DOUBLES]),
        ray_tags: Lent::of(&lists.ray_tags[from * RAY_WHOLES..][..many * RAY_WHOLES]),
        rays: many as u32,
    };
    traced(&given, state)
}

pub fn trace_lent(words: &mut Words, state: &mut State) -> Result<Answer, String> {
    let lists = &state.lists;
    let given = Given {
        solid_values: Lent::of(&lists.solid_values[..words.at_most(lists.solid_values.len())?]),
        solid_tags: Lent::of(&lists.solid_tags[..words.at_most(lists.solid_tags.len())?]),
        ray_values: Lent::of(&lists.ray_values[..words.at_most(lists.ray_values.len())?]),
        ray_tags: Lent::of(&lists.ray_tags[..words.at_most(lists.ray_tags.len())?]),
        rays: words.small()?,
    };
    words.end()?;
    traced(&given, state)
}

fn traced(given: &Given, state: &mut State) -> Result<Answer, String> {
    let (before, kept) = (state.memory.clone(), given.copy());
    let r = flat(given, state);
    hold(given.is_still(&kept), "the call changed what it may only read")?;
    let answer = left(state, &r)?;
    let Some(rays) = given.structs() else { return Ok(answer) };
    let after = std::mem::replace(&mut state.memory, before);
    let again = by_structs(given, &rays, state);
    hold(given.is_still(&kept), "nonseq_trace_given_rays changed what it may only read")?;
    let second = left(state, &again)?;
    let same = second.words == answer.words && state.memory.same(&after);
    Ok(answer.beside(hold(same, &format!("nonseq_trace_given_rays answers {}", second.line()))))
}

/// A tracing's answer, once the memory is what it left.
fn left(state: &mut State, r: &HostTraced) -> Result<Answer, String> {
    state.recorded(&r.detectors, r.used)?;
    state.report = r.report;
    let (watts, tallies) = traced_numbers(r);
    Ok(Answer::of(r.refusal, r.place).whole(r.used as u64).doubles(&watts).wholes(&tallies))
}

fn flat(g: &Given, state: &mut State) -> HostTraced {
    let (config, detectors, m) = (state.config(), state.all_detectors(), &mut state.memory);
    unsafe {
        ffi::nonseq_trace_rays(
            config, g.solid_values.at(), g.solid_values.len(), g.solid_tags.at(), g.solid_tags.len(), state.solids,
            g.ray_values.at(), g.ray_values.len(), g.ray_tags.at(), g.ray_tags.len(), g.rays, detectors,
            m.flux.at_mut(), m.flux.len(), m.hits.at_mut(), m.hits.len(),
            m.hit_values.at_mut(), m.hit_values.len(), m.hit_tags.at_mut(), m.hit_tags.len(), m.used,
        )
    }
}

fn by_structs(g: &Given, rays: &[GivenRay], state: &mut State) -> HostTraced {
    let (config, detectors, m) = (state.config(), state.all_detectors(), &mut state.memory);
    unsafe {
        ffi::nonseq_trace_given_rays(
            config, g.solid_values.at(), g.solid_values.len(), g.solid_tags.at(), g.solid_tags.len(), state.solids,
            rays.as_ptr(), rays.len(), detectors,
            m.flux.at_mut(), m.flux.len(), m.hits.at_mut(), m.hits.len(),
            m.hit_values.at_mut(), m.hit_values.len(), m.hit_tags.at_mut(), m.hit_tags.len(), m.used,
        )
    }
}

type Kept = (Vec<f64>, Vec<u32>, Vec<f64>, Vec<u32>);

impl Given {
    fn copy(&self) -> Kept {
        (self.solid_values.list().into(), self.solid_tags.list().into(), self.ray_values.list().into(), self.ray_tags.list().into())
    }

    fn is_still(&self, kept: &Kept) -> bool {
        self.solid_values.is_still(&kept.0) && self.solid_tags.is_still(&kept.1) && self.ray_values.is_still(&kept.2) && self.ray_tags.is_still(&kept.3)
    }

    /// The rays as structs, where the lists are just as long as their number asks.
    fn structs(&self) -> Option<Vec<GivenRay>> {
        let (values, tags, many) = (self.ray_values.list(), self.ray_tags.list(), self.rays as usize);
        (values.len() == many * RAY_DOUBLES && tags.len() == many * RAY_WHOLES).then(|| {
            let rows = values.chunks_exact(RAY_DOUBLES).zip(tags.chunks_exact(RAY_WHOLES));
            rows.map(|(v, t)| GivenRay {
                origin: Vec3::new(v[0], v[1], v[2]),
                direction: Vec3::new(v[3], v[4], v[5]),
                wavelength_nm: v[6],
                energy: v[7],
                bounce_count: t[0],
                media_count: t[1],
                media: t[2..].try_into().expect("eight media"),
            })
            .collect()
        })
    }
}
