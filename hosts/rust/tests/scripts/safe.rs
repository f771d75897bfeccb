//! Calls a second time by the safe functions of the crate, where those can say them.
use crate::lent::{hold, same_bits};
use crate::state::{detector_numbers, Lists};
use crate::words::Answer;
use nonseq::*;

/// That the safe call of a name answers as the library did; so far as it answers.
pub fn same(name: &str, answer: &Answer, safe: Answer) -> Result<(), String> {
    hold(answer.words.starts_with(&safe.words), &format!("the safe {name} answers {}", safe.line()))
}

fn refused(error: Error) -> Answer {
    Answer::of(error.number, error.place)
}

pub fn new(center: Vec3, normal: Vec3, up: Vec3, size: (f64, f64), resolution: (u32, u32), answer: &Answer) -> Result<(), String> {
    let made = Detector::new(center, normal, up, size, resolution);
    let (doubles, resolutions, total, count) = detector_numbers(&made.unwrap_or_default());
    let first = made.map_or_else(refused, |_| Answer::of(0, 0));
    same("new", answer, first.doubles(&doubles).wholes(&resolutions).double(total).whole(count))
}

pub fn check(detector: &Detector, answer: &Answer) -> Result<(), String> {
    same("check", answer, detector.check().map_or_else(refused, |()| Answer::of(0, 0)))
}

pub fn cross(detector: &Detector, ray: &Ray, answer: &Answer) -> Result<(), String> {
    let safe = match detector.intersect_ray(ray) {
        Ok(Some(c)) => Answer::of(0, 0).whole(1u32).doubles(&[c.t, c.local_x, c.local_y]),
        Ok(None) => Answer::of(0, 0).whole(0u32).doubles(&[0.0; 3]),
        Err(error) => refused(error).whole(0u32).doubles(&[0.0; 3]),
    };
    same("cross", answer, safe)
}

pub fn area(detector: &Detector, answer: &Answer) -> Result<(), String> {
    let area = detector.pixel_area_m2();
    same("area", answer, area.map_or_else(refused, |_| Answer::of(0, 0)).double(area.unwrap_or(0.0)))
}

/// The text that the safe call wrote beside a length and what the buffer holds.
pub fn text(safe: Vec<u8>, length: usize, buf: &[u8]) -> Result<(), String> {
    let whole = buf.get(..length).is_none_or(|written| written == safe);
    hold(length == safe.len() && whole, &format!("the safe call writes {} bytes", safe.len()))
}

/// The numbers that the safe reader answers beside the lists.
pub fn read(text: &[u8], lists: &Lists, answer: &Answer) -> Result<(), String> {
    let s = match read_scene(text) {
        Err(error) => return same("read", answer, refused(error)),
        Ok(s) => s,
    };
    same("read", answer, Answer::of(0, 0).wholes(&[s.solids, s.detectors, s.rays]))?;
    fn front<T: crate::words::Number>(safe: &[T], list: &[T]) -> bool {
        let n = safe.len().min(list.len());
        same_bits(&safe[..n], &list[..n])
    }
    let values = front(&s.run_values, &lists.run_values) && front(&s.solid_values, &lists.solid_values)
        && front(&s.detector_values, &lists.detector_values) && front(&s.ray_values, &lists.ray_values);
    let tags = front(&s.run_tags, &lists.run_tags) && front(&s.solid_tags, &lists.solid_tags)
        && front(&s.detector_tags, &lists.detector_tags) && front(&s.ray_tags, &lists.ray_tags);
    hold(values && tags, "the safe read answers other numbers")
}
