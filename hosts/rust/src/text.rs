//! Scene texts and answers.
use crate::{DETECTOR_DOUBLES, DETECTOR_WHOLES, RAY_DOUBLES, RAY_WHOLES, RUN_DOUBLES, RUN_WHOLES, SOLID_DOUBLES, SOLID_WHOLES};
use crate::{ffi, Error, Filter, Memory, Report};

/// As many bytes hold the answer to any scene text.
pub const MAX_ANSWER: usize = 131_072;

/// The numbers of a scene text, each block's in the text's order.
#[derive(Clone, Debug, Default, PartialEq)]
pub struct SceneText {
    /// Threshold and the ambient medium's coefficients.
    pub run_values: Vec<f64>,
    /// Bounces, filter (5 for `-`), ambient medium.
    pub run_tags: Vec<u32>,
    /// 42 doubles a solid.
    pub solid_values: Vec<f64>,
    /// Shape, active, finish and medium of each solid.
    pub solid_tags: Vec<u32>,
    /// 11 doubles a detector.
    pub detector_values: Vec<f64>,
    /// Columns and rows of each detector.
    pub detector_tags: Vec<u32>,
    /// 8 doubles a ray.
    pub ray_values: Vec<f64>,
    /// Bounce, number of media and 8 media of each ray.
    pub ray_tags: Vec<u32>,
    /// How many solids.
    pub solids: u32,
    /// How many detectors.
    pub detectors: u32,
    /// How many rays there are.
    pub rays: u32,
}

/// The answer to a scene text, or its refusal, as the program straymap prints it.
pub fn stray_map(text: &[u8]) -> Vec<u8> {
    let mut buf = vec![0; MAX_ANSWER];
    let n = unsafe { ffi::nonseq_stray_map(buf.as_mut_ptr(), buf.len(), text.as_ptr(), text.len()) };
    buf.truncate(n);
    buf
}

/// A scene text read into numbers. Refused by 17; the place is the first bad line's number, 0 for a text too long.
/// A refused text has nothing allocated for it, another what its lists take.
pub fn read_scene(text: &[u8]) -> Result<SceneText, Error> {
    let mut s = SceneText::default();
    read_into(text, &mut s)?;
    let (solids, detectors, rays) = (s.solids as usize, s.detectors as usize, s.rays as usize);
    s.run_values = vec![0.0; RUN_DOUBLES];
    s.run_tags = vec![0; RUN_WHOLES];
    s.solid_values = vec![0.0; SOLID_DOUBLES * solids];
    s.solid_tags = vec![0; SOLID_WHOLES * solids];
    s.detector_values = vec![0.0; DETECTOR_DOUBLES * detectors];
    s.detector_tags = vec![0; DETECTOR_WHOLES * detectors];
    s.ray_values = vec![0.0; RAY_DOUBLES * rays];
    s.ray_tags = vec![0; RAY_WHOLES * rays];
    read_into(text, &mut s)?;
    Ok(s)
}

/// Reads into what the lists have room for, and counts all.
fn read_into(text: &[u8], s: &mut SceneText) -> Result<(), Error> {
    let r = unsafe {
        ffi::nonseq_read_scene(
            text.as_ptr(), text.len(), s.run_values.as_mut_ptr(), s.run_values.len(), s.run_tags.as_mut_ptr(), s.run_tags.len(),
            s.solid_values.as_mut_ptr(), s.solid_values.len(), s.solid_tags.as_mut_ptr(), s.solid_tags.len(),
            s.detector_values.as_mut_ptr(), s.detector_values.len(), s.detector_tags.as_mut_ptr(), s.detector_tags.len(),
            s.ray_values.as_mut_ptr(), s.ray_values.len(), s.ray_tags.as_mut_ptr(), s.ray_tags.len(),
        )
    };
    Error::check(r.refusal, r.place)?;
    (s.solids, s.detectors, s.rays) = (r.solids, r.detectors, r.rays);
    Ok(())
}

/// The answer of a tracing as text. A memory of more than 4,096 pixels is refused by 9.
pub fn write_answer(memory: &Memory, report: &Report, filter: Filter) -> Result<Vec<u8>, Error> {
    let mut buf = vec![0; MAX_ANSWER];
    let n = memory.write(&mut buf, report, filter)?;
    buf.truncate(n);
    Ok(buf)
}

/// A refusal as text.
pub fn write_refusal(error: &Error) -> Vec<u8> {
    let mut buf = vec![0; 64];
    let n = unsafe { ffi::nonseq_put_refusal(buf.as_mut_ptr(), buf.len(), error.number, error.place) };
    buf.truncate(n);
    buf
}
