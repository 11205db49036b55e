//! The calls for lengths, and the library's version. The reference has no such calls, but its inspection, asked about a
//! header with nothing behind it, says all of them: the refusals 7 and 1, a fragment's size where there are no samples,
//! and else the length that it expects.

use crate::answer::Refusal;
use crate::ask::{answered, ask_plain, numbers, refused};
use crate::lists::{self, Random};
use crate::postlapse as ours;
use crate::reference::sqv4::{self, Error, Variant};
use crate::tally::Tally;
use crate::{frame_samples, length, rarely};

/// Bytes of a header.
const HEADER: usize = 16;

/// A variant's byte is read first, as include/postlapse.h says.
fn fragment_size(version: u8, variant: u8) -> Result<usize, Refusal> {
    let header = lists::header(version, Variant::try_from(variant)?, 1, 0);
    Ok(sqv4::inspect(&header)?.frame_size)
}

/// The fragments of a mono stream.
fn frame_count(version: u8, samples: u32) -> Result<usize, Refusal> {
    let size = fragment_size(version, ours::H)?;
    Ok((stream_length(version, ours::H, 1, samples)? - HEADER) / size)
}

/// A header alone is a whole stream where there are no samples.
fn stream_length(version: u8, variant: u8, channels: u8, samples: u32) -> Result<usize, Refusal> {
    let header = lists::header(version, Variant::try_from(variant)?, channels, samples as usize);
    match sqv4::inspect(&header) {
        Ok(_) => Ok(header.len()),
        Err(Error::InvalidFileLength { expected, .. }) => Ok(expected),
        Err(refusal) => Err(refusal.into()),
    }
}

fn ask(
    tally: &mut Tally,
    call: &'static str,
    words: &[u32],
    expected: Result<usize, Refusal>,
    ask: impl FnOnce() -> ours::Answer,
) {
    let expected = expected.map_or_else(|refusal| refused(&refusal), |length| numbers(&[0, length]));
    ask_plain(tally, call, expected, || answered(ask()), || format!("{call} of {words:?}"));
}

fn ask_size(tally: &mut Tally, version: u8, variant: u8) {
    let words = [version, variant].map(u32::from);
    let expected = fragment_size(version, variant);
    ask(tally, "fragment size", &words, expected, || ours::fragment_size(version, variant));
}

fn ask_count(tally: &mut Tally, version: u8, samples: u32) {
    let words = [version as u32, samples];
    ask(tally, "frame count", &words, frame_count(version, samples), || ours::frame_count(version, samples));
}

fn ask_length(tally: &mut Tally, version: u8, variant: u8, channels: u8, samples: u32) {
    let words = [version as u32, variant as u32, channels as u32, samples];
    let expected = stream_length(version, variant, channels, samples);
    ask(tally, "stream length", &words, expected, || ours::stream_length(version, variant, channels, samples));
}

/// Sample counts around a frame's end, mostly, or any.
fn count(random: &mut Random, version: u8) -> u32 {
    let frame = frame_samples(version);
    let frames = random.next() as u32 as usize / frame;
    match random.below(4) {
        0 => length(random, frame) as u32,
        1 => random.next() as u32,
        2 => u32::MAX - random.below(2 * frame) as u32,
        _ => (frames * frame + random.below(3)).saturating_sub(1) as u32,
    }
}

/// One question to each call: now and then a version, a variant or a channel count that is refused, or several of them.
pub fn random(tally: &mut Tally, random: &mut Random) {
    let version = if rarely(random, 16) { random.byte() } else { 1 + random.below(3) as u8 };
    let variant = if rarely(random, 16) { random.byte() } else { random.below(3) as u8 };
    let channels = if rarely(random, 16) { random.byte() } else { 1 + random.below(2) as u8 };
    let samples = count(random, version);
    ask_size(tally, version, variant);
    ask_count(tally, version, samples);
    ask_length(tally, version, variant, channels, samples);
}

/// The version; every version byte with every variant byte, and of those that are known, and some others, with every channel count.
pub fn all(tally: &mut Tally, _: &mut Random) {
    let version = || numbers(&[0, ours::version() as usize]);
    ask_plain(tally, "version", numbers(&[0, 10_000]), version, || "version".to_string());
    let edges = [0, 1, 62, 63, 64, 65, 126, 127, 128, 129, 1 << 16, 1 << 31, u32::MAX - 63, u32::MAX - 1, u32::MAX];
    for version in 0..=255 {
        edges.iter().for_each(|&samples| ask_count(tally, version, samples));
        for variant in 0..=255 {
            ask_size(tally, version, variant);
            [0, 1, 2, 3, 255].iter().for_each(|&channels| ask_length(tally, version, variant, channels, 64));
        }
    }
    for version in 0..=4 {
        for variant in 0..=3 {
            for channels in 0..=255 {
                edges.iter().for_each(|&samples| ask_length(tally, version, variant, channels, samples));
            }
        }
    }
    let refusals: [(&str, &[usize]); 3] =
        [("fragment size", &[8, 7]), ("frame count", &[7]), ("stream length", &[8, 7, 1])];
    for (call, refusals) in refusals {
        refusals.iter().for_each(|&refusal| tally.require(call, refusal));
    }
}
