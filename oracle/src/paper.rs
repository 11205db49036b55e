//! Rules of the scope paper and of the change requests, written from these alone: the sizes of frames and fragments, and what a call
//! for C answers where the reference has no such call or no such refusal.

use crate::answer::Refusal;
use crate::input::Room;
use crate::reference::sqv4::{State, Variant};

fn refused<T>(number: u8, values: Vec<usize>) -> Result<T, Refusal> {
    Err(Refusal { number, values })
}

/// Samples of one channel in a full frame.
pub fn frame_samples(version: u8) -> usize {
    if version == 3 { 63 } else { 64 }
}

/// Bytes before a fragment's codes: the volume, and in version 3 the index.
pub fn prefix(version: u8) -> usize {
    if version == 3 { 2 } else { 1 }
}

pub fn fragment_size(version: u8, variant: Variant) -> usize {
    match variant {
        Variant::H => prefix(version) + 32,
        Variant::L | Variant::LPlus => prefix(version) + 24,
    }
}

/// 13: an output that is shorter than the result.
pub fn check_room(room: Room, needed: usize) -> Result<(), Refusal> {
    match room {
        Some(room) if room < needed => refused(13, vec![needed]),
        _ => Ok(()),
    }
}

/// A state of versions 1 and 2.
pub fn in_range(state: State) -> bool {
    (-32768..=32767).contains(&state.predictor) && state.index <= 88
}

/// The checks 7, 14 and 15 of the fragment decoder, of a fragment of so many bytes and an output of `count` places.
pub fn check_fragment(version: u8, variant: Variant, state: State, size: usize, count: usize) -> Result<(), Refusal> {
    if !(1..=3).contains(&version) {
        return refused(7, vec![version as usize]);
    }
    if size != fragment_size(version, variant) || count > frame_samples(version) {
        return refused(14, vec![]);
    }
    if version != 3 && !in_range(state) {
        return refused(15, vec![]);
    }
    Ok(())
}

/// Where the contents of the two chunks lie in a WAV file that plain reading accepts, and the RIFF end.
pub struct Layout {
    pub format: usize,
    pub format_size: usize,
    pub data: usize,
    pub data_size: usize,
    pub end: usize,
}

pub fn layout(file: &[u8]) -> Layout {
    let field = |at: usize| u32::from_le_bytes(file[at..at + 4].try_into().unwrap()) as usize;
    let mut layout = Layout { format: 0, format_size: 0, data: 0, data_size: 0, end: field(4) + 8 };
    let mut at = 12;
    while at < layout.end {
        let (start, size) = (at + 8, field(at + 4));
        match &file[at..at + 4] {
            b"fmt " => (layout.format, layout.format_size) = (start, size),
            b"data" => (layout.data, layout.data_size) = (start, size),
            _ => {}
        }
        at = start + size + size % 2;
    }
    layout
}

/// The checks 40, 41 and 42 of a file that plain reading accepts. What the last two of 18 bytes hold does not matter.
pub fn check_strict(file: &[u8]) -> Result<(), Refusal> {
    let Layout { format, format_size, data, end, .. } = layout(file);
    match () {
        _ if format_size != 16 && format_size != 18 => refused(40, vec![]),
        _ if data < format => refused(41, vec![]),
        _ if end < file.len() => refused(42, vec![]),
        _ => Ok(()),
    }
}
