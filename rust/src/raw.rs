//! The calls of `include/postlapse.h`, which says what each does, as safe functions of Rust. All that the header asks of a caller holds of
//! slices and of `&mut`: they are valid for their length, aligned and never null, and no output overlaps anything else that is passed.
//! Each `unsafe` below rests on that alone: it passes a slice as its pointer and its own length.

/// The variant H, as the byte of a stream; L is 1 and L+ is 2.
pub const H: u8 = 0;

#[derive(Clone, Copy, Debug, PartialEq, Eq)]
#[repr(C)]
pub struct Answer {
    pub refusal: usize,
    pub first: usize,
    pub second: usize,
}

#[derive(Clone, Copy, Debug, PartialEq, Eq)]
#[repr(C)]
pub struct HeaderAnswer {
    pub refusal: usize,
    pub first: usize,
    pub second: usize,
    pub version: u8,
    pub variant: u8,
    pub channels: u8,
    pub rate: u32,
    pub samples: u32,
}

#[derive(Clone, Copy, Debug, PartialEq, Eq)]
#[repr(C)]
pub struct WaveAnswer {
    pub refusal: usize,
    pub channels: u16,
    pub rate: u32,
    pub start: usize,
    pub size: usize,
}

#[derive(Clone, Copy, Debug, PartialEq, Eq)]
#[repr(C)]
pub struct FragmentAnswer {
    pub refusal: usize,
    pub first: usize,
    pub predictor: i32,
    pub index: usize,
}

#[derive(Clone, Copy, Debug, Default, PartialEq, Eq)]
#[repr(C)]
pub struct State {
    pub predictor: i32,
    pub index: usize,
}

/// The functions as they are in the archive.
pub mod archive {
    use super::{Answer, FragmentAnswer, HeaderAnswer, State, WaveAnswer};

    #[rustfmt::skip]
    #[link(name = "postlapse", kind = "static")]
    unsafe extern "C" {
        pub fn postlapse_version() -> u32;
        pub fn postlapse_fragment_size(version: u8, variant: u8) -> Answer;
        pub fn postlapse_frame_count(version: u8, samples: u32) -> Answer;
        pub fn postlapse_stream_length(version: u8, variant: u8, channels: u8, samples: u32) -> Answer;
        pub fn postlapse_encode(
            pcm: *const i16, count: usize, channels: u8, rate: u32, variant: u8, gain: u8, out: *mut u8, room: usize,
        ) -> Answer;
        pub fn postlapse_inspect(file: *const u8, size: usize) -> HeaderAnswer;
        pub fn postlapse_decode(file: *const u8, size: usize, out: *mut i16, room: usize) -> HeaderAnswer;
        pub fn postlapse_decode_fragment(
            version: u8, variant: u8, predictor: i32, index: usize, fragment: *const u8, size: usize, out: *mut i16, count: usize,
        ) -> FragmentAnswer;
        pub fn postlapse_decode_fragment_lent(
            version: u8, variant: u8, state: *mut State, fragment: *const u8, size: usize, out: *mut i16, count: usize,
        ) -> Answer;
        pub fn postlapse_read_wave(file: *const u8, size: usize) -> WaveAnswer;
        pub fn postlapse_read_strict_wave(file: *const u8, size: usize) -> WaveAnswer;
        pub fn postlapse_load_samples(bytes: *const u8, size: usize, out: *mut i16, room: usize) -> Answer;
        pub fn postlapse_write_wave(
            channels: u8, rate: u32, samples: *const i16, count: usize, out: *mut u8, room: usize,
        ) -> Answer;
    }
}

// SAFETY of these four: numbers alone go over.
pub fn version() -> u32 {
    unsafe { archive::postlapse_version() }
}

pub fn fragment_size(version: u8, variant: u8) -> Answer {
    unsafe { archive::postlapse_fragment_size(version, variant) }
}

pub fn frame_count(version: u8, samples: u32) -> Answer {
    unsafe { archive::postlapse_frame_count(version, samples) }
}

pub fn stream_length(version: u8, variant: u8, channels: u8, samples: u32) -> Answer {
    unsafe { archive::postlapse_stream_length(version, variant, channels, samples) }
}

// SAFETY of the others: see the head.
pub fn encode(pcm: &[i16], channels: u8, rate: u32, variant: u8, gain: u8, out: &mut [u8]) -> Answer {
    unsafe {
        archive::postlapse_encode(pcm.as_ptr(), pcm.len(), channels, rate, variant, gain, out.as_mut_ptr(), out.len())
    }
}

pub fn inspect(file: &[u8]) -> HeaderAnswer {
    unsafe { archive::postlapse_inspect(file.as_ptr(), file.len()) }
}

pub fn decode(file: &[u8], out: &mut [i16]) -> HeaderAnswer {
    unsafe { archive::postlapse_decode(file.as_ptr(), file.len(), out.as_mut_ptr(), out.len()) }
}

pub fn decode_fragment(version: u8, variant: u8, state: State, fragment: &[u8], out: &mut [i16]) -> FragmentAnswer {
    let State { predictor, index } = state;
    unsafe {
        archive::postlapse_decode_fragment(
            version,
            variant,
            predictor,
            index,
            fragment.as_ptr(),
            fragment.len(),
            out.as_mut_ptr(),
            out.len(),
        )
    }
}

pub fn decode_fragment_lent(version: u8, variant: u8, state: &mut State, fragment: &[u8], out: &mut [i16]) -> Answer {
    unsafe {
        archive::postlapse_decode_fragment_lent(
            version,
            variant,
            state,
            fragment.as_ptr(),
            fragment.len(),
            out.as_mut_ptr(),
            out.len(),
        )
    }
}

pub fn read_wave(file: &[u8]) -> WaveAnswer {
    unsafe { archive::postlapse_read_wave(file.as_ptr(), file.len()) }
}

pub fn read_strict_wave(file: &[u8]) -> WaveAnswer {
    unsafe { archive::postlapse_read_strict_wave(file.as_ptr(), file.len()) }
}

pub fn load_samples(bytes: &[u8], out: &mut [i16]) -> Answer {
    unsafe { archive::postlapse_load_samples(bytes.as_ptr(), bytes.len(), out.as_mut_ptr(), out.len()) }
}

pub fn write_wave(channels: u8, rate: u32, samples: &[i16], out: &mut [u8]) -> Answer {
    unsafe {
        archive::postlapse_write_wave(channels, rate, samples.as_ptr(), samples.len(), out.as_mut_ptr(), out.len())
    }
}
