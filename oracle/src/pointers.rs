//! Pointers that include/postlapse.h does not allow: null where the length is 0, and addresses that are not aligned.
//! The calls have taken them in every try so far; here each is held against the same call with a pointer that is
//! allowed.

use crate::ask::{Numbers, answered, fragment_answered, header_answered, wave_answered};
use crate::lists::{self, RATE, Random};
use crate::postlapse::State;
use crate::postlapse::archive::*;
use crate::tally::Tally;
use crate::{fragment_bytes, random_stream, samples};
use std::ptr::{NonNull, null_mut};

/// An answer, and the bytes that stand in the output.
type Given = (Numbers, Vec<u8>);

/// Makes a call with a pointer that is allowed and with one that is not, and counts whether both give the same.
fn compare<T>(
    tally: &mut Tally,
    call: &str,
    says: &str,
    allowed: *mut T,
    other: *mut T,
    ask: impl Fn(*mut T) -> Given,
) {
    let expected = ask(allowed);
    let refusal = expected.0[0] as usize;
    let line = || format!("{call}: {says}");
    if tally.begin(call, refusal, line) {
        let given = ask(other);
        let seen = || format!("{call}, {says}: answered {:?}, expected {:?}", given.0, expected.0);
        tally.count(call, refusal, given == expected, || (seen(), line()));
    }
}

/// A pointer to elements at their own place, and one to the same 1 byte above an aligned address.
fn odd<T: Copy>(tally: &mut Tally, call: &str, says: &str, values: &[T], ask: impl Fn(*mut T) -> Given) {
    let mut own = values.to_vec();
    let mut words = vec![0u64; size_of_val(values) / 8 + 2];
    let other = unsafe { words.as_mut_ptr().byte_add(1).cast::<T>() };
    unsafe { other.cast::<u8>().copy_from(values.as_ptr().cast(), size_of_val(values)) };
    compare(tally, call, says, own.as_mut_ptr(), other, ask);
}

/// A pointer to no elements, and null.
fn none<T>(tally: &mut Tally, call: &str, says: &str, ask: impl Fn(*mut T) -> Given) {
    compare(tally, call, says, NonNull::dangling().as_ptr(), null_mut(), ask);
}

fn bytes_at<T>(at: *const T, count: usize) -> Vec<u8> {
    unsafe { std::slice::from_raw_parts(at.cast::<u8>(), count * size_of::<T>()) }.to_vec()
}

/// Calls an encoder or a writer with an output on the heap.
fn filled(call: impl FnOnce(*mut u8, usize) -> Numbers) -> Given {
    let mut out = vec![7; 400];
    (call(out.as_mut_ptr(), out.len()), out)
}

/// Samples at odd addresses, to be read and to be written, and a state that is not aligned.
pub fn unaligned(tally: &mut Tally, random: &mut Random) {
    let (channels, length) = (1 + random.below(2), random.below(64));
    let pcm = samples(random, channels, length);
    let (channels, variant, gain, count) = (channels as u8, random.below(3) as u8, random.byte(), pcm.len());
    odd(tally, "encode", "samples at an odd address", &pcm, |pcm| {
        filled(|out, room| unsafe {
            answered(postlapse_encode(pcm, count, channels, RATE, variant, gain, out, room))
        })
    });
    odd(tally, "write", "samples at an odd address", &pcm, |pcm| {
        filled(|out, room| unsafe { answered(postlapse_write_wave(channels, RATE, pcm, count, out, room)) })
    });

    let stream = random_stream(random);
    let (file, size) = (stream.as_ptr(), stream.len());
    let places: Vec<i16> = (0..2 * 200).map(|_| random.sample()).collect();
    for room in [0, random.below(400), 400] {
        odd(tally, "decode", "output at an odd address", &places, |out| {
            (header_answered(unsafe { postlapse_decode(file, size, out, room) }), bytes_at(out, 400))
        });
        odd(tally, "load samples", "output at an odd address", &places, |out| {
            (answered(unsafe { postlapse_load_samples(file, size, out, room) }), bytes_at(out, 400))
        });
    }

    let (version, count) = (1 + random.below(3) as u8, random.below(66));
    let bytes = fragment_bytes(random, version, variant);
    let (fragment, size) = (bytes.as_ptr(), bytes.len());
    let state = State { predictor: random.sample() as i32, index: random.below(90) };
    odd(tally, "fragment", "output at an odd address", &places, |out| unsafe {
        let State { predictor, index } = state;
        let answer = postlapse_decode_fragment(version, variant, predictor, index, fragment, size, out, count);
        (fragment_answered(answer), bytes_at(out, 400))
    });
    odd(tally, "fragment lent", "output at an odd address", &places, |out| unsafe {
        let mut state = state;
        let answer = postlapse_decode_fragment_lent(version, variant, &mut state, fragment, size, out, count);
        (with_state(answered(answer), state), bytes_at(out, 400))
    });
    odd(tally, "fragment lent", "state not aligned", &[state], |state| unsafe {
        let mut out = places.clone();
        let to = out.as_mut_ptr();
        let answer = postlapse_decode_fragment_lent(version, variant, state, fragment, size, to, count);
        (with_state(answered(answer), state.read_unaligned()), bytes_at(to, 400))
    });
}

fn with_state(mut numbers: Numbers, state: State) -> Numbers {
    numbers[4..6].copy_from_slice(&[state.predictor as i64, state.index as i64]);
    numbers
}

/// Null for each pointer whose length is 0.
pub fn nulls(tally: &mut Tally, _: &mut Random) {
    let stream = lists::case_3();
    let (file, size) = (stream.as_ptr(), stream.len());
    let empty = lists::header(3, crate::Variant::H, 2, 0);
    let pcm = [1000i16, -1000];
    let mut state = State { predictor: 5, index: 6 };
    let kept = &raw mut state;
    let only = |numbers| (numbers, Vec::new());
    unsafe {
        none(tally, "encode", "null for no samples", |pcm| {
            filled(|out, room| answered(postlapse_encode(pcm, 0, 1, RATE, 0, 255, out, room)))
        });
        none(tally, "encode", "null for no output", |out| {
            only(answered(postlapse_encode(pcm.as_ptr(), 2, 1, RATE, 0, 255, out, 0)))
        });
        none(tally, "inspect", "null for no file", |file| only(header_answered(postlapse_inspect(file, 0))));
        none(tally, "decode", "null for no file", |file| {
            let mut out = [0; 8];
            only(header_answered(postlapse_decode(file, 0, out.as_mut_ptr(), 8)))
        });
        none(tally, "decode", "null for no output", |out| {
            only(header_answered(postlapse_decode(file, size, out, 0)))
        });
        none(tally, "decode", "null for no output, no samples", |out| {
            only(header_answered(postlapse_decode(empty.as_ptr(), empty.len(), out, 0)))
        });
        for version in 0..=3 {
            let bytes = [7; 34];
            let size = if version == 3 { 34 } else { 33 };
            none(tally, "fragment", "null for no fragment", |fragment| {
                let mut out = [0; 63];
                let to = out.as_mut_ptr();
                only(fragment_answered(postlapse_decode_fragment(version, 0, 5, 6, fragment, 0, to, 63)))
            });
            none(tally, "fragment", "null for no output", |out| {
                only(fragment_answered(postlapse_decode_fragment(version, 0, 5, 6, bytes.as_ptr(), size, out, 0)))
            });
            none(tally, "fragment lent", "null for no fragment", |fragment| {
                let mut out = [0; 63];
                let to = out.as_mut_ptr();
                let answer = postlapse_decode_fragment_lent(version, 0, kept, fragment, 0, to, 63);
                only(with_state(answered(answer), *kept))
            });
            none(tally, "fragment lent", "null for no output", |out| {
                let answer = postlapse_decode_fragment_lent(version, 0, kept, bytes.as_ptr(), size, out, 0);
                only(with_state(answered(answer), *kept))
            });
        }
        none(tally, "read", "null for no file", |file| only(wave_answered(postlapse_read_wave(file, 0))));
        none(tally, "read strict", "null for no file", |file| {
            only(wave_answered(postlapse_read_strict_wave(file, 0)))
        });
        none(tally, "load samples", "null for no bytes", |bytes| {
            let mut out = [0; 8];
            only(answered(postlapse_load_samples(bytes, 0, out.as_mut_ptr(), 8)))
        });
        none(tally, "load samples", "null for no output", |out| {
            only(answered(postlapse_load_samples(file, size, out, 0)))
        });
        none(tally, "load samples", "null for no output, no bytes", |out| {
            only(answered(postlapse_load_samples(file, 0, out, 0)))
        });
        none(tally, "write", "null for no samples", |samples| {
            filled(|out, room| answered(postlapse_write_wave(1, RATE, samples, 0, out, room)))
        });
        none(tally, "write", "null for no output", |out| {
            only(answered(postlapse_write_wave(1, RATE, pcm.as_ptr(), 2, out, 0)))
        });
    }
}
