//! Postlapse: the SQV4 voice codec for lift modules and 16-bit WAV files, as safe Rust over the proved calls of `libpostlapse.a`.
//!
//! [`sqv4`] and [`wav`] have the names and shapes of the reference's modules (src3453/src32): who used those changes a `use`.
//! `use cpt32::devices::sgu::sqv4;` becomes `use postlapse::sqv4;`, and `use cpt32::wav::read_pcm16_wave;` becomes
//! `use postlapse::wav::read_pcm16_wave;`. Their two errors are one type here, [`Refusal`], with more cases and without `SizeOverflow`.
//!
//! ```
//! use postlapse::{decode, encode_interleaved, Refusal, Variant};
//!
//! let stream = encode_interleaved(&[1000; 8000], 1, 8000, Variant::H, 255)?;
//! let sound = decode(&stream)?;
//! assert_eq!((sound.channels, sound.sample_rate, sound.samples.len()), (1, 8000, 8000));
//!
//! let cut = decode(&stream[..stream.len() - 1]);
//! let expected = stream.len();
//! assert_eq!(cut, Err(Refusal::InvalidFileLength { expected, actual: expected - 1 }));
//! # Ok::<(), Refusal>(())
//! ```
#![deny(unsafe_code)]
#![warn(missing_docs)]

/// The calls for C as they are: outputs are lent, and answers are structs. All that is unsafe in this library stands here.
#[allow(unsafe_code, missing_docs, clippy::too_many_arguments)]
pub mod raw;

mod refusal;
pub mod sqv4;
pub mod wav;

pub use refusal::Refusal;
pub use sqv4::{decode, encode_interleaved, inspect, DecodedAudio, FragmentPlayer, Header, Variant};
pub use wav::{read_pcm16_wave, read_strict_pcm16_wave, strict_info, write_pcm16_wave, PcmWave, WaveInfo};

/// The library's version as a number, 10000 for 1.0.0.
pub fn library_version() -> u32 {
    raw::version()
}
