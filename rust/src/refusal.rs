//! What a call refuses: the table of include/postlapse.h.
use std::fmt;

/// The cases with their numbers and words, in the table's order. The names are the reference's where it has the cause.
macro_rules! table {
    ($($number:literal $name:ident $(($byte:ident: $b:ty))? $({ $one:ident: $o:ty, $two:ident: $t:ty })? $words:literal;)*) => {
        /// Why a call refuses: its number in the table of include/postlapse.h, the numbers returned with it, and words.
        #[derive(Debug, Clone, Copy, PartialEq, Eq, Hash)]
        #[non_exhaustive]
        pub enum Refusal {
            $(#[doc = $words] #[allow(missing_docs)] $name $(($b))? $({ $one: $o, $two: $t })?,)*
        }

        impl Refusal {
            /// The number in the table.
            pub fn number(&self) -> usize {
                match *self {
                    $(Refusal::$name { .. } => $number,)*
                }
            }

            /// The numbers returned with it: none, one or two.
            pub fn numbers(&self) -> Vec<usize> {
                match *self {
                    $(Refusal::$name $(($byte))? $({ $one, $two })? => vec![$($byte as usize)? $($one as usize, $two as usize)?],)*
                }
            }

            /// The refusal that an answer of the library names.
            pub(crate) fn named(number: usize, first: usize, second: usize) -> Refusal {
                let _ = second;
                match number {
                    $($number => Refusal::$name $((first as $b))? $({ $one: first as $o, $two: second as $t })?,)*
                    _ => panic!("libpostlapse.a is of another version: it refuses with {number}"),
                }
            }
        }

        impl fmt::Display for Refusal {
            fn fmt(&self, f: &mut fmt::Formatter<'_>) -> fmt::Result {
                match *self {
                    $(Refusal::$name $(($byte))? $({ $one, $two })? => write!(f, $words),)*
                }
            }
        }
    };
}

table! {
    1 InvalidChannels(count: u8) "the channel count is {count}; an SQV4 file has 1 or 2";
    2 ZeroSampleRate "the sample rate is 0";
    3 MisalignedInterleavedSamples "the number of samples is odd, and stereo takes pairs";
    4 TooManySamples "there are more than 4,294,967,295 samples a channel";
    5 TruncatedHeader "the file is too short for an SQV4 file, which has at least 16 bytes";
    6 InvalidMagic "this is not an SQV4 file: it does not begin with the letters SQV4";
    7 UnsupportedVersion(byte: u8) "the version is {byte}; versions 1, 2 and 3 are known";
    8 InvalidVariant(byte: u8) "the variant is {byte}; 0 (H), 1 (L) and 2 (L+) are known";
    9 InvalidReservedByte(byte: u8) "the header's reserved byte is {byte} and should be 0: the file is damaged";
    10 InvalidFileLength { expected: usize, actual: usize }
        "the file should have {expected} bytes by its header and has {actual}: it was cut, or something was added";
    11 InvalidStepIndex(byte: u8) "a fragment has index {byte}, and the highest is 88: the file is damaged";
    12 NonZeroPadding "bits after the last sample of a fragment are not zero: the file is damaged";
    13 OutputTooShort(needed: usize) "the output is too short: {needed} places are needed";
    14 InvalidFragment "the fragment has not its exact size, or the output is too long for it";
    15 InvalidState "the state has a predictor outside 16 bits or an index above 88";
    20 NotWave "this is not a WAV file";
    21 RiffEnd "the WAV is not as long as its header says: it was cut, or written to a pipe";
    22 ChunkHeader "there are stray bytes behind the last chunk of the WAV";
    23 ChunkEnd "a chunk of the WAV reaches past its end: the file was cut or is damaged";
    24 FormatChunk "the WAV has two fmt chunks, or one that is too short";
    25 DataChunk "the WAV has two data chunks";
    26 NoFormat "the WAV has no fmt chunk, so nothing says what its sound is";
    27 Encoding "the WAV is not plain 16-bit PCM";
    28 WaveChannels "the WAV is neither mono nor stereo";
    29 ZeroWaveRate "the WAV's header says a sample rate of 0: the file is damaged";
    30 ByteRate "the WAV's header says a sample rate that is too high: the file is damaged";
    31 Inconsistent "the WAV's header contradicts itself in its byte rate or block size";
    32 NoData "the WAV has no data chunk: there is no sound in it";
    33 PartialFrame "the WAV's sound ends within a sample or between left and right";
    34 WriterChannels "a WAV file has 1 or 2 channels here";
    35 DataSize "the samples are too many for a WAV file, which holds 4,294,967,295 bytes of them at most";
    36 RiffSize "the samples are too many for a WAV file, whose length is counted in 32 bits";
    37 WriterByteRate "the sample rate is too high for a WAV file, whose bytes a second are counted in 32 bits";
    40 StrictFormat "the WAV's fmt chunk is neither 16 nor 18 bytes long";
    41 StrictOrder "the WAV's data stands before its fmt chunk";
    42 StrictEnd "there are bytes after the end that the WAV's header says";
}

impl std::error::Error for Refusal {}
