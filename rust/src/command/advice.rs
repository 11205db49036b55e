//! What to do about a refusal, by what the file looks like. Nothing is decided here: the refusal stands already.
use postlapse::Refusal;

/// The refusal of a file that should have been a WAV, in words.
pub fn not_encoded(refusal: Refusal, file: &[u8]) -> String {
    let format = format_of(file);
    let mend = format.as_ref().map(anew).unwrap_or_default();
    let Format { encoding, channels, bits, .. } = format.unwrap_or_default();
    match refusal {
        Refusal::NotWave => not_a_wave(file),
        Refusal::RiffEnd if is_from_a_pipe(file) => {
            let two = if channels > 2 { " -c 2" } else { "" };
            format!(
                "the WAV was written to a pipe, so that its header does not say how long it is: write it to a file, or try sox \
                 --ignore-length IN.wav -b 16{two} OUT.wav"
            )
        }
        Refusal::Encoding => {
            let kind = match encoding {
                1 => format!("has {bits} bits a sample"),
                3 => "has floating-point samples".into(),
                6 => "has A-law samples".into(),
                7 => "has mu-law samples".into(),
                0xfffe => format!("has an EXTENSIBLE header (channels: {channels}, bits: {bits})"),
                _ => format!("has the encoding {encoding}"),
            };
            // Of other sizes of samples sox makes a WAV without sound.
            let mend = if encoding == 1 && ![8, 24, 32].contains(&bits) { "" } else { &mend };
            format!("the WAV {kind}, and plain 16-bit PCM is taken{mend}")
        }
        Refusal::WaveChannels if channels == 0 => "the WAV's header says 0 channels: the file is damaged".into(),
        Refusal::WaveChannels => format!("the WAV has {channels} channels, and 1 or 2 are taken{mend}"),
        Refusal::RiffEnd
        | Refusal::ChunkHeader
        | Refusal::ChunkEnd
        | Refusal::DataChunk
        | Refusal::Inconsistent
        | Refusal::PartialFrame => format!("{refusal}{mend}"),
        Refusal::FormatChunk | Refusal::NoFormat => format!("{refusal}: the file is damaged"),
        _ => refusal.to_string(),
    }
}

/// The refusal of strict reading in words.
pub fn not_strict(refusal: Refusal, file: &[u8]) -> String {
    let format = format_of(file).unwrap_or_default();
    let words = match refusal {
        Refusal::NotWave if file.starts_with(b"SQV4") => {
            return "this is an SQV4 file, not a WAV file; postlapse check without --strict reads it".into();
        }
        Refusal::StrictFormat => {
            format!(
                "the WAV's fmt chunk has {} bytes, and strict reading takes 16 or 18 (encode takes it)",
                format.size
            )
        }
        Refusal::StrictOrder => format!("{refusal}, and strict reading takes data behind fmt (encode takes it)"),
        Refusal::StrictEnd => {
            let end = field(file, 4, 4).unwrap_or_default() as usize + 8;
            let more = file.len() - end;
            format!(
                "the WAV ends at byte {end} by its header, and the {more} behind it strict reading refuses (encode leaves them out)"
            )
        }
        _ => return not_encoded(refusal, file),
    };
    words + &anew(&format)
}

/// What makes a WAV of the same sound that is taken. sox reads no fmt chunk of an odd size, none behind the data, and few encodings;
/// ffmpeg does, but writes a header that is refused where the rate is above 48 kHz.
fn anew(format: &Format) -> String {
    let (sox, ffmpeg) = if format.channels > 2 { (" -c 2", " -ac 2") } else { ("", "") };
    let encoded = matches!(format.encoding, 1 | 2 | 3 | 6 | 7 | 17 | 0xfffe);
    if encoded && format.size % 2 == 0 && !format.behind_data {
        format!("; try sox IN.wav -b 16{sox} OUT.wav")
    } else if format.rate > 48000 {
        format!("; try ffmpeg -i IN.wav -f au - | sox -t au - -b 16{sox} OUT.wav")
    } else {
        format!("; try ffmpeg -i IN.wav{ffmpeg} -c:a pcm_s16le OUT.wav")
    }
}

/// The refusal of a file that should have been a stream, in words.
pub fn not_a_stream(refusal: Refusal, file: &[u8]) -> String {
    if file.is_empty() {
        return "the file is empty".into();
    }
    match refusal {
        Refusal::TruncatedHeader | Refusal::InvalidMagic
            if file.starts_with(b"RIFF") && file.get(8..12).is_none_or(|form| form == b"WAVE") =>
        {
            "this is a WAV file, not an SQV4 file; postlapse encode makes one of it, and check --strict looks at it"
                .into()
        }
        _ => refusal.to_string(),
    }
}

/// What the sound of a stream, decoded, cannot be written as.
pub fn not_written(refusal: Refusal) -> String {
    match refusal {
        Refusal::DataSize | Refusal::RiffSize => format!("{refusal}; decode one channel at a time, with -c"),
        _ => refusal.to_string(),
    }
}

fn not_a_wave(file: &[u8]) -> String {
    let begins = |letters: &[u8]| file.starts_with(letters);
    let kind = match file {
        [] => return "the file is empty".into(),
        _ if begins(b"SQV4") => return "this is an SQV4 file already; postlapse decode makes a WAV of it".into(),
        _ if begins(b"RF64") || begins(b"BW64") => "an RF64 file, a WAV for over 4 GB",
        _ if begins(b"RIFX") => "a RIFX file, a WAV with its bytes the other way around",
        _ if begins(b"RIFF") => "a RIFF file without sound of its own, or cut",
        _ if begins(b"ID3") || matches!(file, [0xff, second, ..] if second & 0xe0 == 0xe0) => "an MP3 file",
        _ if begins(b"OggS") => "an Ogg file",
        _ if begins(b"fLaC") => "a FLAC file",
        _ if begins(b"FORM") => "an AIFF file",
        _ if file.get(4..8) == Some(b"ftyp") => "an MP4 file",
        _ => return "this is not a WAV file; of most other sound files ffmpeg -i IN OUT.wav makes one".into(),
    };
    format!("this is {kind}, not a plain WAV file; try ffmpeg -i IN -c:a pcm_s16le OUT.wav")
}

/// Programs that cannot go back to the header leave a length of 0 or the largest there.
fn is_from_a_pipe(file: &[u8]) -> bool {
    matches!(field(file, 4, 4), Some(0 | 0x7fff_0000..=0x8000_ffff | 0xffff_0000..))
}

#[derive(Default)]
struct Format {
    behind_data: bool,
    size: u32,
    encoding: u32,
    channels: u32,
    rate: u32,
    bits: u32,
}

/// The first fmt chunk, where there is one.
fn format_of(file: &[u8]) -> Option<Format> {
    let (mut at, mut behind_data) = (12, false);
    while file.get(at..at + 4)? != b"fmt " {
        behind_data |= file[at..].starts_with(b"data");
        let size = field(file, at + 4, 4)? as usize;
        at += 8 + size + size % 2;
    }
    let read = |offset, size| field(file, at + offset, size);
    Some(Format {
        behind_data,
        size: read(4, 4)?,
        encoding: read(8, 2)?,
        channels: read(10, 2)?,
        rate: read(12, 4)?,
        bits: read(22, 2)?,
    })
}

fn field(file: &[u8], at: usize, size: usize) -> Option<u32> {
    let bytes = file.get(at..at + size)?;
    Some(bytes.iter().rev().fold(0, |n, byte| n << 8 | u32::from(*byte)))
}
