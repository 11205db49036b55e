//! Every refusal of every call but 4, 35 and 36, which take 4 GB: inputs on both sides of its bound, and inputs with two causes, which
//! show the order of the checks. A comment in the list says which is which. The WAV reader's own order is in the list `waves`, that of
//! inspection in `headers`.

use super::*;

pub fn list() -> String {
    [encoding(), inspection(), decoding(), playing(), reading(), strict_reading(), loading(), writing()].concat()
}

/// A comment, and a line for each input.
fn remarked<T: AsRef<str>>(says: &str, lines: impl IntoIterator<Item = T>) -> String {
    let lines: String = lines.into_iter().map(|line| format!("{}\n", line.as_ref())).collect();
    format!("# {says}\n{lines}")
}

/// The same call without room, with one place less than the result needs, and with those that it needs.
fn in_rooms(call: &str, needed: usize) -> Vec<String> {
    let mut rooms = vec![0, needed.saturating_sub(1), needed];
    rooms.dedup();
    rooms.iter().map(|room| format!("room {room} {call}")).collect()
}

fn encoding() -> String {
    let ones =
        ["encode H 255 1 8000 7", "encode H 255 2 8000 7 -7", "encode H 255 0 8000 7", "encode H 255 3 8000 7"];
    let seconds =
        ["encode H 255 1 1 7", "encode H 255 1 4294967295 7", "encode H 255 1 0 7", "encode H 255 2 0 7 -7"];
    let thirds = ["encode H 255 1 8000 7 -7 7", "encode H 255 2 8000 7 -7 7 -7", "encode H 255 2 8000 7 -7 7"];
    [
        remarked("encode: 8", ["encode L+ 255 1 8000 7", "encode 3 255 1 8000 7", "encode 255 255 1 8000 7"]),
        remarked("encode: 8 before 1, 2, 3", ["3 255 0 8000 7", "3 255 1 0 7", "3 255 2 8000 7"].map(encode)),
        remarked("encode: 8 before 13", ["room 0 encode 3 255 1 8000 7"]),
        remarked("encode: 1", ones.iter().chain(&["encode H 255 255 8000 7"])),
        remarked("encode: 1 before 2", ["H 255 0 0 7", "H 255 3 0 7"].map(encode)),
        remarked("encode: 1 before 13", ["room 0 encode H 255 3 8000 7"]),
        remarked("encode: 2", seconds),
        remarked("encode: 2 before 3, 13", ["encode H 255 2 0 7", "room 0 encode H 255 1 0 7"]),
        remarked("encode: 3", thirds),
        remarked("encode: 3 before 13", ["room 0 encode H 255 2 8000 7"]),
        remarked("encode: 13", encoding_rooms()),
        remarked("encode: a fragment at index 88", ["encode H 255 1 8000 741 -1652"]),
    ]
    .concat()
}

fn encode(words: &str) -> String {
    format!("encode {words}")
}

/// No samples, one a channel, and one more than a frame.
fn encoding_rooms() -> Vec<String> {
    let mut random = Random::new();
    let mut lines = Vec::new();
    for variant in VARIANTS {
        for channels in 1..=2 {
            for length in [0, 1, frame_samples(3) + 1] {
                let signals: Vec<_> = (0..channels).map(|_| signal(&mut random, length)).collect();
                let call = encode_line(variant, 255, channels, RATE, &interleaved(&signals));
                let fragments = length.div_ceil(frame_samples(3)) * channels as usize;
                lines.extend(in_rooms(call.trim_end(), 16 + fragments * fragment_size(3, variant)));
            }
        }
    }
    lines
}

/// The same bytes put to two calls.
fn twice(first: &str, second: &str, says: &str, inputs: Vec<Vec<u8>>) -> String {
    let lines = |call: &str| inputs.iter().map(|bytes| format!("{call} {}", hex(bytes))).collect::<Vec<_>>();
    remarked(&format!("{first}: {says}"), lines(first)) + &remarked(&format!("{second}: the same"), lines(second))
}

fn both(says: &str, streams: Vec<Vec<u8>>) -> String {
    twice("inspect", "decode", says, streams)
}

fn inspection() -> String {
    let (good, empty) = (case_3(), header(3, Variant::H, 1, 0));
    let at = |place: usize, values: &[u8]| values.iter().map(|&value| changed(&empty, place, value)).collect();
    let letters = [b"SQV4", b"sQV4", b"SqV4", b"SQv4", b"SQV5"];
    [
        both("5, and what has 16 bytes", [0, 15, 16].map(|length| good[..length].to_vec()).to_vec()),
        both("6", letters.map(|letters| [&letters[..], &empty[4..]].concat()).to_vec()),
        both("7 but for 1 to 3", at(4, &[0, 1, 2, 3, 4, 255])),
        both("8 but for 0 to 2", at(5, &[0, 1, 2, 3, 255])),
        both("1 but for 1 and 2", at(6, &[0, 1, 2, 3, 255])),
        both("9 but for 0", at(7, &[0, 1, 255])),
        both("2 but for 1", at(8, &[0, 1]).into_iter().map(|bytes| changed(&bytes, 9, 0)).collect()),
        both("10, but for the second of four", lengths_around()),
        both("11 above 88, in both channels", indexes()),
        both("12 for the second and the third of three, but for full frames of versions 1 and 2", paddings()),
    ]
    .concat()
}

/// For each version, mono and stereo: a byte less, the length, a byte more; and as many samples as the fragments hold, and one more.
fn lengths_around() -> Vec<Vec<u8>> {
    let mut random = Random::new();
    let mut streams = Vec::new();
    for version in 1..=3 {
        for channels in 1..=2 {
            let full = random_stream(&mut random, version, Variant::L, channels, frame_samples(version));
            let more = [&full[..], &[0]].concat();
            let over = changed(&full, 12, frame_samples(version) as u8 + 1);
            streams.extend([full[..full.len() - 1].to_vec(), full, more, over]);
        }
    }
    streams
}

/// In version 2 the same byte is codes.
fn indexes() -> Vec<Vec<u8>> {
    let mut random = Random::new();
    let (mono, stereo) =
        (random_stream(&mut random, 3, Variant::H, 1, 2), random_stream(&mut random, 3, Variant::H, 2, 2));
    let older = random_stream(&mut random, 2, Variant::H, 1, 2);
    let mut streams: Vec<_> = [0, 88, 89, 255].iter().map(|&index| changed(&mono, 17, index)).collect();
    streams.extend([17, 51].iter().flat_map(|&at| [88, 89].map(|index| changed(&stereo, at, index))));
    streams.push(changed(&older, 17, 89));
    streams
}

/// Fragments with their last used bit set, with the first unused one, and with the last of all.
fn paddings() -> Vec<Vec<u8>> {
    let mut streams = Vec::new();
    for version in 1..=3 {
        for variant in VARIANTS {
            for count in [1, frame_samples(version)] {
                let mut good = header(version, variant, 1, count);
                good.resize(16 + fragment_size(version, variant), 0);
                let codes = 16 + prefix(version);
                let (used, all) = (count * variant.bits(), (good.len() - codes) * 8);
                for bit in [used - 1, used.min(all - 1), all - 1] {
                    streams.push(changed(&good, codes + bit / 8, 1 << (bit % 8)));
                }
            }
        }
    }
    streams
}

fn decoding() -> String {
    let good = case_3();
    let decode = |bytes: Vec<u8>| format!("decode {}", hex(&bytes));
    let refused: Vec<_> = DAMAGES.iter().map(|damage| decode(damaged_by(*damage, &good))).collect();
    [
        remarked("decode: each two of 5 to 12 as in inspection", pairs(&good).into_iter().map(decode)),
        remarked("decode: 5 to 12 before 13", refused.iter().map(|call| format!("room 0 {call}"))),
        remarked("decode: 13", decoding_rooms()),
    ]
    .concat()
}

/// No samples, one a channel, and one more than a frame.
fn decoding_rooms() -> Vec<String> {
    let mut random = Random::new();
    let mut lines = Vec::new();
    for version in 1..=3 {
        for channels in 1..=2 {
            for length in [0, 1, frame_samples(version) + 1] {
                let variant = VARIANTS[random.below(3)];
                let stream = random_stream(&mut random, version, variant, channels, length);
                lines.extend(in_rooms(&format!("decode {}", hex(&stream)), length * channels as usize));
            }
        }
    }
    lines
}

/// Calls of the fragment decoder. All bytes of a fragment are 7.
fn playing() -> String {
    let line = |version: u8, variant: &str, predictor: i32, index: usize, count: usize, size: usize| {
        format!("fragment {version} {variant} {predictor} {index} {count} {}", hex(&vec![7; size]))
    };
    let (mut wrong_sizes, mut wrong_counts, mut outside, mut any) = (vec![], vec![], vec![], vec![]);
    let ends = [-32769, -32768, 32767, 32768, i32::MIN, i32::MAX].map(|predictor| (predictor, 0));
    let steps = [88, 89, 256, 1 << 32, usize::MAX].map(|index| (-5, index));
    for version in 1..=3 {
        for variant in VARIANTS {
            let (word, size, most) = (name(variant), fragment_size(version, variant), frame_samples(version));
            let sizes = [0, 1, size - 1, size, size + 1, size + 256];
            wrong_sizes.extend(sizes.map(|size| line(version, word, 5, 7, 2, size)));
            wrong_counts.extend([0, most, most + 1, 255].map(|count| line(version, word, 5, 7, count, size)));
            let states = if version == 3 { &mut any } else { &mut outside };
            for (predictor, index) in ends.into_iter().chain(steps) {
                states.push(line(version, word, predictor, index, 2, size));
            }
        }
    }
    let versions = [0, 4, 255].iter().flat_map(|&version| [33, 34].map(|size| line(version, "H", 5, 7, 2, size)));
    let sevenths = [line(0, "H", 5, 7, 2, 3), line(4, "H", 5, 7, 65, 34), line(255, "H", -32769, 89, 2, 34)];
    let eighths = [line(0, "3", 5, 7, 2, 34), line(3, "3", 5, 7, 2, 3), line(2, "255", -32769, 89, 2, 33)];
    let both = [line(1, "H", -32769, 7, 2, 34), line(2, "L", 5, 89, 65, 25), line(2, "L+", 32768, 89, 65, 26)];
    [
        remarked("fragment: 8", ["L+", "3", "255"].map(|word| line(3, word, 5, 7, 2, 26))),
        remarked("fragment: 8 before 7, 14, 15", eighths),
        remarked("fragment: 7, at both sizes", versions),
        remarked("fragment: 7 before 14, 15", sevenths),
        remarked("fragment: 14 but for the fourth of six sizes", wrong_sizes),
        remarked("fragment: 14 for the third and the fourth of four counts", wrong_counts),
        remarked("fragment: 14 before 15", both),
        remarked("fragment: 15 but for predictors of 16 bits and index 88", outside),
        remarked("fragment: version 3 takes any state", any),
    ]
    .concat()
}

fn readers(says: &str, files: Vec<Vec<u8>>) -> String {
    twice("strict", "wav", says, files)
}

fn reading() -> String {
    readers("20 to 33", unreadable()) + &readers("30, but for the first and the third", rates_around())
}

/// 40 to 42: files that plain reading accepts, and what it refuses beside them.
fn strict_reading() -> String {
    let (mono, data, odd) = (&format_chunk(MONO)[..], &chunk("data", &TWO)[..], &chunk("odd ", b"odd")[..]);
    let (long, partial) = (&chunk("fmt ", &format_bytes(MONO, 20))[..], &chunk("data", &TWO[..3])[..]);
    let sized = |size| wave(&[&chunk("fmt ", &format_bytes(MONO, size)), data]);
    let behind = |file: Vec<u8>, more: &[u8]| [&file[..], more].concat();
    let good = wave(&[mono, data]);
    [
        readers("40 but for 16 and 18", [16, 17, 18, 19, 20, 40].map(sized).to_vec()),
        readers(
            "41 where data comes first",
            vec![
                good.clone(),
                wave(&[data, mono]),
                wave(&[odd, mono, odd, data, odd]),
                wave(&[odd, data, odd, mono, odd]),
            ],
        ),
        readers("42 but for the first", [&b""[..], b"?", odd].map(|more| behind(good.clone(), more)).to_vec()),
        readers("40 before 41, 42", vec![wave(&[data, long]), behind(wave(&[long, data]), b"?")]),
        readers("41 before 42", vec![behind(wave(&[data, mono]), b"?")]),
        readers(
            "26, 32 and 33 before 40, 41, 42",
            vec![
                behind(wave(&[data]), b"?"),
                wave(&[long]),
                wave(&[long, partial]),
                wave(&[partial, mono]),
                behind(wave(&[mono, partial]), b"?"),
            ],
        ),
    ]
    .concat()
}

/// Bytes with and without an odd one.
fn loading() -> String {
    let bytes = [1, 128, 255, 127, 3];
    remarked("load: 13", (0..=5).flat_map(|length| in_rooms(&format!("load {}", hex(&bytes[..length])), length / 2)))
}

fn writing() -> String {
    let (mono, stereo) = (u32::MAX / 2, u32::MAX / 4);
    let counts = [0, 1, 2, 3, 255].map(|channels| format!("write {channels} 8000 7 -7"));
    let rates = [(1, 0), (1, mono), (1, mono + 1), (2, stereo), (2, stereo + 1)];
    let samples = [(1, &[][..]), (1, &[7]), (2, &[7]), (2, &[7, -7]), (1, &[7, -7, 7])];
    let rooms = samples.map(|(channels, samples)| {
        in_rooms(&format!("write {channels} 8000{}", words::<i32>(samples)), 44 + 2 * samples.len())
    });
    [
        remarked("write: 34", counts),
        remarked("write: 34 before 37, 13", ["write 3 4294967295 7", "room 0 write 3 8000 7"]),
        remarked("write: 37", rates.map(|(channels, rate)| format!("write {channels} {rate} 7 -7"))),
        remarked("write: 37 before 13", ["room 0 write 1 2147483648 7", "room 0 write 2 1073741824 7 -7"]),
        remarked("write: 13", rooms.concat()),
    ]
    .concat()
}

/// A short result and a short refusal of every kind, of which `record wrong` makes wrong answers.
pub fn short() -> String {
    let (empty, longer) = (hex(&header(3, Variant::H, 1, 0)), hex(&header(3, Variant::H, 1, 1)));
    let (mono, data) = (&format_chunk(MONO)[..], &chunk("data", &TWO[..2])[..]);
    let (plain, exchanged) = (hex(&wave(&[mono, data])), hex(&wave(&[data, mono])));
    let (stream, none) = (short_hex(&case_3()), hex(&to_convert(0, 255, &sound(MONO, &[]))));
    remarked(
        "a result and a refusal of each kind",
        [
            "encode H 255 1 8000".to_string(),
            "encode H 255 3 8000".to_string(),
            format!("inspect {empty}"),
            format!("inspect {longer}"),
            format!("decode {stream}"),
            format!("room 0 decode {stream}"),
            format!("fragment 2 H -5 7 1 {}", short_hex(&changed(&[255; 33], 1, 7))),
            "fragment 4 H -5 7 1 -".to_string(),
            format!("wav {plain}"),
            "wav -".to_string(),
            format!("strict {plain}"),
            format!("strict {exchanged}"),
            "load 0180".to_string(),
            "room 0 load 0180".to_string(),
            "write 1 8000 7".to_string(),
            "write 3 8000 7".to_string(),
            format!("converter {none}"),
            "converter 03ff".to_string(),
            format!("inspector {empty}"),
            format!("inspector {longer}"),
        ],
    )
}
