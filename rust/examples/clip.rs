//! A short tone: encoded, inspected, decoded, one fragment decoded by hand, and the sound written as a WAV file and read back. It uses the
//! package in rust/, and its module `raw` for what a caller in C sees too. Prints what the calls answer; the exit status is 1 where an
//! answer is not the expected one.
use postlapse::raw::{self, State};
use postlapse::{FragmentPlayer, Refusal, Variant};

const COUNT: usize = 126;
const FRAGMENT: usize = 34;
const H: u8 = Variant::H as u8;

/// A triangle of 32 samples a turn, up to 8000 either way.
fn tone(i: usize) -> i16 {
    let t = (i % 32) as i16;
    if t < 16 {
        -8000 + 1000 * t
    } else {
        8000 - 1000 * (t - 16)
    }
}

fn main() -> Result<(), Refusal> {
    let mut failed = false;
    let mut expect = |holds: bool, what: &str| {
        if !holds {
            println!("wrong: {what}");
            failed = true;
        }
    };
    let pcm: Vec<i16> = (0..COUNT).map(tone).collect();

    let asked = raw::encode(&pcm, 1, 8000, H, 255, &mut []);
    println!("room 0: refused {}, needed {}", asked.refusal, asked.first);
    expect(asked.refusal == 13 && asked.first == 16 + 2 * FRAGMENT, "the length needed");

    let stream = postlapse::encode_interleaved(&pcm, 1, 8000, Variant::H, 255)?;
    println!("encoded: {} bytes", stream.len());
    expect(stream.len() == asked.first, "the encoding");

    let h = postlapse::inspect(&stream)?;
    println!(
        "header: version {} variant {} channels {} rate {} samples {}",
        h.version, h.variant as u8, h.channels, h.sample_rate, h.samples_per_channel
    );
    let header = (h.version, h.variant, h.channels, h.sample_rate, h.samples_per_channel);
    expect(header == (3, Variant::H, 1, 8000, COUNT), "the header");

    let cut = postlapse::inspect(&stream[..stream.len() - 1]).unwrap_err();
    println!("a byte short: refused {}, expected {}, actual {}", cut.number(), cut.numbers()[0], cut.numbers()[1]);
    expect(cut == Refusal::InvalidFileLength { expected: stream.len(), actual: stream.len() - 1 }, "the refusal");

    let sound = postlapse::decode(&stream)?.samples;
    let far = pcm.iter().zip(&sound).map(|(a, b)| a.abs_diff(*b)).max().unwrap_or(0);
    println!("decoded: {} samples, at most {far} away", sound.len());
    expect(sound.len() == COUNT && far < 1000, "the sound");

    // the second frame by hand: a fragment of version 3 needs nothing that came before
    let fragment = &stream[16 + FRAGMENT..];
    let mut part = [0i16; 63];
    let played = raw::decode_fragment(3, H, State { predictor: 5, index: 6 }, fragment, &mut part);
    println!("fragment: {} samples, state {} {}", played.first, played.predictor, played.index);
    expect((played.refusal, played.first, played.predictor, played.index) == (0, 63, 5, 6), "the fragment");
    expect(part == sound[63..], "the fragment's samples");

    // the same bytes as a fragment of version 2, which goes on from a state and has no index byte: the state moves
    let fragment = &fragment[..FRAGMENT - 1];
    let mut player = FragmentPlayer::new(2, Variant::H);
    player.play(fragment, &mut part)?;
    let played = raw::decode_fragment(2, H, State { predictor: 0, index: 0 }, fragment, &mut part);
    println!("version 2: {} samples, state {} {}", part.len(), player.state().predictor, player.state().index);
    expect(played.refusal == 0 && played.first == 63, "the fragment of version 2");
    expect(player.state() == State { predictor: played.predictor, index: played.index }, "the state");
    let before = player.state();
    let mut state = before;
    let refused = raw::decode_fragment_lent(2, 3, &mut state, fragment, &mut part);
    println!("variant 3: refused {}, byte {}", refused.refusal, refused.first);
    expect((refused.refusal, refused.first) == (8, 3), "the refusal of a variant");
    expect(state == before, "the state after a refusal");

    let wave = postlapse::write_pcm16_wave(1, 8000, &sound)?;
    let read = raw::read_strict_wave(&wave);
    println!(
        "wave: {} bytes, {} channels, rate {}, samples in {} bytes from {}",
        wave.len(),
        read.channels,
        read.rate,
        read.size,
        read.start
    );
    expect((read.refusal, read.channels, read.rate, read.start) == (0, 1, 8000, 44), "the WAV file");
    expect(postlapse::read_pcm16_wave(&wave)?.samples == sound, "the WAV file's samples");
    expect(postlapse::read_pcm16_wave(&wave[..11]) == Err(Refusal::NotWave), "a WAV file cut short");
    std::process::exit(failed as i32);
}
