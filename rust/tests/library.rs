//! The library on the scope paper's cases, and each refusal that a caller of it can meet.
use postlapse::sqv4::{self, State};
use postlapse::{raw, wav};
use postlapse::{DecodedAudio, FragmentPlayer, Refusal, Variant};

/// The stream of case 3: mono, 8000 Hz, H, the sample 1000.
fn case3() -> Vec<u8> {
    let mut stream = b"SQV4\x03\x00\x01\x00\x40\x1f\x00\x00\x01\x00\x00\x00\x08\x51\x07".to_vec();
    stream.resize(50, 0);
    stream
}

/// A WAV file of the chunks, as long as it says.
fn riff(chunks: &[&[u8]]) -> Vec<u8> {
    let body: usize = chunks.iter().map(|chunk| chunk.len()).sum();
    let mut file = b"RIFF".to_vec();
    file.extend((body as u32 + 4).to_le_bytes());
    file.extend(b"WAVE");
    chunks.iter().for_each(|chunk| file.extend(*chunk));
    file
}

fn format(encoding: u16, channels: u16, rate: u32, byte_rate: u32, align: u16, bits: u16) -> Vec<u8> {
    let mut chunk = b"fmt \x10\x00\x00\x00".to_vec();
    chunk.extend([encoding.to_le_bytes(), channels.to_le_bytes()].concat());
    chunk.extend([rate.to_le_bytes(), byte_rate.to_le_bytes()].concat());
    chunk.extend([align.to_le_bytes(), bits.to_le_bytes()].concat());
    chunk
}

const DATA: &[u8] = b"data\x02\x00\x00\x00\xe8\x03";

#[test]
fn cases_1_and_3() {
    assert_eq!(sqv4::encode_interleaved(&[], 1, 8000, Variant::H, 255).unwrap().len(), 16);
    assert_eq!(sqv4::encode_interleaved(&[0; 128], 2, 8000, Variant::H, 255).unwrap().len(), 152);
    assert_eq!(sqv4::encode_interleaved(&[0; 63], 1, 8000, Variant::L, 255).unwrap().len(), 42);
    assert_eq!(sqv4::encode_interleaved(&[1000], 1, 8000, Variant::H, 255).unwrap(), case3());
    let sound = DecodedAudio { variant: Variant::H, sample_rate: 8000, channels: 1, samples: vec![989] };
    assert_eq!(sqv4::decode(&case3()), Ok(sound));
    let mut report = Vec::new();
    let header = sqv4::inspect(&case3()).unwrap();
    sqv4::write_report(&header, &case3(), &mut report).unwrap();
    assert_eq!(report, b"version 3 variant H channels 1 rate 8000 samples 1\n0 0 1 8 81\n");
    assert_eq!((header.frame_samples, header.frame_count, header.frame_size), (63, 1, 34));
}

#[test]
fn an_empty_stream_decodes_to_no_samples() {
    let stream = sqv4::encode_interleaved(&[], 2, 44100, Variant::LPlus, 255).unwrap();
    assert_eq!(sqv4::decode(&stream).unwrap().samples, vec![]);
}

#[test]
fn the_encoder_refuses() {
    let encode = |pcm: &[i16], channels, rate| sqv4::encode_interleaved(pcm, channels, rate, Variant::H, 255);
    assert_eq!(encode(&[0], 3, 8000), Err(Refusal::InvalidChannels(3)));
    assert_eq!(encode(&[0], 1, 0), Err(Refusal::ZeroSampleRate));
    assert_eq!(encode(&[0], 2, 8000), Err(Refusal::MisalignedInterleavedSamples));
    assert_eq!(Variant::try_from(3), Err(Refusal::InvalidVariant(3)));
}

#[test]
fn inspection_and_decoding_refuse() {
    let changed = |at: usize, byte: u8| {
        let mut stream = case3();
        stream[at] = byte;
        stream
    };
    let refused = [
        (vec![], Refusal::TruncatedHeader),
        (changed(3, b'3'), Refusal::InvalidMagic),
        (changed(4, 4), Refusal::UnsupportedVersion(4)),
        (changed(5, 3), Refusal::InvalidVariant(3)),
        (changed(6, 3), Refusal::InvalidChannels(3)),
        (changed(7, 1), Refusal::InvalidReservedByte(1)),
        ([&case3()[..8], &[0; 4], &case3()[12..]].concat(), Refusal::ZeroSampleRate),
        (case3()[..49].to_vec(), Refusal::InvalidFileLength { expected: 50, actual: 49 }),
        (changed(17, 89), Refusal::InvalidStepIndex(89)),
        (changed(18, 0x17), Refusal::NonZeroPadding),
    ];
    for (stream, refusal) in refused {
        assert_eq!(sqv4::inspect(&stream), Err(refusal));
        assert_eq!(sqv4::decode(&stream), Err(refusal));
        let place = matches!(refusal, Refusal::InvalidStepIndex(_) | Refusal::NonZeroPadding).then_some((0, 0));
        assert_eq!(sqv4::damage(&stream), place);
    }
}

/// In each fragment of a stereo stream of three frames: an index of 89, and a bit behind the last sample.
#[test]
fn damage_is_found_where_it_is() {
    for variant in [Variant::H, Variant::L, Variant::LPlus] {
        let pcm: Vec<i16> = (0..2 * 130).map(|i| (i * 97 % 5000) as i16 - 2500).collect();
        let stream = sqv4::encode_interleaved(&pcm, 2, 8000, variant, 255).unwrap();
        let header = sqv4::inspect(&stream).unwrap();
        let size = raw::fragment_size(3, variant as u8).first;
        assert_eq!(header.fragments(&stream).count(), 6);
        for (place, fragment) in header.fragments(&stream).enumerate() {
            let mut damaged = stream.clone();
            damaged[16 + place * size + 1] = 89;
            assert_eq!(sqv4::inspect(&damaged), Err(Refusal::InvalidStepIndex(89)));
            assert_eq!(sqv4::damage(&damaged), Some((fragment.frame, fragment.channel)));
            let mut damaged = stream.clone();
            damaged[16 + (place + 1) * size - 1] |= 0x80;
            assert_eq!(sqv4::inspect(&damaged), Err(Refusal::NonZeroPadding));
            assert_eq!(sqv4::damage(&damaged), Some((fragment.frame, fragment.channel)));
        }
        assert_eq!(sqv4::damage(&stream), None);
    }
}

/// A stereo stream of version 2, in which states run on: a player for each channel gives the samples that `decode` gives; one player for
/// both does not.
#[test]
fn a_player_for_each_channel() {
    let mut stream = b"SQV4\x02\x00\x02\x00\x40\x1f\x00\x00\xc0\x00\x00\x00".to_vec();
    for place in 0..6u32 {
        stream.push(255);
        stream.extend((0..32u32).map(|i| (i * i * 31 + place * 77 + i * 13) as u8));
    }
    let sound = sqv4::decode(&stream).unwrap();
    let header = sqv4::inspect(&stream).unwrap();
    let played = |players: usize| {
        let mut players = vec![FragmentPlayer::new(2, Variant::H); players];
        let mut samples = vec![0; sound.samples.len()];
        for fragment in header.fragments(&stream) {
            let mut part = vec![0; fragment.samples];
            let player = fragment.channel % players.len();
            players[player].play(fragment.bytes, &mut part).unwrap();
            for (at, sample) in part.into_iter().enumerate() {
                samples[(fragment.frame * 64 + at) * 2 + fragment.channel] = sample;
            }
        }
        samples
    };
    assert_eq!(played(2), sound.samples);
    assert_ne!(played(1), sound.samples);
}

#[test]
fn a_player_that_refuses_stays_as_it_was() {
    let mut player = FragmentPlayer::new(2, Variant::H);
    let mut out = [7; 65];
    player.play(&[255; 33], &mut out[..64]).unwrap();
    let before = (player, out);
    assert_eq!(player.play(&[255; 32], &mut out[..64]), Err(Refusal::InvalidFragment));
    assert_eq!(player.play(&[255; 33], &mut out), Err(Refusal::InvalidFragment));
    assert_eq!((player, out), before);
    assert_ne!(player.state(), State { predictor: 0, index: 0 });
    assert_eq!(FragmentPlayer::new(4, Variant::H).play(&[255; 33], &mut out), Err(Refusal::UnsupportedVersion(4)));
    let answer = raw::decode_fragment(2, 0, State { predictor: 32768, index: 0 }, &[255; 33], &mut out[..64]);
    assert_eq!(answer.refusal, Refusal::InvalidState.number());
}

/// The call for C with a lent state stores the two fields, and leaves the bytes between them, which C's struct has, as they were.
#[test]
fn a_lent_state_keeps_the_bytes_between() {
    let fragment = [0x5a; 33];
    for version in [1, 2, 3] {
        let mut memory = [u64::MAX; 2];
        let mut out = [0; 60];
        let state = memory.as_mut_ptr().cast::<raw::State>();
        // SAFETY: the memory is as large as a state and aligned, and the other pointers are valid for their lengths.
        let answer = unsafe {
            (&raw mut (*state).predictor).write(5);
            (&raw mut (*state).index).write(6);
            let (size, count) = (if version == 3 { 26 } else { 25 }, out.len());
            raw::archive::postlapse_decode_fragment_lent(version, 1, state, fragment.as_ptr(), size, out.as_mut_ptr(), count)
        };
        assert_eq!(answer.refusal, 0);
        assert_eq!(memory[0] >> 32, 0xffff_ffff, "version {version}");
        assert_eq!(memory[1] != 6, version < 3);
    }
}

#[test]
fn waves_are_read_and_written() {
    let plain = format(1, 1, 8000, 16000, 2, 16);
    let file = wav::write_pcm16_wave(1, 8000, &[1000]).unwrap();
    assert_eq!(file, riff(&[&plain, DATA]));
    let wave = wav::PcmWave { channels: 1, sample_rate: 8000, samples: vec![1000] };
    assert_eq!(wav::read_pcm16_wave(&file), Ok(wave.clone()));
    assert_eq!(wav::read_strict_pcm16_wave(&file), Ok(wave.clone()));
    let longer = [file.as_slice(), &[0]].concat();
    assert_eq!(wav::read_pcm16_wave(&longer), Ok(wave.clone()));
    assert_eq!(wav::read_strict_pcm16_wave(&longer), Err(Refusal::StrictEnd));
    let turned = riff(&[DATA, &plain]);
    assert_eq!(wav::read_pcm16_wave(&turned), Ok(wave.clone()));
    assert_eq!(wav::read_strict_pcm16_wave(&turned), Err(Refusal::StrictOrder));
    let sized = |size: u8| {
        let mut chunk = plain.clone();
        chunk[4] = size;
        chunk.resize(8 + usize::from(size + size % 2), 255);
        riff(&[&chunk, DATA])
    };
    assert_eq!(wav::read_strict_pcm16_wave(&sized(18)), Ok(wave.clone()));
    let form = wav::WaveInfo { channels: 1, sample_rate: 8000, samples_per_channel: 1 };
    assert_eq!(wav::strict_info(&sized(18)), Ok(form));
    assert_eq!(wav::strict_info(&sized(20)), Err(Refusal::StrictFormat));
    let stereo = wav::write_pcm16_wave(2, 44100, &[0; 6]).unwrap();
    let form = wav::WaveInfo { channels: 2, sample_rate: 44100, samples_per_channel: 3 };
    assert_eq!(wav::strict_info(&stereo), Ok(form));
    for size in [17, 19, 20, 40] {
        assert_eq!(wav::read_pcm16_wave(&sized(size)), Ok(wave.clone()));
        assert_eq!(wav::read_strict_pcm16_wave(&sized(size)), Err(Refusal::StrictFormat));
    }
    assert_eq!(wav::write_pcm16_wave(3, 8000, &[1000]), Err(Refusal::WriterChannels));
    assert_eq!(wav::write_pcm16_wave(1, 1 << 31, &[1000]), Err(Refusal::WriterByteRate));
}

#[test]
fn waves_are_refused() {
    let plain = format(1, 1, 8000, 16000, 2, 16);
    let mut past = riff(&[&plain, DATA]);
    past[4] = 255;
    let refused = [
        (b"RIFX".to_vec(), Refusal::NotWave),
        (past, Refusal::RiffEnd),
        (riff(&[&plain, DATA, b"odd"]), Refusal::ChunkHeader),
        (riff(&[&plain, b"data\x04\x00\x00\x00\x01\x02"]), Refusal::ChunkEnd),
        (riff(&[&plain, &plain, DATA]), Refusal::FormatChunk),
        (riff(&[&plain, DATA, DATA]), Refusal::DataChunk),
        (riff(&[DATA]), Refusal::NoFormat),
        (riff(&[&format(3, 1, 8000, 16000, 2, 16), DATA]), Refusal::Encoding),
        (riff(&[&format(1, 3, 8000, 48000, 6, 16), DATA]), Refusal::WaveChannels),
        (riff(&[&format(1, 1, 0, 0, 2, 16), DATA]), Refusal::ZeroWaveRate),
        (riff(&[&format(1, 1, 1 << 31, 0, 2, 16), DATA]), Refusal::ByteRate),
        (riff(&[&format(1, 1, 8000, 8000, 2, 16), DATA]), Refusal::Inconsistent),
        (riff(&[&plain]), Refusal::NoData),
        (riff(&[&plain, b"data\x01\x00\x00\x00\x01\x00"]), Refusal::PartialFrame),
    ];
    for (file, refusal) in refused {
        assert_eq!(wav::read_pcm16_wave(&file), Err(refusal));
        assert_eq!(wav::read_strict_pcm16_wave(&file), Err(refusal));
        assert_eq!(wav::strict_info(&file), Err(refusal));
    }
}

#[test]
fn lengths() {
    assert_eq!(postlapse::library_version(), 10000);
    for (version, sizes) in [(1, [33, 25, 25]), (2, [33, 25, 25]), (3, [34, 26, 26])] {
        for (variant, size) in sizes.into_iter().enumerate() {
            assert_eq!(raw::fragment_size(version, variant as u8).first, size);
            let whole = raw::stream_length(version, variant as u8, 2, 130);
            assert_eq!((whole.refusal, whole.first), (0, 16 + 3 * 2 * size));
        }
    }
    let refused = raw::stream_length(4, 3, 3, 130);
    assert_eq!((refused.refusal, refused.first), (8, 3));
    let refused = raw::stream_length(4, 2, 3, 130);
    assert_eq!((refused.refusal, refused.first), (7, 4));
    let refused = raw::stream_length(3, 2, 3, 130);
    assert_eq!((refused.refusal, refused.first), (1, 3));
}
