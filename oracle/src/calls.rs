//! Run by programs.py: `calls encode VARIANT FILE` and `calls decode FILE` print how many seconds the calls of the library take that the
//! command makes on the file, without reading and writing it.
#[allow(dead_code)]
#[path = "../../rust/src/raw.rs"]
mod postlapse;

use postlapse as ours;
use std::hint::black_box;
use std::time::Instant;

fn main() {
    let words: Vec<String> = std::env::args().skip(1).collect();
    let words: Vec<&str> = words.iter().map(String::as_str).collect();
    let file = std::fs::read(words[words.len() - 1]).unwrap();
    let begun = Instant::now();
    match words[0] {
        "encode" => {
            let wave = ours::read_wave(&file);
            let mut pcm = vec![0; wave.size / 2];
            ours::load_samples(&file[wave.start..wave.start + wave.size], &mut pcm);
            let variant = words[1].parse().unwrap();
            let encode = |out: &mut [u8]| ours::encode(&pcm, wave.channels as u8, wave.rate, variant, 255, out);
            let mut out = vec![0; encode(&mut []).first];
            assert_eq!(encode(&mut out).refusal, 0);
            black_box(out);
        }
        _ => {
            let needed = ours::decode(&file, &mut []);
            let mut pcm = vec![0; needed.first];
            let header = ours::decode(&file, &mut pcm);
            let mut out = vec![0; 44 + 2 * pcm.len()];
            assert_eq!(ours::write_wave(header.channels, header.rate, &pcm, &mut out).refusal, 0);
            black_box(out);
        }
    }
    println!("{}", begun.elapsed().as_secs_f64());
}
