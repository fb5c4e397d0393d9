//! Random and mutated input to the programs in LEDGERS, SUMMARIES and EXPLAINS: each must print what the second program prints.
//!
//!     soak --seed N --inputs M

use second::explain::explain;
use second::generate;
use second::level_generate;
use second::random::Random;
use second::reader::{self, Trace};
use second::seconds_generate;
use second::summary;
use second::summary_generate;
use std::io::{Read, Write};
use std::process::{Command, ExitStatus, Stdio};

/// Some records cut out of a generated trace, then changed in some bytes; or noise.
fn input(rng: &mut Random, from: &[u8]) -> Vec<u8> {
    let mut bytes = match rng.below(10) {
        0 => {
            let mut noise = vec![0u8; rng.below(300) as usize];
            rng.fill(&mut noise);
            noise
        }
        1 => {
            // Headers in order, bodies noise: many get past 14 and 15.
            let mut t = Trace::default();
            t.0.extend(&from[..83]);
            for _ in 0..rng.below(4) {
                let mut body = [0u8; 40];
                rng.fill(&mut body[8..]);
                (body[0], body[1], body[5], body[6]) = (rng.below(8) as u8, 1, 2, rng.below(4) as u8);
                t.record(4, &body);
            }
            let (kind, long) = rng.pick(&[(1, 67), (5, 73)]);
            for _ in 0..rng.below(200) {
                let mut body = vec![0u8; long];
                rng.fill(&mut body[..64]);
                body[64] = rng.below(4) as u8;
                match rng.below(40) {
                    0 => t.record(2, &[]),
                    1 => t.record(rng.below(7) as u16, &body[..rng.pick(&[0, 40, 66, 67, long])]),
                    _ => t.record(kind, &body),
                }
            }
            t.0
        }
        _ => from[..(83 + rng.below(20_000) as usize).min(from.len())].to_vec(),
    };
    for _ in 0..rng.below(4) {
        if bytes.is_empty() {
            break;
        }
        let at = match rng.below(3) {
            0 => rng.below(bytes.len().min(90) as u64) as usize,
            _ => rng.below(bytes.len() as u64) as usize,
        };
        match rng.below(5) {
            0 => bytes.truncate(at),
            1 => drop(bytes.remove(at)),
            2 => bytes.insert(at, rng.byte()),
            3 => bytes[at] = rng.byte(),
            _ => bytes[at] ^= 1 << rng.below(8),
        }
    }
    bytes
}

/// The paths in a list with colons between.
fn paths(list: &str) -> impl Iterator<Item = &str> {
    list.split(':').filter(|p| !p.is_empty())
}

/// What a program prints of an input, and how it ends.
fn run(path: &str, bytes: &[u8]) -> (Vec<u8>, ExitStatus) {
    let mut child = Command::new(path).stdin(Stdio::piped()).stdout(Stdio::piped()).spawn().expect("it starts");
    let mut stdin = child.stdin.take().unwrap();
    let sent = bytes.to_vec();
    let feeder = std::thread::spawn(move || drop(stdin.write_all(&sent)));
    let mut got = Vec::new();
    child.stdout.take().unwrap().read_to_end(&mut got).unwrap();
    let status = child.wait().unwrap();
    feeder.join().unwrap();
    (got, status)
}

fn main() {
    let (mut seed, mut inputs) = (1u64, 500u64);
    let mut args = std::env::args().skip(1);
    while let (Some(arg), value) = (args.next(), args.next()) {
        let value = value.and_then(|v| v.parse().ok());
        match (arg.as_str(), value) {
            ("--seed", Some(v)) => seed = v,
            ("--inputs", Some(v)) => inputs = v,
            _ => {
                eprintln!("soak --seed N --inputs M");
                std::process::exit(2);
            }
        }
    }
    let [ledgers, summaries, explains] = ["LEDGERS", "SUMMARIES", "EXPLAINS"].map(|name| std::env::var(name).unwrap_or_default());
    let mut refusals = [0u64; 20];
    let mut rng = Random::new(seed);
    let mut from = Vec::new();
    for index in 0..inputs {
        if index % 50 == 0 {
            from = match index / 50 % 4 {
                0 => generate::trace(seed, 1 + index / 50).bytes,
                1 => level_generate::trace(seed, index / 50).bytes,
                2 => seconds_generate::trace(seed, index / 50).bytes,
                _ => summary_generate::trace(seed, index / 50).bytes,
            };
            if from.len() < 83 {
                from = generate::trace(seed, 1_000_001).bytes;
                from.resize(from.len().max(83), 0);
            }
        }
        let bytes = input(&mut rng, &from);
        let expected = reader::list(&bytes);
        let refused = expected.lines().find_map(|l| l.strip_prefix("R ")?.split(' ').next()?.parse::<usize>().ok());
        refusals[refused.unwrap_or(0)] += 1;
        let explained = if explains.is_empty() { String::new() } else { explain(&bytes) };
        let of_quarters = summary::quarters(&bytes);
        let texts = [(&ledgers, &expected), (&summaries, &of_quarters), (&explains, &explained)];
        for (path, expected) in texts.into_iter().flat_map(|(list, text)| paths(list).map(move |path| (path, text))) {
            let (got, status) = run(path, &bytes);
            if got != expected.as_bytes() || status.code().is_none() {
                println!("soak: seed {seed} input {index} ({} bytes): {path}: {status}", bytes.len());
                println!("printed {:?}\nsecond  {expected:?}", String::from_utf8_lossy(&got));
                std::process::exit(1);
            }
        }
    }
    println!(
        "soak: seed {seed}, {inputs} inputs to each program; ended well and with refusals 1 to {}: {refusals:?}",
        refusals.len() - 1
    );
}
