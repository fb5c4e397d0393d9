//! Writes a long trace to standard output, for measuring.
//!
//!     trace quiet|busy FRAMES FRAMES-A-SECOND
//!
//! Quiet: a sound line, k = 3, with right traces, no defects and some blocks. Busy: every signal wanders.

use second::frame::{plain, Sent};
use second::generate::wandering;
use second::random::Random;
use second::reader::Trace;
use std::io::Write;

fn main() {
    let args: Vec<String> = std::env::args().collect();
    let [_, sort, frames, a_second] = &args[..] else {
        eprintln!("trace quiet|busy FRAMES FRAMES-A-SECOND");
        std::process::exit(2);
    };
    let (frames, a_second): (u64, u64) = (frames.parse().expect("a number"), a_second.parse().expect("a number"));
    let mut rng = Random::new(6);
    let mut p = plain(3);
    p.mode = [3, 3];
    rng.fill(&mut p.names[0]);
    rng.fill(&mut p.names[1]);
    let mut out = std::io::BufWriter::with_capacity(1 << 20, std::io::stdout().lock());
    let mut t = Trace::default();
    t.provisioning(&p);
    let mut left = frames;
    let (mut in_second, mut count) = (0, 0u8);
    while left > 0 {
        let some = left.min(20_000);
        let sent: Vec<Sent> = if sort == "busy" {
            wandering(&mut rng, &p, some)
        } else {
            (0..some)
                .map(|_| {
                    let number = count as usize % 64;
                    let byte = |layer: usize| if number < 32 { p.names[layer][number] } else { 0x20 };
                    let mut f = Sent { tti: [byte(0), byte(1)], stat: 1, ..Sent::good(count) };
                    count = count.wrapping_add(1);
                    if rng.once_in(1_000) {
                        f.violations = [1, 1];
                        f.bei = [2, 1];
                    }
                    f
                })
                .collect()
        };
        for f in sent {
            t.frame(&f.overhead(), f.flags, f.violations[0], f.violations[1]);
            in_second += 1;
            if in_second == a_second {
                t.mark();
                in_second = 0;
            }
        }
        out.write_all(&t.0).expect("standard output takes the trace");
        t.0.clear();
        left -= some;
    }
    out.flush().expect("standard output takes the trace");
}
