//! The worked example, the twelve cases, and the readings, each as one test.

use crate::frame::{plain, Sent};
use crate::provisioning::{Provisioning, PATH, SECTION};
use crate::reader::{list, Trace};
use crate::report::head;
use crate::summary::quarters;
use crate::supervisor::{Supervisor, FULL_SECOND};

struct Run {
    s: Supervisor,
    mfas: u8,
}

impl Run {
    fn new(p: Provisioning) -> Run {
        Run { s: Supervisor::fresh(p), mfas: 0 }
    }
    fn k(k: u8) -> Run {
        Run::new(plain(k))
    }
    fn send(&mut self, f: Sent) -> u64 {
        self.s.step(&f.overhead(), f.flags, f.violations[0], f.violations[1]).unwrap()
    }
    /// The next frame with good framing and MFAS counting, changed by `f`.
    fn next(&mut self, f: impl Fn(&mut Sent)) -> u64 {
        let mut sent = Sent::good(self.mfas);
        self.mfas = self.mfas.wrapping_add(1);
        f(&mut sent);
        self.send(sent)
    }
    fn good(&mut self, n: u64) {
        for _ in 0..n {
            self.next(|_| {});
        }
    }
    fn zeros(&mut self, n: u64) {
        for _ in 0..n {
            self.next(|f| *f = Sent::ZEROS);
        }
    }
    /// Good frames up to and with the one whose MFAS is `last` modulo 64.
    fn until(&mut self, last: u8, f: impl Fn(&mut Sent)) {
        loop {
            let at = self.mfas;
            self.next(&f);
            if at % 64 == last {
                break;
            }
        }
    }
    fn im(&self) -> bool {
        self.s.standing().entered.is_some()
    }
    fn in_frame(&self) -> bool {
        self.s.standing().in_frame
    }
    fn head(&self) -> u8 {
        head(&self.s.standing())
    }
    /// A mark, and the second that it closed, with its own discard alone.
    fn mark(&mut self) -> [u32; 22] {
        self.s.mark().unwrap();
        self.s.pending().unwrap().figures
    }
}

/// (c): three frames, IF at 2, IM at 3.
fn after_c() -> Run {
    let mut r = Run::k(1);
    r.good(3);
    r
}

fn nothing(r: &Run) -> bool {
    let s = r.s.standing();
    head(&s) == 0
        && !s.dlof
        && !s.dlom
        && s.ssf == [false; 2]
        && s.dtim == [false; 2]
        && s.dbdi == [false; 2]
        && !s.diae
        && !s.dbiae
}

#[test]
fn worked_example() {
    let mut t = Trace::default();
    t.provisioning(&plain(1));
    for _ in 0..2 {
        t.frame(&[0; 64], 1, 0, 0);
    }
    t.mark();
    assert_eq!(list(&t.0), "S 1 2 0 2 0 0 0 0 0 0 0 0 0 0 1 0 0 0 0 1 0 0\nE 1 2\n");
    assert_eq!(list(&[]), "E 0 0\n");
}

#[test]
fn case_a_b() {
    for (k, n) in [(1, 62), (2, 247), (3, 989)] {
        let mut r = Run::k(k);
        r.zeros(n - 1);
        assert!(!r.s.standing().dlof && r.head() == 0);
        r.zeros(1);
        assert_eq!(r.head(), 3);
    }
}

#[test]
fn case_c_d_e() {
    let mut r = Run::k(1);
    r.good(1);
    assert!(!r.in_frame());
    r.good(1);
    assert!(r.in_frame() && !r.im());
    r.good(1);
    assert!(r.im());
    r.zeros(4);
    assert!(r.in_frame());
    r.zeros(1);
    assert!(!r.in_frame());
}

#[test]
fn case_f_g() {
    let mut r = after_c();
    for stat in [7, 7, 1] {
        r.next(|f| f.stat = stat);
        assert!(nothing(&r));
    }
    let mut r = after_c();
    for i in 1..=3 {
        r.next(|f| f.stat = 7);
        assert_eq!(r.head(), if i == 3 { 6 } else { 0 });
    }
}

#[test]
fn case_h_i() {
    for layer in [SECTION, PATH] {
        let mut r = after_c();
        for i in 1..=5 {
            r.next(|f| f.bdi[layer] = true);
            assert_eq!(r.s.standing().dbdi[layer], i == 5);
            assert!(!r.s.standing().dbdi[1 - layer]);
        }
        for i in 1..=5 {
            r.next(|_| {});
            assert_eq!(r.s.standing().dbdi[layer], i < 5);
        }
    }
}

#[test]
fn case_j() {
    for layer in [SECTION, PATH] {
        for bei in 0..16 {
            let mut r = after_c();
            r.next(|f| f.bei[layer] = bei);
            let second = r.mark();
            let number = if (1..=8).contains(&bei) { u32::from(bei) } else { 0 };
            assert_eq!(second[12 + 5 * layer..17 + 5 * layer], [0, number.min(1), 0, 0, number], "BEI {bei}");
            assert_eq!(second[17 - 5 * layer..22 - 5 * layer], [0; 5], "BEI {bei}");
        }
    }
}

#[test]
fn case_k() {
    let mut r = Run::k(1);
    r.send(Sent { flags: 3, ..Sent::ZEROS });
    assert_eq!(r.head(), 1);
}

#[test]
fn case_l() {
    let mut r = after_c();
    for i in 1..=3 {
        r.next(|f| f.bei[SECTION] = 11);
        assert_eq!(r.s.standing().dbiae, i == 3);
    }
}

#[test]
fn reading_1_fifth_bad_frame_is_not_looked_at() {
    // Four mismatches in the four bad frames that are still IF; the fifth bad frame is OOF and its MFAS is not looked at.
    let mut r = after_c();
    r.zeros(5);
    assert!(r.im() && !r.in_frame());
    // Reading 6: the four survive; the frame that becomes IF brings the fifth.
    r.mfas = 100;
    r.good(1);
    assert!(r.im());
    r.good(1);
    assert!(r.in_frame() && !r.im());
    r.good(1);
    assert!(r.im());
}

#[test]
fn reading_2_columns() {
    let mut r = Run::k(1);
    for _ in 0..2 {
        r.next(|f| f.fas = [0, 0xF6, 0xF6, 0x28, 0x28, 0]);
    }
    assert!(r.in_frame());
    for _ in 0..10 {
        r.next(|f| f.fas = [0, 0, 0xF6, 0x28, 0x28, 0]);
    }
    assert!(r.in_frame());
    let mut r = Run::k(1);
    for _ in 0..10 {
        r.next(|f| f.fas = [0xF6, 0, 0xF6, 0x28, 0x28, 0x28]);
    }
    assert!(!r.in_frame());
}

#[test]
fn reading_3_bad_frames_in_if_count() {
    let mut r = Run::k(1);
    r.zeros(62);
    r.good(1);
    let mut waited = 0;
    while r.s.standing().dlof {
        // One good frame, then four without FAS.
        let bad = waited % 5 != 0;
        r.next(|f| {
            if bad {
                *f = Sent::ZEROS
            }
        });
        assert!(r.in_frame());
        waited += 1;
    }
    assert_eq!(waited, 62);
}

#[test]
fn reading_4_total_of_short_losses() {
    // Each loss: five bad frames of which the fifth is OOF, then one good (OOF), one good (IF): two OOF frames a loss.
    let mut r = after_c();
    let mut oof = 1;
    while oof < 61 {
        r.zeros(5);
        r.good(1);
        oof += 2;
        assert!(!r.s.standing().dlof, "{oof}");
        r.good(40);
    }
    // 1 at the start and 60: 61; the next OOF frame is the 62nd.
    r.zeros(4);
    assert!(!r.s.standing().dlof);
    r.zeros(1);
    assert!(r.s.standing().dlof);
}

#[test]
fn reading_5_dlom_counts_oof_frames() {
    let mut r = Run::k(1);
    r.zeros(30);
    for _ in 0..31 {
        r.next(|f| f.mfas = 9);
    }
    assert!(!r.s.standing().dlom && r.in_frame());
    r.next(|f| f.mfas = 9);
    assert!(r.s.standing().dlom);
    assert_eq!(r.head(), 4);
    r.next(|f| f.mfas = 10);
    assert!(!r.s.standing().dlom);
}

#[test]
fn reading_6_mismatches_survive_oof() {
    let mut r = after_c();
    for _ in 0..3 {
        r.next(|f| f.mfas ^= 0x80);
    }
    // Four bad frames whose MFAS is right would end the row; so these four are wrong only in their last.
    r.next(|f| f.fas = [0; 6]); // right MFAS: the row begins anew
    for _ in 0..3 {
        r.next(|f| {
            f.fas = [0; 6];
            f.mfas ^= 0x80
        });
    }
    r.next(|f| f.fas = [0; 6]); // the fifth: OOF, not looked at
    assert!(!r.in_frame() && r.im());
    r.next(|_| {}); // OOF still, not looked at
    r.next(|f| f.mfas ^= 0x80); // IF: the fourth
    assert!(r.im() && r.in_frame());
    r.next(|f| f.mfas ^= 0x80);
    assert!(!r.im());
}

#[test]
fn reading_7_fifth_mismatch_is_oom_even_in_step() {
    let mut r = after_c();
    r.mfas = 200;
    r.good(4);
    assert!(r.im());
    r.good(1);
    assert!(!r.im());
    r.good(1);
    assert!(r.im());
    // MFAS after an OOF frame does not follow what came before it.
    let mut r = Run::k(1);
    r.next(|_| {});
    r.next(|_| {});
    r.zeros(5);
    r.next(|_| {});
    r.next(|_| {});
    assert!(r.in_frame() && !r.im());
    r.next(|_| {});
    assert!(r.im());
}

#[test]
fn reading_8_im_entered_at_zero_begins_a_cycle() {
    let mut r = Run::k(1);
    r.mfas = 254;
    r.good(1); // OOF
    r.good(1); // IF
    r.good(191); // 0: IM, byte 0
    assert!(r.s.trace(0, 64).is_err());
    r.good(1);
    assert!(r.s.trace(0, 64).is_ok());
    // Entered at 1: the first cycle begins 63 later.
    let mut r = Run::k(1);
    r.mfas = 255;
    r.good(2);
    r.good(63 + 191);
    assert_eq!(r.s.trace(0, 64), Err(13));
    r.good(1);
    assert!(r.s.trace(0, 64).is_ok());
}

#[test]
fn reading_9_oof_stops_no_filter() {
    let mut r = after_c();
    for _ in 0..8 {
        r.next(|f| {
            f.fas = [0; 6];
            f.bdi = [true; 2];
            f.stat = 6;
            f.violations = [1, 0];
        });
    }
    let s = r.s.standing();
    assert!(!s.in_frame && s.dbdi == [true; 2] && s.doci());
    assert_eq!(r.mark()[12], 8);
    // A cycle goes on through OOF while IM stands.
    let mut r = after_c();
    r.until(63, |_| {});
    r.good(10);
    for _ in 0..7 {
        r.next(|f| f.fas = [0; 6]);
    }
    r.until(63, |_| {});
    r.until(63, |_| {});
    assert_eq!(r.s.trace(0, 64), Err(13));
    r.until(63, |_| {});
    assert!(r.s.trace(0, 64).is_ok());
}

#[test]
fn reading_10_alignment_runs_under_flags() {
    let mut r = Run::k(1);
    for _ in 0..3 {
        r.next(|f| f.flags = 3);
    }
    assert!(r.in_frame() && r.im());
    for _ in 0..4 + 62 {
        r.next(|f| {
            *f = Sent::ZEROS;
            f.flags = 1
        });
    }
    assert!(r.s.standing().dlof);
}

fn with_trace(mode: u8, dis: u8) -> Run {
    let mut p = plain(1);
    p.mode = [mode, mode];
    p.dis = [dis, dis];
    Run::new(p)
}

/// Good frames until both layers have accepted traces whose byte 0 is `first`.
fn accept(r: &mut Run, first: [u8; 2]) {
    for _ in 0..3 {
        r.until(63, |f| {
            if f.mfas % 64 == 0 {
                f.tti = first;
            }
        });
    }
}

#[test]
fn reading_11_oom_keeps_the_accepted_trace() {
    let mut r = with_trace(1, 1);
    r.good(3);
    r.until(63, |_| {});
    accept(&mut r, [1, 1]);
    assert_eq!(r.s.standing().dtim, [true; 2]);
    for _ in 0..5 {
        r.next(|f| f.mfas = 77);
    }
    assert!(!r.im());
    for i in 1..62 {
        assert_eq!(r.s.standing().dtim, [true; 2], "{i}");
        r.next(|f| f.mfas = 77);
    }
    assert!(r.s.standing().dlom);
    assert_eq!(r.s.standing().dtim, [false; 2]);
    assert_eq!(r.s.trace(0, 64), Err(13));
}

#[test]
fn reading_12_what_is_forgotten() {
    // Section dTIM that does not act forgets IAE and BIAE, and not BDI.
    let mut r = with_trace(1, 1);
    r.good(3);
    r.until(63, |_| {});
    for _ in 0..2 {
        r.until(63, |f| f.tti = [u8::from(f.mfas % 64 == 0), 0]);
    }
    r.until(62, |f| {
        f.tti = [u8::from(f.mfas % 64 == 0), 0];
        f.iae = true;
        f.bei[0] = 11;
        f.bdi[0] = true
    });
    assert!(r.s.standing().diae && r.s.standing().dbiae && r.s.standing().dbdi[0]);
    r.next(|f| {
        f.iae = true;
        f.bei[0] = 11
    });
    let s = r.s.standing();
    assert!(s.dtim[0] && !s.diae && !s.dbiae && s.dbdi[0]);
    assert!(!s.ssf[1]);
    // dAIS forgets the path's trace and BDI and not STAT; dOCI nothing.
    let mut r = with_trace(0, 0);
    r.good(3);
    r.until(63, |_| {});
    accept(&mut r, [0, 0]);
    for _ in 0..5 {
        r.next(|f| {
            f.bdi[1] = true;
            f.stat = 6
        });
    }
    assert!(r.s.standing().dbdi[1] && r.s.standing().doci() && r.s.trace(1, 64).is_ok());
    for _ in 0..3 {
        r.next(|f| {
            f.bdi[1] = true;
            f.stat = 7
        });
    }
    assert!(!r.s.standing().dbdi[1] && r.s.standing().dais() && r.s.trace(1, 64) == Err(13));
    assert!(r.s.trace(0, 64).is_ok());
    r.next(|_| {});
    r.next(|_| {});
    assert!(r.s.standing().dais());
    r.next(|_| {});
    assert!(!r.s.standing().dais());
}

#[test]
fn reading_13_first_frame_after_forgetting_counts() {
    let mut r = after_c();
    r.next(|f| {
        f.flags = 1;
        f.bdi[0] = true;
        f.stat = 7
    });
    for i in 1..=5 {
        r.next(|f| {
            f.bdi[0] = true;
            f.stat = 7
        });
        assert_eq!(r.s.standing().dais(), i >= 3);
        assert_eq!(r.s.standing().dbdi[0], i == 5);
    }
    // The first frame without SSF begins a cycle if its number is 0.
    let mut r = Run::k(1);
    r.good(3);
    r.until(63, |f| f.flags = 2);
    r.good(191);
    assert!(r.s.trace(0, 64).is_err());
    r.good(1);
    assert!(r.s.trace(0, 64).is_ok());
}

#[test]
fn reading_14_15_cycles() {
    let mut r = with_trace(3, 0);
    r.good(3);
    r.until(63, |_| {});
    accept(&mut r, [0, 0]);
    assert!(nothing(&r));
    // One byte of the operator's part differs in one cycle: the accepted trace stays, the row begins anew.
    let first = *r.s.accepted_trace(0).unwrap();
    r.until(63, |f| f.tti = [u8::from(f.mfas % 64 == 40); 2]);
    assert_eq!(r.s.trace(0, 64), Ok(first));
    for cycle in 2..=3 {
        r.until(63, |f| f.tti = [u8::from(f.mfas % 64 == 40); 2]);
        assert_eq!(r.s.accepted_trace(1).unwrap()[40], u8::from(cycle == 3));
    }
    assert!(nothing(&r));
    // Mode 0: accepted and readable.
    let mut r = with_trace(0, 0);
    r.good(3);
    r.until(63, |_| {});
    accept(&mut r, [9, 9]);
    assert!(nothing(&r) && r.s.trace(1, 64).unwrap()[0] == 9);
}

#[test]
fn reading_16_section_before_path() {
    let mut r = with_trace(1, 0);
    r.good(3);
    r.until(63, |_| {});
    accept(&mut r, [1, 0]);
    let s = r.s.standing();
    assert!(s.dtim[0] && s.ssf == [false, true] && head(&s) == 5);
    assert_eq!(r.s.trace(1, 64), Err(13));
    accept(&mut r, [0, 0]);
    let s = r.s.standing();
    assert!(!s.dtim[0] && !s.ssf[1] && head(&s) == 0);
    assert_eq!(r.s.trace(1, 64), Err(13));
}

#[test]
fn reading_17_stat_and_biae() {
    let mut r = after_c();
    for stat in [5, 5, 5, 1, 2, 1, 2, 7, 7, 6] {
        r.next(|f| f.stat = stat);
    }
    assert!(r.s.standing().dlck());
    for _ in 0..3 {
        r.next(|f| f.bei[0] = 11);
    }
    for (bei, stands) in [(1, true), (11, true), (2, true), (15, true), (0, false)] {
        r.next(|f| f.bei[0] = bei);
        assert_eq!(r.s.standing().dbiae, stands);
    }
}

#[test]
fn reading_18_counting() {
    let mut r = after_c();
    for flags in [0, 1, 1, 0] {
        r.next(|f| {
            f.flags = flags;
            f.violations = [1, 8];
            f.bei = [1, 8]
        });
    }
    assert_eq!(r.mark(), [1, 7, 5, 2, 0, 0, 0, 0, 0, 0, 0, 0, 2, 2, 1, 0, 2, 2, 2, 1, 0, 16]);
}

#[test]
fn reading_19_ds() {
    let mut r = with_trace(1, 1);
    r.good(3);
    r.until(63, |_| {});
    accept(&mut r, [1, 1]);
    assert_eq!(r.mark()[12..], [0, 0, 1, 0, 0, 0, 0, 1, 0, 0]);
    assert_eq!(r.mark()[1..], [0; 21]);
    r.next(|f| f.violations = [1, 1]);
    assert_eq!(r.mark()[12..], [1, 0, 1, 0, 0, 1, 0, 1, 0, 0]);
}

#[test]
fn reading_20_discard() {
    let mut r = after_c();
    for _ in 0..5 {
        r.next(|f| {
            f.iae = true;
            f.violations = [1, 1];
            f.bei = [1, 1];
            f.bdi = [true; 2]
        });
    }
    r.next(|f| f.flags = 1);
    assert_eq!(r.mark(), [1, 9, 8, 1, 0, 0, 0, 0, 0, 0, 0, 0, 0, 0, 0, 0, 0, 5, 5, 1, 1, 5]);
    // dBIAE: the far values alone.
    let mut r = after_c();
    for bei in [1, 11, 11, 11, 1] {
        r.next(|f| {
            f.violations[0] = 1;
            f.bei[0] = bei;
            f.bdi[0] = true
        });
    }
    assert_eq!(r.mark()[12..17], [5, 0, 0, 0, 0]);
}

#[test]
fn reading_21_ddeg() {
    let mut p = plain(1);
    p.degthr = [2, 3];
    p.degm = [2, 3];
    let mut r = Run::new(p);
    r.good(3);
    let stands = |r: &mut Run| {
        r.next(|_| {});
        r.s.standing().ddeg
    };
    let bad = |r: &mut Run| {
        for _ in 0..3 {
            r.next(|f| f.violations = [1, 1]);
        }
        r.mark();
    };
    bad(&mut r);
    assert_eq!(stands(&mut r), [false; 2]);
    bad(&mut r);
    assert_eq!(stands(&mut r), [true, false]);
    bad(&mut r);
    assert_eq!(stands(&mut r), [true; 2]);
    r.mark();
    r.mark();
    assert_eq!(stands(&mut r), [false, true]);
    r.mark();
    assert_eq!(stands(&mut r), [false, false]);
}

#[test]
fn reading_22_abei_is_raw() {
    let mut r = Run::k(1);
    let word = r.send(Sent { flags: 1, violations: [5, 7], ..Sent::ZEROS });
    assert_eq!((word >> 33 & 15, word >> 40 & 15), (5, 7));
}

#[test]
fn reading_23_refusals() {
    let mut s = Supervisor::fresh(plain(1));
    for _ in 0..FULL_SECOND {
        s.step(&[0; 64], 0, 0, 0).unwrap();
    }
    assert_eq!(s.step(&[0; 64], 0, 0, 0), Err(4));
    assert_eq!(s.step(&[0; 64], 4, 9, 0), Err(2));
    assert_eq!(s.step(&[0; 64], 3, 0, 9), Err(3));
    assert_eq!(s.step(&[0; 63], 4, 9, 0), Err(1));
    assert_eq!(s.mark(), Ok(None));
    let second = s.pending().unwrap().figures;
    assert_eq!((second[1], second[2], second[5]), (400_000, 61, 399_939));
    let mut s = s.with_closed(u64::from(u32::MAX) - 1);
    assert_eq!(s.mark().unwrap().unwrap().figures[0], u32::MAX - 1);
    assert_eq!(s.mark(), Err(4));
    assert_eq!((s.trace(2, 3), s.trace(1, 3), s.trace(1, 64)), (Err(11), Err(12), Err(13)));
    let of = |k, thr: [u32; 2], degm: [u8; 2], mode: [u8; 2], dis: [u8; 2], n: usize| {
        Provisioning::of(k, thr, degm, mode, dis, [&vec![0; n], &[0; 32]]).map(|p| p.k)
    };
    assert_eq!(of(0, [0; 2], [0; 2], [4; 2], [3; 2], 0), Err(5));
    assert_eq!(of(1, [1, 20_421], [0; 2], [4; 2], [3; 2], 0), Err(6));
    assert_eq!(of(2, [1, 82_025], [2, 11], [4; 2], [3; 2], 0), Err(7));
    assert_eq!(of(3, [329_492, 1], [2, 10], [3, 4], [3; 2], 0), Err(8));
    assert_eq!(of(3, [329_492, 1], [2, 10], [3, 0], [2, 3], 0), Err(9));
    assert_eq!(of(3, [329_492, 1], [2, 10], [3, 0], [2, 0], 31), Err(10));
    assert_eq!(of(3, [329_492, 1], [2, 10], [3, 0], [2, 0], 32), Ok(3));
}

#[test]
fn reading_24_records() {
    let mut t = Trace::default();
    t.provisioning(&plain(2));
    t.frame(&[0; 64], 0, 0, 0);
    let whole = t.0.clone();
    let cut = |t: &[u8], n: usize| list(&t[..n]);
    assert_eq!(cut(&whole, 0), "E 0 0\n");
    for n in 1..83 {
        assert_eq!(cut(&whole, n), "R 14 0\nE 0 0\n");
    }
    assert_eq!(cut(&whole, 83), "E 0 0\n");
    for n in 84..83 + 71 {
        assert_eq!(cut(&whole, n), "R 14 83\nE 0 0\n");
    }
    assert_eq!(list(&whole), "E 0 1\n");
    let with = |bytes: &[u8]| list(&[&whole[..], bytes].concat());
    assert_eq!(with(&[9, 0, 4, 0]), "R 15 154\nE 0 1\n");
    assert_eq!(with(&[70, 0, 1, 0]), "R 15 154\nE 0 1\n");
    assert_eq!(with(&[2, 0, 1, 0]), "R 15 154\nE 0 1\n");
    assert_eq!(with(&[69, 0, 1, 0, 7]), "R 14 154\nE 0 1\n");
    assert_eq!(with(&[81, 0, 3, 0, 7]), "R 14 154\nE 0 1\n");
    let mut later = Trace(whole.clone());
    let mut p = plain(1);
    p.k = 9;
    later.provisioning(&p);
    assert_eq!(list(&later.0), "R 16 154\nE 0 1\n");
    assert_eq!(list(&later.0[154..]), "R 5 0\nE 0 0\n");
    assert_eq!(list(&[2, 0, 2, 0]), "R 16 0\nE 0 0\n");
    assert_eq!(list(&whole[83..]), "R 16 0\nE 0 0\n");
    let mut bad = Trace(whole);
    bad.frame(&[0; 64], 4, 9, 9);
    assert_eq!(list(&bad.0), "R 2 154\nE 0 1\n");
}

#[test]
fn directed_cases() {
    let dir = concat!(env!("CARGO_MANIFEST_DIR"), "/cases");
    let mut count = 0;
    for entry in std::fs::read_dir(dir).unwrap() {
        let path = entry.unwrap().path();
        let case = crate::cases::read(&std::fs::read_to_string(&path).unwrap()).unwrap_or_else(|e| panic!("{path:?}: {e}"));
        assert_eq!(case.unmet, Vec::<String>::new(), "{path:?}");
        assert_eq!(list(&case.bytes), case.listing, "{path:?}");
        assert_eq!(quarters(&case.bytes), case.quarters, "{path:?}");
        count += 1;
    }
    assert_eq!(count, 172);
}

#[test]
fn pairs_that_can_happen() {
    assert_eq!(crate::cover::pairs().len(), 15 * 14 - 36 - 2 - 2 - 1 - 1);
}
