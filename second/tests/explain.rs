//! The explanation: the printed bytes of a trace, and what is told where a trace is refused or a second closed.

use second::explain::explain;
use second::frame::{plain, Sent};
use second::reader::{list, Trace};

/// A trace with a plain provisioning.
fn begun() -> Trace {
    let mut trace = Trace::default();
    trace.provisioning(&plain(1));
    trace
}

/// Good frames with these MFAS, changed by `change`.
fn send(trace: &mut Trace, numbers: std::ops::Range<u32>, change: impl Fn(u32, &mut Sent)) {
    for number in numbers {
        let mut sent = Sent::good(number as u8);
        change(number, &mut sent);
        trace.frame(&sent.overhead(), sent.flags, sent.violations[0], sent.violations[1]);
    }
}

#[test]
fn nothing_has_no_line() {
    assert_eq!(explain(&[]), "E 0 0\n");
    assert_eq!(explain(&begun().0), "E 0 0\n");
    let mut zeros = begun();
    zeros.frame(&Sent::ZEROS.overhead(), 0, 0, 0);
    assert_eq!(explain(&zeros.0), "E 0 1\n");
}

#[test]
fn a_refused_frame_has_no_line() {
    let mut trace = begun();
    send(&mut trace, 0..2, |_, _| {});
    trace.frame(&Sent::good(2).overhead(), 4, 0, 0);
    send(&mut trace, 2..9, |_, _| {});
    assert_eq!(explain(&trace.0), "F 1 2 2 +IF\nR 2 225\nE 0 2\n");
}

#[test]
fn a_trace_is_printed_byte_for_byte() {
    let mut trace = begun();
    let bytes = [31, 32, b'"', b'\\', b'~', 126, 127, 128, 255, 10];
    send(&mut trace, 0..256, |number, sent| sent.tti = [bytes.get(number as usize % 64).copied().unwrap_or(b'x'), b'p']);
    let told = format!("F 1 256 256 SM.trace=\". \"\\~~....{}\" PM.trace=\"{}\"\n", "x".repeat(54), "p".repeat(64));
    assert_eq!(explain(&trace.0), format!("F 1 2 2 +IF\nF 1 3 3 +IM\n{told}E 0 256\n"));
}

#[test]
fn a_mark_is_told_with_the_next_frame() {
    let mut trace = begun();
    send(&mut trace, 0..3, |_, sent| sent.violations = [1, 0]);
    trace.mark();
    send(&mut trace, 3..5, |_, sent| sent.violations = [1, 0]);
    trace.mark();
    send(&mut trace, 5..7, |_, _| {});
    let text = explain(&trace.0);
    let second =
        |number: u32, frames: u32| format!("S {number} {frames} {frames} 0 0 0 0 0 0 0 0 0 {frames} 0 0 0 0 0 0 0 0 0\n");
    // The second mark reports second 1; second 2 is printed at the end.
    let told = format!("{}F 3 1 6 +SM.dDEG +SM.aTSD +SM.cDEG\n{}E 2 7\n", second(1, 3), second(2, 2));
    assert_eq!(text, format!("F 1 2 2 +IF\nF 1 3 3 +IM\n{told}"));
    let others: String = text.lines().filter(|line| !line.starts_with('F')).map(|line| format!("{line}\n")).collect();
    assert_eq!(others, list(&trace.0));
}

#[test]
fn a_second_is_told_at_the_next_mark() {
    let mut trace = begun();
    let counted = |sent: &mut Sent| (sent.violations, sent.bei) = ([1, 1], [1, 1]);
    send(&mut trace, 0..3, |_, sent| counted(sent));
    trace.mark();
    send(&mut trace, 3..8, |_, sent| {
        counted(sent);
        sent.iae = true;
    });
    trace.mark();
    trace.mark();
    send(&mut trace, 8..13, |_, sent| sent.bdi = [true, false]);
    trace.frame(&Sent::good(13).overhead(), 4, 0, 0);
    let second = |number: u32, frames: u32, section: &str| {
        format!("S {number} {frames} {frames} 0 0 0 0 0 0 0 0 0 {section} {frames} {frames} 0 0 {frames}\n")
    };
    // Second 1 after second 2's frames, second 2 at mark 3, second 3 where the scan ends, before R.
    let told = format!(
        "F 2 5 8 +SM.dIAE +SM.aBIAE\n{}{}F 4 1 9 +PM.dDEG +PM.aTSD +PM.cDEG\nF 4 5 13 +SM.dBDI -SM.dIAE -SM.aBIAE +SM.cBDI\n{}",
        second(1, 3, "0 0 0 0 0"),
        second(2, 5, "0 0 0 0 0"),
        second(3, 0, "0 0 0 0 0")
    );
    assert_eq!(explain(&trace.0), format!("F 1 2 2 +IF\nF 1 3 3 +IM\n{told}R 2 1018\nE 3 13\n"));
}
