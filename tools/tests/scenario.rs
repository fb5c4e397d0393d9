//! Scenarios: the examples with their listings, each directive by the frames it makes, the message of each mistake, and what the program
//! says of its command line.

use second::frame::FAS;
use second::reader::{list, provisioning, record, Record};
use std::io::Write;
use std::process::{Command, Stdio};
use tools::scenario::read;

fn trace(text: &str) -> Vec<u8> {
    let mut bytes = Vec::new();
    read(text).unwrap().write(&mut bytes).unwrap();
    bytes
}

fn mistake(text: &str) -> String {
    read(text).expect_err("a mistake is told")
}

/// One record after the provisioning: a frame's bytes and what comes with it, or a mark.
#[derive(Debug, PartialEq)]
enum Part {
    Frame { overhead: [u8; 64], with: [u8; 3] },
    Mark,
}

/// The body of the provisioning, and the records after it.
fn parts(text: &str) -> (Vec<u8>, Vec<Part>) {
    let bytes = trace(text);
    let (first, mut at) = record(&bytes).unwrap();
    let Record::Provisioning(body) = first else { panic!("the first record provisions") };
    let mut parts = Vec::new();
    while at < bytes.len() {
        let (next, taken) = record(&bytes[at..]).unwrap();
        at += taken;
        parts.push(match next {
            Record::Frame { overhead, flags, sm, pm, .. } => {
                Part::Frame { overhead: overhead.try_into().unwrap(), with: [flags, sm, pm] }
            }
            Record::Mark => Part::Mark,
            Record::Provisioning(_) | Record::Level(_) => panic!("a second provisioning"),
        });
    }
    (body.to_vec(), parts)
}

/// One byte of each frame: of the overhead by row and column, from 1.
fn column(text: &str, row: usize, column: usize) -> Vec<u8> {
    let byte = |part: Part| match part {
        Part::Frame { overhead, .. } => Some(overhead[16 * (row - 1) + column - 1]),
        Part::Mark => None,
    };
    parts(text).1.into_iter().filter_map(byte).collect()
}

fn with(text: &str) -> Vec<[u8; 3]> {
    let three = |part: Part| match part {
        Part::Frame { with, .. } => Some(with),
        Part::Mark => None,
    };
    parts(text).1.into_iter().filter_map(three).collect()
}

#[test]
fn examples_have_their_listings() {
    let folder = concat!(env!("CARGO_MANIFEST_DIR"), "/../examples/scenarios");
    let mut met = 0;
    for entry in std::fs::read_dir(folder).unwrap() {
        let file = entry.unwrap().path();
        if file.extension().is_some_and(|e| e == "txt") {
            let listing = std::fs::read_to_string(file.with_extension("listing")).unwrap();
            assert_eq!(list(&trace(&std::fs::read_to_string(&file).unwrap())), listing, "{file:?}");
            met += 1;
        }
    }
    assert_eq!(met, 10);
}

#[test]
fn a_mark_alone_has_a_provisioning_with_the_defaults() {
    let (body, parts) = parts("# nothing\n\nmark 0");
    let p = provisioning(&body).unwrap();
    assert_eq!((p.k, p.degthr, p.degm, p.mode, p.dis, p.names), (1, [1; 2], [2; 2], [3; 2], [0; 2], [[0; 32]; 2]));
    assert_eq!(parts, [Part::Mark]);
}

#[test]
fn provisioning_by_name() {
    let text = "k 3 # comment\nsection sapi \"A #1\" mode sapi act off degthr 329492 degm 10\n\
                path dapi \"123456789012345\" mode dapi act default degthr 7\npath mode off degm 3\nsection mode both act on\nmark 0";
    let p = provisioning(&parts(text).0).unwrap();
    assert_eq!((p.k, p.degthr, p.degm, p.mode, p.dis), (3, [329_492, 7], [10, 3], [3, 0], [0, 2]));
    assert_eq!(&p.names[0][..6], b"\0A #1\0");
    assert_eq!(p.names[0][6..], [0; 26]);
    assert_eq!(p.names[1][..17], [0; 17]);
    assert_eq!(&p.names[1][17..], b"123456789012345");
}

#[test]
fn good_frames() {
    let (_, parts) = parts("good 200\ngood 60");
    assert_eq!(parts.len(), 260);
    for (i, part) in parts.into_iter().enumerate() {
        let mut overhead = [0; 64];
        overhead[..6].copy_from_slice(&FAS);
        overhead[6] = i as u8;
        overhead[43] = 1;
        assert_eq!(part, Part::Frame { overhead, with: [0; 3] });
    }
}

#[test]
fn marks() {
    let places = |text: &str| -> Vec<usize> {
        parts(text).1.iter().enumerate().filter(|(_, part)| **part == Part::Mark).map(|(i, _)| i).collect()
    };
    assert_eq!(places("mark 0\nmark 2\ngood 5\nmark 5"), [0, 3, 7]);
    assert_eq!(places("good 7\nmark every 3"), [3, 7]);
    assert_eq!(places("good 2\nmark 2\nmark every 2"), [2, 3]);
}

#[test]
fn framing() {
    let text = "good 6\nfrom 2 for 2 fas lost\nfrom 3 for 3 fas wrong 3";
    assert_eq!(column(text, 1, 3), [0xF6, 0, 0, 0, 0, 0xF6]);
    for other in [1, 2] {
        assert_eq!(column(text, 1, other), [0xF6, 0, 0, 0xF6, 0xF6, 0xF6]);
    }
    for other in 4..=6 {
        assert_eq!(column(text, 1, other), [0x28, 0, 0, 0x28, 0x28, 0x28]);
    }
}

#[test]
fn multiframe_and_traces() {
    let names = "section sapi \"ab\" dapi \"cd\"\nsend path operator \"xy\" sapi \"ef\"\ngood 70\n";
    let sent = |row, col, more: &str| column(&format!("{names}{more}"), row, col);
    let (section, path) = (sent(1, 8, ""), sent(3, 10, ""));
    assert_eq!(&section[..4], b"\0ab\0");
    assert_eq!(&section[16..20], b"\0cd\0");
    assert_eq!(section[64..], section[..6]);
    assert_eq!(&path[..4], b"\0ef\0");
    assert_eq!(&path[32..35], b"xy\0");
    // Off and stuck change MFAS alone, moved the whole multiframe.
    let more = "from 2 for 3 mfas off 200\nfrom 6 for 2 mfas stuck 9";
    assert_eq!(sent(1, 7, more)[..8], [0, 201, 202, 203, 4, 9, 9, 7]);
    assert_eq!(sent(1, 8, more), section);
    let more = "from 3 for 2 mfas moved 15";
    assert_eq!(sent(1, 7, more)[..6], [0, 1, 17, 18, 4, 5]);
    assert_eq!(&sent(1, 8, more)[..5], b"\0acd\0");
    // Names sent meanwhile, in whole fields: the DAPI here has no second character.
    let more = "from 1 for 20 section sapi \"AB\" section dapi \"C\" path operator \"z\"";
    assert_eq!(&sent(1, 8, more)[..3], b"\0AB");
    assert_eq!(&sent(1, 8, more)[16..20], b"\0C\0\0");
    assert_eq!(sent(1, 8, more)[64..], section[64..]);
    assert_eq!(sent(3, 10, more), path);
}

#[test]
fn status_bytes() {
    let text =
        "good 4\nfrom 2 for 2 section bei 11 section bdi path bdi path bei 15\nfrom 3 for 1 iae stat ais\nfrom 4 for 1 stat 0";
    assert_eq!(column(text, 1, 10), [0, 0xB8, 0xBC, 0]);
    assert_eq!(column(text, 3, 12), [1, 0xF9, 0xFF, 0]);
    let text = "good 3\nfrom 1 for 1 stat oci\nfrom 2 for 1 stat lck\nfrom 3 for 1 stat 4";
    assert_eq!(column(text, 3, 12), [6, 5, 4]);
}

#[test]
fn flags_and_counts() {
    let text = "good 4\nfrom 1 for 2 flag tsf\nfrom 2 for 2 flag ais\nfrom 2 for 2 section violations 8 path violations 1";
    assert_eq!(with(text), [[1, 0, 0], [3, 8, 1], [2, 8, 1], [0, 0, 0]]);
}

/// The bodies of the levels' records, and of each frame its kind and the six counts.
fn with_levels(text: &str) -> (Vec<Vec<u8>>, Vec<(u16, [u8; 6])>) {
    let bytes = trace(text);
    let (mut levels, mut frames, mut at) = (Vec::new(), Vec::new(), 0);
    while at < bytes.len() {
        let (next, taken) = record(&bytes[at..]).unwrap();
        at += taken;
        match next {
            Record::Frame { kind, counts, .. } => frames.push((kind, counts)),
            Record::Level(body) => levels.push(body.to_vec()),
            Record::Mark | Record::Provisioning(_) => {}
        }
    }
    (levels, frames)
}

#[test]
fn levels() {
    let text = "good 2\ntcm 6 dapi \"B\" degthr 300 degm 10\ntcm 2 sapi \"A\" mode off act default\ntcm 6 mode sapi act off\n\
                from 2 for 1 tcm2 violations 8 tcm5 violations 1";
    let (levels, frames) = with_levels(text);
    // Lowest level first, whatever the order of the lines: level, DEGThr, DEGM, mode, TIMActDis, names.
    assert_eq!(levels.len(), 2);
    assert_eq!(levels[0][..11], [2, 1, 0, 0, 0, 2, 0, 2, 0, b'A', 0]);
    assert_eq!(levels[1][..11], [6, 44, 1, 0, 0, 10, 1, 1, 0, 0, 0]);
    assert_eq!((levels[1][8 + 17], levels[1].len()), (b'B', 40));
    assert_eq!(frames, [(5, [0; 6]), (5, [0, 8, 0, 0, 1, 0])]);
    // Without a level frames are of kind 1; a line that names one is enough for kind 5.
    assert_eq!(with_levels("good 1"), (vec![], vec![(1, [0; 6])]));
    assert_eq!(with_levels("good 1\nfrom 1 for 1 tcm4 bdi"), (vec![], vec![(5, [0; 6])]));
}

/// A level's bytes: TTI and status, by row and column. The status of a level that is provisioned is good, of another it is 0.
#[test]
fn bytes_of_levels() {
    let places = [(3, 7), (3, 4), (3, 1), (2, 11), (2, 8), (2, 5)];
    for (level, (row, first)) in (1..=6).zip(places) {
        let text = format!(
            "good 20\ntcm {level} sapi \"A\"\nfrom 2 for 1 tcm{level} stat ltc\nfrom 3 for 1 tcm{level} bei 11 tcm{level} bdi tcm{level} stat iae\n\
             from 18 for 1 tcm{level} dapi \"C\"\nsend tcm{level} operator \"D\""
        );
        let parts = parts_of(&text);
        for (number, (other_row, other)) in (1..=6).zip(places) {
            let status: Vec<u8> = parts.iter().map(|o| o[16 * (other_row - 1) + other + 1]).collect();
            let tti: Vec<u8> = parts.iter().map(|o| o[16 * (other_row - 1) + other - 1]).collect();
            let (want, sent): (&[u8], &[u8]) =
                if number == level { (&[1, 0, 0xBA, 1], &[0, b'A', b'C']) } else { (&[0; 4], &[0; 3]) };
            assert_eq!(&status[..4], want, "level {level}, bytes of {number}");
            assert_eq!([tti[0], tti[1], tti[17]], sent, "level {level}, bytes of {number}");
        }
        assert_eq!((row, first), places[level - 1]);
    }
}

/// The overhead of each frame.
fn parts_of(text: &str) -> Vec<[u8; 64]> {
    let bytes = trace(text);
    let (mut frames, mut at) = (Vec::new(), 0);
    while at < bytes.len() {
        let (next, taken) = record(&bytes[at..]).unwrap();
        at += taken;
        if let Record::Frame { overhead, .. } = next {
            frames.push(overhead.try_into().unwrap());
        }
    }
    frames
}

#[test]
fn the_later_line_wins() {
    let text = "good 3\nfrom 1 for 3 path violations 8\nfrom 2 for 1 path violations 0";
    assert_eq!(with(text), [[0, 0, 8], [0, 0, 0], [0, 0, 8]]);
    // The multiframe is not moved either, where a later line says something else of MFAS.
    let text = "section sapi \"ab\"\ngood 3\nfrom 2 for 1 mfas moved 7\n";
    assert_eq!(column(text, 1, 8), *b"\0\0b");
    for (later, mfas) in [("stuck 3", [3, 3, 3]), ("off 3", [3, 4, 5]), ("moved 64", [64, 65, 66])] {
        let text = format!("{text}from 1 for 3 mfas {later}");
        assert_eq!((column(&text, 1, 7), column(&text, 1, 8)), (mfas.to_vec(), b"\0ab".to_vec()), "{later}");
    }
}

#[test]
fn repeated_within_a_span() {
    let text = "good 12\nfrom 2 for 9 every 4 for 3 section violations 1";
    let counts: Vec<u8> = with(text).iter().map(|three| three[1]).collect();
    assert_eq!(counts, [0, 1, 1, 1, 0, 1, 1, 1, 0, 1, 0, 0]);
}

#[test]
fn mistakes_tell_the_line_and_what_was_expected() {
    let told = [
        ("fram 3", "\"fram\" is not a directive; expected k, section, path, tcm, send, good, from or mark"),
        ("\"good\" 3", "\"good\" is not a directive; expected k, section, path, tcm, send, good, from or mark"),
        ("k 4", "\"4\" is not k; expected a number from 1 to 3"),
        ("k", "the line ends; expected a number from 1 to 3"),
        ("k 1 2", "\"2\" is too much; expected the end of the line"),
        ("section", "the line ends; expected sapi, dapi, mode, act, degthr or degm"),
        ("path name", "\"name\" is not a field of the provisioning; expected sapi, dapi, mode, act, degthr or degm"),
        ("path mode on", "\"on\" is not a mode; expected off, sapi, dapi or both"),
        ("path act yes", "\"yes\" is not a word after act; expected on, off or default"),
        ("path degthr 0", "\"0\" is not degthr; expected a number from 1 to 329492"),
        ("path degthr 20421", "degthr 20421 is too high for k 1; expected a number from 1 to 20420"),
        ("path degm 11", "\"11\" is not degm; expected a number from 2 to 10"),
        ("path sapi AMS", "\"AMS\" is not a name for sapi; expected a name in quotes, of at most 15 ASCII characters"),
        ("path dapi", "the line ends; expected a name in quotes, of at most 15 ASCII characters"),
        ("path dapi \"AMS", "\"\\\"AMS\" has no closing quote; expected a name in quotes"),
        ("path dapi \"Zürich\"", "\"Zürich\" is not a name for dapi; expected a name in quotes, of at most 15 ASCII characters"),
        (
            "path sapi \"1234567890123456\"",
            "\"1234567890123456\" is not a name for sapi; expected a name in quotes, of at most 15 ASCII characters",
        ),
        ("tcm sapi \"A\"", "\"sapi\" is not a level; expected a number from 1 to 6"),
        ("tcm 7 sapi \"A\"", "\"7\" is not a level; expected a number from 1 to 6"),
        ("tcm 3", "the line ends; expected sapi, dapi, mode, act, degthr or degm"),
        ("tcm 3 degthr 20421", "degthr 20421 is too high for k 1; expected a number from 1 to 20420"),
        ("from 1 for 3 tcm3 stat 111", "\"111\" is not a STAT; expected a number from 0 to 7, or ais, oci, lck, iae or ltc; numbers are decimal, and 111 in binary is 7"),
        ("from 1 for 3 section stat 0", "\"stat\" is not a condition of a layer; expected bdi, bei, violations, sapi, dapi or operator"),
        ("send line", "\"line\" is not a layer; expected section, path, tcm1, tcm2, tcm3, tcm4, tcm5 or tcm6"),
        ("send path mode", "\"mode\" is not a field of the trace; expected sapi, dapi or operator"),
        ("send path operator 7", "\"7\" is not a name for operator; expected a name in quotes, of at most 32 ASCII characters"),
        ("good 0", "\"0\" is not a number of frames; expected a number from 1 to 4294967295"),
        ("good +5", "\"+5\" is not a number of frames; expected a number from 1 to 4294967295"),
        (
            "good 99999999999999999999",
            "\"99999999999999999999\" is not a number of frames; expected a number from 1 to 4294967295",
        ),
        ("from 0", "\"0\" is not a frame; expected a number from 1 to 4294967295"),
        ("from 1 to 3", "\"to\" is not a span; expected for"),
        ("from 1 for x", "\"x\" is not a number of frames; expected a number from 1 to 4294967295"),
        ("from 1 for 3", "the line ends; expected fas, mfas, stat, iae, flag, section, path, tcm1, tcm2, tcm3, tcm4, tcm5 or tcm6"),
        ("from 1 for 3 fsa lost", "\"fsa\" is not a condition; expected fas, mfas, stat, iae, flag, section, path, tcm1, tcm2, tcm3, tcm4, tcm5 or tcm6"),
        ("from 1 for 3 every 4 fas lost", "\"fas\" is not a span; expected for"),
        ("from 1 for 3 every 4 for 5 fas lost", "\"5\" is not a number of frames within that; expected a number from 1 to 4"),
        ("from 1 for 3 fas gone", "\"gone\" is not a word after fas; expected lost or wrong"),
        ("from 1 for 3 fas wrong 7", "\"7\" is not a column of the FAS; expected a number from 1 to 6"),
        ("from 1 for 3 mfas 7", "\"7\" is not a word after mfas; expected stuck, off or moved"),
        ("from 1 for 3 mfas stuck 256", "\"256\" is not an MFAS; expected a number from 0 to 255"),
        ("from 1 for 3 stat 8", "\"8\" is not a STAT; expected a number from 0 to 7, or ais, oci or lck"),
        (
            "from 1 for 3 stat 111",
            "\"111\" is not a STAT; expected a number from 0 to 7, or ais, oci or lck; numbers are decimal, and 111 in binary is 7",
        ),
        (
            "from 1 for 3 stat 1000",
            "\"1000\" is not a STAT; expected a number from 0 to 7, or ais, oci or lck",
        ),
        ("from 1 for 3 flag lof", "\"lof\" is not a flag; expected tsf or ais"),
        ("from 1 for 3 section", "the line ends; expected bdi, bei, violations, sapi, dapi or operator"),
        ("from 1 for 3 path iae", "\"iae\" is not a condition of a layer; expected bdi, bei, violations, sapi, dapi or operator"),
        ("from 1 for 3 path bei 16", "\"16\" is not a BEI; expected a number from 0 to 15"),
        (
            "from 1 for 3 path bei 1011",
            "\"1011\" is not a BEI; expected a number from 0 to 15; numbers are decimal, and 1011 in binary is 11",
        ),
        (
            "from 1 for 3 path bei 0010",
            "\"0010\" is not a BEI; expected a number from 0 to 15; numbers are decimal, and 0010 in binary is 2",
        ),
        (
            "from 1 for 3 section bei 0b1",
            "\"0b1\" is not a BEI; expected a number from 0 to 15; numbers are decimal, and 0b1 in binary is 1",
        ),
        ("from 1 for 3 path bei \"1011\"", "\"1011\" is not a BEI; expected a number from 0 to 15"),
        ("from 1 for 3 path bei", "the line ends; expected a number from 0 to 15"),
        ("from 1 for 3 path violations 9", "\"9\" is not a violation count; expected a number from 0 to 8"),
        ("from 1 for 3 iae 1", "\"1\" is not a condition; expected fas, mfas, stat, iae, flag, section, path, tcm1, tcm2, tcm3, tcm4, tcm5 or tcm6"),
        ("from 9 for 3 iae", "frame 11 is past the end; expected at most 10, the good frames of all lines"),
        ("mark", "the line ends; expected a number from 0 to 4294967295, or every"),
        ("mark all", "\"all\" is not a frame; expected a number from 0 to 4294967295, or every"),
        ("mark 11", "frame 11 is past the end; expected at most 10, the good frames of all lines"),
        ("mark every 0", "\"0\" is not a number of frames; expected a number from 1 to 4294967295"),
        ("mark every 11", "frame 11 is past the end; expected at most 10, the good frames of all lines"),
    ];
    for (line, message) in told {
        assert_eq!(mistake(&format!("# first\ngood 4\n{line}\ngood 6\n")), format!("line 3: {message}"));
    }
}

#[test]
fn numbers_that_are_the_same_in_binary_are_taken() {
    let text = "good 5\nfrom 1 for 1 path bei 10\nfrom 2 for 1 path bei 11\nfrom 3 for 1 path bei 0001\nfrom 4 for 1 stat 001\n\
                from 5 for 1 path bei 07 stat 000";
    assert_eq!(column(text, 3, 12), [0xA1, 0xB1, 0x11, 1, 0x70]);
}

#[test]
fn a_scenario_of_nothing_is_a_mistake() {
    let told = "the scenario ends with no frame and no mark; expected good or mark";
    assert_eq!(mistake(""), format!("line 1: {told}"));
    assert_eq!(mistake("# nothing\nk 2\n"), format!("line 3: {told}"));
    // A mark or a frame is something.
    assert_eq!(parts("mark 0").1.len() + parts("good 1").1.len(), 2);
}

#[test]
fn junk_is_cut_and_printable() {
    let first = |line: &[u8]| mistake(&String::from_utf8_lossy(line)).replace("line 1: ", "");
    let expected = "is not a directive; expected k, section, path, tcm, send, good, from or mark";
    assert_eq!(first(b"\x00a\x01\xff\x1b[0m\x7f"), format!("\".a...[0m.\" {expected}"));
    assert_eq!(first(&[b'x'; 60]), format!("\"{}\" {expected}", "x".repeat(60)));
    assert_eq!(first(&[b'x'; 61]), format!("\"{}\"... {expected}", "x".repeat(60)));
    assert_eq!(first(&[0xFF; 5_000]), format!("\"{}\"... {expected}", ".".repeat(60)));
    // A tab in a name is seen, and so is a letter that is no ASCII.
    let name = "is not a name for sapi; expected a name in quotes, of at most 15 ASCII characters";
    assert_eq!(first("path sapi \"a\tü\u{202e}\"".as_bytes()), format!("\"a\\tü.\" {name}"));
    let open = first(format!("path sapi \"{}", "y".repeat(99)).as_bytes());
    assert_eq!(open, format!("\"\\\"{}\"... has no closing quote; expected a name in quotes", "y".repeat(58)));
}

/// The program's standard output, standard error and status.
fn program(args: &[&str], input: &[u8]) -> (Vec<u8>, String, Option<i32>) {
    let mut child = Command::new(env!("CARGO_BIN_EXE_scenario"));
    let mut child = child.args(args).stdin(Stdio::piped()).stdout(Stdio::piped()).stderr(Stdio::piped()).spawn().unwrap();
    let mut stdin = child.stdin.take().unwrap();
    // A program that ends without reading closes the pipe: no failure of the test.
    let _ = stdin.write_all(input);
    drop(stdin);
    let out = child.wait_with_output().unwrap();
    (out.stdout, String::from_utf8(out.stderr).unwrap(), out.status.code())
}

/// What the program says where it writes no trace: on standard error, and the status.
fn refused(args: &[&str], input: &[u8]) -> (String, Option<i32>) {
    let (out, told, status) = program(args, input);
    assert!(out.is_empty(), "{args:?}");
    (told, status)
}

#[test]
fn the_program() {
    let (out, told, status) = program(&[], b"good 3\nmark 3\n");
    assert_eq!(
        (list(&out).as_str(), told.as_str(), status),
        ("S 1 3 3 0 0 0 0 0 0 0 0 0 0 0 0 0 0 0 0 0 0 0\nE 1 3\n", "", Some(0))
    );
    let file = concat!(env!("CARGO_MANIFEST_DIR"), "/../examples/scenarios/overlap.txt");
    assert_eq!(program(&[file], b"").0, trace(&std::fs::read_to_string(file).unwrap()));
}

#[test]
fn the_program_names_the_text_of_a_mistake() {
    let told = "standard input: line 1: the line ends; expected a number from 1 to 4294967295\n";
    assert_eq!(refused(&[], b"good\n"), (told.into(), Some(1)));
    let told = "standard input: line 1: the scenario ends with no frame and no mark; expected good or mark\n";
    assert_eq!(refused(&[], b""), (told.into(), Some(1)));
    let told = "is not a directive; expected k, section, path, tcm, send, good, from or mark\n";
    assert_eq!(refused(&[], b"good 9\n\xfe\x02\n"), (format!("standard input: line 2: \"..\" {told}"), Some(1)));
    let file = concat!(env!("CARGO_MANIFEST_DIR"), "/../examples/scenarios/overlap.listing");
    assert_eq!(refused(&[file], b""), (format!("{file}: line 1: \"S\" {told}"), Some(1)));
    let (told, status) = refused(&["no such file"], b"");
    assert!(told.starts_with("no such file: ") && status == Some(1), "{told}");
}

#[test]
fn the_program_tells_its_usage() {
    let usage = "scenario [FILE] > TRACE: makes a trace of the scenario in FILE, or on standard input\n";
    for help in ["-h", "--help"] {
        let (out, told, status) = program(&[help], b"");
        let out = String::from_utf8(out).unwrap();
        assert!(out.starts_with(usage) && out.contains("docs/BENCH.md"), "{out}");
        assert_eq!((out.lines().count() < 10, told.as_str(), status), (true, "", Some(0)));
    }
    let told = |mistake: &str| (format!("{mistake}\n{usage}"), Some(2));
    assert_eq!(refused(&["--frames"], b"good 3\n"), told("\"--frames\" is not an option"));
    assert_eq!(refused(&["-x", "a"], b"good 3\n"), told("\"-x\" is not an option"));
    assert_eq!(refused(&["a", "b"], b"good 3\n"), told("\"b\" is a second file; expected one at most"));
}
