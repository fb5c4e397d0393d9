//! Reads a trace on standard input and prints its listing, by the second program; with --explain its explanation, with --quarters its quarter-hours
//! and days.

use std::io::{Read, Write};

fn main() {
    let args: Vec<String> = std::env::args().skip(1).collect();
    let text = match &args[..] {
        [] => second::reader::list,
        [word] if word == "--explain" => second::explain::explain,
        [word] if word == "--quarters" => second::summary::quarters,
        _ => {
            eprintln!("second [--explain | --quarters] < TRACE");
            std::process::exit(2);
        }
    };
    let mut trace = Vec::new();
    std::io::stdin().lock().read_to_end(&mut trace).expect("standard input can be read");
    std::io::stdout().lock().write_all(text(&trace).as_bytes()).expect("standard output takes the text");
}
