//! What the two programs share: the command line, the text they are given, what a message shows of it, and how they end.

use std::ffi::OsString;
use std::io::{IsTerminal, Read, Write};
use std::process::ExitCode;

/// The most characters of a text that a message shows.
const SHOWN: usize = 60;

/// A text, and where it comes from: the file as it was named, or "standard input".
pub struct Given {
    pub name: String,
    pub text: String,
}

/// The words of a command line that are not read yet.
pub struct Words(Vec<OsString>);

/// Reads the options, then the file named on the command line, or standard input where none is; writes what `make` makes of it to
/// standard output. Status 2 where the command line is not understood, 1 where there is another mistake; both are told on standard error.
/// A terminal that is to type the text is told the first line of the usage.
pub fn run<O, T>(
    usage: &str,
    options: impl FnOnce(&mut Words) -> Result<O, String>,
    make: impl FnOnce(&Given, O) -> Result<T, String>,
    write: impl FnOnce(&T, &mut dyn Write) -> std::io::Result<()>,
) -> ExitCode {
    let mut words = Words(std::env::args_os().skip(1).collect());
    if words.ask_for_help() {
        return end(output(|out| out.write_all(usage.as_bytes())));
    }
    match options(&mut words).and_then(|options| Ok((options, words.file()?))) {
        Ok((options, file)) => {
            if file.is_none() && std::io::stdin().is_terminal() {
                eprintln!("{}", usage.lines().next().unwrap_or(""));
            }
            end(work(options, file, make).and_then(|made| output(|out| write(&made, out))))
        }
        Err(mistake) => {
            eprintln!("{mistake}\n{}", usage.lines().next().unwrap_or(""));
            ExitCode::from(2)
        }
    }
}

fn end(result: Result<(), String>) -> ExitCode {
    match result {
        Ok(()) => ExitCode::SUCCESS,
        Err(mistake) => {
            eprintln!("{mistake}");
            ExitCode::from(1)
        }
    }
}

fn output(write: impl FnOnce(&mut dyn Write) -> std::io::Result<()>) -> Result<(), String> {
    write(&mut std::io::stdout().lock()).map_err(|e| format!("standard output: {e}"))
}

/// What `make` makes of the text; its mistake is told with the name of the text.
fn work<O, T>(options: O, file: Option<OsString>, make: impl FnOnce(&Given, O) -> Result<T, String>) -> Result<T, String> {
    let name = file.as_ref().map_or("standard input".into(), |file| printable(&file.to_string_lossy()));
    let read = match file {
        Some(file) => std::fs::File::open(file).and_then(read_all),
        None => read_all(std::io::stdin().lock()),
    };
    let text = read.map_err(|e| format!("{name}: {e}"))?;
    let given = Given { name, text };
    make(&given, options).map_err(|mistake| format!("{}: {mistake}", given.name))
}

/// The whole text. Bytes that are not UTF-8 become a character that no directive has.
fn read_all(mut from: impl Read) -> std::io::Result<String> {
    let mut bytes = Vec::new();
    from.read_to_end(&mut bytes)?;
    Ok(String::from_utf8_lossy(&bytes).into_owned())
}

impl Words {
    fn ask_for_help(&self) -> bool {
        self.0.iter().any(|word| word == "-h" || word == "--help")
    }

    /// Takes an option and the number after it, from 1. Where the option stands twice, the later one holds.
    pub fn number(&mut self, option: &str) -> Result<Option<u64>, String> {
        let mut number = None;
        while let Some(at) = self.0.iter().position(|word| word == option) {
            let value = self.0.drain(at..self.0.len().min(at + 2)).nth(1);
            let value = value.ok_or_else(|| format!("{option} ends the line; expected a number after it"))?;
            let text = value.to_string_lossy();
            let read = decimal(&text).filter(|number| *number > 0);
            number = Some(read.ok_or_else(|| format!("{option} {}; expected a number from 1", quoted(&text)))?);
        }
        Ok(number)
    }

    /// What is left when the options are read: one file, or nothing.
    fn file(self) -> Result<Option<OsString>, String> {
        let shown = |word: &OsString| quoted(&word.to_string_lossy());
        if let Some(option) = self.0.iter().find(|word| word.as_encoded_bytes().starts_with(b"-")) {
            return Err(format!("{} is not an option", shown(option)));
        }
        match self.0.get(1) {
            Some(second) => Err(format!("{} is a second file; expected one at most", shown(second))),
            None => Ok(self.0.into_iter().next()),
        }
    }
}

/// The number of a word that has digits alone.
pub fn decimal(text: &str) -> Option<u64> {
    text.parse().ok().filter(|_| text.bytes().all(|b| b.is_ascii_digit()))
}

/// A character that cannot be printed: as `explain` has it, a dot.
fn dotted(c: char) -> char {
    match c.escape_debug().count() {
        1 | 2 if !c.is_control() && c != char::REPLACEMENT_CHARACTER => c,
        _ => '.',
    }
}

/// A text with a dot for each character that cannot be printed.
pub fn printable(text: &str) -> String {
    text.chars().map(dotted).collect()
}

/// The first characters of a text, at most `SHOWN` of them, and three dots where there are more.
fn parts(text: &str) -> (&str, &'static str) {
    match text.char_indices().nth(SHOWN) {
        None => (text, ""),
        Some((end, _)) => (&text[..end], "..."),
    }
}

/// A text cut to so much.
pub fn cut(text: &str) -> String {
    let (shown, more) = parts(text);
    format!("{shown}{more}")
}

/// A piece of a text as a message shows it: in quotes, cut, and printable. A tab or a quote in it is escaped.
pub fn quoted(text: &str) -> String {
    let escaped = |c: char| match c {
        '\t' | '"' | '\\' => c.escape_debug().to_string(),
        _ => dotted(c).to_string(),
    };
    let text: String = text.chars().map(escaped).collect();
    let (shown, more) = parts(&text);
    format!("\"{shown}\"{more}")
}

/// 86400 as 86,400.
pub(crate) fn commas(number: u64) -> String {
    let digits = number.to_string();
    let mut text = String::new();
    for (i, digit) in digits.chars().enumerate() {
        if i > 0 && (digits.len() - i) % 3 == 0 {
            text.push(',');
        }
        text.push(digit);
    }
    text
}

/// So many of what: "1 second", "2 seconds".
pub(crate) fn plural(number: u64, what: &str) -> String {
    format!("{} {what}{}", commas(number), if number == 1 { "" } else { "s" })
}
