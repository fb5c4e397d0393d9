//! Makes change number I of a list to the plain C in the folder FROM and writes its sources into the folder TO. Prints the name; without such a
//! number ends with status 3.
//!
//!     mutate LIST I FROM TO

const SOURCES: [&str; 5] = ["plain.c", "plain_reader.h", "plain_ledger.c", "plain_quarters.c", "plain_card.c"];

/// What follows the sign, with its lines' ends.
fn part(line: &str, sign: char) -> String {
    let rest = line.strip_prefix(sign).unwrap_or_else(|| panic!("{line:?} does not begin with {sign}"));
    rest.strip_prefix(' ').unwrap_or(rest).replace("\\n", "\n")
}

fn main() {
    let args: Vec<String> = std::env::args().collect();
    let [_, list, index, from, to] = &args[..] else {
        eprintln!("mutate LIST I FROM TO");
        std::process::exit(2);
    };
    let text = std::fs::read_to_string(list).expect("the list is there");
    let mut changes: Vec<(&str, Vec<&str>)> = Vec::new();
    for line in text.lines().filter(|l| !l.is_empty() && !l.starts_with('#')) {
        match changes.last_mut() {
            Some((_, places)) if line.starts_with(['-', '+']) => places.push(line),
            _ => changes.push((line, Vec::new())),
        }
    }
    let Some((name, places)) = changes.get(index.parse::<usize>().expect("a number")) else {
        std::process::exit(3);
    };
    let mut sources = SOURCES.map(|file| std::fs::read_to_string(format!("{from}/{file}")).expect("the source is there"));
    assert!(!places.is_empty() && places.len() % 2 == 0, "{name}: - and + come in pairs");
    for place in places.chunks(2) {
        let (old, new) = (part(place[0], '-'), part(place[1], '+'));
        let Some(source) = sources.iter_mut().find(|text| text.contains(&old)) else {
            panic!("{name}: no such place: {old:?}");
        };
        *source = source.replacen(&old, &new, 1);
    }
    for (file, text) in SOURCES.iter().zip(&sources) {
        std::fs::write(format!("{to}/{file}"), text).expect("the changed source is written");
    }
    println!("{name}");
}
