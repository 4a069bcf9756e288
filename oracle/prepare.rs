//! Makes the copy of quiche that the oracle is built on.
//!
//! `prepare EDITS STANDINS SOURCE DESTINATION` reads the wanted files below
//! SOURCE, drops their test modules and module declarations, makes the named edits
//! of EDITS on them, adds the stand-ins and writes a crate to DESTINATION. An edit
//! whose place is not there exactly once stops it.

use std::fs;
use std::path::Path;
use std::process::exit;

/// The real files that are built, each at the same place in the copy.
const TAKEN: [&str; 11] = [
    "src/minmax.rs",
    "src/packet.rs",
    "src/ranges.rs",
    "src/recovery/bandwidth.rs",
    "src/recovery/bytes_in_flight.rs",
    "src/recovery/mod.rs",
    "src/recovery/rtt.rs",
    "src/recovery/congestion/cubic.rs",
    "src/recovery/congestion/mod.rs",
    "src/recovery/congestion/recovery.rs",
    "src/recovery/congestion/reno.rs",
];

/// Our files and where they go in the copy.
const STANDINS: [(&str, &str); 9] = [
    ("Cargo.toml", "Cargo.toml"),
    ("lib.rs", "src/lib.rs"),
    ("frame.rs", "src/frame.rs"),
    ("hystart.rs", "src/recovery/congestion/hystart.rs"),
    ("prr.rs", "src/recovery/congestion/prr.rs"),
    (
        "delivery_rate.rs",
        "src/recovery/congestion/delivery_rate.rs",
    ),
    (
        "recovery_view.rs",
        "src/recovery/congestion/recovery/view.rs",
    ),
    ("cubic_view.rs", "src/recovery/congestion/cubic/view.rs"),
    (
        "cubic_observed.rs",
        "src/recovery/congestion/cubic/observed.rs",
    ),
];

#[derive(Debug)]
enum Place {
    Find(String),
    Drop { from: String, upto: String },
    Keep { from: String, upto: String },
    End,
}

#[derive(Debug)]
struct Edit {
    name: String,
    file: String,
    place: Place,
    put: String,
}

fn fail(why: String) -> ! {
    eprintln!("prepare: {why}");
    exit(1);
}

/// The lines below `key` that begin with a bar, without it.
fn block(lines: &[&str], key: &str) -> Option<String> {
    let at = lines.iter().position(|l| *l == key)?;
    let body = lines[at + 1..].iter().take_while(|l| l.starts_with('|'));
    Some(body.map(|l| &l[1..]).collect::<Vec<_>>().join("\n"))
}

fn word(lines: &[&str], key: &str) -> Option<String> {
    let line = lines.iter().find_map(|l| l.strip_prefix(key))?;
    line.strip_prefix(' ').map(str::to_string)
}

fn edit_from(lines: &[&str]) -> Option<Edit> {
    let upto = block(lines, "upto");
    let place = if lines.contains(&"end") {
        Place::End
    } else if let Some(text) = block(lines, "find") {
        Place::Find(text)
    } else if let Some(from) = block(lines, "from") {
        Place::Drop { from, upto: upto? }
    } else {
        Place::Keep {
            from: block(lines, "keep-from")?,
            upto: upto?,
        }
    };
    word(lines, "why")?;
    Some(Edit {
        name: word(lines, "edit")?,
        file: word(lines, "file")?,
        place,
        put: block(lines, "put")?,
    })
}

fn edits_from(text: &str) -> Vec<Edit> {
    let lines: Vec<&str> = text.lines().filter(|l| !l.starts_with('#')).collect();
    let starts: Vec<usize> = (0..lines.len())
        .filter(|&i| lines[i].starts_with("edit "))
        .collect();
    let ends = starts.iter().skip(1).copied().chain([lines.len()]);
    starts
        .iter()
        .zip(ends)
        .map(|(&from, upto)| {
            edit_from(&lines[from..upto])
                .unwrap_or_else(|| fail(format!("cannot read the edit at '{}'", lines[from])))
        })
        .collect()
}

/// Where `wanted` stands in `text`, if it stands there exactly once.
fn only_place(text: &str, wanted: &str) -> Result<usize, String> {
    match text.matches(wanted).count() {
        1 => Ok(text.find(wanted).expect("it was just found")),
        n => Err(format!(
            "its place is found {n} times, wanted once: '{wanted}'"
        )),
    }
}

fn part(text: &str, from: &str, upto: &str) -> Result<(usize, usize), String> {
    let start = only_place(text, from)?;
    let end = only_place(text, upto)?;
    if end < start {
        return Err("its end stands before its start".to_string());
    }
    Ok((start, end))
}

/// A line such as `pub(crate) mod name;`.
fn declares_module(line: &str) -> bool {
    let plain = line
        .trim_start_matches("pub(crate) ")
        .trim_start_matches("pub ");
    plain.starts_with("mod ") && plain.ends_with(';')
}

/// The text without declared modules and test modules, each with its attributes.
fn without_modules(text: &str) -> String {
    let mut kept: Vec<&str> = Vec::new();
    let mut in_tests = false;
    for line in text.lines() {
        let opens_tests = line.starts_with("mod tests {");
        if opens_tests || (!in_tests && declares_module(line)) {
            while kept.last().is_some_and(|l| l.starts_with("#[")) {
                kept.pop();
            }
        } else if !in_tests {
            kept.push(line);
        }
        in_tests = (in_tests || opens_tests) && line != "}";
    }
    kept.join("\n") + "\n"
}

fn edited(text: &str, edit: &Edit) -> Result<String, String> {
    let put = &edit.put;
    Ok(match &edit.place {
        Place::Find(found) => {
            only_place(text, found)?;
            text.replacen(found, put, 1)
        }
        Place::Drop { from, upto } => {
            let (start, end) = part(text, from, upto)?;
            format!("{}{}{}", &text[..start], put, &text[end..])
        }
        Place::Keep { from, upto } => {
            let (start, end) = part(text, from, upto)?;
            format!("{}\n{}", put, &text[start..end])
        }
        Place::End => format!("{text}\n{put}\n"),
    })
}

fn read(path: &Path) -> String {
    fs::read_to_string(path).unwrap_or_else(|e| fail(format!("{}: {e}", path.display())))
}

/// Writes only what changed, so that nothing is built twice.
fn write(path: &Path, text: &str) {
    if fs::read_to_string(path).is_ok_and(|old| old == text) {
        return;
    }
    let folder = path.parent().expect("a file has a folder");
    fs::create_dir_all(folder)
        .and_then(|()| fs::write(path, text))
        .unwrap_or_else(|e| fail(format!("{}: {e}", path.display())));
}

fn main() {
    let args: Vec<String> = std::env::args().skip(1).collect();
    let [edits, standins, source, destination] = &args[..] else {
        fail("wanted: EDITS STANDINS SOURCE DESTINATION".to_string());
    };
    let (source, destination) = (Path::new(source), Path::new(destination));
    let edits = edits_from(&read(Path::new(edits)));

    if let Some(lost) = edits.iter().find(|e| !TAKEN.contains(&e.file.as_str())) {
        fail(format!("edit {}: {} is not taken", lost.name, lost.file));
    }
    for file in TAKEN {
        let mut text = without_modules(&read(&source.join(file)));
        for edit in edits.iter().filter(|e| e.file == file) {
            text = edited(&text, edit)
                .unwrap_or_else(|why| fail(format!("edit {} in {file}: {why}", edit.name)));
        }
        write(&destination.join(file), &text);
    }
    for (from, to) in STANDINS {
        write(
            &destination.join(to),
            &read(&Path::new(standins).join(from)),
        );
    }
    println!("prepare: {} files, {} edits", TAKEN.len(), edits.len());
}

#[cfg(test)]
mod tests {
    use super::*;

    fn find(found: &str) -> Edit {
        Edit {
            name: "n".to_string(),
            file: "f".to_string(),
            place: Place::Find(found.to_string()),
            put: "new".to_string(),
        }
    }

    #[test]
    fn an_edit_without_its_place_is_an_error() {
        assert!(edited("a b", &find("c")).is_err());
    }

    #[test]
    fn an_edit_with_two_places_is_an_error() {
        assert!(edited("a b a", &find("a")).is_err());
    }

    #[test]
    fn an_edit_replaces_its_only_place() {
        assert_eq!(edited("a b", &find("b")).unwrap(), "a new");
    }

    #[test]
    fn declared_and_test_modules_of_the_full_crate_are_dropped() {
        let full = "fn a() {}\n#[cfg(test)]\nmod tests {\n    mod x;\n    fn t() {}\n}\npub(crate) mod b;\nfn c() {}\n";
        assert_eq!(without_modules(full), "fn a() {}\nfn c() {}\n");
    }
}
