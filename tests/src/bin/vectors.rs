//! Runs a case file and compares what comes back with the stored file, byte for byte, for each of the subjects.
//! Arguments: the case file, the stored file, and the subjects that must be tried: reference, library (linked with `--features library`), shipped (READER_SHIPPED is the
//! command that starts its caller). Without any, those that are at hand. How to read the files: tests/VECTORS.md.

use reader_tests::shipped::Shipped;
use reader_tests::subject::{Reference, Subject};
use reader_tests::vectors::{judged, WORK_WORDS};

#[cfg(feature = "library")]
fn library() -> Option<Box<dyn Subject>> {
    Some(Box::new(reader_tests::library::Library))
}

#[cfg(not(feature = "library"))]
fn library() -> Option<Box<dyn Subject>> {
    None
}

fn shipped() -> Option<Box<dyn Subject>> {
    let command = std::env::var("READER_SHIPPED").ok()?;
    Some(Box::new(Shipped::new(&command)))
}

fn reference() -> Option<Box<dyn Subject>> {
    Some(Box::new(Reference {
        work_words: WORK_WORDS,
    }))
}

type Named = (&'static str, fn() -> Option<Box<dyn Subject>>);

const SUBJECTS: [Named; 3] = [
    ("reference", reference),
    ("library", library),
    ("shipped", shipped),
];

/// Those that are named, each of which must be there, or all that are there.
fn subjects(names: &[String]) -> Result<Vec<(&'static str, Box<dyn Subject>)>, String> {
    if let Some(name) = names
        .iter()
        .find(|name| !SUBJECTS.iter().any(|known| known.0 == **name))
    {
        return Err(format!("{name}: no such subject"));
    }
    let mut all = Vec::new();
    for (name, make) in SUBJECTS {
        let asked = names.iter().any(|asked| asked == name);
        if !names.is_empty() && !asked {
            continue;
        }
        match make() {
            Some(subject) => all.push((name, subject)),
            None if asked => return Err(format!("{name} isn't at hand")),
            None => {}
        }
    }
    Ok(all)
}

fn compare(cases: &str, stored: &str, names: &[String]) -> Result<String, String> {
    let file =
        |path: &str| std::fs::read_to_string(path).map_err(|error| format!("{path}: {error}"));
    let (items, expected) = (file(cases)?, file(stored)?);
    let mut told = Vec::new();
    let mut count = 0;
    for (name, subject) in subjects(names)? {
        count = judged(&items, &expected, subject.as_ref())
            .map_err(|error| format!("{cases}, {name}: {error}"))?;
        told.push(name);
    }
    Ok(format!(
        "{cases}: {count} cases as stored ({})",
        told.join(", ")
    ))
}

fn main() {
    let given: Vec<String> = std::env::args().skip(1).collect();
    let [cases, stored, names @ ..] = &given[..] else {
        eprintln!("vectors CASES STORED [SUBJECT..]");
        std::process::exit(2);
    };
    match compare(cases, stored, names) {
        Ok(told) => println!("{told}"),
        Err(told) => {
            println!("{told}");
            std::process::exit(1);
        }
    }
}
