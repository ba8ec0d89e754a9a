//! The examples and the stored console inputs through the reference: what tests/console.sh asks of the proved reader.

mod common;

use common::REFERENCE;
use reader_tests::subject::Console;
use std::fs;
use std::path::{Path, PathBuf};

fn entries(folder: &Path) -> Vec<PathBuf> {
    let entries = fs::read_dir(folder).expect("a folder");
    entries
        .map(|entry| entry.expect("an entry").path())
        .collect()
}

/// How many inputs the folder has; each is answered as is stored.
fn answered(folder: &Path) -> usize {
    let inputs = entries(folder);
    let is_input = |path: &&PathBuf| path.extension().is_some_and(|end| end == "console");
    let inputs: Vec<_> = inputs.iter().filter(is_input).collect();
    for input in &inputs {
        let stored = fs::read(input.with_extension("answer")).expect("a stored answer");
        let asked = fs::read(input).expect("an input");
        let answer = REFERENCE.respond(&asked).expect("an answer");
        let [answer, stored] = [&answer, &stored].map(|text| String::from_utf8_lossy(text));
        assert_eq!(answer, stored, "{}", input.display());
    }
    inputs.len()
}

#[test]
fn the_reference_answers_the_examples_as_is_stored() {
    let examples = Path::new(env!("CARGO_MANIFEST_DIR")).join("../examples");
    // firmware/ has programs, which tests/firmware.sh tries
    let has_inputs = |path: &PathBuf| path.is_dir() && !path.ends_with("firmware");
    let folders: Vec<_> = entries(&examples).into_iter().filter(has_inputs).collect();
    assert!(!folders.is_empty());
    for folder in folders {
        assert!(answered(&folder) > 0, "{}: no input", folder.display());
    }
}

#[test]
fn the_reference_answers_the_stored_console_inputs() {
    let stored = Path::new(env!("CARGO_MANIFEST_DIR")).join("console");
    assert!(answered(&stored) > 0);
}
