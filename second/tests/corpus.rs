//! The stored corpus: its answers are this program's, its scripts those of their seeds, its reach is whole,
//! and it keeps to its size.

use std::path::{Path, PathBuf};
use std::process::Command;

fn cases() -> PathBuf {
    Path::new(env!("CARGO_MANIFEST_DIR")).join("../cases")
}

fn scripts() -> Vec<PathBuf> {
    let entries = std::fs::read_dir(cases()).expect("the corpus is there");
    let mut scripts: Vec<PathBuf> = entries.map(|entry| entry.unwrap().path()).collect();
    scripts.retain(|path| path.extension().is_some_and(|extension| extension == "script"));
    scripts.sort();
    scripts
}

#[test]
fn the_stored_answers_are_given() {
    assert!(scripts().len() > 100);
    for script in scripts() {
        let printed = second::player::play(&std::fs::read(&script).unwrap());
        let stored = std::fs::read(script.with_extension("answers")).unwrap();
        assert!(printed.as_bytes() == stored, "{}", script.display());
    }
}

#[test]
fn the_seeds_give_the_stored_scripts() {
    let seeds = std::fs::read_to_string(cases().join("seeds")).unwrap();
    for line in seeds.lines().filter(|line| !line.starts_with('#')) {
        let words: Vec<&str> = line.split(' ').collect();
        let made = Command::new(env!("CARGO_BIN_EXE_generate")).args(&words[1..]).output().unwrap().stdout;
        assert!(made == std::fs::read(cases().join(format!("{}.script", words[0]))).unwrap(), "{line}");
    }
}

#[test]
fn nothing_is_missing_from_the_reach() {
    let output = Command::new(env!("CARGO_BIN_EXE_reach")).args(scripts()).output().unwrap();
    let printed = String::from_utf8(output.stdout).unwrap();
    assert!(output.status.success() && printed.ends_with("nothing is missing\n"), "{printed}");
}

#[test]
fn the_corpus_is_at_most_2_mb() {
    let bytes = |path: &Path| std::fs::metadata(path).unwrap().len();
    let total: u64 = scripts().iter().map(|script| bytes(script) + bytes(&script.with_extension("answers"))).sum();
    assert!(total <= 2_000_000, "{total} bytes");
}
