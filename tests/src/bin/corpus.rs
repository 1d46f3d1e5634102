//! `corpus FOLDER [SEED]` writes the stored corpus. Replays: NNN-sort.tree, NNN-sort.calls and NNN-sort.out, what the model prints; no NNN-sort.calls
//! for a tree to be printed alone; NNN-sort.logged, what it prints with --log, for most that have calls. Texts of trees: tNNN-sort.text and tNNN-sort.out,
//! and tNNN-sort.made, the file, where one is written. Logs to be judged: jNNN-sort.log, jNNN-sort.class-tree, jNNN-sort.first, the first stamp, and
//! jNNN-sort.out. The same seed gives the same bytes. `corpus --bursts FOLDER` writes the stored scripts of bursts, `corpus --judge FOLDER` those of
//! logs: NNN-sort.script and NNN-sort.out.

use outside::gen::{corpus, log_corpus, log_scripts, stored_scripts, text_corpus};
use std::path::Path;

fn usage() -> ! {
    eprintln!("usage: corpus FOLDER [SEED]\n       corpus --bursts FOLDER\n       corpus --judge FOLDER");
    std::process::exit(2)
}

fn put(folder: &str, name: String, bytes: &[u8]) {
    std::fs::create_dir_all(folder).expect("make the folder");
    std::fs::write(Path::new(folder).join(name), bytes).expect("write a file of the corpus");
}

fn write_replays(folder: &str, seed: u64) {
    for (number, case) in corpus(seed).iter().enumerate() {
        let name = format!("{number:03}-{}", case.name);
        put(folder, format!("{name}.tree"), &case.tree_file);
        if let Some(calls) = &case.calls {
            put(folder, format!("{name}.calls"), calls);
        }
        put(folder, format!("{name}.out"), case.answer().printed.as_bytes());
        if let Some(log) = case.log().filter(|_| case.log_is_stored()) {
            put(folder, format!("{name}.logged"), log.printed.as_bytes());
        }
    }
}

fn write_texts(folder: &str) {
    for (number, case) in text_corpus().iter().enumerate() {
        let name = format!("t{number:03}-{}", case.name);
        let (answer, file) = case.answer();
        put(folder, format!("{name}.text"), &case.text);
        put(folder, format!("{name}.out"), answer.printed.as_bytes());
        if let Some(file) = file {
            put(folder, format!("{name}.made"), &file);
        }
    }
}

fn write_logs(folder: &str) {
    for (number, case) in log_corpus().iter().enumerate() {
        let name = format!("j{number:03}-{}", case.name);
        put(folder, format!("{name}.class-tree"), &case.tree_file);
        put(folder, format!("{name}.first"), format!("{}\n", case.first).as_bytes());
        put(folder, format!("{name}.log"), &case.text);
        put(folder, format!("{name}.out"), case.answer().printed.as_bytes());
    }
}

/// Scripts and their answers, each with its name.
fn write_scripts(folder: &str, scripts: impl Iterator<Item = (String, String, String)>) {
    for (number, (name, script, answer)) in scripts.enumerate() {
        put(folder, format!("{number:03}-{name}.script"), script.as_bytes());
        put(folder, format!("{number:03}-{name}.out"), answer.as_bytes());
    }
}

fn main() {
    let arguments: Vec<String> = std::env::args().skip(1).collect();
    let words: Vec<&str> = arguments.iter().map(String::as_str).collect();
    let (folder, seed) = match words[..] {
        ["--bursts", folder] => return write_scripts(folder, stored_scripts().iter().map(|script| (script.name.clone(), script.text(), script.answer()))),
        ["--judge", folder] => return write_scripts(folder, log_scripts().iter().map(|log| (log.name.clone(), log.script(), log.answer()))),
        [folder] if !folder.starts_with("--") => (folder, 1),
        [folder, seed] if !folder.starts_with("--") => (folder, seed.parse().unwrap_or_else(|_| usage())),
        _ => usage(),
    };
    write_replays(folder, seed);
    write_texts(folder);
    write_logs(folder);
}
