//! The model in the programs' place: `model replay TREE [CALLS]`, `model replay --log TREE CALLS`, `model maketree TEXT TREE` and
//! `model judge TREE FIRST LOG` print what the programs must print, and end with their status. Both messages and files are as docs/FORMS.md has them.

use outside::calls::{replay, show_tree};
use outside::lines::{word_as_number, Answer};
use outside::logtext::{judge_text, replay_log};
use outside::text::{maketree, TEXT_TOP};
use std::fs::{self, File};
use std::io::{self, Write};
use std::process::exit;

fn main() {
    let arguments: Vec<String> = std::env::args().skip(1).collect();
    let words: Vec<&str> = arguments.iter().map(String::as_str).collect();
    match words[..] {
        ["replay", "--log", tree, calls] => over_tree(tree, calls, replay_log),
        ["replay", tree] if tree != "--log" => end(show_tree(&read(tree))),
        ["replay", tree, calls] if tree != "--log" => over_tree(tree, calls, replay),
        ["maketree", text, tree] => make(text, tree),
        ["judge", tree, first, log] => judge(tree, first, log),
        _ => {
            eprintln!("usage: model replay TREE [CALLS]\n       model replay --log TREE CALLS\n       model maketree TEXT TREE\n       model judge TREE FIRST LOG");
            exit(2)
        }
    }
}

/// The tree is read and judged before the other file is opened.
fn over_tree(tree: &str, file: &str, answer: impl Fn(&[u8], &[u8]) -> Answer) {
    let tree_file = read(tree);
    if show_tree(&tree_file).status == 0 {
        end(answer(&tree_file, &read(file)));
    }
    end(show_tree(&tree_file));
}

/// The first stamp is looked at before the tree file.
fn judge(tree: &str, first: &str, log: &str) {
    let Some(first) = word_as_number(first.as_bytes()) else {
        eprintln!("judge: FIRST is not a number of 32 bits");
        exit(2)
    };
    over_tree(tree, log, |tree_file, text| judge_text(tree_file, first, text));
}

/// The text is read and judged first. The file is written beside, and takes its name where that is free; else nothing is left of it.
fn make(text: &str, tree: &str) {
    let bytes = read(text);
    if bytes.len() > TEXT_TOP {
        fail(text, &format!("longer than {TEXT_TOP} bytes, no text of a tree"));
    }
    let (answer, file) = maketree(&bytes);
    let Some(bytes) = file else { end(answer) };
    let beside = format!("{tree}.new");
    let made = File::create_new(&beside).unwrap_or_else(|fault| fail(&beside, &told(&fault)));
    if let Err(fault) = save(made, &bytes, &beside, tree) {
        let _ = fs::remove_file(&beside);
        fail(tree, &told(&fault));
    }
    end(answer)
}

fn save(mut made: File, bytes: &[u8], beside: &str, tree: &str) -> io::Result<()> {
    made.write_all(bytes)?;
    if fs::symlink_metadata(tree).is_ok() {
        return Err(io::Error::from_raw_os_error(17)); // File exists
    }
    fs::rename(beside, tree)
}

/// All is done only where the answer could be written.
fn end(answer: Answer) -> ! {
    let mut out = io::stdout();
    if let Err(fault) = out.write_all(answer.printed.as_bytes()).and_then(|()| out.flush()) {
        fail("standard output", &told(&fault));
    }
    exit(answer.status)
}

fn fail(name: &str, why: &str) -> ! {
    eprintln!("{name}: {why}");
    exit(1)
}

/// The system's words, without what Rust puts after them.
fn told(fault: &io::Error) -> String {
    let text = fault.to_string();
    text.split(" (os error").next().unwrap_or_default().to_string()
}

fn read(path: &str) -> Vec<u8> {
    fs::read(path).unwrap_or_else(|fault| fail(path, &told(&fault)))
}
