//! The stored files are what the model makes of them: the corpus beside this crate and the studio example.

use outside::calls::{replay, show_tree};
use outside::file::read;
use outside::gen::{log_corpus, log_scripts, stored_scripts};
use outside::lines::Answer;
use outside::logtext::replay_log;
use outside::text::maketree;
use outside::tree::refusal;
use std::fs;
use std::path::PathBuf;

fn here(path: &str) -> PathBuf {
    PathBuf::from(env!("CARGO_MANIFEST_DIR")).join(path)
}

fn bytes(path: &str) -> Vec<u8> {
    fs::read(here(path)).unwrap_or_else(|fault| panic!("{path}: {fault}"))
}

fn text(path: &str) -> String {
    String::from_utf8(bytes(path)).unwrap()
}

fn files_of_the_corpus(wanted: &str) -> Vec<PathBuf> {
    let folder = fs::read_dir(here("corpus")).unwrap().map(|entry| entry.unwrap().path());
    folder.filter(|path| path.extension().is_some_and(|end| end == wanted)).collect()
}

/// The status that corpus.sh expects by what is printed: 1 after the refusal of a tree, a faulty line or a wrong record.
fn status_told_by(out: &str) -> i32 {
    let last = out.lines().last().unwrap_or_default();
    let refused = last.strip_prefix("refused ").is_some_and(|rest| rest.contains(" class "));
    i32::from(refused || ["line ", "record ", "our rules: "].iter().any(|first| last.starts_with(first)))
}

#[test]
fn the_corpus() {
    let trees = files_of_the_corpus("tree");
    assert!(trees.len() >= 200);
    for tree in trees {
        let tree_file = fs::read(&tree).unwrap();
        let answer = match fs::read(tree.with_extension("calls")) {
            Ok(calls) => replay(&tree_file, &calls),
            Err(_) => show_tree(&tree_file),
        };
        let out = fs::read_to_string(tree.with_extension("out")).unwrap();
        assert_eq!(answer.printed, out, "{}", tree.display());
        assert_eq!(answer.status, status_told_by(&out), "{}", tree.display());
    }
}

#[test]
fn the_logs_of_replays_of_the_corpus() {
    let logged = files_of_the_corpus("logged");
    assert!(logged.len() >= 60);
    for logged in logged {
        let answer = replay_log(&fs::read(logged.with_extension("tree")).unwrap(), &fs::read(logged.with_extension("calls")).unwrap());
        let out = fs::read_to_string(&logged).unwrap();
        assert_eq!(answer.printed, out, "{}", logged.display());
        assert_eq!(answer.status, status_told_by(&out), "{}", logged.display());
    }
}

#[test]
fn the_judged_logs_of_the_corpus() {
    let cases = log_corpus();
    assert_eq!(files_of_the_corpus("log").len(), cases.len());
    for (number, case) in cases.iter().enumerate() {
        let name = format!("corpus/j{number:03}-{}", case.name);
        assert_eq!(bytes(&format!("{name}.log")), case.text, "{name}");
        assert_eq!(bytes(&format!("{name}.class-tree")), case.tree_file, "{name}");
        assert_eq!(text(&format!("{name}.first")), format!("{}\n", case.first), "{name}");
        let (answer, out) = (case.answer(), text(&format!("{name}.out")));
        assert_eq!(answer.printed, out, "{name}");
        assert_eq!(answer.status, status_told_by(&out), "{name}");
    }
}

#[test]
fn the_texts_of_the_corpus() {
    let texts = files_of_the_corpus("text");
    assert!(texts.len() >= 100);
    for text in texts {
        let (answer, file) = maketree(&fs::read(&text).unwrap());
        let out = fs::read_to_string(text.with_extension("out")).unwrap();
        assert_eq!(answer.printed, out, "{}", text.display());
        assert_eq!(answer.status, status_told_by(&out), "{}", text.display());
        assert_eq!(file, fs::read(text.with_extension("made")).ok(), "{}", text.display());
    }
}

#[test]
fn the_scripts_of_bursts() {
    let scripts = stored_scripts();
    assert_eq!(fs::read_dir(here("bursts")).unwrap().count(), 2 * scripts.len());
    for (number, script) in scripts.iter().enumerate() {
        let name = format!("bursts/{number:03}-{}", script.name);
        assert_eq!(text(&format!("{name}.script")), script.text(), "{name}");
        assert_eq!(text(&format!("{name}.out")), script.answer(), "{name}");
    }
}

#[test]
fn the_scripts_of_logs() {
    let logs = log_scripts();
    assert_eq!(fs::read_dir(here("judge")).unwrap().count(), 2 * logs.len());
    for (number, log) in logs.iter().enumerate() {
        let name = format!("judge/{number:03}-{}", log.name);
        assert_eq!(text(&format!("{name}.script")), log.script(), "{name}");
        assert_eq!(text(&format!("{name}.out")), log.answer(), "{name}");
    }
}

#[test]
fn the_studio() {
    let calls = bytes("../examples/studio.calls");
    for tree in ["../examples/studio.tree", "../examples/studio-little.tree"] {
        assert_eq!(show_tree(&bytes(tree)), Answer::done(text("../examples/studio.txt")));
        assert_eq!(replay(&bytes(tree), &calls), Answer::done(text("../examples/studio.out")));
    }
    assert_eq!(maketree(&bytes("../examples/studio.txt")), (Answer::done(String::new()), Some(bytes("../examples/studio.tree"))));
    let refused = ["cut", "share", "fit"].map(|what| read(&bytes(&format!("../examples/damaged-{what}.tree"))).unwrap_err());
    assert_eq!(refused, [refusal(5, 0), refusal(7, 4), refusal(10, 0)]);
}

/// The gate runs the program on copies, since it follows no links out of a crate.
#[test]
fn the_gates_copies_of_the_studio() {
    assert_eq!(bytes("../crates/replay/data/studio.tree"), bytes("../examples/studio.tree"));
    assert_eq!(bytes("../crates/replay/data/studio.calls"), bytes("../examples/studio.calls"));
    assert_eq!(bytes("../crates/replay/stdout"), bytes("../examples/studio.out"));
}
