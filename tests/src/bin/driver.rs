//! `driver [REPLAY] [--maketree MAKETREE] [--judge JUDGE] [--bursts PROGRAM] [--judge-c PROGRAM] [--seed S] [--runs N] [--calls N] [--tree]`
//! takes the cases told by hand and at the edge of each rule, on trees and on lines, then N cases from seed S on, runs the program REPLAY on each with
//! TREE and CALLS, or TREE alone where a case has no calls, and compares what it prints, line by line, and its exit status with the model. With --tree it also compares what REPLAY prints for
//! TREE alone. With --maketree it then does the same for texts of trees: what MAKETREE answers and which file it makes, text to file to text, file to text
//! to file, and that a file that is there stays. With --judge it compares the log that REPLAY prints of each case, which JUDGE must accept, and then what
//! JUDGE says of logs that are damaged, in all spellings. With --bursts it gives PROGRAM, which is `bursts.c`, scripts: files of all sorts and lengths in
//! bursts, each cut in two ways; with --judge-c it gives logs to PROGRAM, which is `judge.c`. REPLAY may be left out where only these two are given. At the
//! first difference it keeps the files, says where, and ends with status 1.

use outside::calls::{first_stamp, show_tree};
use outside::file::{file_of, read, Order};
use outside::gen::{
    by_hand, case, edges, log, log_case, logs_by_hand, longs, more_by_hand, more_texts, random_tree, script, scripts_by_hand, sort_of_answer, text_case, text_corpus, texts,
    Case, Dice, Log, LogCase, Script, TextCase,
};
use outside::lines::Answer;
use std::collections::BTreeMap;
use std::fs;
use std::ops::Range;
use std::path::{Path, PathBuf};
use std::process::{exit, Command};

struct Options {
    replay: Option<String>,
    maketree: Option<String>,
    judge: Option<String>,
    bursts: Option<String>,
    judge_c: Option<String>,
    seed: u64,
    runs: u64,
    calls: usize,
    tree: bool,
}

impl Options {
    fn seeds(&self) -> Range<u64> {
        self.seed..self.seed + self.runs
    }
}

fn usage() -> ! {
    eprintln!("usage: driver [REPLAY] [--maketree MAKETREE] [--judge JUDGE] [--bursts PROGRAM] [--judge-c PROGRAM] [--seed S] [--runs N] [--calls N] [--tree]");
    exit(2)
}

fn options() -> Options {
    let mut arguments = std::env::args().skip(1).peekable();
    let replay = arguments.next_if(|first| !first.starts_with("--"));
    let mut options = Options { replay, maketree: None, judge: None, bursts: None, judge_c: None, seed: 1, runs: 100, calls: 120, tree: false };
    while let Some(option) = arguments.next() {
        if option == "--tree" {
            options.tree = true;
            continue;
        }
        let value = arguments.next().unwrap_or_else(|| usage());
        let number = || value.parse::<u64>().unwrap_or_else(|_| usage());
        match option.as_str() {
            "--maketree" => options.maketree = Some(value),
            "--judge" => options.judge = Some(value),
            "--bursts" => options.bursts = Some(value),
            "--judge-c" => options.judge_c = Some(value),
            "--seed" => options.seed = number(),
            "--runs" => options.runs = number(),
            "--calls" => options.calls = number() as usize,
            _ => usage(),
        }
    }
    let needs_replay = options.maketree.is_some() || options.judge.is_some() || (options.bursts.is_none() && options.judge_c.is_none());
    if options.replay.is_none() && needs_replay {
        usage()
    }
    options
}

/// What a program printed, how it ended, and what it said besides.
struct Ran {
    answer: Answer,
    said: String,
}

/// Run a program on these files, or words; the shell splits the command line as it was given.
fn run(program: &str, files: &[&Path]) -> Ran {
    let ran = Command::new("sh").arg("-c").arg(format!("{program} \"$@\"")).arg("sh").args(files).output();
    let ran = ran.unwrap_or_else(|fault| {
        eprintln!("driver: could not run {program}: {fault}");
        exit(2)
    });
    let text = |bytes: &[u8]| String::from_utf8_lossy(bytes).into_owned();
    Ran { answer: Answer { printed: text(&ran.stdout), status: ran.status.code().unwrap_or(-1) }, said: text(&ran.stderr) }
}

/// Number and both texts of the first line that differs; a missing line counts as one.
fn first_difference<'a>(ours: &'a str, theirs: &'a str) -> Option<(usize, &'a str, &'a str)> {
    let (mut ours, mut theirs) = (ours.split_inclusive('\n'), theirs.split_inclusive('\n'));
    let mut number = 1;
    loop {
        match (ours.next(), theirs.next()) {
            (None, None) => return None,
            (a, b) if a == b => number += 1,
            (a, b) => return Some((number, a.unwrap_or("(nothing)\n"), b.unwrap_or("(nothing)\n"))),
        }
    }
}

/// The files of the case that is being compared.
struct Room {
    folder: PathBuf,
}

impl Room {
    fn new() -> Room {
        let folder = std::env::temp_dir().join(format!("driver-{}", std::process::id()));
        fs::create_dir_all(&folder).expect("make a temporary folder");
        Room { folder }
    }

    /// A file of these bytes.
    fn put(&self, name: &str, bytes: &[u8]) -> PathBuf {
        let path = self.folder.join(name);
        fs::write(&path, bytes).expect("write a file of the case");
        path
    }

    /// The name of a file that is not there.
    fn free(&self, name: &str) -> PathBuf {
        let path = self.folder.join(name);
        let _ = fs::remove_file(&path);
        path
    }

    fn differs(&self, what: &str, model: &str, program: &str) -> ! {
        println!("{what}");
        println!("model:   {}", model.trim_end_matches('\n'));
        println!("program: {}", program.trim_end_matches('\n'));
        println!("files kept in {}", self.folder.display());
        exit(1)
    }

    fn compare(&self, what: &str, model: &Answer, ran: &Ran) {
        let program = &ran.answer;
        if let Some((number, ours, theirs)) = first_difference(&model.printed, &program.printed) {
            self.put("expected", model.printed.as_bytes());
            self.put("printed", program.printed.as_bytes());
            self.differs(&format!("{what}: line {number} of the answers differs"), ours, theirs);
        }
        if model.status != program.status {
            let theirs = format!("{} {}", program.status, ran.said);
            self.differs(&format!("{what}: the status differs"), &model.status.to_string(), &theirs);
        }
    }

    /// A file holds these bytes, or is not there.
    fn compare_file(&self, what: &str, model: Option<&[u8]>, path: &Path) {
        let found = fs::read(path).ok();
        if found.as_deref() != model {
            let told = |bytes: Option<&[u8]>| bytes.map_or("no file".to_string(), |bytes| format!("a file of {} bytes: {bytes:02x?}", bytes.len()));
            self.differs(&format!("{what}: the file {} differs", path.display()), &told(model), &told(found.as_deref()));
        }
    }
}

/// Run the replay program on one case and compare; answers what the model printed.
fn check(options: &Options, replay: &str, room: &Room, case: &Case) -> String {
    let tree = room.put("tree", &case.tree_file);
    let calls = case.calls.as_ref().map(|calls| room.put("calls", calls));
    let files: Vec<&Path> = std::iter::once(&tree).chain(&calls).map(PathBuf::as_path).collect();
    let expected = case.answer();
    room.compare(&case.name, &expected, &run(replay, &files));
    if options.tree && calls.is_some() {
        let what = format!("{}, tree alone", case.name);
        room.compare(&what, &show_tree(&case.tree_file), &run(replay, &[&tree]));
    }
    expected.printed
}

/// A text and the file that is made of it, and that file's text; answers what the model printed.
fn check_text(replay: &str, maketree: &str, room: &Room, case: &TextCase) -> String {
    let (text, tree, beside) = (room.put("text", &case.text), room.free("made"), room.free("made.new"));
    let (expected, file) = case.answer();
    room.compare(&case.name, &expected, &run(maketree, &[&text, &tree]));
    room.compare_file(&case.name, file.as_deref(), &tree);
    room.compare_file(&case.name, None, &beside);
    let Some(file) = file else { return expected.printed };
    let what = format!("{}, text of the file", case.name);
    room.compare(&what, &show_tree(&file), &run(replay, &[&tree]));
    "written\n".to_string()
}

/// Where a file of that name is, it stays, whatever the text says.
fn check_taken(maketree: &str, room: &Room, case: &TextCase) {
    let (text, tree, beside) = (room.put("text", &case.text), room.put("made", b"a file that was there"), room.free("made.new"));
    let what = format!("{}, over a file that is there", case.name);
    let (expected, file) = case.answer();
    let ran = run(maketree, &[&text, &tree]);
    if file.is_some() {
        room.compare(&what, &Answer { printed: String::new(), status: 1 }, &ran);
        let message = format!("{}: File exists", tree.display());
        if ran.said.lines().last() != Some(&message) {
            room.differs(&format!("{what}: what it says differs"), &message, &ran.said);
        }
    } else if ran.answer.status != expected.status {
        room.differs(&format!("{what}: the status differs"), "1", &ran.answer.status.to_string());
    }
    room.compare_file(&what, Some(b"a file that was there"), &tree);
    room.compare_file(&what, None, &beside);
}

/// A file in either order, its text, and the file of that: the first file, big-endian.
fn check_file(replay: &str, maketree: &str, room: &Room, seed: u64) {
    let mut dice = Dice::new(seed);
    let tree = random_tree(&mut dice);
    let order = dice.pick(&[Order::Big, Order::Little]);
    let what = format!("seed {seed}, file to text to file");
    let ran = run(replay, &[&room.put("tree", &file_of(&tree, order))]);
    room.compare(&what, &Answer::done(tree.print()), &ran);
    let (text, made) = (room.put("text", ran.answer.printed.as_bytes()), room.free("made"));
    room.compare(&what, &Answer::done(String::new()), &run(maketree, &[&text, &made]));
    room.compare_file(&what, Some(&file_of(&tree, Order::Big)), &made);
    assert_eq!(read(&fs::read(made).expect("it was compared")), Ok(tree));
}

/// The log of a case's run, which must be accepted; answers what the model printed, where there are calls.
fn check_log_of_run(replay: &str, judge: &str, room: &Room, case: &Case) -> Option<String> {
    let (calls, expected) = (case.calls.as_ref()?, case.log()?);
    let (tree, calls_file) = (room.put("tree", &case.tree_file), room.put("calls", calls));
    let ran = run(&format!("{replay} --log"), &[&tree, &calls_file]);
    room.compare(&format!("{}, its log", case.name), &expected, &ran);
    let (0, Some(first)) = (expected.status, first_stamp(calls)) else { return Some(expected.printed) };
    let log = room.put("log", ran.answer.printed.as_bytes());
    let accepted = Answer::done(format!("accepted {} records\n", ran.answer.printed.lines().count()));
    room.compare(&format!("{}, its log judged", case.name), &accepted, &run(judge, &[&tree, Path::new(&first.to_string()), &log]));
    Some(expected.printed + &accepted.printed)
}

/// What is said of a log; answers what the model printed.
fn check_log(judge: &str, room: &Room, case: &LogCase) -> String {
    let (tree, log) = (room.put("tree", &case.tree_file), room.put("log", &case.text));
    let expected = case.answer();
    room.compare(&case.name, &expected, &run(judge, &[&tree, Path::new(&case.first.to_string()), &log]));
    expected.printed
}

/// A script for a program in C, and what it must print.
struct InC {
    name: String,
    script: String,
    answer: String,
}

impl From<Script> for InC {
    fn from(script: Script) -> InC {
        InC { script: script.text(), answer: script.answer(), name: script.name }
    }
}

impl From<Log> for InC {
    fn from(log: Log) -> InC {
        InC { script: log.script(), answer: log.answer(), name: log.name }
    }
}

/// Scripts one after another in one run of the program, since it may be under an emulator, which starts slowly. Answers what the model printed.
fn check_scripts(program: &str, room: &Room, scripts: &[InC]) -> String {
    let script = room.put("script", scripts.iter().map(|one| one.script.as_str()).collect::<String>().as_bytes());
    let ran = run(&format!("{program} <"), &[&script]);
    let mut rest = ran.answer.printed.split_inclusive('\n');
    for one in scripts {
        let printed: String = rest.by_ref().take(one.answer.lines().count()).collect();
        if one.answer != printed {
            room.put("script", one.script.as_bytes());
        }
        room.compare(&one.name, &Answer::done(one.answer.clone()), &Ran { answer: Answer::done(printed), said: ran.said.clone() });
    }
    let all: String = scripts.iter().map(|one| one.answer.as_str()).collect();
    room.compare("scripts", &Answer::done(all.clone()), &ran);
    all
}

/// The case of a seed, with the seed in its name.
fn seeded(options: &Options, seed: u64) -> Case {
    let case = case(seed, options.calls);
    Case { name: format!("seed {seed}, {}", case.name), ..case }
}

fn seeded_text(seed: u64) -> TextCase {
    let case = text_case(seed);
    TextCase { name: format!("seed {seed}, {}", case.name), ..case }
}

fn seeded_script(seed: u64) -> Script {
    let script = script(seed);
    Script { name: format!("seed {seed}, bursts of a {} file", script.name), ..script }
}

/// The logs of a seed, as text and as numbers.
const LOGS: u64 = 4;

fn seeds_of_logs(options: &Options) -> Range<u64> {
    let Range { start, end } = options.seeds();
    LOGS * start..LOGS * end
}

fn seeded_log_case(options: &Options, seed: u64) -> LogCase {
    let case = log_case(seed, options.calls);
    LogCase { name: format!("log {seed} (seed {}), {}", seed / LOGS, case.name), ..case }
}

fn seeded_log(options: &Options, seed: u64) -> Log {
    let log = log(seed, options.calls);
    Log { name: format!("log {seed} (seed {}), {}", seed / LOGS, log.name), ..log }
}

/// How often each sort of line was seen.
#[derive(Default)]
struct Seen {
    cases: usize,
    sorts: BTreeMap<String, usize>,
}

impl Seen {
    fn add(&mut self, printed: &str, cases: usize) {
        self.cases += cases;
        for line in printed.lines() {
            *self.sorts.entry(sort_of_answer(line)).or_default() += 1;
        }
    }

    fn print(&self, what: &str, runs: u64) {
        for (sort, count) in &self.sorts {
            println!("{count:8} {sort}");
        }
        println!("{} {what} agree, {runs} of them seeded; {} lines", self.cases, self.sorts.values().sum::<usize>());
    }
}

/// The cases told by hand, and those of the seeds.
fn cases(options: &Options) -> impl Iterator<Item = Case> + '_ {
    let told = by_hand().into_iter().chain(more_by_hand()).chain(edges()).chain(texts()).chain(more_texts()).chain(longs());
    told.chain(options.seeds().map(|seed| seeded(options, seed)))
}

fn replays(options: &Options, replay: &str, room: &Room) {
    let mut seen = Seen::default();
    for case in cases(options) {
        seen.add(&check(options, replay, room, &case), 1);
    }
    seen.print("cases", options.runs);
}

/// The logs of runs, those of few trees at the edge of each rule among them, and then logs that may be damaged.
fn logs(options: &Options, replay: &str, judge: &str, room: &Room) {
    let mut seen = Seen::default();
    for case in cases(options).filter(Case::log_is_stored) {
        if let Some(printed) = check_log_of_run(replay, judge, room, &case) {
            seen.add(&printed, 1);
        }
    }
    seen.print("logs of runs", options.runs);
    let mut seen = Seen::default();
    let seeded = seeds_of_logs(options).map(|seed| seeded_log_case(options, seed));
    for case in logs_by_hand().into_iter().chain(seeded) {
        seen.add(&check_log(judge, room, &case), 1);
    }
    seen.print("judged logs", LOGS * options.runs);
}

fn texts_of_trees(options: &Options, replay: &str, maketree: &str, room: &Room) {
    let mut seen = Seen::default();
    for (turn, case) in text_corpus().into_iter().chain(options.seeds().map(seeded_text)).enumerate() {
        seen.add(&check_text(replay, maketree, room, &case), 1);
        if turn % 8 == 0 {
            check_taken(maketree, room, &case);
        }
    }
    options.seeds().for_each(|seed| check_file(replay, maketree, room, seed));
    seen.print("texts", options.runs);
}

/// The scripts that are given to one run of the program, at most.
const SCRIPTS: usize = 50;

/// Scripts of one sort, so many of them seeded.
fn in_c(program: &str, room: &Room, what: &str, scripts: impl Iterator<Item = InC>, seeded: u64) {
    let mut seen = Seen::default();
    let mut scripts = scripts.peekable();
    while scripts.peek().is_some() {
        let some: Vec<InC> = scripts.by_ref().take(SCRIPTS).collect();
        seen.add(&check_scripts(program, room, &some), some.len());
    }
    seen.print(what, seeded);
}

fn bursts(options: &Options, program: &str, room: &Room) {
    let scripts = scripts_by_hand().into_iter().chain(options.seeds().map(seeded_script));
    in_c(program, room, "scripts of bursts", scripts.map(InC::from), options.runs);
}

fn logs_in_c(options: &Options, program: &str, room: &Room) {
    let told = logs_by_hand().into_iter().filter_map(|case| case.as_numbers());
    let seeded = seeds_of_logs(options).map(|seed| seeded_log(options, seed));
    in_c(program, room, "logs judged in C", told.chain(seeded).map(InC::from), LOGS * options.runs);
}

fn main() {
    let options = options();
    let room = Room::new();
    if let Some(replay) = &options.replay {
        replays(&options, replay, &room);
    }
    if let (Some(replay), Some(maketree)) = (&options.replay, &options.maketree) {
        texts_of_trees(&options, replay, maketree, &room);
    }
    if let (Some(replay), Some(judge)) = (&options.replay, &options.judge) {
        logs(&options, replay, judge, &room);
    }
    if let Some(program) = &options.bursts {
        bursts(&options, program, &room);
    }
    if let Some(program) = &options.judge_c {
        logs_in_c(&options, program, &room);
    }
    fs::remove_dir_all(&room.folder).expect("remove the temporary folder");
}
