//! Which loops a call of the scheduler has: the functions of its crates that have a loop or call themselves, as far as the call can
//! reach them, are those of the table "Which loops a call has" of docs/PROMISES.md, and each loop's measure there is the one that its proof has.
//!
//! A function is found by its name alone, so that more is taken to be reached than is, never less.

use std::collections::{BTreeMap, BTreeSet};
use std::fs;
use std::path::{Path, PathBuf};

const CRATES: [&str; 6] = ["curve", "tree", "rules", "state", "fair", "sched"];
const CALLS: [&str; 7] = ["start", "arrive", "depart", "clock", "waiting", "virtual_time", "head_times"];

struct Function {
    place: String,
    loops: bool,
    /// A chain of an iterator goes over its items, or `from_fn` over the places of an array, with no loop in the text. It has no measure, so that no call may reach one.
    chains: bool,
    names: BTreeSet<String>,
}

fn root() -> PathBuf {
    Path::new(env!("CARGO_MANIFEST_DIR")).join("..")
}

fn read(path: &Path) -> String {
    fs::read_to_string(path).unwrap_or_else(|fault| panic!("{}: {fault}", path.display()))
}

/// The words of a line that are followed by an opening bracket.
fn named(line: &str) -> impl Iterator<Item = String> + '_ {
    line.match_indices('(').filter_map(move |(at, _)| {
        let before = &line[..at];
        let from = before.rfind(|c: char| !c.is_alphanumeric() && c != '_').map_or(0, |i| i + 1);
        (from < at).then(|| before[from..].to_string())
    })
}

/// The functions of a source file by name. A body goes from a line `{`, or one that ends so, to the `}` as far to the right as its head.
fn functions(place: &str, source: &str, into: &mut BTreeMap<String, Vec<Function>>) {
    let lines: Vec<&str> = source.lines().filter(|line| !line.trim_start().starts_with("//")).collect();
    let mut at = 0;
    while at < lines.len() {
        let head = lines[at].trim_start();
        let Some(rest) = ["fn ", "pub fn ", "pub(crate) fn "].iter().find_map(|word| head.strip_prefix(word)) else {
            at += 1;
            continue;
        };
        let indent = &lines[at][..lines[at].len() - head.len()];
        // a generic function's name ends before its parameters
        let name = rest[..rest.find(['(', '<']).unwrap()].to_string();
        let end = at + lines[at..].iter().position(|line| *line == format!("{indent}}}")).unwrap();
        let body = at + lines[at..end].iter().position(|line| line.ends_with('{')).unwrap() + 1;
        let body = &lines[body..end];
        let names: BTreeSet<String> = body.iter().flat_map(|line| named(line)).collect();
        let loops = body.iter().any(|line| ["while ", "for ", "loop "].iter().any(|word| line.trim_start().starts_with(word)));
        let chains = body.iter().any(|line| [".iter()", ".into_iter()", ".chunks", "from_fn("].iter().any(|word| line.contains(word)));
        into.entry(name.clone()).or_default().push(Function { place: format!("{place}::{name}"), loops, chains, names });
        at = end + 1;
    }
}

fn all_functions() -> BTreeMap<String, Vec<Function>> {
    let mut found = BTreeMap::new();
    for name in CRATES {
        for entry in fs::read_dir(root().join("crates").join(name).join("src")).unwrap() {
            let path = entry.unwrap().path();
            let module = path.file_stem().unwrap().to_str().unwrap().to_string();
            let place = if module == "lib" { name.to_string() } else { format!("{name}::{module}") };
            functions(&place, &read(&path), &mut found);
        }
    }
    found
}

/// The functions that these names can reach.
fn reached<'a>(all: &'a BTreeMap<String, Vec<Function>>, from: impl IntoIterator<Item = String>) -> BTreeMap<String, &'a Function> {
    let (mut seen, mut todo, mut found) = (BTreeSet::new(), Vec::from_iter(from), BTreeMap::new());
    while let Some(name) = todo.pop() {
        if !seen.insert(name.clone()) {
            continue;
        }
        for function in all.get(&name).into_iter().flatten() {
            found.insert(function.place.clone(), function);
            todo.extend(function.names.iter().cloned());
        }
    }
    found
}

/// What has a loop, or calls itself, through others too, and can be reached from there.
fn loops_of(all: &BTreeMap<String, Vec<Function>>, from: &str) -> BTreeSet<String> {
    let calls_itself = |function: &Function| reached(all, function.names.iter().cloned()).contains_key(&function.place);
    let found = reached(all, [from.to_string()]);
    found.into_iter().filter(|(_, function)| function.loops || function.chains || calls_itself(function)).map(|(place, _)| place).collect()
}

/// The table's rows: loop, calls, what it goes over, measure.
fn rows() -> Vec<Vec<String>> {
    let page = read(&root().join("docs/PROMISES.md"));
    let table = page.split("### Which loops a call has").nth(1).expect("the section is there");
    let lines = table.lines().skip_while(|line| !line.starts_with('|')).take_while(|line| line.starts_with('|'));
    lines.skip(2).map(|line| line.split('|').map(|cell| cell.trim().to_string()).skip(1).collect()).collect()
}

fn quoted(cell: &str) -> Vec<String> {
    cell.split('`').skip(1).step_by(2).map(str::to_string).collect()
}

#[test]
fn the_table_has_every_loop_that_a_call_can_reach() {
    let all = all_functions();
    for call in CALLS {
        assert!(all.contains_key(call), "{call} is no function");
        let told: BTreeSet<String> = rows().iter().filter(|row| quoted(&row[1]).contains(&call.to_string())).flat_map(|row| quoted(&row[0])).collect();
        assert_eq!(loops_of(&all, call), told, "{call}");
    }
}

/// `earliest` and all that the times of a head rest on: dividing has no loop.
#[test]
fn dividing_has_no_loop() {
    let all = all_functions();
    for name in ["earliest", "arrival", "deadline", "eligible", "with", "lower", "bring_up", "time_first", "time_next"] {
        assert!(all.contains_key(name), "{name} is no function");
        assert_eq!(loops_of(&all, name), BTreeSet::new(), "{name}");
    }
}

#[test]
fn the_measures_are_those_of_the_proofs() {
    let all = all_functions();
    for row in rows() {
        for place in quoted(&row[0]) {
            assert!(!all.values().flatten().any(|function| function.place == place && function.chains), "{place} is a chain, which has no measure");
            let parts: Vec<&str> = place.split("::").collect();
            let (name, above) = parts.split_last().unwrap();
            let folder = above[1..].iter().fold(root().join("crates").join(above[0]).join("proofs"), |path, part| path.join(part));
            let looping = folder.join(name).join("Invariants.antt");
            let file = if looping.exists() { looping } else { folder.join(format!("+{name}")).join("Invariants.antt") };
            let said = read(&file);
            let is = said.lines().find(|line| line.starts_with("decreases-") && line.contains(" l = ")).unwrap_or_else(|| panic!("{place} has no measure"));
            // The variables of a loop, or of a call, are there fields of `l`.
            let measure = is.split(" l = ").nth(1).unwrap().replace("l.", "");
            assert_eq!(quoted(&row[3]), [measure], "{place}");
        }
    }
}
