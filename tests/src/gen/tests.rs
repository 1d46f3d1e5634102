//! The generator makes what it says.

use super::trees::{curved, raised};
use super::*;
use crate::file::read;
use std::collections::BTreeMap;

#[test]
fn trees_are_right_and_varied() {
    let (mut deepest, mut widest, mut tight) = (0, 0, 0);
    for seed in 0..600 {
        let tree = random_tree(&mut Dice::new(seed));
        assert_eq!(tree.check(), Ok(()));
        deepest = deepest.max((0..tree.count()).map(|class| tree.depth(class)).max().unwrap());
        widest = widest.max(tree.count());
        let one_more = |class: usize| {
            let mut more = tree.clone();
            more.classes[class].curve = raised(tree.curve(class), 1);
            more.check_rules().is_ok() && more.check_fit().is_err()
        };
        tight += usize::from(curved(&tree).into_iter().any(one_more));
    }
    assert_eq!((deepest, widest), (8, 64));
    assert!(tight > 100, "{tight}");
}

/// Each refusal that a file or a call can get turns up, and every sort of answer.
#[test]
fn cases_reach_every_answer() {
    let mut seen: BTreeMap<String, usize> = BTreeMap::new();
    for seed in 0..500 {
        let case = case(seed, 120);
        for line in case.answer().printed.lines() {
            *seen.entry(sort_of_answer(line)).or_default() += 1;
        }
    }
    println!("{seen:?}");
    for number in 1..=10 {
        assert!(seen.contains_key(&format!("tree refused {number}")), "{number}: {seen:?}");
    }
    for sort in ["refused 11", "refused 12", "refused 13", "refused 14", "refused 15", "none waits", "real-time", "fair", "fair without curve", "accepted", "not a call", "number past 32 bits", "start comes first", "started already"] {
        assert!(seen.contains_key(sort), "{sort}: {seen:?}");
    }
}

#[test]
fn the_same_seed_gives_the_same_case() {
    for seed in 0..20 {
        let (one, two) = (case(seed, 60), case(seed, 60));
        assert_eq!((one.tree_file, one.calls), (two.tree_file, two.calls));
    }
}

#[test]
fn damage_mostly_gives_the_refusal_aimed_at() {
    for number in 1..=10 {
        let hits = (0..100).filter(|&seed| {
            let file = damaged_file(&mut Dice::new(900 + seed), number);
            read(&file).err().is_some_and(|refusal| refusal.number == number)
        });
        let hits = hits.count();
        assert!(hits >= 25, "{number}: {hits}");
    }
}

/// At the edge of each rule the refusals come with the classes that they must name.
#[test]
fn edges_are_where_they_should_be() {
    let answers: Vec<String> = edges().iter().map(|case| case.answer().printed.lines().next().unwrap().to_string()).collect();
    let count = |sort: &str| answers.iter().filter(|answer| answer.starts_with(sort)).count();
    for number in 1..=10 {
        assert!(count(&format!("refused {number} class")) >= 2, "{number}");
    }
    assert!(count("started") >= 15);
    let of = |name: &str| edges().iter().position(|case| case.name == format!("edge-{name}")).map(|at| answers[at].as_str());
    assert_eq!(of("classes-65"), Some("refused 4 class 0"));
    assert_eq!(of("depth-9-and-inside"), Some("refused 8 class 9"));
    assert_eq!(of("inside-and-fit"), Some("refused 9 class 2"));
    assert_eq!(of("length-2-and-share-1"), Some("refused 6 class 2"));
    assert_eq!(of("fit-late"), Some("started 3"));
    assert_eq!(of("fit-late-over"), Some("refused 10 class 0"));
}

/// The runs told by hand go as their comments say.
#[test]
fn marks_by_hand() {
    let classes = |name: &str| {
        let cases: Vec<Case> = by_hand().into_iter().chain(more_by_hand()).chain(framed()).collect();
        let case = cases.iter().find(|case| case.name == name).unwrap();
        let printed = case.answer().printed;
        let class = |line: &str| line.strip_prefix("packet class ").and_then(|rest| rest[..1].parse::<u32>().ok());
        printed.lines().filter_map(class).collect::<Vec<u32>>()
    };
    assert_eq!(classes("mark-half"), [2, 3, 1, 2]);
    assert_eq!(classes("mark-own"), [1, 1, 2, 2, 1]);
    assert_eq!(classes("mark-kept"), [3, 2, 3, 2, 2, 2, 2, 1, 2, 4]);
    assert_eq!(classes("ancestor-active").last(), Some(&2));
    assert_eq!(classes("share-past-32-bits")[23..], [2, 2, 1]);
    // Leaf 1 goes on from 21 while it is not past 1,020, 48 times; then from 1,029 on it has 11 left, until 1,260.
    let large: Vec<usize> = classes("framed-fair").iter().enumerate().filter(|(_, &class)| class == 2).map(|(at, _)| at).collect();
    assert_eq!(large, [1, 50, 62]);
}

/// Worked out by hand from request 2: leaf 2 of the whole link's rate is due every 21 ticks, and at 20 it is not eligible yet.
#[test]
fn framed_by_hand() {
    let printed = |name: &str| {
        let found: Vec<Case> = framed().into_iter().filter(|case| case.name == name).collect();
        assert_eq!(found.len(), 1, "{name}");
        found[0].answer().printed
    };
    let ends = |name: &str, lines: &[&str]| assert!(printed(name).ends_with(&(lines.join("\n") + "\n")), "{name}: {}", printed(name));
    ends("framed-row-three", &["packet class 1 number 2 length 500 rule fair eligible 1040 deadline 2160"]);
    ends("framed-lengths", &[
        "started 3", "accepted number 0", "refused 12", "accepted number 0", "refused 12",
        // 9,020 bytes at half a byte a tick, the first 1,000 of them up to the bend, and then a quarter: 4·9,020 − 2,000. 9,001 bytes: 2,000 + 2·9,001
        "packet class 2 number 0 length 8981 rule real-time eligible 0 deadline 20002",
        "packet class 1 number 0 length 9000 rule real-time eligible 0 deadline 34080", "none waits",
    ]);
    ends("framed-real-time", &[
        "packet class 2 number 0 length 1 rule real-time eligible 0 deadline 21", "packet class 1 number 0 length 1 rule fair",
        "packet class 2 number 1 length 1 rule real-time eligible 21 deadline 42", "packet class 2 number 2 length 1 rule real-time eligible 42 deadline 63", "none waits",
    ]);
    ends("framed-latest", &["packet class 2 number 0 length 1500 rule real-time eligible 0 deadline 1520", "none waits"]);
}

/// Every answer to a text turns up, and files are written in all spellings.
#[test]
fn texts_reach_every_answer() {
    let mut seen: BTreeMap<String, usize> = BTreeMap::new();
    let mut count = |sort: &str| *seen.entry(sort.to_string()).or_default() += 1;
    for seed in 0..1_000 {
        let case = text_case(seed);
        let (answer, file) = case.answer();
        answer.printed.lines().for_each(|line| count(&sort_of_answer(line)));
        if let Some(file) = file {
            count(if read(&file).unwrap().print().as_bytes() == case.text { "written, and it was as printed" } else { "written, of another spelling" });
        }
        assert_eq!(text_case(seed).text, case.text);
    }
    println!("{seen:?}");
    for sort in ["written, and it was as printed", "written, of another spelling", "not a class", "number past 32 bits", "tree comes first", "class comes next"] {
        assert!(seen.get(sort).is_some_and(|&count| count >= 10), "{sort}: {seen:?}");
    }
    for number in [4, 7, 8, 9, 10] {
        assert!(seen.get(&format!("tree refused {number}")).is_some_and(|&count| count >= 5), "{number}: {seen:?}");
    }
}

/// The texts by hand have names of their own, and both ends come.
#[test]
fn texts_by_hand() {
    let cases = text_corpus();
    let answer = |name: &str| {
        let found: Vec<&TextCase> = cases.iter().filter(|case| case.name == name).collect();
        assert_eq!(found.len(), 1, "{name}");
        found[0].answer().0.printed
    };
    assert_eq!(answer("tree-a"), "");
    assert_eq!(answer("longest"), "");
    assert_eq!(answer("long-number"), "");
    assert_eq!(answer("no-head-wrong"), "line 1: not a class\n");
    assert_eq!(answer("classes-65-then-wrong"), "refused 4 class 0\n");
    assert_eq!(answer("classes-64-then-number"), "line 66: class 64 comes next\n");
    assert_eq!(answer("wrong-after-rule"), "line 4: not a class\n");
    assert!(cases.iter().all(|case| case.text.len() <= 65_536));
}

/// Every refusal comes at the end of bursts, and with it every sort of file; each file is answered alike, however it was cut.
#[test]
fn scripts_reach_every_answer() {
    let mut seen: BTreeMap<String, usize> = BTreeMap::new();
    for seed in 0..600 {
        let script = script(seed);
        let answer = script.answer();
        let told = |line: &&str| line.starts_with("end ") || line.starts_with("start ");
        let results: Vec<Vec<&str>> = answer.lines().filter(told).map(|line| line.split(' ').skip(1).take(3).collect()).collect();
        assert!(results.len() >= 2 && results.iter().all(|result| *result == results[0]), "{seed}: {results:?}");
        *seen.entry(format!("{} {}", script.name, results[0].join(" "))).or_default() += 1;
        *seen.entry(results[0][0].to_string()).or_default() += 1;
    }
    println!("{seen:?}");
    for number in 0..=10 {
        assert!(seen.get(&number.to_string()).is_some_and(|&count| count >= 5), "{number}: {seen:?}");
    }
    for result in ["near 0 class 0", "near 5 class 0", "near 6 class 63", "near 7 class 0", "long 6 class 63", "longer 6 class 63", "longer 5 class 0"] {
        assert!(seen.get(result).is_some_and(|&count| count >= 5), "{result}: {seen:?}");
    }
}

/// Every judgement comes, often, with both sorts of what our rules answer; as text, and as numbers.
#[test]
fn logs_reach_every_judgement() {
    let mut seen: BTreeMap<String, usize> = BTreeMap::new();
    for seed in 0..1_000 {
        let case = log_case(seed, 60);
        let printed = case.answer().printed;
        printed.lines().chain(log(seed, 60).answer().lines()).for_each(|line| *seen.entry(sort_of_answer(line)).or_default() += 1);
        assert_eq!(log_case(seed, 60).text, case.text);
    }
    println!("{seen:?}");
    let often = |sort: &str, least: usize| assert!(seen.get(sort).is_some_and(|&count| count >= least), "{sort}: {seen:?}");
    for sort in ["accepted records", "record malformed", "record another choice", "our rules: packet", "our rules: none waits", "record refused 14", "not a number"] {
        often(sort, 40);
    }
    for (number, least) in [(11, 20), (12, 10), (13, 10), (15, 5)] {
        often(&format!("record refused {number}"), least);
    }
    for number in 1..=10 {
        often(&format!("tree refused {number}"), 1);
    }
    for answer in 0..=4 {
        often(&format!("judge {answer}"), 30);
    }
}

/// The long files by hand get the refusals that they were made for.
#[test]
fn long_files_by_hand() {
    let answers: Vec<(String, String)> = longs().into_iter().map(|case| (case.answer().printed.lines().next().unwrap().to_string(), case.name)).collect();
    let expected = [
        ("tree", "2052-right"), ("tree", "2052-right-too"), ("tree", "2040-right"), ("refused 7 class 63", "2040-share"), ("refused 9 class 62", "2044-inside"),
        ("refused 10 class 0", "2044-fit"), ("refused 5 class 0", "2051-byte-less"), ("refused 5 class 0", "2053-byte-more"),
        ("refused 6 class 63", "2053-byte-more-stated"), ("refused 6 class 63", "2056-word-more-stated"), ("refused 7 class 0", "2056-root-straight"),
        ("refused 7 class 0", "2056-root-kind-0"), ("refused 7 class 0", "2060-root-delayed"), ("refused 7 class 0", "2064-root-front"),
        ("refused 5 class 0", "2064-root-front-total"), ("refused 6 class 63", "2064-root-front-length"), ("refused 6 class 62", "2064-root-front-offset"),
        ("refused 6 class 63", "2068-root-front-stated"), ("refused 6 class 63", "2100-stated"), ("refused 5 class 0", "2100-total"),
        ("refused 6 class 63", "65536-stated"), ("refused 5 class 0", "65536-total"), ("refused 6 class 63", "70001-stated"),
    ];
    assert_eq!(answers, expected.map(|(answer, name)| (answer.to_string(), format!("long-{name}"))));
}

/// The scripts by hand have names of their own, begin with `begin`, and end as they should.
#[test]
fn scripts_told_by_hand() {
    let scripts = scripts_by_hand();
    assert!(scripts.iter().all(|script| script.text().starts_with("begin\n")));
    let ends = |name: &str, result: &str| {
        let found: Vec<&Script> = scripts.iter().filter(|script| script.name == name).collect();
        assert_eq!(found.len(), 1, "{name}");
        let answer = found[0].answer();
        let last = answer.lines().rev().find(|line| line.starts_with("end ")).unwrap().to_string();
        assert!(last.starts_with(&format!("end {result} ")), "{name}: {last}");
    };
    ends("empty-bursts", "1 class 0 seen 0 1");
    ends("end-twice", "5 class 0 seen 95 1");
    ends("zeros-inside", "0 class 0 seen 96 1");
    ends("kept-right", "0 class 0 seen 2052 1");
    ends("kept-and-more", "5 class 0 seen 2055 1");
    ends("kept-crossed", "7 class 0 seen 2064 1");
    ends("kept-zeros", "6 class 63 seen 65536 1");
    ends("round-and-60", "5 class 0 seen 4294967296 1");
    ends("round-and-5", "5 class 0 seen 4294967296 1");
    ends("round-less-1", "6 class 1 seen 4294967295 1");
    ends("round-less-1-wide", "6 class 63 seen 4294967295 1");
    ends("round", "5 class 0 seen 4294967296 1");
    ends("round-total-0", "5 class 0 seen 4294967296 1");
    ends("twice-round-less-1", "5 class 0 seen 4294967296 1");
    for number in 2..=10 {
        assert!(scripts.iter().any(|script| script.name.starts_with("edge-") && script.answer().contains(&format!("\nend {number} class "))), "{number}");
    }
}
