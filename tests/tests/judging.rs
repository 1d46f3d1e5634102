//! Judgements of logs of the corpus, worked by hand from request 4 and document 01 with request 2's framing. Tree A: leaf 1 is front-loaded, half a byte a tick
//! up to 2,000 ticks and then a quarter; leaf 2 is delayed by 2,000 ticks, then half a byte a tick. A packet counts for 20 bytes more than its length.

use outside::gen::{log_corpus, log_scripts, logs_by_hand, Log, LogCase};
use outside::lines::Answer;
use std::collections::BTreeSet;

/// The head of leaf 1 when it is its first packet, 500 bytes at tick 0: 520 bytes at half a byte a tick.
const FIRST_OF_1: &str = "packet class 1 number 0 length 500 rule real-time eligible 0 deadline 1040";

/// 520 bytes were sent by the real-time rule, so at half a byte a tick the next is eligible at 1,040; 1,040 bytes are 1,000 up to the bend, and 40 at a
/// quarter of a byte a tick. The packet in between, sent by the fair rule, does not count.
const SECOND_OF_1: &str = "packet class 1 number 1 length 500 rule fair eligible 1040 deadline 2160";
const THIRD_OF_1: &str = "packet class 1 number 2 length 500 rule real-time eligible 1040 deadline 2160";

/// 1,020 bytes at half a byte a tick, after 2,000 ticks.
const FIRST_OF_2: &str = "packet class 2 number 0 length 1000 rule real-time eligible 0 deadline 4040";

fn by_name(name: &str) -> LogCase {
    let mut found: Vec<LogCase> = logs_by_hand().into_iter().filter(|case| case.name == name).collect();
    assert_eq!(found.len(), 1, "{name}");
    found.remove(0)
}

fn says(name: &str, printed: &str) {
    let status = i32::from(!printed.starts_with("accepted "));
    assert_eq!(by_name(name).answer(), Answer { printed: format!("{printed}\n"), status }, "{name}");
}

fn accepted(name: &str, records: usize) {
    says(name, &format!("accepted {records} records"));
}

fn another_choice(name: &str, record: usize, ours: &str) {
    says(name, &format!("record {record}: another choice\nour rules: {ours}"));
}

/// "An empty log is accepted", and "every arrival is accepted and every departure or empty answer is the one our rules give".
#[test]
fn accepted_logs() {
    for empty in ["empty", "blank", "comments"] {
        accepted(empty, 0);
    }
    accepted("one-arrival", 1);
    accepted("one-empty", 1);
    accepted("both", 5);
    accepted("three", 7);
    accepted("same-tick", 6);
    // Leaf 1's byte is due at 42, leaf 2's 9,000 at 2,000 + 2 · 9,020; the link is free at 21 and at 9,041.
    accepted("lengths", 5);
    accepted("elapsed-longest", 3);
    accepted("not-to-the-end", 3);
    accepted("round", 3);
    accepted("round-longest", 1);
    // 512 times 2^31 - 1 is 512 less than 2^40; then 512 more, which may be.
    accepted("to-the-top", 515);
}

/// "A record is malformed if its kind is unknown or a kind 3 record has a nonzero class or length."
#[test]
fn malformed_records() {
    for name in ["kind-0", "kind-0-zeros", "kind-4", "kind-4-as-departure", "kind-257", "kind-65538", "kind-2-and-high-bit", "kind-largest"] {
        says(name, "record 1: malformed");
    }
    for name in ["empty-with-class", "empty-with-length", "empty-with-both", "empty-with-largest-class", "empty-with-high-length"] {
        says(name, "record 1: malformed");
    }
    says("empty-with-class-none-waits", "record 0: malformed");
    says("first-malformed", "record 0: malformed");
    says("malformed-twice", "record 1: malformed");
}

/// "A list whose length isn't a multiple of four is malformed at its last, short record. The log is judged in order, so an earlier fault is named first."
#[test]
fn short_records() {
    for name in ["short-1-alone", "short-2-alone", "short-3-alone"] {
        says(name, "record 0: malformed");
    }
    for name in ["short-1", "short-2", "short-3", "short-of-no-kind"] {
        says(name, "record 5: malformed");
    }
    says("short-after-malformed", "record 1: malformed");
    says("short-after-refused", "record 1: refused 11");
    another_choice("short-after-choice", 1, FIRST_OF_1);
}

/// "Refused (with the number)": an arrival by 14, 15, 11, 12, 13 in that order, a departure or an empty answer by 14 and 15.
#[test]
fn refused_records() {
    for name in ["11-root", "11-largest", "11-high-byte", "11-then-12"] {
        says(name, "record 0: refused 11");
    }
    says("11-absent", "record 5: refused 11");
    says("inside-11", "record 1: refused 11");
    says("12-of-0", "record 1: refused 12");
    says("12-of-9001", "record 1: refused 12");
    says("12-then-13", "record 64: refused 12");
    says("13-the-65th", "record 64: refused 13");
    says("13-at-the-last", "record 66: refused 13"); // 64 came and one left, so one more finds room
    for name in ["14-arrival-back", "14-departure-back", "14-empty-back", "14-then-11-12", "round-back"] {
        says(name, "record 1: refused 14");
    }
    for name in ["14-before-the-first", "14-half-round", "another-first", "round-half", "round-before-the-first"] {
        says(name, "record 0: refused 14");
    }
    for name in ["15-arrival", "15-departure", "15-empty", "15-then-11-12"] {
        says(name, "record 512: refused 15");
    }
    says("15-after-the-top", "record 513: refused 15");
    says("refused-then-right", "record 0: refused 12");
}

/// "The one our rules give, class and length both."
#[test]
fn other_choices() {
    for name in ["class-other", "class-other-same-length", "class-absent", "class-largest", "length-of-the-other", "length-of-the-next"] {
        another_choice(name, 2, FIRST_OF_1);
    }
    for name in ["class-root", "class-high-byte", "class-high-half", "length-one-more", "length-one-less", "length-framed", "length-0", "length-high-byte", "departure-zeros", "packet-waits", "choice-then-right"] {
        another_choice(name, 1, FIRST_OF_1);
    }
    another_choice("packet-waits-fair", 4, SECOND_OF_1);
    another_choice("packet-waits-real-time", 5, THIRD_OF_1);
    another_choice("too-early", 3, FIRST_OF_2);
    another_choice("none-waits-at-first", 0, "none waits");
    another_choice("none-waits-zeros", 0, "none waits");
    another_choice("none-waits-any-more", 5, "none waits");
    // Two leaves of one share, both at virtual time 0: the lower number; then it is at 80, and the other still at 0.
    another_choice("fair-without-curve", 2, "packet class 1 number 0 length 60 rule fair");
    another_choice("fair-in-turn", 4, "packet class 2 number 0 length 60 rule fair");
    another_choice("inside-chosen", 1, "packet class 2 number 0 length 100 rule fair");
}

/// "Within one record malformed comes before refused, and refused before another choice."
#[test]
fn the_order_within_a_record() {
    says("malformed-and-14", "record 1: malformed");
    says("empty-malformed-and-14", "record 1: malformed");
    says("empty-malformed-and-choice", "record 1: malformed");
    says("15-and-malformed", "record 512: malformed");
    says("departure-14-and-choice", "record 1: refused 14");
    says("empty-14-and-choice", "record 1: refused 14");
    says("refused-then-malformed", "record 0: refused 11");
    another_choice("choice-then-refused", 0, "none waits");
    another_choice("choice-then-malformed", 0, "none waits");
}

/// "A tree that start refuses is answered with that refusal before any record is read."
#[test]
fn refused_trees() {
    for (name, refusal) in [
        ("bytes-15", "1 class 0"), ("mark-mixed", "2 class 0"), ("version-2", "3 class 0"), ("count-65", "4 class 0"), ("total-more", "5 class 0"), ("length-2-long", "6 class 2"),
        ("share-1-0", "7 class 1"), ("depth-9", "8 class 9"), ("inside-1", "9 class 1"), ("fit-one-part-over", "10 class 0"), ("bytes-0", "1 class 0"),
    ] {
        says(&format!("tree-{name}"), &format!("refused {refusal}"));
    }
}

/// Words that are no number, by their line, unless a whole record before them is wrong.
#[test]
fn bad_words() {
    for name in ["letter", "minus", "plus", "past-32-bits", "past-64-bits", "past-and-comment", "zero-byte", "form-feed", "no-break-space"] {
        says(name, "line 3: not a number");
    }
    for name in ["bad-alone", "bad-first", "bad-after-carriage-returns", "bad-after-malformed-joined", "bad-in-refused", "byte-order-mark"] {
        says(name, "line 1: not a number");
    }
    for name in ["bad-second", "bad-third", "bad-in-malformed", "bad-in-choice", "bad-then-malformed", "bad-twice", "high-byte", "past-many-digits"] {
        says(name, "line 2: not a number");
    }
    says("bad-fourth", "line 3: not a number");
    says("bad-after-short", "line 4: not a number");
    says("bad-on-line-5", "line 5: not a number");
    says("bad-at-end", "line 6: not a number");
    says("bad-after-malformed", "record 1: malformed");
    says("bad-same-line-as-malformed", "record 0: malformed");
    says("bad-after-refused", "record 0: refused 11");
    another_choice("bad-after-choice", 0, "none waits");
}

#[test]
fn spellings() {
    for name in [
        "one-line", "one-line-and-its-end", "number-a-line", "records-over-lines", "no-last-end", "carriage-returns", "carriage-returns-alone", "tabs", "comments-after",
        "comments-joined", "comments-within", "comment-last", "zeros", "white-space-before",
    ] {
        accepted(name, 5);
        let texts = [by_name(name), by_name("both")].map(|case| case.as_numbers().unwrap().numbers);
        assert_eq!(texts[0], texts[1], "{name}");
    }
    for name in ["comment-with-words", "comment-joined-12", "comment-first-byte", "comment-high-bytes", "zeros-and-largest"] {
        accepted(name, 1);
    }
    says("largest", "record 0: refused 14"); // it is a number
}

/// Each name is told once, so a case of the corpus is found by it.
#[test]
fn names() {
    let told = logs_by_hand();
    let names: BTreeSet<&str> = told.iter().map(|case| case.name.as_str()).collect();
    assert_eq!(names.len(), told.len());
    assert!(log_corpus().len() >= told.len() + 20);
}

/// The same judgements as numbers for hosts in C.
#[test]
fn in_c() {
    let logs = log_scripts();
    let says = |name: &str, answer: &str| {
        let found: Vec<&Log> = logs.iter().filter(|log| log.name == name).collect();
        assert_eq!(found.len(), 1, "{name}");
        assert_eq!(found[0].answer().lines().last(), Some(format!("judge {answer}").as_str()), "{name}");
        assert_eq!(found[0].script().lines().count(), 2, "{name}");
    };
    says("empty", "0 0 0 0 0");
    says("both", "0 0 0 0 0");
    says("tree-count-65", "1 0 4 0 0"); // with a log of one number
    says("tree-length-2-long", "1 0 6 2 0");
    says("tree-depth-9", "1 0 8 9 0");
    says("short-3", "2 5 0 0 0");
    says("kind-4", "2 1 0 0 0");
    says("13-the-65th", "3 64 13 0 0");
    says("15-empty", "3 512 15 0 0");
    says("class-other", "4 2 1 1 500");
    says("too-early", "4 3 1 2 1000");
    says("none-waits-any-more", "4 5 0 0 0");
}
