#!/usr/bin/env python3
"""Lists, or with --count counts, the places in crates/*/src that docs/DESIGN-PASS.md goes through: each point's older forms, as text.

    tools/places.py [--count] [POINT..]      in the repository's top folder

It goes by text, so a row is a place to read and no verdict: what stays has a comment `// Stays: `, which is counted too.
"""
import pathlib
import re
import sys

# names of variants that say "none", "all well" or "refused": what Option and Result have
NONE = r"None|Nothing|NothingYet|Nowhere|NoneWaits|Untimed|Unread|Silent|Between|Open|Right|Holds|Accepted"
WRONG = r"Refused|Wrong|TooLarge|NotANumber|NotACall|NotAClass|Malformed|Stops|Fault"

# each row: a point, what it is, a pattern for one line (with a file's lines as text)
ROWS = [
    ("1", "variants of an own enum that say none, well or refused", rf"^\s+(?:{NONE}|{WRONG})(?: \{{.*|\(.*|,)$"),
    ("1", "a flag as a field", r"^\s+(?:pub(?:\(crate\))? )?\w+: bool,$"),
    ("1", "a number for a kind or a refusal", r"=> \d+,$|^pub const [A-Z_]+: u(?:32|64) = [1-7];$|\bkind: u(?:32|64),"),
    ("2", "a function that differs from another in a name (by hand: see the page)", r"^(?:pub(?:\(crate\))? )?fn (?:larger|smaller|later|start|depart|stop|wrong_body|too_deep|curve_above_children|clear_words|clear_lengths|deadline|eligible|verdict_number|verdict_class|written_verdict|written_total|arrival_number|packet_number|lines_told|number_told|order_of|join|fits_at|slopes_fit|passed|faulty|with_head|classed|none_in|straight_in|delayed_in)\b"),
    ("3", "while", r"^\s*(?:'\w+: )?while "),
    ("3", "for over the numbers of a list's places", r"^\s*for \w+ in [\w.()]+\.\.\w*.* \{$"),
    ("4", "a comparison, an order or a cast written as a function", r"\bfn (?:is|is_one|no_curve|later|larger|smaller|less|within|capped|wide|both|join|is_number|encode|decode|at_best_large|worse|belongs|right_length|same)\("),
    ("4", "an answer given by a ladder of tests", r"^\s+return (?:true|false);$"),
    ("4", "a plain text and numbers printed one by one", r"\btext\(rt, b\"|\bnumber\(rt, |console::text\(|console::number\("),
    ("4", "std::num's functions for what methods do", r"std::num::"),
    ("5", "the state's two arrays side by side", r"words: &(?:mut )?Words, lengths|^\s+lengths: &(?:mut )?Lengths,$"),
    ("5", "order and file side by side", r"order: Order, file: &\[u8\]|file: &\[u8\], order: Order|order: Order,$"),
    ("5", "a buffer and the place in it", r"out: &mut \[u8\], at: usize"),
    ("5", "the fact that a state was reached, in a clause", r"Reached (?:words|self)"),
    ("6", "a buffer with a length beside it", r"\bused: usize|\bcount: usize|\bbytes: usize|, n: usize|\[\.\.n\]"),
    ("7", "a switch on which step to run", r"\b(?:arriving|is_turned|right|other|is_well|is_written|one): bool[,)]|kind: Kind[,)]"),
    ("all", "what stays, with its reason", r"// Stays: "),
]


def places(top):
    for path in sorted(top.glob("crates/*/src/**/*.rt")):
        for number, line in enumerate(path.read_text().splitlines(), 1):
            for row, (_, _, pattern) in enumerate(ROWS):
                if re.search(pattern, line):
                    yield row, f"{path.relative_to(top)}:{number}", line.strip()


def main():
    words = sys.argv[1:]
    counting = "--count" in words
    points = [w for w in words if w != "--count"]
    found = list(places(pathlib.Path(".")))
    for row, (point, what, _) in enumerate(ROWS):
        if points and point not in points:
            continue
        here = [f for f in found if f[0] == row]
        print(f"{point:>3}  {len(here):4}  {what}")
        if not counting:
            for _, at, line in here:
                print(f"             {at}  {line}")


main()
