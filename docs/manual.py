#!/usr/bin/env python3
"""The numbers and the pictures of docs/MANUAL.md. Works out every number from the line's rate and document 01's definitions, draws docs/manual-*.svg, and
prints the sentences and tables that hold the numbers. Framing counts, by document 02's request 2. It stops with a message where one of them is not on the page, where the page has a number that is neither
worked out here nor given by document 01, where the page's tree breaks a rule of 01, or where a refusal, a picture or a link is missing."""

import itertools
import re
import sys
from collections import namedtuple
from pathlib import Path

import curves
from curves import AFTER, AROUND, BEFORE, WHOLE, dot, held, least, line, text

REPO = Path(__file__).resolve().parent.parent
PAGE = REPO / "docs/MANUAL.md"
EXAMPLES = REPO / "examples"

# Document 01's numbers.
LATEST_BEND = 1048576
CLASSES = (2, 64)
DEEPEST = 8
LONGEST = 9000  # bytes of a packet
LATE = held(LONGEST)  # ticks, of the guarantee
ROOM = 64  # packets waiting in a leaf
BODY = {"none": 12, "straight": 16, "front-loaded": 24, "delayed": 20}
REFUSALS = range(1, 18)
CHECKS = {"reading": range(1, 11), "writing": (4, 7, 8, 9, 10, 17), "starting": (4, 7, 8, 9, 10), "arrival": (14, 15, 11, 12, 13, 16), "departure": (14, 15)}

# What the sums start from.
LINE = 2048  # kbit/s
OTHER_LINE = 1544  # kbit/s, where the rates don't come out whole
SPEECH = 64  # kbit/s
EVERY = 20  # ms between two packets of speech
SOON = 5  # ms, the delay that speech is to have
HEADERS = 40  # bytes: IPv4 20, UDP 8, RTP 12
WAIT, CONTROL, ORDER = 10, 128, 80  # remote control: ms of delay, kbit/s, bytes of a packet

Curve = namedtuple("Curve", "kind numbers")
Class = namedtuple("Class", "parent share curve")


def stop(message):
    sys.exit("manual.py: " + message)


# Document 01's definitions.


def amount(curve, t):
    """S(t) in parts."""
    return curves.amount(curve.kind, curve.numbers, t)


def bend_of(curve):
    return {"front-loaded": curve.numbers[1:2], "delayed": curve.numbers[:1]}.get(curve.kind, ())


def last_rate(curve):
    return curve.numbers[-1] if curve.numbers else 0


def reached(curve, pieces, count, later=0):
    """The least whole t, not before the newest piece (b, c), at which every piece 65,536·c + S(t − b), taken so much later, is at least 65,536·count."""
    stands = lambda piece, t: WHOLE * piece[1] + amount(curve, max(t - piece[0], 0))
    return least(pieces[-1][0], lambda t: all(stands(piece, t + later) >= WHOLE * count for piece in pieces))


def deadline(curve, length, pieces=((0, 0),), sent=0):
    """Of a packet of this length, after so many bytes sent, framing included."""
    return reached(curve, pieces, sent + held(length))


def eligible(curve, pieces=((0, 0),), sent=0):
    return reached(curve, pieces, sent, curve.numbers[0] if curve.kind == "delayed" else 0)


def fit(promised):
    """At every whole t the sum of all S(t) is at most 65,536·t: looked at wherever a curve bends, and by the last rates. Between two bends every S is straight."""
    bends = [bend for curve in promised for bend in bend_of(curve)]
    at_bends = all(sum(amount(curve, t) for curve in promised) <= WHOLE * t for t in bends)
    return at_bends and sum(map(last_rate, promised)) <= WHOLE


# Trees.


def read_tree(text):
    """The tree of a text that has no faulty line."""
    lines = [line.split("#")[0].split() for line in text.splitlines()]
    lines = [words for words in lines if words]
    if not lines or lines[0] != ["tree"]:
        stop("the page's tree does not begin with `tree`")
    tree = []
    for words in lines[1:]:
        if words[0::2][:3] != ["class", "parent", "share"] or int(words[1]) != len(tree):
            stop(f"the page's tree: {' '.join(words)!r} is not class {len(tree)}")
        tree.append(Class(int(words[3]), int(words[5]), Curve(words[6], tuple(map(int, words[7:])))))
    return tree


def right_curve(curve):
    """Its kind, how many numbers it has, and their limits."""
    if curve.kind not in BODY or len(curve.numbers) != (BODY[curve.kind] - 12) // 4:
        return False
    bends = bend_of(curve)
    rates = {"front-loaded": curve.numbers[::2], "delayed": curve.numbers[1:]}.get(curve.kind, curve.numbers)
    falls = curve.kind != "front-loaded" or curve.numbers[0] > curve.numbers[2]
    return falls and all(1 <= n <= WHOLE for n in rates) and all(1 <= n <= LATEST_BEND for n in bends)


def depth(tree, i):
    return 0 if i == 0 else 1 + depth(tree, tree[i].parent)


def refusal(tree):
    """The number and class that a start answers, or None: 01's checks 4, 7, 8, 9, 10 in that order."""
    if not CLASSES[0] <= len(tree) <= CLASSES[1]:
        return 4, 0
    for i, c in enumerate(tree):
        placed = c.parent < i and 1 <= c.share <= WHOLE if i else c == Class(0, WHOLE, Curve("none", ()))
        if not placed or not right_curve(c.curve):
            return 7, i
    for i in range(len(tree)):
        if depth(tree, i) > DEEPEST:
            return 8, i
    parents = {c.parent for c in tree[1:]}
    for i, c in enumerate(tree):
        if i in parents and c.curve.kind != "none":
            return 9, i
    return None if fit([c.curve for c in tree]) else (10, 0)


# The worked sums.


def comma(n):
    return f"{n:,}"


def up(n, d):
    return -(-n // d)


def whole(n, d):
    if n % d:
        stop(f"{n}/{d} is not whole, and the page says it is")
    return n // d


def ticks(ms, line=LINE):
    """Ticks of so many milliseconds: line kbit/s are line bits a millisecond."""
    return whole(line * ms, 8)


def ms(n):
    """Ticks as milliseconds, to one place."""
    return f"{n * 8 / LINE:.1f}".removesuffix(".0")


def parts(rate, line=LINE):
    return up(rate * WHOLE, line)


def in_a_ms(parts):
    """Bytes a millisecond, of a rate."""
    return whole(parts * ticks(1), WHOLE)


def hours(n):
    minutes = n * 8 // (LINE * 1000) // 60
    return f"{minutes // 60} hours and {minutes % 60} minutes"


def days(n):
    return n * 8 // (LINE * 1000) // 86400


PAYLOAD = whole(SPEECH * EVERY, 8)
LENGTH = PAYLOAD + HEADERS
PERIOD = ticks(EVERY)


def rate(length, every):
    """A packet of this length in so many ticks, in parts."""
    return up(held(length) * WHOLE, every)


STRAIGHT = Curve("straight", (rate(LENGTH, PERIOD),))
QUICK = Curve("front-loaded", (rate(LENGTH, ticks(SOON)), ticks(SOON), rate(LENGTH, PERIOD)))
BARE = Curve("straight", (parts(SPEECH),))  # of the speech alone: too little
DELAYED = Curve("delayed", (ticks(WAIT), parts(CONTROL)))


def spelled(curve):
    return " ".join(map(str, [curve.kind, *curve.numbers]))


def check_stream(curve, length, offset):
    """A packet every PERIOD: each is due no later than so many ticks after it comes, whichever rule sends it and whether or not the leaf was emptied before it came;
    where the real-time rule sends each before the next, just so many, and each is eligible when it comes."""
    for real_time, emptied in itertools.product((1, 2, 3, 24), repeat=2):
        pieces, sent = [], 0
        for k in range(24):
            if k % emptied == 0:
                pieces.append((k * PERIOD, sent))
            times = eligible(curve, pieces, sent), deadline(curve, length, pieces, sent)
            steady = times == (k * PERIOD, k * PERIOD + offset) or (real_time, emptied) != (1, 1)
            if times[1] > k * PERIOD + offset or not steady:
                stop(f"packet {k} of a stream under {spelled(curve)}: eligible and deadline {times}")
            sent += held(length) if k % real_time == 0 else 0


def fair_turns(shares, length, turns):
    """Leaves that always wait and are sent from by the fair rule alone: how many packets each gets."""
    sent = [0] * len(shares)
    for _ in range(turns):
        virtual = [up(WHOLE * w * held(length), share) for w, share in zip(sent, shares)]
        sent[virtual.index(min(virtual))] += 1
    return sent


def words_of_the_sum():
    """The sentences of the page that hold worked numbers, up to the tree."""
    bits, second = LINE * 1000, ticks(1000)
    other = ticks(EVERY, OTHER_LINE)
    fast, slow = rate(LENGTH, other), rate(LENGTH, other) - 1
    short = [deadline(Curve("straight", (each,)), LENGTH) for each in (fast, slow)]
    if held(LENGTH) * WHOLE % other == 0 or short != [other, other + 1]:
        stop("the page's words on rounding don't hold")
    exact = held(LENGTH) * WHOLE * 10 // other
    check_stream(QUICK, LENGTH, ticks(SOON))
    check_stream(STRAIGHT, LENGTH, PERIOD)
    late = ticks(SOON) + LATE
    behind = deadline(BARE, LENGTH)
    if behind <= PERIOD:
        stop("the page's words on a rate without headers and framing don't hold")
    shares, turns = (49152, 16384), 400
    got = fair_turns(shares, 1000, turns)
    return [
        f"A line of {comma(LINE)} kbit/s sends {comma(bits)} bits a second. That is {comma(second)} bytes, so a second has {comma(second)} ticks.",
        f"A millisecond has {ticks(1)}.",
        f"{comma(WHOLE)} parts are one byte",
        f"at {comma(LINE)} kbit/s after {hours(2**32)}",
        f"{comma(LATE)} ticks are {ms(LATE)} ms at {comma(LINE)} kbit/s",
        f"shares of {comma(shares[0])} and {comma(shares[1])}, and packets of {comma(1000)} bytes always waiting in both: of the first {turns} departures {got[0]} and {got[1]} are theirs",
        f"| {EVERY} ms of speech | {comma(SPEECH * 1000)} bit/s × {EVERY / 1000} s / 8 | {PAYLOAD} bytes |",
        f"| with IPv4, UDP and RTP, {HEADERS} bytes: the packet's length | {PAYLOAD} + {HEADERS} | {LENGTH} bytes |",
        f"| with its framing: what it counts for | {LENGTH} + {AROUND} | {held(LENGTH)} bytes |",
        f"| {EVERY} ms | {EVERY} × {ticks(1)} | {comma(PERIOD)} ticks |",
        f"| one packet in {EVERY} ms, as a rate | {held(LENGTH)} × {comma(WHOLE)} / {comma(PERIOD)} | {comma(STRAIGHT.numbers[0])} parts |",
        f"the least whole tick at which the curve has given {held(LENGTH)} bytes",
        f"| `{spelled(STRAIGHT)}` | {comma(deadline(STRAIGHT, LENGTH))} | {ms(deadline(STRAIGHT, LENGTH))} ms |",
        f"| `{spelled(QUICK)}` | {comma(deadline(QUICK, LENGTH))} | {ms(deadline(QUICK, LENGTH))} ms |",
        f"{SOON} ms are {comma(ticks(SOON))} ticks, and {held(LENGTH)} × {comma(WHOLE)} / {comma(ticks(SOON))} = {comma(QUICK.numbers[0])} parts",
        f"The front-loaded one gives the packet in {ms(deadline(QUICK, LENGTH))} ms",
        f"each is due no later than {comma(ticks(SOON))} ticks after it comes",
        f"has left in full {comma(late)} ticks after it came at the latest, which is {ms(late)} ms",
        f"{SPEECH} kbit/s of speech alone are {SPEECH} / {comma(LINE)} × {comma(WHOLE)} = {comma(BARE.numbers[0])} parts. Under `{spelled(BARE)}` the first packet is due at tick {comma(behind)}, {ms(behind)} ms",
        f"On a line of {comma(OTHER_LINE)} kbit/s, {EVERY} ms are {comma(other)} ticks, and {held(LENGTH)} bytes in that time are {comma(exact // 10)}.{exact % 10} parts. Take {comma(fast)}: then the packet is due at tick {comma(short[0])}. "
        f"With {comma(slow)} it is due at {comma(short[1])}",
        f"`{spelled(STRAIGHT)}` gives {in_a_ms(STRAIGHT.numbers[0])} bytes a millisecond",
        f"`{spelled(QUICK)}` gives {in_a_ms(QUICK.numbers[0])} bytes a millisecond up to tick {comma(QUICK.numbers[1])}, then {in_a_ms(QUICK.numbers[2])}",
        f"`{spelled(DELAYED)}` gives nothing up to tick {comma(DELAYED.numbers[0])}, then {in_a_ms(DELAYED.numbers[1])} bytes a millisecond",
        f"A first packet of {ORDER} bytes, {held(ORDER)} with its framing, that comes at tick 0 is eligible at tick {eligible(DELAYED)} and due at tick {comma(deadline(DELAYED, ORDER))}",
    ]


def words_of_the_tree(tree):
    """What the page says of its own tree: whether it fits, and the answers to three calls."""
    if refusal(tree):
        stop(f"the page's tree is refused: {refusal(tree)}")
    speech, control = [i for i, c in enumerate(tree) if c.curve.kind != "none"]
    if tree[speech].curve != QUICK or tree[control].curve != DELAYED:
        stop("the page's tree has other curves than its sums")
    promised = [QUICK, DELAYED]
    said = ["| at tick | speech | remote control | together | the line |\n|---|---|---|---|---|"]
    for bend, whose in ((QUICK.numbers[1], "the bend of speech"), (DELAYED.numbers[0], "the bend of remote control")):
        has = [whole(amount(curve, bend), WHOLE) for curve in promised]
        said.append(f"| {comma(bend)}, {whose} | {has[0]} bytes | {has[1]} bytes | {sum(has)} bytes | {comma(bend)} bytes |")
    rates = [last_rate(curve) for curve in promised]
    said.append(f"| ever after, each tick | {comma(rates[0])} parts | {comma(rates[1])} parts | {comma(sum(rates))} parts | {comma(WHOLE)} parts |")
    most = max(n for n in range(1, 60) if fit([QUICK] * n + [DELAYED]))
    asked = (most + 1) * QUICK.numbers[0]
    if not asked > WHOLE:
        stop("the page's words on one speech leaf too many don't hold")
    said.append(f"Beside remote control {most} such speech leaves fit. With {most + 1} the first rates are {comma(asked)} together")
    said.append(f"the last rates of speech are only {comma((most + 1) * QUICK.numbers[2])}")
    example = [Curve("front-loaded", (WHOLE, 1, 1)), Curve("straight", (1,))]
    if fit(example) or sum(map(last_rate, example)) > WHOLE:
        stop("01's last row on fit does not hold")
    copies = next(i for i, c in enumerate(tree) if i not in (0, speech, control) and i not in {c.parent for c in tree})
    calls = ["start 0", f"arrive 0 {speech} {LENGTH}", "depart 0", f"arrive 0 {copies} 1500", f"depart {held(LENGTH)}"]
    answers = [
        f"started {len(tree)}",
        "accepted number 0",
        f"packet class {speech} number 0 length {LENGTH} rule real-time eligible {eligible(QUICK)} deadline {deadline(QUICK, LENGTH)}",
        "accepted number 0",
        f"packet class {copies} number 0 length 1500 rule fair",
    ]
    width = max(map(len, calls)) + 4
    said += [f"    {call:<{width}}{answer}" for call, answer in zip(calls, answers)]
    return said


def log_of_the_afternoon():
    """The first stamp of examples/studio.calls, and the lines of its log, by the stored answers."""
    lines = lambda name: [line.split() for line in (EXAMPLES / name).read_text().splitlines() if not line.startswith("#")]
    calls, log = lines("studio.calls"), []
    for call, answer in zip(calls, lines("studio.out"), strict=True):
        if call[0] == "arrive" and answer[0] == "accepted":
            log.append(" ".join(["1", *call[1:]]))
        if call[0] == "depart" and answer[0] == "packet":
            log.append(f"2 {call[1]} {answer[2]} {answer[6]}")
        if call[0] == "depart" and answer[0] == "none":
            log.append(f"3 {call[1]} 0 0")
    return calls[0][1], log


def other_choice():
    """The first record of examples/other-box.log, started with the stamp 0, that sends another packet than our rules: its number, when our packet came, and the packet as printed.
    Where no leaf is eligible, one leaf alone has to wait: the fair rule is not worked out here."""
    curves = [c.curve for c in read_tree((EXAMPLES / "studio.txt").read_text())]
    words = [int(word) for line in (EXAMPLES / "other-box.log").read_text().splitlines() for word in line.split("#")[0].split()]
    records = [tuple(words[k : k + 4]) for k in range(0, len(words), 4)]
    waiting, pieces, sent, left = ([f() for _ in curves] for f in (list, list, int, int))
    for k, (kind, now, leaf, length) in enumerate(records):
        if kind == 1:
            if not waiting[leaf]:
                pieces[leaf].append((now, sent[leaf]))
            waiting[leaf].append((now, length))
            continue
        heads = [i for i, queue in enumerate(waiting) if queue]
        times = {i: (deadline(curves[i], waiting[i][0][1], pieces[i], sent[i]), i) for i in heads if curves[i].kind != "none" and eligible(curves[i], pieces[i], sent[i]) <= now}
        if not times and len(heads) > 1:
            stop(f"record {k} of other-box.log: two leaves wait, and none is eligible")
        ours = min(times.values())[1] if times else heads[0] if heads else 0
        came, bytes_ours = waiting[ours][0] if heads else (now, 0)
        if (leaf, length) != (ours, bytes_ours):
            return records, k, came, (ours, left[ours], bytes_ours, eligible(curves[ours], pieces[ours], sent[ours]), times[ours][0])
        if heads:
            waiting[ours].pop(0)
            left[ours] += 1
            sent[ours] += held(bytes_ours) if times else 0
    stop("other-box.log has no record with another choice")


def words_of_the_logs():
    first, log = log_of_the_afternoon()
    records, k, came, (leaf, number, length, ripe, due) = other_choice()
    _, now, sent, _ = records[k]
    leaves = next(stamp for kind, stamp, where, _ in records[k:] if (kind, where) == (2, leaf))
    full = leaves + held(length)
    if came != ripe or not 0 < full - due < LATE:
        stop("the page's words on other-box.log don't hold")
    return [
        f"`examples/studio.calls` starts with the stamp {first}",
        f"./judge examples/studio.tree {first} studio.log",
        *(f"    {line}\n" for line in log[:4]),
        f"accepted {len(log)} records",
        f"record {k}: another choice our rules: packet class {leaf} number {number} length {length} rule real-time eligible {ripe} deadline {due}",
        f"Record {k} is `{' '.join(map(str, records[k]))}`: at tick {comma(now)} this box sent a packet of the copies, class {sent}.",
        f"It came at tick {comma(came)}, is eligible since then, and is due at tick {comma(due)}.",
        f"The same log without record {k} and all after it is accepted",
        f"speech leaves at tick {comma(leaves)} and has left in full at {comma(full)}, {comma(full - due)} ticks after its deadline: less than the {comma(LATE)}",
    ]


def words_of_the_limits():
    """01's limits, where the page names them."""
    few, many = CLASSES
    return [
        f"at most {comma(LATE)} ticks late",
        f"the {AROUND} ticks for which a packet holds the line beyond its bytes",
        f"by IEEE 802.3, {BEFORE} bytes of preamble and start mark go before it, and a gap of {AFTER} byte-times after it",
        f"counts for n + {AROUND} bytes",
        f"parts a tick, 1 to {comma(WHOLE)}; {comma(WHOLE)} is the whole line",
        f"{few} to {many} classes; class 0 is the root",
        f"at most {DEEPEST} steps below the root",
        f"packets of 1 to {comma(LONGEST)} bytes wait there, at most {ROOM}",
        f"among the children of its parent, 1 to {comma(WHOLE)}",
        f"has left in full no later than {comma(LATE)} ticks after its deadline",
        f"A packet of n bytes holds it for n + {AROUND} ticks.",
        f"At the start it is free, or will be within {comma(LATE)} ticks",
        f"There are {few} to {many} classes. Class 0 is `class 0 parent 0 share {WHOLE} none`.",
        f"No class is more than {DEEPEST} steps below class 0.",
        f"A share or a rate is 1 to {comma(WHOLE)}. A bend is 1 to {comma(LATEST_BEND)} ticks.",
        f"the sum of all S(t) is at most {comma(WHOLE)} · t",
        f"| 4 | the classes are fewer than {few} or more than {many} |",
        f"| 8 | a class is more than {DEEPEST} steps below the root |",
        f"| 12 | the packet's length is outside 1 to {comma(LONGEST)} bytes |",
        f"| 13 | {ROOM} packets wait in that leaf already |",
    ]


def listed(numbers, last="and"):
    *first, end = map(str, numbers)
    return f"{', '.join(first)} {last} {end}"


def words_of_the_refusals():
    longest = 16 + 8 * CLASSES[1] + BODY["none"] + (CLASSES[1] - 1) * BODY["front-loaded"]
    read, (lent,) = CHECKS["reading"], set(CHECKS["writing"]) - set(CHECKS["reading"])
    return [
        f"{read[0]} to {read[-1]} and {lent} are about a tree or its file",
        "It is 0 for 1 to 5, for 10 and for 17.",
        f"Reading checks {read[0]} to {read[-1]}, writing {listed(CHECKS['writing'])}, starting {listed(CHECKS['starting'])}, "
        f"an arrival {listed(CHECKS['arrival'])}, a departure {listed(CHECKS['departure'])}, in these orders.",
        f"arrivals get 11, if not {listed(CHECKS['departure'], 'or')}, and nothing waits",
        "| 1 | the file has under 16 bytes |",
        "| 3 | its version is not 1 |",
        f"its length is not {listed(sorted(BODY.values()), 'or')}, it passes the total",
        "| 14 | 2^31 ticks or more have gone by since the last kept stamp",
        "| 15 | the clock would pass 2^40 ticks |",
        f"| 16 | the bytes accepted since the start, {AROUND} more than its length for each packet, would pass 2^40 |",
        f"{comma(longest)} bytes are enough for every tree",
        f"{hours(2**31)} at {comma(LINE)} kbit/s",
        f"after {days(2**40)} days at {comma(LINE)} kbit/s",
    ]


# The pictures.

STYLE = """
text { font: 14px sans-serif; fill: #222 } .small { font-size: 12px; fill: #444 } .title { font-weight: bold; font-size: 15px }
.grid { stroke: #e4e4e4 } .other { stroke: #8fb0d6; stroke-width: 1.5; fill: none } .curve { stroke: #1f5fa8; stroke-width: 3; fill: none }
.level { stroke: #555; stroke-dasharray: 6 4 } .bend { stroke: #999; stroke-dasharray: 3 3 } .deadline { stroke: #b3400a; stroke-width: 2 }
.bluedot { fill: #1f5fa8 } .reddot { fill: #b3400a } .redtext { fill: #b3400a } .bluetext { fill: #1f5fa8 } .paletext { font-size: 12px; fill: #4a74a8 }
""".strip()
LEFT, TOP, WIDTH, HEIGHT = 80, 52, 620, 240
TICKS, COUNT = 10240, 440


def x(tick):
    return round(LEFT + WIDTH * tick / TICKS, 1)


def y(count):
    return round(TOP + HEIGHT * (COUNT - count) / COUNT, 1)


def axes():
    out = []
    for tick in range(0, TICKS + 1, ticks(SOON)):
        out += [line(x(tick), TOP, x(tick), TOP + HEIGHT, "grid"), text(x(tick), TOP + HEIGHT + 16, comma(tick), "small", "middle")]
    for count in range(0, COUNT + 1, 40):
        out += [line(LEFT, y(count), LEFT + WIDTH, y(count), "grid"), text(LEFT - 6, y(count) + 4, comma(count), "small", "end")]
    out.append(f'<text class="small" text-anchor="middle" transform="translate({LEFT - 48} {TOP + HEIGHT / 2}) rotate(-90)">bytes promised</text>')
    words = f"ticks since a packet came to the empty leaf; {ticks(1)} ticks are 1 ms at {comma(LINE)} kbit/s"
    return out + [text(LEFT + WIDTH / 2, TOP + HEIGHT + 36, words, "small", "middle")]


def path(curve, kind):
    """S as far as the picture goes: straight before the bend and after it."""
    end = TICKS if amount(curve, TICKS) <= WHOLE * COUNT else least(0, lambda t: amount(curve, t) >= WHOLE * COUNT)
    points = sorted({0, *(bend for bend in bend_of(curve) if bend < end), end})
    return f'<path class="{kind}" d="M' + " L".join(f"{x(t)} {y(amount(curve, t) / WHOLE)}" for t in points) + '"/>'


def note(tick, count, lines, kind="bluetext", anchor="start"):
    return [text(x(tick), y(count) + 16 * k, words, kind, anchor) for k, words in enumerate(lines)]


def slope(rate, before=""):
    return [f"{before}{comma(rate)} parts a tick:", f"{in_a_ms(rate)} bytes a ms"]


def draw(curve, length, title, others, notes):
    """A curve, and where it reaches what a packet counts for."""
    due, end, count = deadline(curve, length), TOP + HEIGHT, held(length)
    body = [text(LEFT, 28, title, "title"), *axes(), *(path(other, "other") for other in others)]
    for bend in bend_of(curve):
        body += [line(x(bend), TOP, x(bend), end, "bend"), text(x(bend) + 6, TOP + 14, f"bend {comma(bend)}", "small")]
    body.append(path(curve, "curve"))
    body += [line(LEFT, y(count), LEFT + WIDTH, y(count), "level"), text(LEFT + WIDTH - 4, y(count) + 17, f"a packet of {length} bytes, {count} with framing", "small", "end")]
    body += [line(x(due), y(count), x(due), end, "deadline"), dot(x(due), y(count), "reddot"), dot(x(0), y(0), "bluedot")]
    body.append(text(x(due) + 7, end - 10, f"deadline {comma(due)}, {ms(due)} ms", "redtext"))
    body += [words for each in notes for words in each]
    head = '<svg xmlns="http://www.w3.org/2000/svg" viewBox="0 0 740 345" width="740" height="345">'
    return "\n".join([head, f"<style>{STYLE}</style>", '<rect width="740" height="345" fill="white"/>', *body, "</svg>", ""])


def pictures():
    first, _, last = QUICK.numbers
    title = lambda curve: f"{curve.kind.capitalize()}: " + " / ".join(map(comma, curve.numbers))
    flat_notes = [note(5700, 305, slope(last), anchor="end")]
    quick_notes = [note(1500, 190, slope(first, "first ")), note(5900, 385, slope(last, "then ")), note(6300, 231, [f"the straight curve of {comma(last)}"], "paletext")]
    late_notes = [note(1280, 16, ["nothing at first"], anchor="middle"), note(6400, 185, slope(DELAYED.numbers[1], "then "))]
    return {
        "manual-straight.svg": draw(STRAIGHT, LENGTH, title(STRAIGHT), (), flat_notes),
        "manual-front-loaded.svg": draw(QUICK, LENGTH, title(QUICK), (STRAIGHT,), quick_notes),
        "manual-delayed.svg": draw(DELAYED, ORDER, title(DELAYED), (), late_notes),
    }


# The page.


def flat(text):
    return " ".join(text.split())


def numbers(text):
    return {int(found.replace(",", "")) for found in re.findall(r"\d+(?:,\d{3})*", text)}


def check_said(page, said, tree_text):
    """Every sentence stands on the page, and no number stands there that is neither worked out, nor 01's, nor the tree's."""
    rest = flat(page)
    for words in said:
        if flat(words) not in rest:
            stop(f"not on docs/MANUAL.md: {words.strip()}")
    for words in sorted(map(flat, said), key=len, reverse=True):
        rest = rest.replace(words, " ")
    given = {WHOLE, LATEST_BEND, *CLASSES, DEEPEST, LONGEST, LATE, AROUND, ROOM, *REFUSALS, *BODY.values(), 2**32 - 1, 32, 31, 40} | set().union(*map(numbers, [*said, tree_text]))
    for number in sorted(numbers(rest) - given):
        stop(f"docs/MANUAL.md has the number {comma(number)}, which is neither worked out nor document 01's")


def check_refusals(page):
    rows = re.findall(r"^\| (\d+) \| (.+) \| (.+) \|$", page.split("\n## All refusals\n")[1], re.M)
    if [int(row[0]) for row in rows] != list(REFUSALS):
        stop("the refusals of docs/MANUAL.md are not 1 to 17, a row each")


def check_links(page, drawn):
    names = re.findall(r"\]\(([^)#]+)\)", page)
    for name in names:
        if not (PAGE.parent / name).exists():
            stop(f"docs/MANUAL.md leads to {name}, which is not there")
    for name in drawn:
        if name not in names:
            stop(f"docs/MANUAL.md does not show {name}")
    return len(names)


def main():
    page = PAGE.read_text()
    drawn = pictures()
    for name, svg in drawn.items():
        (REPO / "docs" / name).write_text(svg)
    tree_text = re.search(r"^    tree\n(?:    .*\n)+", page, re.M)
    if not tree_text:
        stop("docs/MANUAL.md has no tree")
    said = words_of_the_sum() + words_of_the_tree(read_tree(tree_text[0])) + words_of_the_logs() + words_of_the_limits() + words_of_the_refusals()
    print("\n".join(said))
    check_said(page, said, tree_text[0])
    check_refusals(page)
    links = check_links(page, drawn)
    print(f"{len(said)} sentences and rows stand on docs/MANUAL.md, its tree is right, and its {links} links lead somewhere; {len(drawn)} pictures are drawn")


main()
