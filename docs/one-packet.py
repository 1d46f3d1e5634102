#!/usr/bin/env python3
"""One packet of examples/studio.calls: works out its pieces, eligible time, deadline and departure by document 01's definitions from the example's
tree and calls, draws docs/one-packet.svg, and prints the two tables of docs/ONE-PACKET.md. It stops with a message where a number differs from
examples/studio.out, or where a table or a quotation of the page no longer holds. The leaf of a departure by the fair rule is taken from studio.out."""

import re
import struct
import sys
from collections import namedtuple
from pathlib import Path

import curves
from curves import dot, held, least, line, text

REPO = Path(__file__).resolve().parent.parent
LEAF, NUMBER = 3, 7  # the packet that the page follows: of speech, number 7
NAMES = {3: "speech", 4: "remote control", 5: "picture", 6: "nightly copies", 7: "mail"}

Class = namedtuple("Class", "parent share kind numbers")
Piece = namedtuple("Piece", "start sent")
Packet = namedtuple("Packet", "number length came")
Times = namedtuple("Times", "leaf eligible deadline")
# A departure, with the leaf's pieces, its bytes sent by the real-time rule and the leaves that were eligible, as they stood before it, and since when the packet was the head.
Sent = namedtuple("Sent", "at leaf packet rule times pieces sent eligible head")
KINDS = ["none", "straight", "front-loaded", "delayed"]


def stop(message):
    sys.exit("one-packet.py: " + message)


def agree(what, worked_out, stored):
    if worked_out != stored:
        stop(f"{what}: worked out {worked_out!r}, stored {stored!r}")


# The example's files.


def read_tree():
    data = (REPO / "examples/studio.tree").read_bytes()
    order = ">" if data[:4] == bytes([1, 2, 3, 4]) else "<"
    words = struct.unpack(f"{order}{len(data) // 4}I", data)
    places = [(words[4 + 2 * i] // 4, words[5 + 2 * i] // 4) for i in range(words[2])]
    tree = [Class(*words[at : at + 3], words[at + 3 : at + length]) for at, length in places]
    lines = ["tree"]
    for i, c in enumerate(tree):
        lines.append(" ".join(map(str, ["class", i, "parent", c.parent, "share", c.share, KINDS[c.kind], *c.numbers])))
    agree("studio.txt", lines, (REPO / "examples/studio.txt").read_text().splitlines())
    return tree


def read_calls():
    """Each call's words, with the answer to it."""
    lines = (REPO / "examples/studio.calls").read_text().splitlines()
    calls = [line.split("#")[0].split() for line in lines]
    calls = [words for words in calls if words]
    answers = (REPO / "examples/studio.out").read_text().splitlines()
    agree("how many answers", len(calls), len(answers))
    return list(zip(calls, answers))


# Document 01's definitions.


def amount(c, t):
    """S(t) in parts."""
    return curves.amount(KINDS[c.kind], c.numbers, t)


def standing(c, piece, t):
    """Piece k at tick t is 65,536·ck + S(t − bk)."""
    return 65536 * piece.sent + amount(c, max(t - piece.start, 0))


def reached(c, pieces, count, later=0):
    """The least whole t, not before bm, at which every piece, taken so much later, is at least 65,536·count."""
    return least(pieces[-1].start, lambda t: all(standing(c, p, t + later) >= 65536 * count for p in pieces))


class Afternoon:
    """The calls one after another: queues, pieces, and what was sent."""

    def __init__(self, tree):
        self.tree, self.now, self.stamp = tree, 0, None
        self.queues = {leaf: [] for leaf in NAMES}
        self.came = dict.fromkeys(NAMES, 0)
        self.pieces = {leaf: [] for leaf in NAMES}
        self.sent = dict.fromkeys(NAMES, 0)  # by the real-time rule
        self.head = dict.fromkeys(NAMES, 0)  # since when the head is the head
        self.left = []

    def times(self, leaf):
        """Eligible time and deadline of the leaf's head, for a leaf with a curve."""
        c, pieces, sent = self.tree[leaf], self.pieces[leaf], self.sent[leaf]
        delay = c.numbers[0] if c.kind == 3 else 0
        return Times(leaf, reached(c, pieces, sent, delay), reached(c, pieces, sent + held(self.queues[leaf][0].length)))

    def tick(self, stamp):
        self.now += (stamp - self.stamp) % 2**32
        self.stamp = stamp

    def arrive(self, stamp, leaf, length):
        self.tick(stamp)
        if not self.queues[leaf]:
            self.pieces[leaf].append(Piece(self.now, self.sent[leaf]))
            self.head[leaf] = self.now
        self.queues[leaf].append(Packet(self.came[leaf], length, self.now))
        self.came[leaf] += 1
        return f"accepted number {self.came[leaf] - 1}"

    def depart(self, stamp, stored):
        self.tick(stamp)
        if not any(self.queues.values()):
            return "none waits"
        timed = {leaf: self.times(leaf) for leaf in NAMES if self.queues[leaf] and self.tree[leaf].kind}
        eligible = [times for times in timed.values() if times.eligible <= self.now]
        if eligible:
            leaf, rule = min(eligible, key=lambda times: (times.deadline, times.leaf)).leaf, "real-time"
        else:
            leaf, rule = int(stored.split()[2]), "fair"
        packet, times = self.queues[leaf].pop(0), timed.get(leaf)
        self.left.append(Sent(self.now, leaf, packet, rule, times, list(self.pieces[leaf]), self.sent[leaf], eligible, self.head[leaf]))
        self.sent[leaf] += held(packet.length) if eligible else 0
        self.head[leaf] = self.now
        said = f"packet class {leaf} number {packet.number} length {packet.length} rule {rule}"
        return said + (f" eligible {times.eligible} deadline {times.deadline}" if times else "")


Story = namedtuple("Story", "curve pieces sent packet head sent_at eligible deadline contenders left")


def follow(tree, calls):
    """The packet's story, with every answer compared on the way."""
    run = Afternoon(tree)
    for number, (words, stored) in enumerate(calls, 1):
        numbers = [int(word) for word in words[1:]]
        if words[0] == "start":
            run.stamp, answer = numbers[0], f"started {len(tree)}"
        elif words[0] == "arrive":
            answer = run.arrive(*numbers)
        else:
            answer = run.depart(numbers[0], stored)
        agree(f"answer {number} of studio.out, to `{' '.join(words)}`", answer, stored)
    it = next(sent for sent in run.left if (sent.leaf, sent.packet.number) == (LEAF, NUMBER))
    return Story(tree[LEAF], it.pieces, it.sent, it.packet, it.head, it.at, it.times.eligible, it.times.deadline, it.eligible, run.left)


# The picture.


def comma(n):
    return f"{n:,}"


class Panel:
    """A part of the picture with its own scales: ticks to the right, bytes upward."""

    def __init__(self, left, top, width, height, ticks, count):
        self.left, self.top, self.width, self.height = left, top, width, height
        self.ticks, self.count = ticks, count

    def x(self, tick):
        return round(self.left + self.width * (tick - self.ticks[0]) / (self.ticks[1] - self.ticks[0]), 1)

    def y(self, count):
        return round(self.top + self.height * (self.count[1] - count) / (self.count[1] - self.count[0]), 1)

    def axes(self, tick_step, count_step):
        out = []
        for tick in range(-(-self.ticks[0] // tick_step) * tick_step, self.ticks[1] + 1, tick_step):
            out.append(line(self.x(tick), self.top, self.x(tick), self.top + self.height, "grid"))
            out.append(text(self.x(tick), self.top + self.height + 16, comma(tick), "small", "middle"))
        for count in range(-(-self.count[0] // count_step) * count_step, self.count[1] + 1, count_step):
            out.append(line(self.left, self.y(count), self.left + self.width, self.y(count), "grid"))
            out.append(text(self.left - 6, self.y(count) + 4, comma(count), "small", "end"))
        x, y = self.left - 48, self.top + self.height / 2
        out.append(f'<text class="small" text-anchor="middle" transform="translate({x} {y}) rotate(-90)">bytes</text>')
        return out

    def path(self, points, kind):
        return f'<path class="{kind}" d="M' + " L".join(f"{self.x(t)} {self.y(c)}" for t, c in points) + '"/>'


def box(x, y, width, height, kind):
    return f'<rect class="{kind}" x="{x}" y="{y}" width="{round(width, 1)}" height="{height}"/>'


STYLE = """
text { font: 14px sans-serif; fill: #222 } .small { font-size: 12px; fill: #444 } .title { font-weight: bold; font-size: 15px }
.grid { stroke: #e4e4e4 } .piece { stroke: #8fb0d6; stroke-width: 1.5; fill: none } .lowest { stroke: #1f5fa8; stroke-width: 3; fill: none }
.level { stroke: #555; stroke-dasharray: 6 4 } .eligible { stroke: #22793b; stroke-width: 2 } .deadline { stroke: #b3400a; stroke-width: 2 }
.leaves { stroke: #7a2a86; stroke-width: 2 } .start { fill: #1f5fa8 } .eligibledot { fill: #22793b } .deadlinedot { fill: #b3400a }
.part { fill: none; stroke: #999; stroke-dasharray: 3 3 } .other { fill: #d9d9d9; stroke: #888 } .mine { fill: #cfe0f3; stroke: #1f5fa8 }
.itself { fill: #7a2a86; stroke: #7a2a86 } .greentext { fill: #22793b } .redtext { fill: #b3400a } .purpletext { fill: #7a2a86 } .bluetext { fill: #1f5fa8 }
""".strip()


def piece_path(panel, story, piece):
    """A piece as far as the panel goes: it is straight before the bend and after it."""
    bend = piece.start + story.curve.numbers[1]
    ticks = sorted({max(piece.start, panel.ticks[0]), min(max(bend, panel.ticks[0]), panel.ticks[1]), panel.ticks[1]})
    return [(t, standing(story.curve, piece, t) / 65536) for t in ticks]


def whole_afternoon(story, part):
    """All pieces, from the first call on."""
    panel = Panel(80, 60, 880, 250, (0, 34000), (0, 2200))
    out = [text(80, 30, f"All {len(story.pieces)} pieces of {NAMES[LEAF]}, from the first call on", "title")]
    out += panel.axes(4000, 200)
    out += [panel.path(piece_path(panel, story, piece), "piece") for piece in story.pieces[:-1]]
    out.append(panel.path(piece_path(panel, story, story.pieces[-1]), "lowest"))
    for k, piece in enumerate(story.pieces, 1):
        x, y = panel.x(piece.start), panel.y(piece.sent)
        words = f"piece {k}" if k < len(story.pieces) else f"piece {k}, the newest"
        out += [dot(x, y, "start"), text(x + 8 if k > 1 else x + 30, y + 5 if k > 1 else y - 6, words, "small")]
    x, y = panel.x(part.ticks[0]), panel.y(part.count[1])
    out.append(box(x, y, panel.x(part.ticks[1]) - x, panel.y(part.count[0]) - y, "part"))
    out += [text(x - 6, y + 14, "the part below", "small", "end"), text(960, panel.top + panel.height + 34, "ticks", "small", "end")]
    return out


def the_packet(story, panel):
    """The pieces near the packet's times, and where they reach 65,536·c and 65,536·(c + n + 20)."""
    due = story.sent + held(story.packet.length)
    low = panel.top + panel.height
    out = [text(80, panel.top - 22, f"Where the pieces reach what the packet asks for: number {NUMBER} of {NAMES[LEAF]}, {story.packet.length} bytes, {held(story.packet.length)} on the link", "title")]
    out += panel.axes(1000, 100)
    out += [panel.path(piece_path(panel, story, piece), "piece") for piece in story.pieces[:-1] if piece.start >= panel.ticks[0] - 4000]
    out.append(panel.path(piece_path(panel, story, story.pieces[-1]), "lowest"))
    for level, words in [(story.sent, f"c = {comma(story.sent)}"), (due, f"c + n + {held(0)} = {comma(due)}")]:
        out.append(line(panel.left, panel.y(level), panel.left + panel.width, panel.y(level), "level"))
        out.append(text(panel.left + 8, panel.y(level) - 6, words))
    for tick, level, kind, colour, words in [
        (story.eligible, story.sent, "eligible", "greentext", "eligible"),
        (story.deadline, due, "deadline", "redtext", "deadline"),
    ]:
        out += [line(panel.x(tick), panel.y(level), panel.x(tick), low, kind), dot(panel.x(tick), panel.y(level), kind + "dot")]
        out.append(text(panel.x(tick) + 7, low - 10, f"{words} {comma(tick)}", colour))
    x = panel.x(story.sent_at)
    out += [line(x, panel.top, x, low, "leaves"), text(x + 7, low - 10, f"leaves {comma(story.sent_at)}", "purpletext")]
    return out


def notes(story, panel):
    """What the lines are."""
    newest = story.pieces[-1]
    x, y = panel.x(newest.start), panel.y(newest.sent)
    out = [dot(x, y, "start"), text(x - 10, y - 12, f"piece {len(story.pieces)} starts:", "small", "end")]
    out.append(text(x - 10, y + 4, f"tick {comma(newest.start)}, {comma(newest.sent)} bytes", "small", "end"))
    heights = [standing(story.curve, piece, story.deadline) / 65536 for piece in story.pieces]
    apart = max(heights) - min(heights)
    if apart >= 0.2:
        stop(f"the pieces are not as near to each other as the picture says: {apart} bytes")
    x, y = panel.x(story.deadline) + 12, panel.y(story.sent + held(story.packet.length) - 80)
    words = [f"here all {len(heights)} pieces lie less than", "0.2 bytes from each other;", "the lowest decides"]
    out += [text(x, y + 16 * k, part, "small") for k, part in enumerate(words)]
    x, y = panel.x(newest.start) - 40, panel.y(story.sent + held(story.packet.length) - 50)
    out.append(text(x, y, "the deadline curve: the lowest of the pieces", "bluetext"))
    return out


def strip(story, panel, top):
    """What the link sends in the panel's time, and where the packet is."""
    out = [text(panel.left - 6, top + 19, "the link", "small", "end"), text(panel.left - 6, top + 59, "the packet", "small", "end")]
    for sent in story.left:
        start, end = max(sent.at, panel.ticks[0]), min(sent.at + held(sent.packet.length), panel.ticks[1])
        if start >= end:
            continue
        is_it = (sent.leaf, sent.packet.number) == (LEAF, NUMBER)
        out.append(box(panel.x(start), top, panel.x(end) - panel.x(start), 28, "itself" if is_it else "mine" if sent.leaf == LEAF else "other"))
        words = f"{NAMES[sent.leaf]}, number {sent.packet.number}" if end - start > 3000 else NAMES[sent.leaf]
        if end - start > 900:
            out.append(text((panel.x(start) + panel.x(end)) / 2, top + 19, words, "small", "middle"))
    came, head, gone = panel.x(story.packet.came), panel.x(story.head), panel.x(story.sent_at)
    end = panel.x(story.sent_at + held(story.packet.length))
    out.append(box(came, top + 40, head - came, 28, "mine"))
    out.append(text((came + head) / 2, top + 59, f"waits behind number {NUMBER - 1}", "small", "middle"))
    out += [box(head, top + 40, gone - head, 28, "other"), box(gone, top + 40, end - gone, 28, "itself")]
    out.append(text(came - 6, top + 59, f"comes at {comma(story.packet.came)}", "", "end"))
    out.append(text(head, top + 86, f"head of the queue at {comma(story.head)}", "", "end"))
    out.append(text(gone, top + 106, f"leaves at {comma(story.sent_at)}, in full at {comma(story.sent_at + held(story.packet.length))}", "purpletext", "end"))
    out.append(text(panel.left + panel.width / 2, top + 132, "ticks; one tick is the time the link takes for one byte", "small", "middle"))
    return out


def draw(story):
    panel = Panel(80, 400, 880, 280, (22000, 33000), (1250, 2000))
    body = whole_afternoon(story, panel) + the_packet(story, panel) + notes(story, panel) + strip(story, panel, 715)
    head = '<svg xmlns="http://www.w3.org/2000/svg" viewBox="0 0 1000 860" width="1000" height="860">'
    return "\n".join([head, f"<style>{STYLE}</style>", '<rect width="1000" height="860" fill="white"/>', *body, "</svg>", ""])


# The page.


def tables(story):
    """The tables of the page: each piece with when it reaches what is asked, and the leaves that contend."""
    due = story.sent + held(story.packet.length)
    rows = [f"| piece | starts at b | bytes sent before, c | reaches {comma(story.sent)} bytes | reaches {comma(due)} bytes |", "|---|---|---|---|---|"]
    for k, piece in enumerate(story.pieces, 1):
        ticks = [least(piece.start, lambda t: standing(story.curve, piece, t) >= 65536 * count) for count in (story.sent, due)]
        rows.append("| " + " | ".join(map(comma, [k, *piece, *ticks])) + " |")
    leaves = ["| leaf | eligible time | deadline |", "|---|---|---|"]
    leaves += [f"| {c.leaf}, {NAMES[c.leaf]} | {comma(c.eligible)} | {comma(c.deadline)} |" for c in story.contenders]
    return rows, leaves


def sentence(story):
    """That the packet's eligible time is the deadline of the one before it, which left by the real-time rule."""
    before = next(sent for sent in story.left if (sent.leaf, sent.packet.number) == (LEAF, NUMBER - 1))
    if (before.rule, before.times.deadline, before.sent + held(before.packet.length)) != ("real-time", story.eligible, story.sent):
        stop(f"number {NUMBER - 1} does not tell the eligible time of number {NUMBER}")
    return [f"Number {NUMBER - 1} asked for {comma(story.sent)} bytes too, over the same pieces: its deadline was {comma(story.eligible)}."]


def check_page(all_tables):
    """The tables, and the sentence, stand on the page, and each block under a file's name stands in that file."""
    page = (REPO / "docs/ONE-PACKET.md").read_text()
    for table in all_tables:
        if "\n".join(table) not in page:
            stop("this is not on docs/ONE-PACKET.md:\n" + "\n".join(table))
    quotations = re.findall(r"^`(\S+)`:?\n\n((?:    .*\n|\n)+)", page, re.M)
    for name, block in quotations:
        for part in re.split(r"^ *\.\.\n", re.sub(r"^    ", "", block, flags=re.M), flags=re.M):
            if part.strip() not in (REPO / name).read_text():
                stop(f"docs/ONE-PACKET.md quotes what {name} does not have:\n{part.strip()}")
    return len(quotations)


def main():
    calls = read_calls()
    story = follow(read_tree(), calls)
    (REPO / "docs/one-packet.svg").write_text(draw(story))
    found = [*tables(story), sentence(story)]
    for table in found:
        print("\n".join(table) + "\n")
    count = check_page(found)
    print(f"{len(calls)} answers are those of studio.out, and {count} quotations stand; docs/one-packet.svg is drawn")


main()
