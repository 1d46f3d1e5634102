"""Document 01's curves, what a packet counts for, and what pictures are drawn with, for the scripts that work out the numbers of these pages."""

WHOLE = 65536  # parts are a byte; as a rate or a share, the most
BEFORE, AFTER = 8, 12  # document 02, request 2: bytes of preamble and start mark before a packet, byte-times of the gap after it
AROUND = BEFORE + AFTER


def held(length):
    """The ticks for which a packet holds the link, and the bytes that it counts for."""
    return length + AROUND


def amount(kind, numbers, t):
    """S(t) in parts, of a curve of that kind; the numbers in the file's order."""
    if kind == "straight":
        return numbers[0] * t
    if kind == "front-loaded":
        first, bend, last = numbers
        return first * min(t, bend) + last * max(t - bend, 0)
    if kind == "delayed":
        bend, rate = numbers
        return rate * max(t - bend, 0)
    return 0


def least(start, holds):
    """The least whole t, not before start, at which it holds; once it holds it goes on to."""
    step = 1
    while not holds(start + step):
        step *= 2
    low, high = start, start + step
    while low < high:
        middle = (low + high) // 2
        low, high = (low, middle) if holds(middle) else (middle + 1, high)
    return low


# SVG.


def line(x1, y1, x2, y2, kind):
    return f'<line class="{kind}" x1="{x1}" y1="{y1}" x2="{x2}" y2="{y2}"/>'


def text(x, y, words, kind="", anchor="start"):
    return f'<text class="{kind}" x="{x}" y="{y}" text-anchor="{anchor}">{words}</text>'


def dot(x, y, kind):
    return f'<circle class="{kind}" cx="{x}" cy="{y}" r="4"/>'
