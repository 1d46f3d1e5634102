#!/usr/bin/env python3
"""Writes the sample class-tree files in data/, and args and stdout beside them, from what each file is meant to be and document 01: run it in this folder."""
import pathlib, struct
out = pathlib.Path(__file__).resolve().parent
(out / "data").mkdir(parents=True, exist_ok=True)

def words_of(classes, version=1, count=None):
    """The words of the file of a list of classes (parent, share, kind, numbers..)."""
    count = len(classes) if count is None else count
    at = 16 + 8 * len(classes)
    contents, bodies = [], []
    for c in classes:
        size = 4 * len(c)
        contents += [at, size]
        bodies += list(c)
        at += size
    return [0x01020304, version, count, at] + contents + bodies

def pack(words, order=">"):
    return b"".join(struct.pack(order + "I", w) for w in words)

ROOT = (0, 65536, 0)
SMALLEST = [ROOT, (0, 65536, 1, 65536)]
TREE_A = [ROOT, (0, 16384, 2, 32768, 2000, 16384), (0, 49152, 3, 2000, 32768)]
NAMES = {0: "none", 1: "straight", 2: "front-loaded", 3: "delayed"}

def shown(classes, order=">"):
    """The tree, and no class beyond the last number there can be; read in bursts, its file is written big-endian with more room than it takes and with just so much, 17 with a byte less, and 7 where the last class has no share."""
    lines = ["tree"]
    for i, c in enumerate(classes):
        numbers = "".join(f" {n}" for n in c[3:])
        lines.append(f"class {i} parent {c[0]} share {c[1]} {NAMES[c[2]]}{numbers}")
    written = f"written {len(pack(words_of(classes)))}, as the file{'' if order == '>' else ' in the other order'}, none beyond"
    return lines + ["at 64: parent 0 share 0", "in bursts: right", written, written] + unwritten(17) + unwritten(7, len(classes) - 1)

def unwritten(number, cls=0):
    return [f"refused {number} class {cls}", "none written"]

def refused(number, cls=0):
    """The same refusal in bursts. It gives a tree of no classes, which the writer refuses with 4."""
    refusal = f"refused {number} class {cls}"
    return [refusal, f"in bursts: {refusal}"] + unwritten(4)

chain9 = [ROOT] + [(i, 1, 0) for i in range(0, 9)]          # class 9 has depth 9
chain8 = [ROOT] + [(i, 1, 0) for i in range(0, 8)]          # class 8 has depth 8
full = [ROOT] + [(0, 1, 2, 2, 1, 1)] * 63                   # the longest file: 2,052 bytes
samples = []

def sample(name, data, lines):
    samples.append((name, data, lines))

a = words_of(TREE_A)
sample("smallest_big", pack(words_of(SMALLEST)), shown(SMALLEST))
sample("smallest_little", pack(words_of(SMALLEST), "<"), shown(SMALLEST, "<"))
sample("tree_a_big", pack(a), shown(TREE_A))
sample("tree_a_little", pack(a, "<"), shown(TREE_A, "<"))
sample("depth_8", pack(words_of(chain8)), shown(chain8))
sample("longest", pack(words_of(full)), shown(full))
sample("empty", b"", refused(1))
sample("fifteen_bytes", pack(a)[:15], refused(1))
sample("no_mark", pack([0x04030201 ^ 1] + a[1:]), refused(2))
sample("halves_swapped", b"".join(struct.pack(">HH", w & 0xFFFF, w >> 16) for w in a), refused(2))
sample("version_2", pack(words_of(TREE_A, version=2)), refused(3))
sample("version_1_in_the_other_order", pack([a[0]]) + pack(a[1:], "<"), refused(3))
sample("one_class", pack(words_of([ROOT])), refused(4))
sample("count_65", pack(words_of(TREE_A, count=65)), refused(4))
sample("total_too_large", pack(a[:3] + [a[3] + 1] + a[4:]), refused(5))
sample("cut_by_one", pack(a)[:-1], refused(5))
sample("one_byte_more", pack(a) + b"\0", refused(5))
sample("contents_past_the_end", pack([0x01020304, 1, 3, 16]), refused(5))
sample("offset_off_by_four", pack(a[:6] + [a[6] + 4] + a[7:]), refused(6, 1))
sample("length_14", pack(a[:7] + [14] + a[8:]), refused(6, 1))
sample("length_wraps", pack(a[:9] + [0xFFFFFFFC] + a[10:]), refused(6, 2))
sample("end_before_the_total", pack(a[:3] + [a[3] + 4] + a[4:] + [0]), refused(6, 2))
sample("kind_4", pack(words_of([ROOT, (0, 1, 4, 1), (0, 1, 0)])), refused(7, 1))
sample("kind_against_length", pack(words_of([ROOT, (0, 1, 0), (0, 1, 1, 1, 1)])), refused(7, 2))
sample("root_share", pack(words_of([(0, 1, 0), (0, 1, 0)])), refused(7, 0))
sample("root_with_curve", pack(words_of([(0, 65536, 1, 1), (0, 1, 0)])), refused(7, 0))
sample("parent_of_own_number", pack(words_of([ROOT, (1, 1, 0), (0, 0, 0)])), refused(7, 1))
sample("share_zero", pack(words_of([ROOT, (0, 0, 0)])), refused(7, 1))
sample("rate_too_large", pack(words_of([ROOT, (0, 1, 1, 65537)])), refused(7, 1))
sample("equal_rates", pack(words_of([ROOT, (0, 1, 2, 5, 5, 5)])), refused(7, 1))
sample("bend_too_large", pack(words_of([ROOT, (0, 1, 3, 1048577, 1)])), refused(7, 1))
sample("depth_9", pack(words_of(chain9)), refused(8, 9))
sample("curve_above_children", pack(words_of([ROOT, (0, 1, 1, 1), (1, 1, 0)])), refused(9, 1))
sample("does_not_fit", pack(words_of([ROOT, (0, 1, 1, 32769), (0, 1, 1, 32768)])), refused(10))
sample("fits_by_last_slopes_only", pack(words_of([ROOT, (0, 1, 2, 65536, 1, 1), (0, 1, 1, 1)])), refused(10))
sample("depth_before_fit", pack(words_of(chain9[:-1] + [(8, 1, 1, 65536), (0, 1, 1, 1)])), refused(8, 9))

# longer than any right file, in the order of the refusals
most = words_of(full)
longer = words_of([(0, 65536, 1, 1)] + full[1:])            # a root of 16 bytes: 2,056 in all
sample("longer_without_the_mark", bytes(4000), refused(2))
sample("longer_version_2", pack(longer[:1] + [2] + longer[2:]), refused(3))
sample("longer_count_65", pack(longer[:2] + [65] + longer[3:]), refused(4))
sample("longest_and_a_byte", pack(most) + b"\0", refused(5))
sample("longer_cut_by_one", pack(longer)[:-1], refused(5))
sample("longer_end_before_the_total", pack(most[:3] + [most[3] + 4] + most[4:] + [0]), refused(6, 63))
sample("longer_root_with_curve", pack(longer), refused(7, 0))
sample("longer_root_with_curve_little", pack(longer, "<"), refused(7, 0))

for old in (out / "data").iterdir():
    old.unlink()
for name, data, lines in samples:
    (out / "data" / name).write_bytes(data)
(out / "args").write_text("".join(name + "\n" for name, _, _ in samples))
(out / "stdout").write_text("".join("\n".join([name] + lines) + "\n" for name, _, lines in samples))
