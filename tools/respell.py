#!/usr/bin/env python3
"""Brings the repository's own definitions and lemmas to the spelling of today's Rattle, once, after the toolchain's port.py.

usage: python3 tools/respell.py KIT        at the top of the checkout; KIT is the toolchain's folder, whose snake.py applies the table

A word of antt that this repository declares turns to snake case: `numberOf` to `number_of`, `class-narrow` to `class_narrow`.
Types, facts and modules keep their capitals; names of capitals alone get `_` for `-`, as NEXT_NUMBER. Where a definition and a
lemma fall together, the lemma's name gets `_lem`. Functions, fields and constants of src/ keep their names. The crate `log`, whose
name is a library of the toolchain now, becomes `records`.
"""

import os
import re
import subprocess
import sys
import tempfile

CRATES = "crates"
# what port.py left of lemmas whose name a definition takes
TAKEN = {"most_bytes": "most_bytes_lem", "over_word": "over_word_lem", "kept_in": "kept_in_lem", "told_of": "told_of_lem", "one_more": "one_more_lem"}
DECLARED = [
    re.compile(r"^\s*(?:(?:pub|abbrev|unfoldable)\s+)*([^\s:(){}.;,@\"«»λ→=|↦]+)\s+(?:[({].*[)}]\s*)?:\s"),
    re.compile(r"^\s*(?:pub )?(?:data|record|ruleset)\s+(?:pub\s+)?([^\s(:]+)"),
]
# what the check makes is not ours to respell
MADE = re.compile(r"^(returns|loop|overflow|ensures|requires)\b|-requires|-spec$|_spec$|-\d+$")


def texts(ending):
    for folder, dirs, files in os.walk(CRATES):
        dirs[:] = sorted(d for d in dirs if d != "out")
        for f in sorted(files):
            if f.endswith(ending):
                yield os.path.join(folder, f)


def declared():
    names = set()
    for path in texts(".antt"):
        with open(path, encoding="utf-8") as f:
            for line in f:
                line = re.sub(r"--.*", "", line.rstrip()) + " "
                for form in DECLARED:
                    m = form.match(line)
                    if m and not re.search(r":\s*tie\.", line):
                        names.add(m.group(1))
    return names


def spelled(name):
    if re.fullmatch(r"[A-Z][A-Z0-9-]+", name):
        return name.replace("-", "_")
    if re.match(r"[A-Z]", name):
        return name
    return re.sub(r"(?<=[a-z0-9])([A-Z])", lambda m: "_" + m.group(1).lower(), name).replace("-", "_").replace("′", "'")


def table(names):
    rows = {}
    definitions = {spelled(n) for n in names if "-" not in n}
    for n in sorted(names):
        if MADE.search(n):
            continue
        new = spelled(n)
        if "-" in n and not n[0].isupper() and new in definitions:
            new += "_lem"
        if new != n:
            rows[n] = new
    rows.update({old: new for old, new in TAKEN.items() if old in names})
    return rows


def move_log():
    if not os.path.isdir(os.path.join(CRATES, "log")):
        return
    subprocess.run(["git", "mv", os.path.join(CRATES, "log"), os.path.join(CRATES, "records")], check=True)
    for path in [*texts(".antt"), *texts(".rt")]:
        with open(path, encoding="utf-8") as f:
            old = f.read()
        new = re.sub(r"\bRattle\.log\.", "Rattle.records.", old)
        if path.endswith(".rt"):
            new = re.sub(r"(?m)^use log::", "use records::", new)
            new = re.sub(r"(?<![\w:.])log::(?=\w)", "records::", new)
        if new != old:
            with open(path, "w", encoding="utf-8") as f:
                f.write(new)
    with open("crates.txt", encoding="utf-8") as f:
        lines = f.read()
    with open("crates.txt", "w", encoding="utf-8") as f:
        f.write(re.sub(r"(?<=[ ])log\b|^log(?=:)", "records", lines, flags=re.M))


def main(argv):
    if len(argv) != 1 or not os.path.isdir(CRATES):
        print(__doc__)
        return 2
    move_log()
    rows = table(declared())
    fallen = {}
    for old, new in rows.items():
        fallen.setdefault(new, []).append(old)
    for new, olds in fallen.items():
        if len(olds) > 1:
            print(f"fall together: {' '.join(olds)} to {new}")
            return 1
    with tempfile.NamedTemporaryFile("w", suffix=".tsv", encoding="utf-8") as f:
        f.writelines(f"{old}\t{new}\n" for old, new in sorted(rows.items()))
        f.flush()
        script = os.path.join(argv[0], "port", "notes", "2026-11-18-names-are-in-snake-case", "snake.py")
        r = subprocess.run([sys.executable, script, "--table", f.name, "--only", "antt,rt", CRATES])
    print(f"{len(rows)} names")
    return r.returncode


if __name__ == "__main__":
    raise SystemExit(main(sys.argv[1:]))
