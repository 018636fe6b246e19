#!/usr/bin/env python3
"""In proof files, turns the names that Rattle makes of the code's: an identifier of the code keeps its underscores.

usage: tools/goal_names.py [CRATE..]    at the top of the repository, once, after tools/respell.py

Names after a point, names of goals, and those imported from a function's goals are turned. Names of lemmas are not.
"""

import os
import re
import sys

MADE = "in_default in_ok in_err overflow_add overflow_sub overflow_mul overflow_cast overflow_shl overflow_shr overflow_step overflow_neg nonzero_div nonzero_rem slice_bounds offset_bounds invariant_of from_residual from_output".split()
GOAL = re.compile(r"^(pub |abbrev |rec )*((loop|returns|if|in|then|else|invariant|decreases|overflow|nonzero|bounds|slice|offset|search)-[^\s(){}\[\].,;:]*|[^\s(){}\[\].,;:]*-requires[^\s(){}\[\].,;:]*)")


def identifiers(crate):
    found = set(MADE)
    for folder, _, files in os.walk(os.path.join("crates", crate, "src")):
        for name in files:
            with open(os.path.join(folder, name), encoding="utf-8") as f:
                found |= {w for w in re.findall(r"[A-Za-z_][A-Za-z0-9_]*", f.read()) if "_" in w.strip("_")}
    return found


def turned(name, known):
    name = re.sub(r"in-default·(?![\w])", "in_default-1", name)
    return "+".join(joined(part, known) for part in name.split("+"))


def joined(name, known):
    parts, out, i = name.split("-"), [], 0
    while i < len(parts):
        for n in range(len(parts), i, -1):
            word = "_".join(parts[i:n])
            if n == i + 1 or word in known:
                out.append(word)
                i = n
                break
    return "-".join(out)


def main():
    for crate in sys.argv[1:] or sorted(os.listdir("crates")):
        known = identifiers(crate)
        for folder, _, files in os.walk(os.path.join("crates", crate, "proofs")):
            for name in files:
                if name not in ("Answers.antt", "Invariants.antt", "Choices.antt", "Proof.antt"):
                    continue
                path = os.path.join(folder, name)
                with open(path, encoding="utf-8") as f:
                    old = f.read()
                lines = old.split("\n")
                made = set()
                for i, line in enumerate(lines):
                    if line.lstrip().startswith("--"):
                        continue
                    m = re.match(r"use Rattle\.[\w.+]*\.(Goals|Given)\.\{(.*)\}", line)
                    if m:
                        made |= {w.strip() for w in m[2].split(",")}
                for i, line in enumerate(lines):
                    if line.lstrip().startswith("--"):
                        continue
                    line = re.sub(r"(?<=\.)[a-zA-Z][^\s(){}\[\].,;:]*-[^\s(){}\[\].,;:]*", lambda m: turned(m[0], known), line)
                    m = GOAL.match(line)
                    if m:
                        line = line[: m.start(2)] + turned(m[2], known) + line[m.end(2) :]
                    line = re.sub(r"[^\s(){}\[\].,;:]+", lambda m: turned(m[0], known) if m[0] in made else m[0], line)
                    lines[i] = line
                new = "\n".join(lines)
                if new != old:
                    with open(path, "w", encoding="utf-8") as f:
                        f.write(new)


main()
