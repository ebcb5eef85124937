#!/usr/bin/env python3
"""Tells where the time of a crate's check goes, function by function.

    bench/check_times.py CRATE [--test] [--over FOLDER] [--rows N]

Checks the crate with one job, over a folder that is empty unless one is given, and reads from the times at which the
check wrote its files how long each function took, in seconds by the clock. The libraries below must be built already,
as `rt check` in the crate's folder leaves them. With --over, only what changed since the folder was filled is checked
and listed. The parts of a function: `Lts`, `Tie`, `Reads`, `Layout` and the like are made by the kit; `Proof`, `Goals`
and `Answers` are the proof of its clauses. The first file that a run writes has the time of loading too.
"""

import argparse
import collections
import os
import re
import shutil
import subprocess
import sys
import tempfile
import time

TOP = os.path.dirname(os.path.dirname(os.path.abspath(__file__)))
KIT = os.path.dirname(subprocess.run(["rt", "doc"], capture_output=True, text=True, check=True).stdout.strip())


def crates():
    """The libraries that each crate stands on, by its name, as crates.txt has them."""
    found = {}
    with open(f"{TOP}/crates.txt", encoding="utf-8") as lines:
        for line in lines:
            name, colon, below = line.partition("#")[0].partition(":")
            if colon:
                found[name.split()[0]] = below.split()
    return found


def command(crate, folder, tests):
    """The check of a crate over an incremental folder."""
    own = crates()
    built = lambda name: f"{TOP}/crates/{name}/out/rlib"
    words = [f"{KIT}/bin/rattle", "check", "--crate-name", crate]
    words.append("src/main.rt" if os.path.exists("src/main.rt") else "src/lib.rt")
    for name in ["std", *own[crate]]:
        words += ["--extern", f"{name}={built(name) if name in own else f'{KIT}/rlibs'}/{name}.rlib"]
    for place in [*map(built, own), f"{KIT}/rlibs"]:
        words += ["-L", f"dependency={place}"]
    words += ["--antt-project", f"{KIT}/rattle/logic/antt-project.json", "--logic-built", f"{KIT}/logic_built"]
    words += ["--links", f"{crate}=", "--jobs", "1", "--incremental", folder]
    return [*words, "--test"] if tests else words


def written(folder, since):
    """The files that a check wrote, in the order of their times."""
    paths = (f"{at}/{name}" for at, _, names in os.walk(folder) for name in names)
    times = ((os.stat(path).st_mtime, os.path.basename(path)) for path in paths)
    return sorted(it for it in times if it[0] >= since)


def shares(files, began):
    """Seconds by part, and by function and part."""
    parts, functions, last = collections.Counter(), collections.defaultdict(collections.Counter), began
    for when, name in files:
        spent, last = when - last, when
        module = re.fullmatch(r"(Rattle\S*?)(\.decls)?\.oantt", name)
        library, _, path = (module[1] if module else "other").partition(".")
        owner, _, part = path.rpartition(".")
        is_proof = library.endswith("-proofs")
        parts[part if is_proof else library] += spent
        if is_proof:
            functions[owner or "(lemmas)"][part] += spent
    return parts, functions


def main():
    asked = argparse.ArgumentParser(description=__doc__, formatter_class=argparse.RawDescriptionHelpFormatter)
    asked.add_argument("crate")
    asked.add_argument("--test", action="store_true")
    asked.add_argument("--over")
    asked.add_argument("--rows", type=int, default=40)
    given = asked.parse_args()
    os.chdir(f"{TOP}/crates/{given.crate}")
    folder = os.path.abspath(given.over) if given.over else tempfile.mkdtemp(prefix="check-times-")
    began = time.time()
    ran = subprocess.run(command(given.crate, folder, given.test), capture_output=True, text=True)
    parts, functions = shares(written(folder, began), began)
    if not given.over:
        shutil.rmtree(folder)
    print(f"{time.time() - began:.1f} s:", "  ".join(f"{name} {spent:.1f}" for name, spent in parts.most_common(12)))
    longest = sorted(functions.items(), key=lambda it: -it[1].total())
    for name, spent in longest[: given.rows]:
        print(f"{spent.total():7.2f}  {name}  ", " ".join(f"{part} {it:.1f}" for part, it in spent.most_common(4)))
    print((ran.stdout.strip() or ran.stderr.strip()).splitlines()[-1])
    return ran.returncode


if __name__ == "__main__":
    sys.exit(main())
