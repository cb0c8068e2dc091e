#!/usr/bin/env python3
"""Processor seconds of each item of a gate run from nothing, as a table.

usage: python3 bench/gate.py [NAME..]

Runs `rt ci` in a clone of what is committed, which has nothing built, with all crates or with
these and those below them, and looks five times a second at what its processes have used. An item is a crate's proof,
its tests (proved and built), one must-fail edit, what its edits begin with and end with (a check
of the crate as it stands), or the building of its program by one of the two compilers. What is
used between the last look and the end of a process is not seen, about a tenth of a second.
"""
import collections
import os
import resource
import shutil
import subprocess
import sys
import tempfile
import time

TICKS = os.sysconf("SC_CLK_TCK")
COLUMNS = ("proof", "tests", "edits", "before and after edits", "builds")


def text_of(file):
    with open(file, encoding="utf-8", errors="replace") as it:
        return it.read()


def edit_texts(file):
    """Gives the path, old text and new text of each change that a must-fail edit makes."""
    path = old = None
    for line in text_of(file).split("\n"):
        if line.startswith("file: "):
            path = line[len("file: "):].strip()
        elif line.startswith("old: "):
            old = line[len("old: "):]
        elif line.startswith("new:"):
            yield path, old, line[len("new:"):].removeprefix(" ")


def changes(folder, edits):
    """Returns, for each edit, what it makes of the first file that it changes."""
    made = {}
    for name in sorted(os.listdir(edits)) if os.path.isdir(edits) else ():
        for path, old, new in edit_texts(f"{edits}/{name}"):
            made[name] = path, text_of(f"{folder}/{path}").replace(old, new)
            break
    return made


class Item:
    """What a process of the run works at."""

    def __init__(self, words, folder, crates):
        self.crate = words[words.index("--crate-name") + 1]
        self.kind, self.name = "proof", "proof"
        if os.path.basename(folder).startswith("rt-edit-"):
            self.kind, self.name = self.of_edit(folder, f"{crates}/{self.crate}")
        elif "--test" in words:
            self.kind, self.name = "tests", "tests"
        elif "--crate-checked" in words:
            self.kind = "builds"
            self.name = f"build by {words[words.index('--backend') + 1]}"

    def of_edit(self, room, folder):
        for name, (path, text) in changes(folder, f"{folder}/must-fail").items():
            if text_of(f"{room}/{path}") == text:
                return "edits", name
        return "before and after edits", "before and after edits"


def processes():
    """Returns, by number, the parent, the time used with ended children, and the name of each."""
    found = {}
    for number in filter(str.isdigit, os.listdir("/proc")):
        try:
            name, _, rest = text_of(f"/proc/{number}/stat").rpartition(")")
        except OSError:
            continue
        rest = rest.split()
        used = sum(map(int, rest[11:15]))
        found[int(number)] = int(rest[1]), used, name.partition("(")[2], rest[19]
    return found


def tops(found, root):
    """Gives the provers and compilers below the root that stand below no other, with what they
    and all below them have used."""
    children = collections.defaultdict(list)
    for number, (parent, *_) in found.items():
        children[parent].append(number)

    def used(number):
        return found[number][1] + sum(map(used, children[number]))

    def walk(number):
        for it in children[number]:
            if found[it][2] == "rattle":
                yield it, used(it)
            else:
                yield from walk(it)

    return walk(root)


def measured(command, crates):
    """Runs the command, and returns the items with the seconds that each used."""
    items, seconds = {}, {}
    run = subprocess.Popen(command, cwd=os.path.dirname(crates), stdin=subprocess.DEVNULL)
    while run.poll() is None:
        found = processes()
        for number, used in tops(found, run.pid):
            key = number, found[number][3]
            try:
                if key not in items:
                    words = text_of(f"/proc/{number}/cmdline").split("\0")
                    items[key] = Item(words, os.readlink(f"/proc/{number}/cwd"), crates)
            except (OSError, ValueError, IndexError):
                continue
            seconds[key] = max(used / TICKS, seconds.get(key, 0))
        time.sleep(0.2)
    total = collections.Counter()
    for key, item in items.items():
        total[item.crate, item.kind, item.name] += seconds.get(key, 0)
    return run.returncode, total


def show(total, whole):
    crates = list(dict.fromkeys(crate for crate, _, _ in total))
    table = collections.Counter()
    for (crate, kind, _), used in total.items():
        table[crate, kind] += used
    print(f"\n| Crate | {' | '.join(COLUMNS)} | all |")
    print("|---|" + "---|" * (len(COLUMNS) + 1))
    for crate in sorted(crates):
        row = [table[crate, kind] for kind in COLUMNS]
        print(f"| `{crate}` | {' | '.join(f'{it:.0f}' if it else '' for it in [*row, sum(row)])} |")
    sums = [sum(table[crate, kind] for crate in crates) for kind in COLUMNS]
    print(f"| all | {' | '.join(f'{it:.0f}' for it in [*sums, sum(sums)])} |")
    print(f"\nProcessor minutes of the whole run: {whole / 60:.1f}")
    print("\nThe dearest items, in seconds:\n")
    for (crate, _, name), used in total.most_common(20):
        print(f"- {used:.0f} `{crate}`: {name}")


def keep(clone, names):
    """Leaves only these crates and those below them in a clone."""
    with open(f"{clone}/crates.txt", encoding="utf-8") as it:
        rows = [row for row in it if not row.startswith("#")]
    uses = {row.partition(":")[0].strip(): row.partition(":")[2].split() for row in rows}
    kept = set()

    def add(name):
        if name in uses and name not in kept:
            kept.add(name)
            for it in uses[name]:
                add(it)

    for name in names:
        add(name)
    for name in uses.keys() - kept:
        shutil.rmtree(f"{clone}/crates/{name}")
    with open(f"{clone}/crates.txt", "w", encoding="utf-8") as it:
        it.writelines(row for row in rows if row.partition(":")[0].strip() in kept)


def main(names):
    here = os.path.dirname(os.path.dirname(os.path.realpath(__file__)))
    with tempfile.TemporaryDirectory(prefix="gate-") as room:
        subprocess.run(["git", "clone", "-q", here, f"{room}/clone"], check=True)
        if names:
            keep(f"{room}/clone", names)
        status, total = measured(["rt", "ci"], f"{room}/clone/crates")
    used = resource.getrusage(resource.RUSAGE_CHILDREN)
    show(total, used.ru_utime + used.ru_stime)
    return status


if __name__ == "__main__":
    sys.exit(main(sys.argv[1:]))
