#!/usr/bin/env python3
"""Memory and processor time that the E-graph alone takes for each node, as a table.

usage: python3 bench/graph.py [COUNT..]

Proves and builds the program in bench/graph over the libraries of this repository, which `./run`
makes, and runs it: it makes the nodes and equations of the families eqchain, eqdiff and deepflat,
with so many equations, over the E-graph with a trail and nothing else. The bytes are those of the
peak above that of one equation. They swing with the count: a table that is full takes twice its
size for a moment, and where it has just grown half of it is not used yet.
"""
import importlib.machinery
import importlib.util
import os
import shutil
import subprocess
import sys
import tempfile

sys.dont_write_bytecode = True

HERE = os.path.dirname(os.path.realpath(__file__))
PROGRAM = "graph"
# what ends the names of the program's files, since the gate reads no .rt outside the crates
SUFFIX = ".text"
USES = ["esc_egraph", "esc_term", "esc_trail"]
FAMILIES = ("eqchain", "eqdiff", "deepflat")
COUNTS = (32000, 64000, 96000, 128000, 131072, 192000, 256000)
TIME = "/usr/bin/time"


def runner():
    """Returns the script `run` as a module, which knows how crates stand on each other."""
    loader = importlib.machinery.SourceFileLoader("run", f"{os.path.dirname(HERE)}/run")
    made = importlib.util.module_from_spec(importlib.util.spec_from_loader("run", loader))
    loader.exec_module(made)
    return made


def build(room):
    """Builds the program in the room, and returns its path."""
    run = runner()
    names = list(dict.fromkeys(deep for it in USES for deep in run.below(it)))
    for name in names:
        at = f"{run.CRATES}/{name}/out/rlib"
        if not os.path.isdir(at):
            sys.exit(f"{name} is not built: ./run does it")
        for part in run.PARTS:
            if os.path.isdir(f"{run.CRATES}/{name}/{part}"):
                shutil.copytree(f"{run.CRATES}/{name}/{part}", f"{room}/crates/{name}/{part}")
        shutil.copytree(at, f"{room}/crates/{name}/out/rlib")
    own = f"{room}/crates/{PROGRAM}"
    for at, _, files in os.walk(f"{HERE}/{PROGRAM}"):
        to = own + at.removeprefix(f"{HERE}/{PROGRAM}")
        os.makedirs(to, exist_ok=True)
        for it in files:
            shutil.copy(f"{at}/{it}", f"{to}/{it.removesuffix(SUFFIX)}")
    with open(f"{room}/crates.txt", "w", encoding="utf-8") as it:
        it.writelines(f"{name}: {' '.join(run.USES[name])}\n" for name in names)
        it.write(f"{PROGRAM}: {' '.join(USES)}\n")
    print("proving and building the program, which takes a minute", file=sys.stderr)
    how = {"stdin": subprocess.DEVNULL, "stdout": subprocess.PIPE, "stderr": subprocess.STDOUT}
    ran = subprocess.run(["rt", "run"], cwd=own, text=True, errors="replace", **how)
    if ran.returncode:
        sys.exit(ran.stdout)
    return f"{own}/out/{PROGRAM}"


def measured(program, family, count):
    """Returns how many nodes there were, the peak in bytes and the processor time."""
    words = [TIME, "-f", "%M %U %S", program, family, str(count)]
    ran = subprocess.run(words, capture_output=True, text=True)
    if ran.returncode or not ran.stdout.endswith(", equal\n"):
        sys.exit(f"{family} {count}: {ran.stdout}{ran.stderr}")
    peak, user, system = ran.stderr.split()
    return int(ran.stdout.split()[0]), int(peak) * 1024, float(user) + float(system)


def show(program, counts):
    print("| Family | Nodes | Bytes a node | Microseconds a node |\n|---|---|---|---|")
    for family in FAMILIES:
        _, least, _ = measured(program, family, 1)
        for count in counts:
            nodes, peak, time = measured(program, family, count)
            print(f"| {family} | {nodes} | {(peak - least) / nodes:.0f} | {time * 1e6 / nodes:.2f} |")


def main(words):
    if not shutil.which(TIME):
        sys.exit(f"{TIME} is not there: a process that it starts has no peak from before")
    with tempfile.TemporaryDirectory(prefix="graph-") as room:
        show(build(room), [int(it) for it in words] or COUNTS)


if __name__ == "__main__":
    main(sys.argv[1:])
