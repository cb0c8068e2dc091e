#!/usr/bin/env python3
"""Processor time that the sharing of equalities takes, and how it grows, as a table.

usage: python3 bench/sharing.py [COUNT..]

Runs the program of `crates/sharing_cases`, which `rt ci sharing_cases` builds, on scripts of so many
literals, and of twice and four times as many:

- chain: each term is at most the next;
- circle: these, and the last is at most the first, which makes one class of all;
- mixed: each term is at most another one, equal to it or less than it, or different, by turns, and
  all are arguments of a function whose values are arithmetic in part.

The terms are the leaves of a tree of two functions, so that none of the literals makes two more of
them congruent than it makes equal.
"""
import os
import resource
import subprocess
import sys

sys.dont_write_bytecode = True

HERE = os.path.dirname(os.path.realpath(__file__))
PROGRAM = f"{os.path.dirname(HERE)}/crates/sharing_cases/out/sharing_cases"
PIVOTS = 1000000
COUNTS = {"chain": 75, "circle": 75, "mixed": 25}
DOUBLINGS = 3


def leaf(number):
    """Returns a term of its own for the number, by its sixteen bits."""
    return "x " + " ".join("gh"[number >> place & 1] + "1" for place in range(16))


def chain(count):
    return [f"atmost {leaf(it)} {leaf(it + 1)}" for it in range(count)]


def circle(count):
    return [*chain(count), f"atmost {leaf(count)} {leaf(0)}"]


def mixed(count):
    tasks = [f"term {leaf(it)} f1" for it in range(count)]
    for it in range(count):
        first, second, value = leaf(it), leaf(it + 1 + it % 3), f"{leaf(it * 7 % count)} f1"
        kinds = (
            f"atmost {first} {second}",
            f"less {first} {second} {it} +",
            f"apart {value} {first}",
            f"atmost {value} {second} 2 {first} * +",
            f"equal {leaf(count + 5 + it)} f1 {value}",
        )
        tasks.append(kinds[it % len(kinds)])
    return tasks


FAMILIES = {"chain": chain, "circle": circle, "mixed": mixed}


def measured(tasks):
    """Returns the processor time in seconds, and how the last task ended."""
    script = "\n".join([f"sharing {PIVOTS}", *tasks]) + "\n"
    before = resource.getrusage(resource.RUSAGE_CHILDREN)
    ran = subprocess.run([PROGRAM], input=script, capture_output=True, text=True)
    after = resource.getrusage(resource.RUSAGE_CHILDREN)
    if ran.returncode:
        sys.exit(ran.stderr)
    time = after.ru_utime - before.ru_utime + after.ru_stime - before.ru_stime
    return time, ran.stdout.splitlines()[-1].rpartition(": ")[2]


def show(family, least):
    last = None
    for doubling in range(DOUBLINGS):
        count = least << doubling
        time, end = measured(FAMILIES[family](count))
        growth = f"{time / last:.1f}" if last else ""
        print(f"| {family} | {count} | {time:.3f} | {growth} | {end} |", flush=True)
        last = time


def main(words):
    if not os.path.exists(PROGRAM):
        sys.exit(f"{PROGRAM} is not built: rt ci sharing_cases does it")
    print("| Family | Literals | Seconds | Times the half | The last one |\n|---|---|---|---|---|")
    for family in FAMILIES:
        for it in [int(word) for word in words] or [COUNTS[family]]:
            show(family, it)


if __name__ == "__main__":
    main(sys.argv[1:])
