#!/usr/bin/env python3
"""Memory that the program takes for each node of the E-graph, as a table.

usage: python3 bench/memory.py PROGRAM [FAMILY COUNT]..

The peak of the program's resident set on a goal of bench/grow.py, above that of an empty input, and
above that of the same goal with its last equation under a quantifier, which is read and refused: so
the second is what the search takes, with its log, tables, literals and undo stack. The nodes are
the terms of the goal, each once, and the one that predicates equal.
"""
import importlib.util
import os
import re
import sys
import tempfile

sys.dont_write_bytecode = True

HERE = os.path.dirname(os.path.realpath(__file__))
GOALS = (("eqchain", 100000), ("eqchain", 128000), ("eqdiff", 100000), ("eqdiff", 128000),
         ("deepflat", 64000))


def families():
    """Returns the families of bench/grow.py."""
    spec = importlib.util.spec_from_file_location("grow", f"{HERE}/grow.py")
    grow = importlib.util.module_from_spec(spec)
    spec.loader.exec_module(grow)
    return grow.FAMILIES


def ran(program, text):
    """Returns the peak in bytes and the first line of what the program wrote."""
    with tempfile.TemporaryFile() as source, tempfile.TemporaryFile() as sink:
        source.write(text.encode())
        source.flush()
        child = os.fork()
        if child == 0:
            os.lseek(source.fileno(), 0, os.SEEK_SET)
            os.dup2(source.fileno(), 0)
            os.dup2(sink.fileno(), 1)
            os.execv(program, [program])
        _, _, used = os.wait4(child, 0)
        sink.seek(0)
        return used.ru_maxrss * 1024, sink.readline().decode().strip()


def terms(text):
    """Returns how many terms there are: names that are no head, and applications, each once."""
    found, lists = set(), []
    for token in re.findall(r"[()]|[^()\s]+", text):
        if token == "(":
            lists.append([])
            continue
        if token == ")":
            head, *rest = lists.pop()
            token = f"({head} {' '.join(rest)})" if head[:1].islower() else ""
        elif not lists[-1]:
            lists[-1].append(token)
            continue
        if token:
            found.add(token)
        if lists and lists[-1][0][:1].islower():
            lists[-1].append(token)
    return len(found)


def refused(text):
    """Returns the same goal with its last equation under a quantifier."""
    start = text.rindex("(EQ" if "(EQ" in text else "(NEQ")
    end, depth = start, 0
    while end == start or depth:
        depth += {"(": 1, ")": -1}.get(text[end], 0)
        end += 1
    return f"{text[:start]}(FORALL (zz) {text[start:end]}){text[end:]}"


def main(words):
    program = os.path.realpath(words[0])
    goals = [(words[at], int(words[at + 1])) for at in range(1, len(words), 2)] or GOALS
    made = families()
    empty, _ = ran(program, "")
    print("| Family | Count | Nodes | Above an empty input | Above reading it |\n|---|---|---|---|---|")
    for family, count in goals:
        text = made[family][0](count)
        nodes = terms(text) + 1
        peak, said = ran(program, text)
        read, answer = ran(program, refused(text))
        if said != "1: Valid." or not answer.startswith("Refused"):
            sys.exit(f"{family} {count}: {said} {answer}")
        print(f"| {family} | {count} | {nodes} | {(peak - empty) / nodes:.0f}"
              f" | {(peak - read) / nodes:.0f} |", flush=True)


if __name__ == "__main__":
    main(sys.argv[1:])
