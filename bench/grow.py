#!/usr/bin/env python3
"""Goals that grow: how the program's time grows with the size of its work.

  grow.py PROGRAM [--families F,F..] [--limit SECONDS] [--against z3] [--greatest N] [--record FILE]
  grow.py --print FAMILY N            prints one file

For each family N is doubled until a run passes the limit or the greatest N is reached. Printed are the processor times,
the first verdict, the greatest N within the limit, and the exponent e of time ~ N^e over the last four points that are
above three times the start-up time (start-up taken off). With --against a peer of that name that reads SMT-LIB 2 is
run on the same goals, where a translation stands here (families without quantifiers and maps), and the greatest ratio
of the program's time to the peer's is printed. --record adds a line a family to a file, with the commit.
Read ratios and exponents, not seconds: the machine may be shared.
"""
import argparse
import math
import random
import re
import resource
import subprocess
import sys
import tempfile
import time


def eqchain(n):
    """N equalities in shuffled order, then a congruence"""
    r = random.Random(n)
    e = ['(EQ a%d a%d)' % (i, i + 1) for i in range(n)]
    r.shuffle(e)
    return '(IMPLIES (AND %s) (EQ (g (f a0) a%d) (g (f a%d) a0)))\n' % (' '.join(e), n, n)


def eqparity(n):
    """the generated file's order: even links, then odd links, under its push"""
    e = ['(EQ a%d a%d)' % (i, i + 1) for i in range(0, n, 2)] + ['(EQ a%d a%d)' % (i, i + 1) for i in range(1, n, 2)]
    return ('(BG_PUSH (FORALL (x) (PATS (f x)) (EQ (g (f x)) x)))\n'
            '(IMPLIES (AND %s) (EQ (g (f a0)) a%d))\n' % (' '.join(e), n))


def eqdiff(n):
    """N equalities in a random tree against one disequality of far leaves"""
    r = random.Random(n)
    e = ['(EQ a%d a%d)' % (i, r.randrange(i)) for i in range(1, n + 1)]
    r.shuffle(e)
    return '(NOT (AND (NEQ (f a0) (f a%d)) %s))\n' % (n, ' '.join(e))


def deep(n):
    """f^n(a) = a and f^m(a) = a with coprime n, m, nested; nesting limit 1,000"""
    m = int(n * 0.618)
    while math.gcd(n, m) != 1:
        m -= 1
    p = lambda k: '(f ' * k + 'a' + ')' * k
    return '(IMPLIES (AND (EQ %s a) (EQ %s a)) (EQ (f a) a))\n' % (p(n), p(m))


def deepflat(n):
    """two chains t' = f(t), u' = f(u) of N named steps in shuffled order; t0 = u0 gives tN = uN"""
    r = random.Random(n)
    e = ['(EQ t%d (f t%d))' % (i + 1, i) for i in range(n)] + ['(EQ u%d (f u%d))' % (i + 1, i) for i in range(n)]
    r.shuffle(e)
    return '(IMPLIES (AND %s (EQ t0 u0)) (EQ t%d u%d))\n' % (' '.join(e), n, n)


def orders(n):
    """b0 < b1 < .. < bN gives b0 + N <= bN"""
    return '(IMPLIES (AND %s) (<= (+ b0 %d) b%d))\n' % (' '.join('(< b%d b%d)' % (i, i + 1) for i in range(n)), n, n)


def ordersmix(n):
    """shuffled differences with constants, closed to a cycle of weight -1"""
    r = random.Random(n)
    c = [r.randrange(-20, 20) for _ in range(n)]
    e = ['(<= (+ b%d %d) b%d)' % (i, c[i], i + 1) for i in range(n)]
    r.shuffle(e)
    return '(IMPLIES (AND %s) (NOT (<= b%d (+ b0 %d))))\n' % (' '.join(e), n, sum(c) - 1)


def leqeq(n):
    """x0 <= x1 <= .. <= xN <= x0 gives f(x0) = f(xN): equalities found by the arithmetic"""
    return '(IMPLIES (AND %s (<= x%d x0)) (EQ (f x0) (f x%d)))\n' % (
        ' '.join('(<= x%d x%d)' % (i, i + 1) for i in range(n)), n, n // 2)


def maps(n):
    """N writes at distinct indices, then a read at another one and at the first"""
    e = ['(EQ m%d (store m%d i%d v%d))' % (k + 1, k, k, k) for k in range(n)]
    d = '(DISTINCT j %s)' % ' '.join('i%d' % k for k in range(n))
    return '(IMPLIES (AND %s %s) (AND (EQ (select m%d j) (select m0 j)) (EQ (select m%d i0) v0)))\n' % (d, ' '.join(e), n, n)


def mapsnum(n):
    """N nested writes at numeral indices, read of the first; nesting limit 1,000"""
    t = 'm'
    for k in range(n):
        t = '(store %s %d v%d)' % (t, k, k)
    return '(EQ (select %s 0) v0)\n' % t


def pigeon(n):
    """N + 1 pigeons do not fit in N holes"""
    some = ['(OR %s)' % ' '.join('p_%d_%d' % (i, j) for j in range(n)) for i in range(n + 1)]
    no = ['(OR (NOT p_%d_%d) (NOT p_%d_%d))' % (i, j, k, j)
          for j in range(n) for i in range(n + 1) for k in range(i)]
    return '(NOT (AND %s %s))\n' % (' '.join(some), ' '.join(no))


def diamonds(n):
    """N diamonds of equalities: 2^N branches without learning"""
    d = ['(OR (AND (EQ x%d y%d) (EQ y%d x%d)) (AND (EQ x%d z%d) (EQ z%d x%d)))' % (
        i, i, i, i + 1, i, i, i, i + 1) for i in range(n)]
    return '(IMPLIES (AND %s) (EQ x0 x%d))\n' % (' '.join(d), n)


def trans(n):
    """transitivity with a two-term trigger over a chain of N facts"""
    return ('(BG_PUSH (FORALL (x y z) (PATS (MPAT (le x y) (le y z))) (IMPLIES (AND (le x y) (le y z)) (le x z))))\n'
            '(IMPLIES (AND %s) (le a0 a%d))\n' % (' '.join('(le a%d a%d)' % (i, i + 1) for i in range(n)), n))


def unroll(n):
    """P(x) => P(s(x)) used N times: depth of instances N"""
    return ('(BG_PUSH (FORALL (x) (PATS (P x)) (IMPLIES (P x) (P (s x)))))\n'
            '(IMPLIES (P a) (P %s))\n' % ('(s ' * n + 'a' + ')' * n))


def instances(n):
    """N independent instances of one axiom, all needed"""
    return ('(BG_PUSH (FORALL (x) (PATS (f x)) (EQ (g (f x)) x)))\n'
            '(IMPLIES (AND %s) (EQ a0 a%d))\n' % (
                ' '.join('(EQ (f a%d) (f a%d))' % (i, i + 1) for i in range(n)), n))


def wide(n):
    """N axioms with a trigger each, of which one is used: the size of a background"""
    return ''.join('(BG_PUSH (FORALL (x y) (PATS (h%d x y)) (IMPLIES (<= x y) (<= (h%d x y) (k x)))))\n' % (i, i)
                   for i in range(n)) + '(IMPLIES (<= a b) (<= (h%d a b) (k a)))\n' % (n // 2)


def types(n):
    """a DISTINCT of N names in the background and N disequalities to be drawn from it"""
    r = random.Random(n)
    g = ['(IMPLIES (AND (EQ (typeof o%d) T%d) (EQ (typeof p%d) T%d)) (NEQ o%d p%d))' % (
        i, i, i, (i + 1 + r.randrange(n - 1)) % n, i, i) for i in range(n)]
    return '(BG_PUSH (DISTINCT %s))\n(AND %s)\n' % (' '.join('T%d' % i for i in range(n)), ' '.join(g))


FAMILIES = {  # name: (function, first N, greatest N)
    'eqchain': (eqchain, 1000, 128000), 'eqparity': (eqparity, 1000, 128000), 'eqdiff': (eqdiff, 1000, 128000),
    'deep': (deep, 60, 990), 'deepflat': (deepflat, 1000, 64000),
    'orders': (orders, 8, 2048), 'ordersmix': (ordersmix, 8, 2048), 'leqeq': (leqeq, 8, 2048),
    'maps': (maps, 4, 512), 'mapsnum': (mapsnum, 15, 960),
    'pigeon': (pigeon, 3, 11), 'diamonds': (diamonds, 4, 64),
    'trans': (trans, 4, 256), 'unroll': (unroll, 2, 64),
    'instances': (instances, 64, 16384), 'wide': (wide, 64, 8192), 'types': (types, 16, 1024),
}
LINEAR_STEP = {'pigeon'}


def run(command, data, limit):
    """Processor seconds of the child, and its output; None where the limit was passed."""
    before = resource.getrusage(resource.RUSAGE_CHILDREN)
    with tempfile.TemporaryFile() as source:
        source.write(data)
        source.seek(0)
        try:
            done = subprocess.run(command, stdin=source, stdout=subprocess.PIPE, stderr=subprocess.DEVNULL, timeout=limit)
        except subprocess.TimeoutExpired:
            return None
    after = resource.getrusage(resource.RUSAGE_CHILDREN)
    return after.ru_utime + after.ru_stime - before.ru_utime - before.ru_stime, done.stdout


def smt2(text):
    """The file in SMT-LIB 2, or None: one goal of equations, orders, predicates and functions, without quantifiers and maps."""
    if re.search(r'FORALL|EXISTS|BG_|store|LBL|DISTINCT', text):
        return None
    names, open_lists = {}, []
    for token in re.findall(r'[()]|[^()\s]+', text):
        if token == '(':
            open_lists.append([])
        elif token == ')':
            head, *rest = open_lists.pop()
            names.setdefault(head, len(rest))
            if open_lists:
                open_lists[-1].append('')
        else:
            if open_lists[-1]:
                names.setdefault(token, 0)
            open_lists[-1].append(token)
    words = ('AND', 'OR', 'NOT', 'IMPLIES', 'IFF', 'EQ', 'NEQ', 'TRUE', 'FALSE', '<', '<=', '+', '-', '*', '')
    names = {name: count for name, count in names.items() if name not in words and not re.fullmatch(r'-?\d+', name)}
    out = []
    for name, count in names.items():
        if name.startswith('p_'):
            out.append('(declare-const %s Bool)' % name)
        else:
            out.append('(declare-fun %s (%s) Int)' % (name, ' '.join(['Int'] * count)))
    body = re.sub(r'(?<=[ (])-(\d+)', r'(- \1)', text.strip())
    for a, b in (('NEQ', 'distinct'), ('EQ', '='), ('IMPLIES', '=>'), ('AND', 'and'), ('OR', 'or'), ('NOT', 'not')):
        body = re.sub(r'\b%s\b' % a, b, body)
    return '\n'.join(out) + '\n(assert (not %s))\n(check-sat)\n' % body


def exponent(points, base):
    points = [(n, t - base) for n, t in points if t > 3 * base][-4:]
    if len(points) < 2 or points[-1][1] < 0.02:
        return None
    xs = [math.log(n) for n, _ in points]
    ys = [math.log(max(t, 1e-4)) for _, t in points]
    mx, my = sum(xs) / len(xs), sum(ys) / len(ys)
    return sum((x - mx) * (y - my) for x, y in zip(xs, ys)) / sum((x - mx) ** 2 for x in xs)


def series(ask, first, greatest, linear):
    points, verdict, n = [], '', first
    while n <= greatest:
        got = ask(n)
        if got is None:
            verdict += ' (limit at %d)' % n
            break
        seconds, output = got
        points.append((n, seconds))
        lines = [x for x in output.decode('latin-1').splitlines() if re.match(r'(\d+: |Refused|sat|unsat|unknown)', x)]
        verdict = lines[-1] if lines else '?'
        n = n + 1 if linear else 2 * n
    return points, verdict


def show(name, who, points, verdict, base):
    e = exponent(points, base)
    last = '%.2f s at %d' % (points[-1][1], points[-1][0]) if points else 'none'
    line = '%-10s %-10s %-22s e=%-5s %s' % (name, who, last, '-' if e is None else '%.2f' % e, verdict)
    print(line, flush=True)
    return line


def greatest_ratio(here, there):
    """The greatest ratio of two times at one size, where both are above 20 ms."""
    theirs = dict(there)
    ratios = [t / theirs[n] for n, t in here if n in theirs and t > 0.02 and theirs[n] > 0.02]
    return max(ratios) if ratios else None


def commit():
    return subprocess.run(['git', 'rev-parse', '--short', 'HEAD'], stdout=subprocess.PIPE).stdout.decode().strip()


def main():
    o = argparse.ArgumentParser(usage=__doc__)
    o.add_argument('program', nargs='?')
    o.add_argument('--families', default=','.join(FAMILIES))
    o.add_argument('--limit', type=float, default=3.0)
    o.add_argument('--against')
    o.add_argument('--greatest', type=int)
    o.add_argument('--record')
    o.add_argument('--print', nargs=2, dest='one')
    o = o.parse_args()
    if o.one:
        sys.stdout.write(FAMILIES[o.one[0]][0](int(o.one[1])))
        return
    base = min(run([o.program], b'', o.limit)[0] for _ in range(3))
    lines = []
    for name in o.families.split(','):
        make, first, greatest = FAMILIES[name]
        greatest = min(greatest, o.greatest or greatest)
        linear = name in LINEAR_STEP
        points, verdict = series(lambda n: run([o.program], make(n).encode(), o.limit), first, greatest, linear)
        lines.append(show(name, 'here', points, verdict, base))
        if o.against and smt2(make(first)):
            peer = [o.against, '-in'] if o.against == 'z3' else [o.against]
            start = min(run(peer, b'(check-sat)\n', o.limit)[0] for _ in range(3))
            theirs, verdict = series(lambda n: run(peer, smt2(make(n)).encode(), o.limit), first, greatest, linear)
            lines.append(show(name, o.against, theirs, verdict, start))
            ratio = greatest_ratio(points, theirs)
            if ratio is not None:
                print('%-10s greatest ratio to %s: %.2f' % (name, o.against, ratio), flush=True)
                lines[-1] += '  ratio %.2f' % ratio
    if o.record:
        with open(o.record, 'a') as file:
            for line in lines:
                file.write('%s %s\n' % (commit(), line))


if __name__ == '__main__':
    main()
