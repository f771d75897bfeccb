#!/usr/bin/env python3
# Of the older kit, kept as it was: today's Rattle writes its own proof files (rt check --start F) and has no walks.
"""prove.py CRATE [FUNCTION ..]: write the proof files that a check of CRATE asks for.

A need that `search needs` closes is left to it. At each `returns` the goal is rewritten by what the
callees ensure and by the tests on the way, with the definitions that the contract names unfolded.
For a function with a loop the invariant and the measure stay holes. Only the functions named, or
all that have no file yet. Run it in the repository; read what it wrote, and check again.

prove.py --facts CRATE FUNCTION: after such a run, the facts at each need of one function, as paths
into c.

prove.py --shorten [FILE ..]: put the long paths of these proof files, or of all, under names (paths.py).
Then `rt fmt`. What prove.py writes has them already.
"""
import glob
import os
import re
import subprocess
import sys

from paths import shorten

TESTS = ('lt-ltb', 'le-ltb', 'le-leb', 'lt-leb', 'eq-eqb', 'ne-eqb')
FACTS = ('taken', 'left', 'came', 'ensures', 'given', 'inv')
NO_FACTS = ('before', 'laid', 'typed', 'asked', 'spec', 'args', 'good', 'pre', 'fits')


def records(path):
    """The records of a generated Lts file, the text of their fields, and the record of each need."""
    recs, text, needs = {}, {}, {}
    cur = tail = need = None
    for l in open(path):
        m = re.match(r'\s+pub record (\S+) : Type 0 where', l)
        if m:
            cur = m.group(1)
            recs.setdefault(cur, {})
            continue
        m = re.match(r'\s+pub (\S+) : (\S+)(.*)', l)
        if m and cur:
            recs[cur][m.group(1)] = m.group(2)
            tail = (cur, m.group(1))
            text[tail] = m.group(2) + m.group(3)
            continue
        if not l.strip():
            tail = None
        if tail:
            text[tail] += ' ' + l.strip()
        m = re.match(r'\s+Need-(\S+) =(?: \(c : (\S+?)\))?', l)
        if m:
            need = None if m.group(2) else m.group(1)
            if m.group(2):
                needs.setdefault(m.group(1), m.group(2))
            continue
        m = re.match(r'\s+\(c : (\S+?)\)', l)
        if m and need:
            needs.setdefault(need, m.group(1))
            need = None
    return recs, text, needs


def as_test(kind, x, q):
    """A fact of numbers as an equation of a flag, where it is one."""
    if x.startswith("Path'._≡_ {A = Nat.ℕ}"):
        return ('ne-eqb' if x.endswith('⊥') else 'eq-eqb') + ' _ _ (%s)' % q
    for word, taken, left in (('Nat._<_', 'lt-ltb', 'lt-leb'), ('Nat._≤_', 'le-leb', 'le-ltb')):
        if x.startswith(word):
            return {'taken': taken, 'left': left}[kind] + ' _ _ (%s)' % q
    return q


def facts(path):
    """For each need the facts on the way there, in the code's order, and first what is required: (thing, kind, term)."""
    recs, text, needs = records(path)
    out = {}
    for n, r in needs.items():
        fs, p = [], 'c'
        while r in recs and 'before' in recs[r]:
            for f, t in recs[r].items():
                if f in NO_FACTS:
                    continue
                o = recs.get(t, {})
                for w in FACTS:
                    if w in o:
                        q = '%s .%s .%s' % (p, f, w)
                        fs.append((f, w, as_test(w, text[(t, w)], q) if w in ('taken', 'left') else q))
                if any(k.startswith('keys') or k == 'rest' for k in o):
                    continue
                if not any(w in o for w in FACTS):
                    fs.append((f, 'ensures', '%s .%s .ensures' % (p, f)))
            r = recs[r]['before']
            p += ' .before'
        if 'pre' in recs.get(r, {}):
            fs.append(('pre', 'pre', p + ' .pre'))
        out[n] = list(reversed(fs))
    return out


def unfoldable(crate):
    """Where each definition of the crate's specs that unfolds stands."""
    mods = {}
    for g in glob.glob('crates/%s/specs/*.antt' % crate):
        for d in re.findall(r'^unfoldable pub (\S+) :', open(g).read(), re.M):
            mods[d] = os.path.basename(g)[:-5]
    return mods


def contracts(crate):
    """The names in each function's ensures, by the path of its proof folder."""
    out = {}
    root = 'crates/%s/src/' % crate
    for g in glob.glob(root + '**/*.rt', recursive=True):
        mod = g[len(root):-3]
        mod = '' if mod in ('lib', 'main') else mod + '/'
        impl = name = ''
        for l in open(g):
            m = re.match(r'impl (\w+)', l)
            if m:
                impl = m.group(1) + '/'
            if l.startswith('}'):
                impl = ''
            m = re.match(r'\s*(?:pub(?:\(crate\))? )?(?:extern "C" )?fn (\w+)', l)
            if m:
                name = mod + impl + m.group(1)
                root_name = impl + m.group(1)
            if 'ensures' in l:
                words = set(re.findall(r'[A-Za-z]\w*', l))
                out.setdefault(name, set()).update(words)
                if impl:
                    out.setdefault(root_name, set()).update(words)
    return out


def helpers(crate, mods, names):
    """For each definition, those that it leans on and that no function's contract names."""
    text = {}
    for g in glob.glob('crates/%s/specs/*.antt' % crate):
        for block in open(g).read().split('\n\n'):
            m = re.search(r'^unfoldable pub (\S+) :', block, re.M)
            if m:
                text[m.group(1)] = set(re.findall(r'[A-Za-z]\w*', block)) - {m.group(1)}
    named = set().union(*names.values())
    out = {}
    for d in text:
        found, todo = set(), [d]
        while todo:
            new = {n for n in text[todo.pop()] if n in mods and n not in named} - found
            found |= new
            todo += new
        out[d] = found
    return out


def returns(need, fs, body, defs):
    out = ['unfolding ' + ' '.join(defs)] if defs else []
    rules = []
    for f, w, p in fs:
        if w == 'ensures':
            rules.append('← ' + p)
        elif w == 'given' and (f.startswith('enum-told') or re.search(r'enum-known-(%s|%s)\b' % (f, re.sub(r'\d+$', '', f)), body)):
            rules.append(p + ' .1')
        elif w in ('taken', 'left'):
            rules.append(p)
    out.append('%s c = %s' % (need, 'simp (%s)' % ', '.join(rules) if rules else 'refl'))
    return out


def write(crate, path, fn, body, mods, names, more):
    lines = [l[4:] if l.startswith('    ') else l for l in body.rstrip('\n').split('\n')]
    lts = 'target/gen/Rattle·%s·proofs/proofs/%s/Lts.antt' % (crate, fn)
    if not os.path.exists(lts):
        return print('left', fn, '(not covered yet, or it calls one that is not)')
    fs = facts(lts)
    defs = {n for n in names if n in mods}
    defs = sorted(defs.union(*(more[n] for n in defs)))
    out = ['-- `%s::%s` meets its contract. Assumes nothing.' % (crate, fn.replace('/', '::'))]
    for d in sorted({mods[n] for n in defs}):
        out.append('use Rattle·%s·specs.specs.%s.{%s}' % (crate, d, ', '.join(n for n in defs if mods[n] == d)))
    for l in lines:
        if re.search(r' as (reads|lts|\S+-reads)$', l) or l.startswith('-- '):
            continue
        m = re.match(r'(returns\S*) c = \?', l)
        out += returns(m.group(1), fs[m.group(1)], body, defs) if m and 'Inv-loop' not in body else [l]
    whole = '\n'.join(out)
    tests = [t for t in TESTS if t + ' ' in whole]
    if tests:
        out.insert(1, 'use borrow.Author.Tests.{%s}' % ', '.join(tests))
    if ' = refl' in whole:
        out.insert(1, 'use mathlib.Core.Path.{refl}')
    os.makedirs(os.path.dirname(path), exist_ok=True)
    open(path, 'w').write(shorten('\n'.join(out) + '\n'))
    print('wrote', fn)


def show(crate, fn):
    for need, fs in facts('target/gen/Rattle·%s·proofs/proofs/%s/Lts.antt' % (crate, fn)).items():
        print(need)
        for _, _, term in fs:
            print('   ', term)


def shorten_all(files):
    for path in files or sorted(glob.glob('crates/*/proofs/**/Proof.antt', recursive=True)):
        old = open(path).read()
        new = shorten(old)
        if new != old:
            open(path, 'w').write(new)


def main():
    if sys.argv[1] == '--facts':
        return show(*sys.argv[2:])
    if sys.argv[1] == '--shorten':
        return shorten_all(sys.argv[2:])
    crate, wanted = sys.argv[1], set(sys.argv[2:])
    os.makedirs('target', exist_ok=True)
    run = lambda *w: subprocess.run(['rt', 'dev', crate, *w], capture_output=True, text=True, env=dict(os.environ, RT_CUT='0'))
    r = run()
    log = r.stdout + r.stderr
    open('target/%s.log' % crate, 'w').write(log)
    subprocess.run('rm -rf target/gen/Rattle·%s*' % crate, shell=True)
    run('--generated', 'target/gen')
    mods, names = unfoldable(crate), contracts(crate)
    more = helpers(crate, mods, names)
    for m in re.finditer(r'help: write (\S+/proofs/(\S+)/Proof\.antt) with these lines.*\n((?:    .*\n|\n)+)', log):
        path, fn, body = m.groups()
        if os.path.exists(path) or (wanted and fn not in wanted):
            continue
        write(crate, path, fn, body, mods, names.get(fn, set()), more)


main()
