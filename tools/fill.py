#!/usr/bin/env python3
# Of the older kit, kept as it was: it fills what prove.py wrote, and today's proofs have no such files.
"""fill.py PROOF < ANSWERS: fill the holes of a proof file that prove.py left.

Each block of ANSWERS starts with a line `NAME:` (a need, Inv-loop, a measure, or `use`); what follows
is its right-hand side, or for `use` the lines to import. A line `NAME! DEFS:` also puts `unfolding
DEFS` under the signature. A hole that has no block becomes `search needs`.
"""
import re
import sys

path = sys.argv[1]
answers, unfolding, uses, cur = {}, {}, [], None
for l in sys.stdin.read().split('\n'):
    m = re.match(r'(\S+?)(?:! (.*))?:$', l)
    if m and not l.startswith(' '):
        cur = m.group(1)
        answers[cur] = []
        if m.group(2):
            unfolding[cur] = m.group(2)
    elif cur == 'use':
        uses += [l] if l.strip() else []
    elif cur and l.strip():
        answers[cur].append(l)
out, left = [], set(answers) - {'use'}
for l in open(path).read().rstrip('\n').split('\n'):
    m = re.match(r'(\S+)( .*)? = \?$', l)
    if not m:
        out.append(l)
        continue
    name = m.group(1)
    left.discard(name)
    if name in unfolding:
        out.append('unfolding ' + unfolding[name])
    body = answers.get(name, ['search needs'])
    head = name + (m.group(2) or '') + ' ='
    if len(body) == 1:
        out.append(head + ' ' + body[0].strip())
    else:
        out += [head] + body
have = set(out)
at = next(i for i, l in enumerate(out) if l.startswith('use '))
out[at:at] = [u for u in uses if u not in have]
if not any('borrow.Author.Needs' in l for l in out) and any('search needs' in l for l in out):
    out.insert(at, 'use borrow.Author.Needs.{needs}')
open(path, 'w').write('\n'.join(out) + '\n')
if left:
    print('no such hole:', ', '.join(sorted(left)))
