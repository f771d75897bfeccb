# Of the older kit, kept as it was: there are no `.before` paths in today's proofs.
"""paths.py: the long paths of a proof under names. Used by prove.py.

A path `c .before .before .before .. .goes-on .ensures` of a need's clause becomes `goes-on .ensures`, with

    let goes-on = c .before .before .before .. .goes-on in

at the head of the clause. No such line has more than STEP `.before`: where a fact is further back, the place of a
fact on the way (`at-goes-on`), or one between two of them (`after-goes-on`), is bound first, and the lines below
start there. A clause is rewritten if it has a path with LONG or more `.before`, or one with LEAST on a line of more
than WIDEST characters, and then all its paths with LEAST or more get names; but not where an `omega arith` looks for
its facts by itself: it enters at most 128 records, and those with a name first. Lines of more than WIDEST characters
of needs and invariants are cut to WIDTH. What was rewritten is left as it is by a second run.

The names are those of the calls, tests and loops that the paths lead to; `the-` stands in front of one that the file
has for something else, and a number behind a second one.
"""
import re

LEAST, LONG, STEP, WIDTH, WIDEST = 3, 5, 8, 150, 160
OPERATORS = ('×', '≡', '∙')
RESERVED = set('''data record deriving module where use mod pub package using open as unfoldable abbrev axiom unfold unfolding ruleset
    mutual infix infixl infixr elim let in do Type coe fcoe tcoe hcom com V vin vproj inS outS rw simp search grw cc omega cap
    yes no refl'''.split())
WORD = r'[^\s(),;{}\[\]]+'
PATH = r'(?<![^\s(,;{\[])%s((?:\s+\.' + WORD + r')%s)(?=[\s(),;{}\[\]]|$)'
LET = re.compile(r'let (' + WORD + r') = c((?:\s+\.' + WORD + r')+)\s+in\b\s*')
HEAD = re.compile(r'(\S+ c(?: κs)?) =(?=\s)')
SAYS = re.compile(r'(Inv-\S+ .*) =(?=\s)')


def parted(path):
    """How many `.before` a path starts with, and what follows them."""
    parts = path.split()
    k = next((i for i, p in enumerate(parts) if p != '.before'), len(parts))
    return k, parts[k:]


def unbound(body):
    """The body with the places that it binds by hand written out, so that they are named as all others are."""
    at = 0
    while True:
        m = LET.search(body, at)
        if not m:
            return body
        name, (k, tail) = m.group(1), parted(m.group(2))
        rest = body[m.end():]
        uses = re.findall(PATH % (re.escape(name), '*'), rest)
        at = m.end()
        again = re.search(r'(let|λ) %s ' % re.escape(name), rest)
        if (k > STEP or k >= LEAST and not tail) and uses and all(parted(u)[1] or tail and u for u in uses) and not again:
            path = 'c ' + ' '.join(m.group(2).split())
            body = body[:m.start()] + re.sub(PATH % (re.escape(name), '+'), lambda u: path + u.group(1), rest)
            at = m.start()


def stages(places, last):
    """Where to stop on the way back to `last`, so that no step is longer than STEP: few stops, and at places of facts if they can be."""
    ways = {0: (0, [])}

    def way_to(k):
        return min((ways[j] for j in range(max(0, k - STEP), k)), key=lambda w: (w[0], [-x for x in w[1]]))

    for k in range(1, last):
        cost, way = way_to(k)
        ways[k] = (cost + (1 if k in places else 1.4), way + [k])
    return way_to(last)[1]


class Names:
    def __init__(self, taken):
        self.taken, self.given = taken, set()

    def new(self, word):
        """The word, or `the-word` where the file has it for something else; a number makes it one of its own."""
        base = 'the-' + word if word in self.taken or word in RESERVED else word
        name, n = base, 2
        while name in self.taken or name in self.given:
            name, n = '%s-%d' % (base, n), n + 1
        self.given.add(name)
        return name


def bound(body, taken):
    """The lets for the body's long paths, and the body with their names in it."""
    own = {m.start(2) - 1 for m in LET.finditer(body)}
    facts, far = {}, set()
    for m in re.finditer(PATH % ('c', '+'), body):
        k, tail = parted(m.group(1))
        if k >= LEAST and tail and m.start() not in own:
            facts[k, tail[0]] = None
        elif k > STEP:
            far.add(k)
    ks = {k for k, _ in facts} | far
    names = Names(taken | set(re.findall(r'(?<![^\s(,;{\[])' + WORD, body)))
    word = lambda x: x[1:].strip('«»')
    for k, x in sorted(facts, key=lambda f: f[0]):
        facts[k, x] = names.new(word(x))
    stops = stages(ks, max(ks)) if max(ks) > STEP else []
    near, lets = [(0, 'c')], []

    def back(k):
        j, name = max(p for p in near if p[0] <= k)
        return name + ' .before' * (k - j)

    for k in sorted(ks | set(stops)):
        if k in stops:
            to = min(j for j in ks if j >= k)
            x = next((word(x) for j, x in sorted(facts, key=lambda f: f[0]) if j >= to), 'start')
            name = names.new(('at-' if k == to else 'after-') + x)
            lets.append('let %s = %s in' % (name, back(k)))
            near.append((k, name))
        lets += ['let %s = %s %s in' % (name, back(k), x) for (j, x), name in facts.items() if j == k]

    def use(m):
        k, tail = parted(m.group(1))
        if tail and (k, tail[0]) in facts and m.start() not in own:
            return ' '.join([facts[k, tail[0]]] + tail[1:])
        return ' '.join([back(k)] + tail) if k > STEP else m.group(0)

    new = re.sub(PATH % ('c', '+'), use, body)
    for name in facts.values():
        new = new.replace('(%s)' % name, name)
        new = re.sub(r'([(,]\s*)\((%s(?: \.%s)+)\)(?=\s*[,)])' % (re.escape(name), WORD), r'\1\2', new)
    return lets, new


def laid(text, indent):
    """A term on lines of at most WIDTH, cut before its operators, between its words and at the commas of a list. A λ is not cut."""
    if indent + len(text) <= WIDTH or not is_whole(text):
        return [' ' * indent + text]
    end = let_end(text)
    if end:
        return [' ' * indent + text[:end]] + laid(text[end + 1:], indent)
    words = cut(text)
    if words[0] in OPERATORS:
        more = laid(text[len(words[0]) + 1:], indent + 2)
        return [' ' * indent + words[0] + ' ' + more[0].strip()] + more[1:]
    if any(re.match(r'λ|let$|elim$', w) for w in words):
        return [' ' * indent + text]
    op = next((op for op in OPERATORS if op in words), None)
    if op:
        starts = [0] + [i for i, w in enumerate(words) if w == op] + [len(words)]
        words = [' '.join(words[a:b]) for a, b in zip(starts, starts[1:])]
    lines, line = [], ''
    for w in words:
        if line and indent + len(line) + 1 + len(w) > WIDTH:
            lines.append(line)
            line = ''
        line += (' ' if line else '') + w
        if indent + len(line) > WIDTH:
            lines += opened(line, w, indent)
            line = lines.pop()
    return [(' ' * indent + l).rstrip() for l in lines + [line]]


def opened(line, word, indent):
    """A line that ends in a word that is too long for it: what stands in the word's brackets on lines of its own."""
    parts = cut(word)
    if parts[0] in OPERATORS:
        word, parts = word[len(parts[0]) + 1:], parts[1:]
    inner = word[1:-1] if len(parts) == 1 and word.startswith('(') and word.endswith(')') else None
    items = cut(inner, ',') if inner else []
    if len(items) > 1:
        return [line[:-len(inner) - 1]] + [l[indent:] for i in items for l in laid(i.strip() + ',', indent + 2)] + [')']
    if not inner and len(parts) == 1:
        return [line]
    more = [l[indent:] for l in laid(inner or word, indent + 2)]
    more[0] = line[:-len(inner) - 1 if inner else -len(word)] + more[0].strip()
    more[-1] += ')' if inner else ''
    return more


def is_whole(text):
    """Whether every bracket that is closed was opened, and the other way round."""
    depth = 0
    for ch in text:
        depth += (ch in '([{') - (ch in ')]}')
        if depth < 0:
            return False
    return depth == 0


def let_end(text):
    """Where the `in` of a let that the text starts with ends, if something follows."""
    if not text.startswith('let '):
        return None
    depth = 0
    for m in re.finditer(r'[(\[{]|[)\]}]|\blet(?= )|(?<= )in(?= )', text):
        w = m.group(0)
        depth += 1 if w == 'let' or w in '([{' else -1
        if w == 'in' and depth == 0:
            return m.end()


def cut(text, at=' '):
    """The text's parts between its outermost blanks, or commas."""
    parts, depth, start = [], 0, 0
    for i, ch in enumerate(text):
        depth += (ch in '([{') - (ch in ')]}')
        if depth == 0 and ch == at:
            parts.append(text[start:i])
            start = i + 1
    return [p for p in parts + [text[start:]] if p.strip()]


def imported(text):
    """The names that a file brings in or declares."""
    names = set(re.findall(r'^(?:pub |abbrev |unfoldable )*(' + WORD + r') :', text, re.M))
    for use in re.findall(r'^use (.*(?:\n .*)*)', text, re.M):
        for item in re.split(r'[{},]', use.partition('.{')[2] or use):
            if item.strip():
                names.add(item.split()[-1])
    return names


def is_long(body):
    """Whether it has a path to be named outside a let of its own, or a let with more than STEP, and no omega that looks for facts."""
    if 'omega arith' in body:
        return False
    own = {m.start(2) - 1 for m in LET.finditer(body)}
    least = LEAST if any(len(l) > WIDEST for l in body.split('\n')) else LONG
    paths = ((m.start() in own, *parted(m.group(1))) for m in re.finditer(PATH % ('c', '+'), body))
    return any(k > STEP or k >= least and tail and not is_own for is_own, k, tail in paths)


def shorten(text):
    """The text of a proof file with its long paths under names, and its needs and invariants on lines of WIDTH."""
    taken, out = imported(text), []
    for block in re.split(r'\n(?=\S)', text):
        m = HEAD.match(block) or SAYS.match(block)
        if not m or re.search(r'\bwhere\b|let c |λ c\b', block):
            out.append(block)
            continue
        body = block[m.end():].rstrip()
        end, lets = block[m.end() + len(body):], []
        if is_long(body):
            lets, body = bound(unbound(body.strip()), taken)
        elif all(len(l) <= WIDEST for l in block.split('\n')):
            out.append(block)
            continue
        lines = []
        for l in body.split('\n'):
            lines += laid(l.strip(), len(l) - len(l.lstrip()) if lines else 4)
        out.append('\n'.join([m.group(1) + ' ='] + ['    ' + l for l in lets] + [l for l in lines if l.strip()]) + end)
    return '\n'.join(out)
