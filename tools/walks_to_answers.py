#!/usr/bin/env python3
"""walks_to_answers: turns a crate's older proofs, walks by hand, into today's invariants and answers.

usage: tools/walks_to_answers.py CRATE [--aside DIR]        at the top of the repository
       tools/walks_to_answers.py CRATE F.. [--aside DIR]    again, the answers of these functions alone

An older proof crates/CRATE/proofs/F/Proof.antt walks the code: it proves each need from `c`, and reaches a fact as
`c.before.before.digit.ensures`. Today's has two files in its place: Invariants.antt, the invariant and the measure of
each loop as functions of a record `l`, and Answers.antt, an answer for each goal that `rt check` leaves open.

The order for a whole repository:
 - the kit's port.py once, then tools/respell.py once;
 - then the crates of crates.txt from the bottom, one by one, since a crate above one that is not proved can't be
   checked: by hand `#![tactic(auto)]` at the head of lib.rt or main.rt, the derives that are missing, and what `rt check`
   says of sources and of lemma files; then this tool; then by hand what it prints.

What a run does:
 1. moves each proofs/**/Proof.antt aside, to DIR/F/Proof.antt (DIR is crates/CRATE/out/walks if not given);
 2. runs `rt check --generated crates/CRATE/out/names --old-names`, for names.json: old names beside today's;
 3. writes Invariants.antt of each function with loops, where none stands;
 4. runs `rt fmt` and `rt check`;
 5. writes Answers.antt of each function with open goals, where none stands, from the walk's proofs of just these goals;
    then 4 and 5 again until it writes nothing more, as goals of a caller open once its callees are proved;
 6. prints a line for each function that is left: what the check says, and the places that were not translated.
With F.. (the folder below proofs/, as split/part, or split::part) it deletes their Answers.antt and does 4 to 6.
The status is 0 if the crate is proved, 1 if not, 2 if there is nothing to go by. A proved crate wants `rt tidy`, for
imports that nothing uses. Git keeps nothing of out/: give a DIR elsewhere, one for each crate, to keep the walks.

What it can't do, and prints where it sees it:
 - a join, `⊎_elim (λ w. A) (λ w. B) c.STEP.branch`, whose A or B has more of `w` than the test: names.json has no names
   for the values that a branch changed (`w.1` is now `w.x-is`). The goal stays open. The check names what `w` has.
 - a helper over a place, `(c : tie.After-f) → ..`, that is not of the form `name c = term` (it matches, or has a
   `where`). It stays a helper, with its paths translated. Others become a `let` where they are used.
 - a call into the kit whose `ensures` got names of clauses, as `c.len.ensures.value`: write the name by hand.
 - what is no path of `c`, but for what port.py and respell.py turned: renamed lemmas, other shapes of a goal.
"""
import argparse
import collections
import json
import os
import re
import shutil
import subprocess
import sys

TOKEN = r"[^\s(){}\[\],;.:«»\"`λ]+"
PART = r"(?:«\w+»|[\w'-]+)"
SIGNATURE = re.compile(r"^((?:pub |abbrev |unfoldable |opaque )*)(" + TOKEN + r") :(.*)$")
LET = re.compile(r"let ([\w'-]+) = c((?:\." + PART + r")*) in(?![\w'-])[ \n]*")
PATH = re.compile(r"(?<![\w.'-])c((?:\.before)*)((?:\." + PART + r")*)(?![\w'-])")
PLACE = re.compile(r"\(c : tie\.([\w'-]+)[^)]*\)")
HELPER = re.compile(r"^\s*\(c : tie\.[\w'-]+[^)]*\) → ((?:.|\n)*)$")
BRANCH = re.compile(r"\s*c((?:\.before)*)\.([\w'-]+)\.branch(?![\w.'-])")
OPEN = re.compile(r"^(?:fn|closure) (\S+): no proof: .*?in \./proofs/(\S+)/Answers\.antt; `search` did not prove (.*)$", re.M)
VERDICT = re.compile(r"^(?:fn|enum|struct|impl|closure) (.+?): (?!proved$)(.*)$", re.M)
ERROR = re.compile(r"^(\S+\.(?:antt|rt)):\d+:\d+: error[:\[].*$", re.M)
# what a function begins with
START = ("args", "requires", "well_formed", "well-formed", "ranges", "type_inv")
# marks and name are empty for what is no signature with its equations, as a record
Decl = collections.namedtuple("Decl", "marks name sig body")


class Untold(Exception):
    """A term that has no translation; the text says why."""


def norm(name):
    """A need's or a step's name, in the one spelling in which names.json and the walks agree."""
    name = name.replace("_", "-").lower()
    name = re.sub(r"^overflow-", "", name)
    name = re.sub(r"^slice-bounds-", "part-", name)
    return name.replace("«", "").replace("»", "")


def read(path):
    with open(path, encoding="utf-8") as it:
        return it.read()


def write(path, text):
    os.makedirs(os.path.dirname(path), exist_ok=True)
    with open(path, "w", encoding="utf-8") as it:
        it.write(text)


# proof files


def parse(text):
    """The `use` lines of a file, and its declarations."""
    lines, uses, decls, i = text.split("\n"), [], [], 0
    while i < len(lines):
        line = lines[i]
        if line.startswith("--") or not line.strip():
            i += 1
        elif line.startswith("use "):
            while line.count("{") > line.count("}"):
                i += 1
                line += " " + lines[i].strip()
            uses.append(line)
            i += 1
        else:
            decl, i = declaration(lines, i)
            decls.append(decl)
    return uses, decls


def declaration(lines, i):
    """The declaration whose first line is i, and the line after it."""
    m, start = SIGNATURE.match(lines[i]), i
    i += 1
    if not m:
        while i < len(lines) and lines[i].strip():
            i += 1
        return Decl("", "", "", "\n".join(lines[start:i])), i
    while i < len(lines) and lines[i].startswith(" "):
        i += 1
    sig, start = "\n".join([m[3]] + lines[start + 1:i]), i
    while i < len(lines):
        following = next((x for x in lines[i:] if x.strip()), "")
        if not lines[i].strip() and not following.startswith(" "):
            break
        i += 1
    return Decl(m[1], m[2], sig, "\n".join(lines[start:i])), i


def is_invariant(decl):
    return re.search(r"tie\.(invariant|decreases|Inv|Measure)", decl.sig) is not None


def need(decl):
    """The need that a declaration proves, by its old name."""
    m = re.search(r"^\s*tie\.Need-([\w'«»-]+)", decl.sig)
    return m and m[1]


def closing(text, i):
    """Where the parenthesis that opens at i is closed."""
    depth = 0
    for k in range(i, len(text)):
        depth += (text[k] == "(") - (text[k] == ")")
        if depth == 0:
            return k
    return -1


def opening(text):
    """Where the parenthesis opens that the text's last character closes."""
    depth = 0
    for k in range(len(text) - 1, -1, -1):
        depth += (text[k] == ")") - (text[k] == "(")
        if depth == 0:
            return k
    return 0


def tuple_parts(text):
    """The terms of a tuple."""
    if text.startswith("(") and text.endswith(")"):
        text = text[1:-1]
    parts, depth, at = [], 0, 0
    for k, char in enumerate(text):
        depth += (char in "([{") - (char in ")]}")
        if char == "," and depth == 0:
            parts.append(text[at:k])
            at = k + 1
    return [p.strip() for p in parts + [text[at:]] if p.strip()]


# the repository's sources


class Contracts:
    """The parameters and the names of the clauses of the repository's functions, as crates.txt lists the crates."""

    def __init__(self):
        self.leans, self.params, self.clauses = {}, {}, {}
        for line in read("crates.txt").split("\n"):
            m = re.match(r"(\w+)[^:#]*:(.*)$", line)
            if m:
                self.leans[m[1]] = m[2].split()
        for crate in self.leans:
            for folder, dirs, files in os.walk(os.path.join("crates", crate)):
                dirs[:] = [d for d in dirs if d != "out"]
                for f in files:
                    if f.endswith(".rt"):
                        self.add(crate, read(os.path.join(folder, f)))

    def add(self, crate, text):
        for m in re.finditer(r"\bfn (\w+)(?:<[^>]*>)?\(([^)]*)\)", text):
            names = [re.sub(r"^&?(mut )?", "", x.strip().split(":")[0]).strip() for x in m[2].split(",") if x.strip()]
            self.params.setdefault((crate, m[1]), []).append(names)
        for m in re.finditer(r"\bfn (\w+)[^{;]*?(?=\n\s*(?:requires|ensures|\{)|\{)", text):
            self.clauses.setdefault((crate, m[1]), []).append(clause_names(text, m.end()))

    def named(self, table, function, crate):
        """What a table has of a function's name: the crate's own, else of the crates that it lists, else of any."""
        for crates in ([crate], self.leans.get(crate, []), self.leans):
            found = [x for c in crates for x in table.get((c, function), [])]
            if found:
                return found
        return []

    def names(self, kind, function, crate, least=2):
        """The names of the clauses of a kind of a function with at least so many."""
        return next((x[kind] for x in self.named(self.clauses, function, crate) if len(x[kind]) >= least), [])

    def parameter(self, function, crate, i):
        return next((x[i] for x in self.named(self.params, function, crate) if len(x) > i), None)


def clause_names(text, at):
    """The names of the clauses that begin there: {requires: [..], ensures: [..]}."""
    names = {"requires": [], "ensures": []}
    clause = re.compile(r"\s*(requires|ensures)\*?\s*(\w*)\s*\{")
    m = clause.match(text, at)
    while m:
        names[m[1]].append(m[2])
        at, depth = m.end(), 1
        while depth and at < len(text):
            depth += (text[at] == "{") - (text[at] == "}")
            at += 1
        m = clause.match(text, at)
    return names


# names.json


class Names:
    """What names.json has of one function.

    A place is [old name, the place before, [old step, today's step], the callee, ..].
    """

    def __init__(self, entry):
        self.entry, self.places = entry, entry["places"]
        self.index = {p[0]: i for i, p in enumerate(self.places)}
        self.goals = {}
        for (old, new), asked in zip(entry["needs"], entry["asked_at"]):
            self.goals.setdefault(norm(old), (new, asked[0] if asked else "Start"))

    def before(self, place, n):
        for _ in range(n):
            if place is None or place not in self.index:
                return None
            place = self.places[self.index[place]][1]
        return place

    def step(self, place, old):
        """Today's name of a step that leads to the place."""
        if place not in self.index:
            return None
        name, new = self.places[self.index[place]][2]
        return new if name and norm(name) in (norm(old), norm(re.sub("_lem$", "", old))) else None

    def find(self, place, old):
        """A step's name of today and its place: on the way to this place, or the only one of the name."""
        while place:
            if self.step(place, old):
                return self.step(place, old), place
            place = self.before(place, 1)
        found = {self.step(p[0], old): p[0] for p in self.places if self.step(p[0], old)}
        return next(iter(found.items())) if len(found) == 1 else (None, None)

    def callee(self, place):
        return self.places[self.index[place]][3]

    def at(self, field, place):
        """What a list beside the places has of the place."""
        i = self.index[place]
        return self.entry[field][i] if i < len(self.entry[field]) else None

    def branches(self, place, old):
        """The two places where the branches of a test begin, if just two do."""
        _, at = self.find(place, old)
        if at is None:
            return None
        way, new = self.places[self.index[at]][1:3]
        found = [p[0] for p in self.places if p[1] == way and p[2] == new]
        sides = [[p for p in found if self.at("places_by_name", p).startswith(s)] for s in ("Then-", "Else-")]
        return [s[0] for s in sides] if all(len(s) == 1 for s in sides) else None


# terms


def spelled_out(text):
    """A term without the `let`s that bind a path of `c`: the path stands in the name's place."""
    m = LET.search(text)
    while m:
        text = text[:m.start()] + text[m.end():]
        name = re.compile(r"(?<![\w.'-])" + re.escape(m[1]) + r"(?=[.\s)\]},]|$)(?! :)")

        def put(n, text=text, path="c" + m[2]):
            field = re.match(r"\s=(?!=)", text[n.end():]) and re.search(r"[{;]\s*$", text[:n.start()])
            return n[0] if field else path

        text = name.sub(put, text)
        m = LET.search(text)
    return text


def helper_term(decl):
    """The type and the term of a helper over a place of the form `name c = term`, else None."""
    typ = HELPER.match(decl.sig)
    m = re.search(r"(?m)^" + re.escape(decl.name) + r" c\s*=\s*", decl.body)
    if not decl.name or not typ or not m or re.search(r"(?m)^  where", decl.body):
        return None
    return typ[1], spelled_out(decl.body[m.end():])


def call_of(name):
    return re.compile(r"\(?(?<![\w.'-])" + re.escape(name) + r" (c(?:\.before)*)(?![\w'.-])\)?")


def bound(name, helper, text):
    """A text with a helper's calls as a name that a `let` at its head binds; None if it has no call."""
    call = call_of(name)
    m = call.search(text)
    if not m:
        return None

    def bare(n):
        first, last = n[0].startswith("("), n[0].endswith(")")
        return name if first == last else "(" * first + name + ")" * last

    typ, term = (re.sub(r"(?<![\w.'-])c(?=[.\s)\]},]|$)", m[1], t).strip() for t in helper)
    return "let %s : %s = %s in\n    %s" % (name, typ, term, call.sub(bare, text))


def helper_terms(helpers):
    """The helpers of that form, each with the earlier ones that it calls bound in it."""
    terms = {d.name: helper_term(d) for d in helpers if helper_term(d)}
    for i, name in enumerate(list(terms)):
        typ, term = terms[name]
        for other in list(terms)[:i]:
            term = bound(other, terms[other], term) or term
        terms[name] = typ, term
    return terms


def inlined(text, terms):
    """A term with the helpers that it calls bound at its head."""
    text, left = spelled_out(text), dict(terms)
    for _ in range(6):
        name = next((n for n in left if call_of(n).search(text)), None)
        if name is None:
            break
        text = bound(name, left.pop(name), text)
    return text


# one function


class Walk:
    """The walk of one function, and what becomes of it. `left` gathers what was not translated."""

    def __init__(self, crate, folder, text, names, contracts):
        self.crate, self.folder, self.names, self.contracts = crate, folder, names, contracts
        self.function, self.left, self.sides = folder.split("/")[-1], [], []
        self.module = "Rattle.%s.proofs.%s" % (crate, folder.replace("/", "."))
        self.place = os.path.join("crates", crate, "proofs", folder)
        uses, decls = parse(text)
        self.uses = [u for u in uses if not re.search(r"\.(Tie|Statement|Met)\b", u)]
        self.invariants = [d for d in decls if d.name and is_invariant(d)]
        self.goals = [d for d in decls if d.name and not is_invariant(d) and need(d)]
        self.helpers = [d for d in decls if not d.name or not (is_invariant(d) or need(d) or d.name.endswith("spec"))]
        self.terms = helper_terms(self.helpers)

    # paths

    def turned(self, text, place):
        """A term whose `c` stands at that place, with the paths of today's `c`."""
        text = self.joins(spelled_out(text), place)
        text = PATH.sub(lambda m: self.path(place, m), text)
        return re.sub(r"\btie\.Need-", "goal.", text)

    def path(self, place, m):
        at = self.names.before(place, m[1].count(".before"))
        if at is None:
            at = "Start"
            self.left.append("unresolved " + m[0])
        parts = m[2][1:].split(".") if m[2] else []
        if not parts:
            return "c"
        old = parts[0].strip("«»")
        if parts[0] in START and not self.names.step(at, old):
            return "c." + ".".join(self.start_field(parts))
        step, at = self.names.find(at, old)
        if step is None:
            self.left.append("no step " + m[0])
            return "c." + ".".join(parts)
        return "c." + ".".join(self.field(step, at, old, parts[1:]))

    def start_field(self, parts):
        """A path from the function's start."""
        parts = [parts[0].replace("well-formed", "well_formed")] + parts[1:]
        if parts[0] == "requires" and len(parts) > 1 and parts[1].isdigit():
            parts[1] = self.numbered(self.contracts.names("requires", self.function, self.crate), parts[1])
        if parts[0] == "args" and len(parts) > 1:
            parts[1] = parts[1].replace("-", "_")
        return parts

    def numbered(self, names, i):
        """The name in the place of the number of a clause, if there is one."""
        return names[int(i)] if int(i) < len(names) and names[int(i)] else i

    def field(self, step, place, old, rest):
        """A path from a step: in an arm by its names, and at a call by the callee's clauses and parameters."""
        callee, arm = self.names.callee(place), self.names.at("arms", place)
        if arm and callee is None:
            fit = [(len(path), name) for name, step_of, path in arm[2]
                   if path and norm(step_of) == norm(re.sub("_lem$", "", old)) and rest[:len(path)] == path]
            if fit:
                n, name = max(fit, key=lambda x: x[0])
                return [arm[0], name] + rest[n:]
        if callee:
            rest = self.said(callee, place, rest)
        if rest[:2] == ["given", "1"]:
            rest = ["is"] + rest[2:]
        return ["«record»" if step == "record" else step] + rest

    def said(self, callee, place, rest):
        """What stands behind a call in a path."""
        crate, function = callee.split("::")[0], callee.split("::")[-1]
        if rest[:1] == ["ensures"] and crate not in self.contracts.leans:
            named = (self.names.at("clauses", place) or {}).get("fields")
            if named and rest[1:2] != named[:1]:
                self.left.append("the `ensures` of %s has the clauses .%s" % (callee, ", .".join(named)))
        if rest[:1] == ["ensures"] and len(rest) > 1 and rest[1].isdigit():
            return ["ensures", self.numbered(self.contracts.names("ensures", function, crate), rest[1])] + rest[2:]
        if rest[:1] == ["auto"] and rest[1:2] in (["0"], ["1"]):
            n = 0
            while rest[1 + n:2 + n] == ["1"]:
                n += 1
            end = 1 + n + (rest[1 + n:2 + n] == ["0"])
            name = self.contracts.parameter(function, crate, n)
            return ["auto", name] + rest[end:] if name else rest
        return rest

    # joins

    def joins(self, text, place):
        """Each `⊎_elim` over a join as an `elim` with today's names of the branches."""
        at = text.find("⊎_elim (")
        while at >= 0:
            a = closing(text, at + 7)
            b = text.find("(", a)
            c = closing(text, b) if a > 0 and not text[a + 1:b].strip() else -1
            m = BRANCH.match(text, c + 1) if c > 0 else None
            if m:
                sides = self.names.branches(self.names.before(place, m[1].count(".before")), m[2])
                if not sides:
                    raise Untold("a join, %s, of which names.json has no two branches" % m[0].strip())
                arms = [self.arm(s, m[2], text[i + 1:k]) for s, i, k in zip(sides, (at + 7, b), (a, c))]
                self.sides += [arm.split()[0] for arm in arms]
                text = "%selim %s [ %s ]%s" % (text[:at], m[0].strip(), " | ".join(arms), text[m.end():])
            at = text.find("⊎_elim (", at + 1)
        return text

    def arm(self, side, old, text):
        """An arm of such an `elim`. Of `w`, names.json tells only of the test, and where the branch has no other step."""
        m = re.match(r"\s*λ (\w+)\.\s*", text)
        name = self.names.at("places_by_name", side)
        name = name[0].lower() + name[1:]
        if not m:
            raise Untold("an arm of a join that is no function, for %s" % name)
        word = "true" if name.startswith("then-") else "false"
        last = all(p[1] != side for p in self.names.places)

        def put(n):
            if not last or n[1] not in (".0.taken", ".0.left", ".0.%s.%s" % (old, word)):
                raise Untold("%s in a join's arm `%s %s ↦ ..`" % (n[0], name, m[1]))
            return "%s.%s.%s" % (m[1], self.names.step(side, old), word)

        return "%s %s ↦ %s" % (name, m[1], re.sub(r"(?<![\w.'-])%s((?:\.[\w'-]+)*)(?![\w'-])" % m[1], put, text[m.end():]))

    # Invariants.antt

    def write_invariants(self):
        made = [x for x in map(self.invariant, self.invariants) if x]
        path = os.path.join(self.place, "Invariants.antt")
        if made and not os.path.exists(path):
            write(path, "\n".join(self.uses + ["use %s.Given as goal" % self.module, ""] + made))

    def invariant(self, decl):
        """An invariant or a measure as a function of the record `l`, or None."""
        m = re.search(r"tie\.(invariant|decreases)-([\w-]+)", decl.sig)
        loops = [i for i, (name, _) in enumerate(self.names.entry["loops"]) if m and norm(name[0]) == norm(m[2])]
        lines = decl.body.split("\n")
        unfolding = [x + "\n" for x in lines if x.startswith("unfolding")]
        body = "\n".join(x for x in lines if not x.startswith("unfolding"))
        head = re.match(re.escape(decl.name) + r"((?:\s+" + TOKEN + r")*)\s*=(?!=)\s*", body)
        if not loops or not head:
            self.left.append("%s: no such loop, or no equation" % decl.name)
            return None
        (_, loop), live = self.names.entry["loops"][loops[-1]]
        changed = self.names.entry["changed"][loops[-1]]
        params = head[1].split()
        if len(params) != len(live) + sum(changed):
            self.left.append("%s: %d parameters for %d and %d" % (decl.name, len(params), len(live), sum(changed)))
        fields = [("l.initial." if c else "l.") + v for v, c in zip(live, changed)]
        fields = dict(zip(params, fields + ["l." + v for v, c in zip(live, changed) if c]))
        name = "%s-%s" % (m[1], loop)
        return "abbrev pub {0} : goal.{0}\n{1}{0} l = {2}\n".format(
            name, "".join(unfolding), in_fields(body[head.end():], fields))

    # Answers.antt

    def write_answers(self, wanted):
        """Writes the answers of the goals that are wanted, and says whether it did."""
        answers = {}
        for decl in self.goals:
            for goal, text in self.answers(decl, wanted):
                answers.setdefault(goal, text)
        helpers = self.kept_helpers("\n".join(answers.values()))
        missing = [w for w in wanted if w not in answers and not any(n.startswith(w + ":") for n in self.left)]
        if missing:
            self.left.append("the walk has no answer of %s" % ", ".join(missing))
        if not answers and not helpers:
            return False
        uses = self.uses + ["use %s.Goals as goal" % self.module]
        if self.sides:
            uses.append("use %s.Goals.{%s}" % (self.module, ", ".join(sorted(set(self.sides)))))
        write(os.path.join(self.place, "Answers.antt"), "\n".join(uses + [""] + helpers + list(answers.values())))
        return True

    def answers(self, decl, wanted):
        """The answers that a proof of a need gives: [(goal, text)]."""
        goal, place = self.names.goals.get(norm(need(decl)), (None, None))
        m = re.search(r"(?m)^" + re.escape(decl.name) + r" ([^=]*?)=\s*", decl.body)
        term = decl.body[m.end():] if m else "?"
        asked = [w for w in wanted if w == goal or w.startswith("%s-clause-" % goal)]
        if goal is None or not asked or term.strip() == "search rules":
            return []
        try:
            term = self.turned(inlined(term, self.terms), place)
        except Untold as why:
            self.left.append("%s: %s" % (goal, why))
            return []
        clauses = [w for w in asked if w != goal]
        terms = self.by_clause(goal, clauses, term) if clauses else [(goal, term)]
        head = decl.body[:m.start()] if m else ""
        return [(g, "pub %s : goal.%s\n%s%s c = %s\n" % (g, g, head, g, t)) for g, t in terms]

    def by_clause(self, goal, clauses, term):
        """A proof of several clauses, apart: [(goal, term)]."""
        names = self.names.entry["asked"].get(goal) or self.contracts.names("ensures", self.function, self.crate)
        lets, term = "", term.strip()
        if not term.startswith("(") and term.endswith(")"):
            at = opening(term)
            if re.search(r" in\s*$", term[:at]):
                lets, term = term[:at], term[at:]
        if not (names and term.startswith("(")):
            return [(g, self.clause_of(lets, term, names, g[len(goal) + 8:])) for g in clauses]
        parts = tuple_parts(term)
        while len(parts) < len(names) and parts[-1].startswith("("):
            parts += tuple_parts(parts.pop())
        parts = zip(("%s-clause-%s" % (goal, n) for n in names), parts)
        return [(g, lets + t) for g, t in parts if g in clauses and t != "search rules"]

    def clause_of(self, lets, term, names, clause):
        """One clause of a term that proves all of them and is no tuple."""
        i = names.index(clause) if clause in names else 0
        m = re.match(r"^c\.([\w-]+)\.ensures$", term)
        if m:
            callee = next((p[3] for p in self.names.places if p[2][1] == m[1] and p[3]), m[1].split("-")[0])
            crate = callee.split("::")[0] if "::" in callee else self.crate
            said = self.contracts.names("ensures", callee.split("::")[-1], crate, i + 1)
            return "%s.%s" % (term, said[i] if said else clause)
        last = i > 0 and i == len(names) - 1
        return "(%s%s).%s" % (lets, term, ".".join(["1"] * i + ["0"] * (not last)))

    def kept_helpers(self, text):
        """The texts of the helpers that the answers need and that are not bound in them."""
        pool = [d for d in self.helpers if d.name not in self.terms]
        keep, size = [], -1
        while len(keep) != size:
            size, seen = len(keep), text + "".join(d.sig + d.body for d in keep)
            keep = [d for d in pool if not d.name or re.search(r"(?<![\w'-])%s(?![\w'-])" % re.escape(d.name), seen)]
        return [self.kept(d) for d in keep]

    def kept(self, decl):
        """A helper with today's names of its place."""
        if not decl.name:
            return decl.body + "\n"
        sig, body, m = decl.sig, decl.body, PLACE.search(decl.sig)
        if not m:
            return ("%s%s :%s\n%s\n" % (decl.marks, decl.name, sig, body)).replace("tie.", "goal.")
        places = [p[0] for p in self.names.places if norm(p[0]) == norm(m[1])]
        name = self.names.at("places_by_name", places[-1]) if places else m[1]
        sig = PLACE.sub("(c : goal.%s)" % name, sig)
        self.left.append("the helper %s is over a place" % decl.name)
        try:
            if places:
                sig, body = [self.turned(t, places[-1]) for t in (sig, body)]
        except Untold as why:
            self.left.append("%s: %s" % (decl.name, why))
        return "%s%s :%s\n%s\n" % (decl.marks, decl.name, sig.replace("tie.", "goal."), body)


def in_fields(text, fields):
    """A text with fields in the place of names, but where a name is a field itself."""
    def put(m):
        field = text[:m.start()].endswith(".") or re.match(r"\s*=(?!=)", text[m.end():])
        return m[0] if field or m[0] == "_" else fields.get(m[0], m[0])

    return re.sub(TOKEN, put, text)


# a crate


def rt(crate, *args):
    """What rt prints, run in the crate's folder."""
    return subprocess.run(["rt", *args], cwd=os.path.join("crates", crate), stdout=subprocess.PIPE,
                          stderr=subprocess.STDOUT, encoding="utf-8", errors="replace").stdout


def walks_below(folder):
    """The functions, as folders, with a walk below the folder."""
    found = (os.path.relpath(at, folder) for at, _, files in os.walk(folder) if "Proof.antt" in files)
    return sorted(f.replace(os.sep, "/") for f in found)


def move_aside(crate, aside):
    proofs = os.path.join("crates", crate, "proofs")
    for f in walks_below(proofs):
        os.makedirs(os.path.join(aside, f), exist_ok=True)
        shutil.move(os.path.join(proofs, f, "Proof.antt"), os.path.join(aside, f, "Proof.antt"))
        at = os.path.join(proofs, f)
        while not os.listdir(at):
            os.rmdir(at)
            at = os.path.dirname(at)


def names_of(crate, make):
    """The crate's names.json, which a check writes if it is to be made."""
    folder = os.path.join("crates", crate, "out", "names")
    path = os.path.join(folder, "names.json")
    said = ""
    if make:
        shutil.rmtree(folder, ignore_errors=True)
        said = rt(crate, "check", "--generated", os.path.abspath(folder), "--old-names")
    if not os.path.exists(path):
        print(said[-3000:] + "\nno " + path)
        sys.exit(2)
    return json.loads(read(path))


def walks_of(crate, aside, names):
    """The crate's walks by their folders."""
    contracts, walks = Contracts(), {}
    for f in walks_below(aside):
        end = ".%s.Lts" % f.replace("/", ".")
        key = "Rattle-%s-proofs%s" % (crate, end)
        if key not in names:
            key = next((k for k in names if k.replace("+", "").endswith(end)), None)
        if key is None:
            print("%s: names.json has no such function" % f)
            continue
        walks[f] = Walk(crate, f, read(os.path.join(aside, f, "Proof.antt")), Names(names[key]), contracts)
    return walks


def answer_all(crate, walks):
    """Checks and answers by turns until nothing more is written; the last check's text."""
    while True:
        rt(crate, "fmt")
        said, wrote = rt(crate, "check"), False
        for m in OPEN.finditer(said):
            walk = walks.get(m[2])
            if walk and not os.path.exists(os.path.join(walk.place, "Answers.antt")):
                wrote |= walk.write_answers(re.findall(r"`([^`]+)`", m[3].split("; it calls")[0]))
        if not wrote:
            return said


def report(crate, walks, said):
    """Prints what is left, and says whether the crate is proved."""
    errors = {}
    for m in ERROR.finditer(said):
        f = re.match(r"\./proofs/(\S+)/(?:Answers|Invariants)\.antt$", m[1])
        errors.setdefault(f[1] if f else m[0], m[0])
    for m in VERDICT.finditer(said):
        folder = "/".join(m[1].split("::")[1:])
        left = walks[folder].left if folder in walks else []
        more = [errors.pop(folder)] if folder in errors else []
        print("; ".join([m[0][:300]] + list(dict.fromkeys(left)) + more))
    for error in errors.values():
        print(error)
    end = [x for x in said.split("\n") if x.strip()][-1:]
    print(*end)
    return any(x.startswith("logic=proved") for x in end)


def main():
    words = argparse.ArgumentParser(description=__doc__, formatter_class=argparse.RawDescriptionHelpFormatter)
    words.add_argument("crate", metavar="CRATE")
    words.add_argument("functions", metavar="F", nargs="*")
    words.add_argument("--aside", metavar="DIR")
    args = words.parse_args()
    if not os.path.isdir(os.path.join("crates", args.crate)) or not os.path.exists("crates.txt"):
        words.error("there is no crates/%s and crates.txt here" % args.crate)
    aside = args.aside or os.path.join("crates", args.crate, "out", "walks")
    if not args.functions:
        move_aside(args.crate, aside)
    walks = walks_of(args.crate, aside, names_of(args.crate, not args.functions))
    again = [f.replace("::", "/").strip("/") for f in args.functions]
    wrong = [f for f in again if f not in walks]
    if not walks or wrong:
        print("no walk in %s: %s" % (aside, ", ".join(wrong) or "nothing to turn"))
        return 2
    for f in again:
        path = os.path.join(walks[f].place, "Answers.antt")
        if os.path.exists(path):
            os.remove(path)
    if not again:
        for walk in walks.values():
            walk.write_invariants()
    return 0 if report(args.crate, walks, answer_all(args.crate, walks)) else 1


if __name__ == "__main__":
    sys.exit(main())
