#!/usr/bin/env python3
"""Writes the tables that follow from the rules: crates/forms/specs/code/Picks.antt (which rule at which next kind), crates/forms/proofs/Hints.antt
(the hint tables of the computed tests), crates/form_table/src/lib.rt's byte string and counts, and the numbers in crates/tree/src/lib.rt of what the
code starts at. Reads crates/forms/specs/code/{Kinds,RuleNames,Rules}.antt.
No table is trusted: the checker computes the tests. Run it from the repository's root after an edit of the rules. Python 3, standard library."""
import os
import re

PACE = 128
TOK, NT, ACT = 0, 1, 2


def text(path):
    with open(path) as f:
        return f.read()


def load():
    number = {}
    kinds, names, acts = {}, {}, {}
    for path, into in (('Kinds', kinds), ('RuleNames', names)):
        for n, sort, x in re.findall(r'^(\S+) = (tok|nt|act) (\d+)$', text('crates/forms/specs/code/%s.antt' % path), re.M):
            (acts if sort == 'act' else into)[n] = int(x)
            number[n] = ({'tok': TOK, 'nt': NT, 'act': ACT}[sort], int(x))
    rules = []
    for m in re.finditer(r'^    (?:∷ )?rule (\S+) (?:\((.*)\)|\[\])$', text('crates/forms/specs/code/Rules.antt'), re.M):
        body = []
        for s in (m.group(2) or '[]').split(' ∷ ')[:-1]:
            body.append((ACT, 7 + int(s[4:])) if s.startswith('row ') else number[s])
        rules.append((names[m.group(1)], tuple(body)))
    last = max(kinds.values())
    listing = re.search(r'^symbols_by_kind =\n(.*?)\n    \[\]', text('crates/forms/specs/code/Kinds.antt'), re.M | re.S).group(1)
    return rules, names, last + 1, [kinds[k] for k in re.findall(r'[a-z][a-z_]*', listing)]


class Grammar:
    def __init__(self):
        self.rules, self.named, self.columns, self.kinds = load()
        self.names = len(self.named)
        self.of = [[p for p, r in enumerate(self.rules) if r[0] == x] for x in range(self.names)]
        n = self.names
        self.null, self.first, self.follow = [False] * n, [set() for _ in range(n)], [{0} for _ in range(n)]
        self.until_still(self.firsts)
        self.until_still(self.follows)
        self.picks = [[0] * self.columns for _ in range(n)]
        for p, (lhs, body) in enumerate(self.rules):
            f, e = self.inits(body)
            for t in sorted(f | (self.follow[lhs] if e else set())):
                if self.picks[lhs][t]:
                    raise SystemExit('not LL(1): name %d, kind %d, rules %d and %d' % (lhs, t, self.picks[lhs][t] - 1, p))
                self.picks[lhs][t] = p + 1

    @staticmethod
    def until_still(turn):
        while turn():
            pass

    def inits(self, body):
        out = set()
        for k, x in body:
            if k == TOK:
                return out | {x}, False
            if k == NT:
                out |= self.first[x]
                if not self.null[x]:
                    return out, False
        return out, True

    def firsts(self):
        change = False
        for lhs, body in self.rules:
            f, e = self.inits(body)
            if not f <= self.first[lhs] or e > self.null[lhs]:
                self.first[lhs] |= f
                self.null[lhs] |= e
                change = True
        return change

    def follows(self):
        change = False
        for lhs, body in self.rules:
            for i, (k, x) in enumerate(body):
                if k == NT:
                    f, e = self.inits(body[i + 1:])
                    f = f | self.follow[lhs] if e else f
                    change |= not f <= self.follow[x]
                    self.follow[x] |= f
        return change

    def words(self):
        word = [None] * self.names

        def turn():
            change = False
            for lhs, body in self.rules:
                if all(k != NT or word[x] is not None for k, x in body):
                    w = [t for k, x in body for t in ([x] if k == TOK else word[x] if k == NT else [])]
                    if word[lhs] is None or len(w) < len(word[lhs]):
                        word[lhs] = w
                        change = True
            return change
        self.until_still(turn)
        return word

    def leads(self):
        lead, todo = [0] * self.names, []
        for lhs, body in self.rules:
            real = [s for s in body if s[0] != ACT]
            if real and real[0][0] == NT and (NT, lhs) in real[1:]:
                todo.append(real[0][1])
        while todo:
            x = todo.pop()
            if not lead[x]:
                lead[x] = 1
                firsts = [[s for s in self.rules[p][1] if s[0] != ACT][0] for p in self.of[x]]
                todo += [y for k, y in firsts if k == NT]
        return lead

    def weights(self, lead):
        w = [0] * self.names

        def cost(body):
            return sum(w[x] if k == NT else 1 for k, x in body) + 1

        def pays(body):
            return next((1 if k == TOK else lead[x] for k, x in body if k != ACT), 0)

        def turn():
            change = False
            todo = [(lhs, cost(b) - PACE * (pays(b) - lead[lhs])) for lhs, b in self.rules]
            todo += [(x, cost(self.rules[row[0] - 1][1])) for x, row in enumerate(self.picks) if row[0]]
            for x, c in todo:
                if c > w[x]:
                    w[x] = c
                    change = True
            if max(w) > 10 ** 6:
                raise SystemExit('%d steps to an element do not serve' % PACE)
            return change
        self.until_still(turn)
        return w

    def heights(self):
        tall = [1] * self.names

        def turn():
            change = False
            for lhs, body in self.rules:
                at = next((i for i, s in enumerate(body) if s == (ACT, 6)), -1)
                stay = body[at + 1:]
                need = max([len(stay)] + [len(stay) - i - 1 + tall[x] for i, (k, x) in enumerate(stay) if k == NT])
                if need > tall[lhs]:
                    tall[lhs] = need
                    change = True
            return change
        self.until_still(turn)
        return tall

    def lasts(self):
        last = [set() for _ in range(self.names)]

        def turn():
            change = False
            for lhs, body in self.rules:
                ends = self.through(last, set(), body)
                change |= not ends <= last[lhs]
                last[lhs] |= ends
            return change
        self.until_still(turn)
        return last

    def through(self, last, before, body, seen=None):
        for k, x in body:
            if k == NT:
                if seen:
                    seen(x, before)
                before = last[x] | (before if self.null[x] else set())
            elif k == TOK:
                before = {x}
        return before

    def befores(self, last):
        before = [set() for _ in range(self.names)]
        before[0].add(0)
        change = True

        def seen(x, kinds):
            nonlocal change
            change |= not kinds <= before[x]
            before[x] |= kinds
        while change:
            change = False
            for lhs, body in self.rules:
                self.through(last, set(before[lhs]), body, seen)
        return before

    def marking(self):
        """For each name: the operators' kinds that the innermost frame may have when it begins (0: none), those that it may leave there if it
        marks that frame, and the kinds just read when it ends (0: none told)."""
        enter, leave, read = [[set() for _ in range(self.names)] for _ in range(3)]
        enter[0].add(0)

        def add(to, kinds):
            more = not kinds <= to
            to |= kinds
            return more

        def walk(lhs, body):
            change, just, kinds, around = False, {0}, set(enter[lhs]), []
            for k, x in body:
                if k == TOK:
                    just = {x}
                elif k == NT:
                    change |= add(enter[x], kinds)
                    kinds, just = leave[x] or kinds, read[x]
                elif x == 0:
                    around, kinds, just = around + [kinds], {0}, {0}
                elif x == 1:
                    kinds = around.pop()
                elif x == 2:
                    kinds = just
            if kinds != enter[lhs] or leave[lhs]:
                change |= add(leave[lhs], kinds)
            return add(read[lhs], just) or change

        def turn():
            return any([walk(lhs, body) for lhs, body in self.rules])
        self.until_still(turn)
        return enter, leave, read

    def spares(self):
        v = [0] * self.names

        def turn():
            change = False
            for lhs, body in self.rules:
                c = 1 + sum(v[x] - 1 if k == NT else -1 if k == TOK else int(x >= 7) for k, x in body)
                if c > v[lhs]:
                    v[lhs] = c
                    change = True
            return change
        self.until_still(turn)
        return v

    def code(self, s):
        return s[1] + (0, self.columns, self.columns + self.names)[s[0]]


def lst(xs):
    return ' ∷ '.join([str(x) for x in xs] + ['[]'])


def nest(name, comment, xs):
    rows = ''.join('    %s ∷\n' % ('(%s)' % lst(x) if x else '[]') for x in xs)
    return '-- %s\nabbrev pub %s : List (List ℕ)\n%s =\n%s    []\n\n' % (comment, name, name, rows)


def flat(name, comment, kind, xs):
    return '-- %s\nabbrev pub %s : List %s\n%s = %s\n\n' % (comment, name, kind, name, lst(xs))


def write(path, s):
    with open(path, 'w') as f:
        f.write(s.rstrip('\n') + '\n')


def string(xs):
    return 'b"%s"' % ''.join('\\x%02x' % x for x in xs)


WIDE = 16                                   # bytes to a rule in the code's table of symbols


def main():
    g = Grammar()
    write('crates/forms/specs/code/Picks.antt', '''-- Which rule is taken at which next kind: written by tools/tables.py from the rules, a line to each name, a column to each kind, the first
-- for the end of the text. In it stands the rule's number and one more, or 0. Assumes nothing: the LL(1) test is computed.
use Rattle.std.specs.Prelude.{ℕ, List, [], ◌∷◌}
use Rattle.grammars.specs.code.Grammar.{predict_by}

''' + nest('picks', 'the table', g.picks) + '''abbrev pub predict : ℕ → ℕ → ℕ
predict = predict_by picks
''')
    lead = g.leads()
    enters, leaves, reads = g.marking()
    write('crates/forms/proofs/Hints.antt', '''-- Hints for the computed tests, written by tools/tables.py from the rules. Nothing here is believed: a wrong entry fails a test.
use Prim.Native.Nat.{ℕ}
use mathlib.Core.List.{List, [], ◌∷◌}
use mathlib.Core.Bool.{Bool, true, false}

''' + nest('firsts', 'the kinds that each name may begin with', map(sorted, g.first))
          + nest('follows', 'the kinds that may come after each name', map(sorted, g.follow))
          + nest('lasts', 'the kinds that each name may end with', map(sorted, g.lasts()))
          + nest('befores', 'the kinds that may come before each name, 0 for none', map(sorted, g.befores(g.lasts())))
          + nest('enters', "the operator's kind that the frame may have when each name begins, 0 for none", map(sorted, enters))
          + nest('leaves', "the operator's kind that each name leaves in that frame, nothing where it does not mark it", map(sorted, leaves))
          + nest('reads', 'the kind just read when each name ends, 0 where none is told', map(sorted, reads))
          + nest('words', 'a shortest word of each name', g.words())
          + flat('nulls', 'the names that may read nothing', 'Bool', ['true' if x else 'false' for x in g.null])
          + flat('leads', 'the names that pay for the element they must read', 'ℕ', lead)
          + flat('weights', 'the steps that each name may take beside those its elements pay for', 'ℕ', g.weights(lead))
          + flat('heights', 'how high the stack gets while a name is read, less one', 'ℕ', [x - 1 for x in g.heights()])
          + flat('spares', 'how many rows more than elements a name may give, and one', 'ℕ', g.spares()))
    path = 'crates/form_table/src/lib.rt'
    if os.path.exists(path):
        s = text(path)
        table = g.kinds + [c for r in g.picks for c in r] + [len(b) for _, b in g.rules]
        table += [c for _, b in g.rules for c in [g.code(x) for x in b] + [0] * (WIDE - len(b))]
        s = re.sub(r'(// FORMS\n\s*\*)b"[^"]*"', lambda m: m.group(1) + string(table), s)
        for name, count in (('ELEMENT_KINDS', len(g.kinds)), ('KINDS', g.columns), ('NAMES', g.names), ('RULES', len(g.rules)), ('LINE', WIDE)):
            s = re.sub(r'(pub const %s: usize = )\d+;' % name, lambda m: '%s%d;' % (m.group(1), count), s)
        write(path, s)
    path = 'crates/tree/src/lib.rt'
    if os.path.exists(path):
        s = text(path)
        for name, number in (('CONSTANT', g.named['constant']), ('SUBTYPE', g.named['subtype'])):
            s = re.sub(r'(const %s: u64 = FIRST_NAME \+ )\d+;' % name, lambda m: '%s%d;' % (m.group(1), number), s)
        s = re.sub(r'(const OTHER: u64 = )\d+;', lambda m: '%s%d;' % (m.group(1), g.columns - 1), s)
        write(path, s)
    print('%d rules, %d names, %d kinds with the end and any other' % (len(g.rules), g.names, g.columns))


main()
