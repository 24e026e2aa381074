"""What can have caused an error of a must-fail edit that is wrong in several places at once: the wrong places that the proof in error has to do with.

A proof has to do with what its text names: with the statement of that, and with its body where that is open to the proof. antt shuts a
body to whatever does not say `unfolding`, but for that of an `abbrev` and the lines of a `data` or `record`; so all that can be told of a proof that
reaches one wrong place alone is that this place is its cause. A word of a text counts as the name that is in its file's scope, whatever it is there: too
many are reached, never too few."""
import pathlib
import re
import typing

from sources import masked, words_in

MARKS = r'(?:(?:unfoldable|abbrev|axiom|pub) )*'
SIGNATURE = re.compile(rf'({MARKS})(record |data )?([^\s(){{}}]+)(?= [:({{]|$)')
NO_NAMES = ('use', 'mod', 'module', 'unfolding', 'infix', 'infixl', 'infixr', 'open', 'where', 'mutual', '--', '{-')
USE = re.compile(r'^(?:ghost )?(?:unfoldable )?(?:pub )?use Rattle\.(\w+)\.((?:specs|proofs)\.[^\s{};]+?)(?:\.\{([^}]*)\}| as (\S+?))?;?$', re.M)
GENERATED = re.compile(r'^use Rattle\.\w+\.proofs\.([^\s{]+)', re.M)


class Declared(typing.NamedTuple):
    """A declaration of a file: the names that it brings, its lines, its statement and its body, whether the body is open to all, and what is
    open to the body."""

    names: tuple
    lines: range
    statement: str
    body: str
    open: bool
    unfolds: frozenset


def parts(text):
    """The words of a text, and what stands in them before a point."""
    return {'.'.join(word.split('.')[:k]) for word in words_in(text) for k in range(1, word.count('.') + 2)} - {''}


def bare(text):
    """A text without its comments."""
    return re.sub(r'(?<!\S)--(?!\S)[^\n]*', '', re.sub(r'\{-.*?-\}', lambda match: re.sub(r'[^\n]', ' ', match[0]), text, flags=re.S))


def declared(text):
    """The declarations of a file, those that stand in a `module _` too, which have the module's own words before their own."""
    lines = bare(text).split('\n')
    starts, within, head = [], 0, ''
    for number, line in enumerate(lines):
        depth = len(line) - len(line.lstrip())
        if not line.strip():
            continue
        if depth == 0:
            within, head = (2, line) if re.match(r'module |(?:unfoldable |abbrev )?mutual\b', line) else (0, '')
        match = SIGNATURE.match(line, depth)
        if depth != within or not match or match[3] in NO_NAMES or not re.match(r'\s*(?:\{[^}]*\}\s*)?:', line[match.end() :]) and not match[2]:
            continue
        starts.append((number, depth, head, match))
    for (number, depth, head, match), after in zip(starts, [*(start for start, *_ in starts[1:]), len(lines)]):
        yield one(lines, number, after, depth, head, match)


def one(lines, number, after, depth, head, match):
    name, kind = match[3], match[2]
    first = next((k for k in range(number + 1, after) if re.match(rf'[ ]{{{depth}}}(?:unfolding\b|{re.escape(name)}(?:\s|$))', lines[k])), after)
    statement, body = '\n'.join([head, *lines[number:first]]), '\n'.join(lines[first:after])
    names = [name]
    if kind == 'data ':
        names += [found for line in lines[number + 1 : after] for found in re.findall(r'^\s+(?:pub )?(\S+)(?= [:({])', line)]
    opened = re.findall(r'^\s*unfolding (.*)$', body, re.M) + re.findall(r'\bunfold (.*?) in\b', statement + body)
    return Declared(tuple(names), range(number + 1, after + 1), statement, body, bool(kind) or 'abbrev' in match[1], frozenset(parts(' '.join(opened))))


class Wrong(typing.NamedTuple):
    """A place where an edit is wrong: a function, in its code or in its contract, or a declaration of the specs, in its statement or in its body. One
    that is in none of these has no name, and whatever is proved may have to do with it."""

    name: str
    function: object
    file: str
    line: int
    shut: bool


class Crate:
    """A crate as an edit leaves it, in its folder, with the functions of its code as they are before."""

    def __init__(self, folder, functions):
        self.folder, self.functions, self.named, self.files, self.scopes = folder, functions, {}, {}, {}
        for path in sorted(path for kind in ('specs', 'proofs') for path in (folder / kind).rglob('*.antt')):
            file = str(path.relative_to(folder))
            self.files[file] = list(declared(path.read_text()))
            self.named[file] = {name: (file, found) for found in self.files[file] for name in found.names}

    def scope(self, file):
        """What the words of a file mean that name a declaration of the crate: the file's own, and what it uses."""
        if file not in self.scopes:
            self.scopes[file] = found = {}
            for _, module, names, alias in USE.findall((self.folder / file).read_text()):
                other = module.replace('.', '/') + '.antt'
                known = {**self.scope(other), **self.named[other]} if other in self.named else {}
                for name in filter(None, map(str.strip, names.split(','))):
                    was, _, now = name.partition(' as ')
                    if was in known:
                        found[now or was] = known[was]
                if not names:
                    found.update({f'{alias or module.split(".")[-1]}.{name}': one for name, one in known.items()})
            found.update(self.named.get(file, {}))
            for name in list(found):
                for part in filter(None, name.split('◌')) if '◌' in name else ():
                    found.setdefault(part, found[name])
        return self.scopes[file]

    def meant(self, file, words):
        """The declarations that words of a file name."""
        scope = self.scope(file)
        return [scope[word] for word in words & scope.keys()]

    def at(self, file, line):
        """The declaration that a line of a file stands in."""
        return next((found for found in reversed(self.files.get(file, [])) if found.lines[0] <= line), None)

    def wrongs(self, edit):
        """The places where an edit of the crate as it stands is wrong, each once; its code or its body where nothing else of it is replaced. What is in
        no function and no declaration, as a line that brings a name in, goes with the one place there is beside it."""
        found = {}
        for path, old, new in edit.replaced:
            if (path, new, old) in edit.replaced:
                continue  # one pair of two that take each other back
            wrong = self.wrong(str(path.relative_to(self.folder)), old)
            before = found.setdefault((wrong.file, wrong.line), wrong)
            found[wrong.file, wrong.line] = wrong if before.shut else before
        named = [wrong for wrong in found.values() if wrong.name]
        return named if len(named) == 1 else list(found.values())

    def wrong(self, file, old):
        """The place where an edit is wrong that replaces this text in this file of the crate."""
        text = (self.folder / file).read_text()
        line = text.count('\n', 0, text.find(old)) + 1
        for function in self.functions:
            if function.file.parts[-len(pathlib.Path(file).parts) :] == pathlib.Path(file).parts and line in function.lines:
                return Wrong(function.called, function, file, function.lines[0], old not in function.contract)
        found = self.at(file, line)
        if not found:
            return Wrong('', None, file, line, False)
        shut = not found.open and line >= found.lines[0] + found.statement.count('\n')
        return Wrong(found.names[0], None, file, found.lines[0], shut)

    def spoken(self, file, line):
        """Of a proof's file, or of a line of the code: the functions whose code it is about, those whose contracts it has to do with, and the declarations
        that all these name."""
        if file.startswith('src/'):
            about = [function for function in self.functions if str(function.file).endswith(file) and line in function.lines]
            known = set()
        else:
            folders = {name for part in pathlib.Path(file).parts[1:-1] for name in part.split('+')}
            about = [function for function in self.functions if function.name in folders]
            known = {name for used in GENERATED.findall((self.folder / file).read_text()) for name in re.split(r'[.+]', used)} if file in self.files else set()
        known |= {name for function in about for name in re.findall(r'(\w+)(?:::<[^<>()]*>)?\(', masked(function.text))}
        told = [function for function in self.functions if function.name in known]
        texts = [(function, function.text) for function in about] + [(function, function.contract) for function in told]
        meant = [one for function, text in texts for one in self.meant(self.source(function), parts(text))]
        return about, told, meant

    def source(self, function):
        return 'src/' + str(function.file).rsplit('/src/', 1)[1]

    def reached(self, meant, opened):
        """What these declarations have to do with where so much is open: each declaration with whether its body is, by its file and its first line."""
        reach, opened = {}, list(opened)
        while meant:
            more = []
            for file, found in meant:
                visible = found.open or (file, found) in opened
                if reach.get((file, found.lines[0]), -1) < visible:
                    reach[file, found.lines[0]] = visible
                    more += self.meant(file, parts(found.statement + (found.body if visible else '')))
                    if visible and found.unfolds:
                        unfolds = self.meant(file, found.unfolds)
                        opened += unfolds
                        more += unfolds
            meant = more
        return reach

    def causes(self, file, line, wrongs):
        """Those of the wrong places that an error at a line of a file can come of."""
        about, told, meant = self.spoken(file, line)
        declaration, opened = self.at(file, line), []
        if declaration:
            meant = meant + self.meant(file, parts(declaration.statement + declaration.body))
            opened = self.meant(file, declaration.unfolds)
        known = file.startswith('src/') and about or declaration
        reach = self.reached(meant + opened, opened) if known else {}
        for wrong in wrongs:
            if wrong.function:
                met = wrong.function in about or not wrong.shut and (not known or wrong.function in told)
            else:
                met = not wrong.name or not known or reach.get((wrong.file, wrong.line), -1) >= wrong.shut
            if met:
                yield wrong
