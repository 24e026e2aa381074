"""What tests/audit, tests/reasons, tests/mutants and tools/figures read of the sources: the functions of every crate, the definitions of its specs with
what they rest on, what each must-fail edit replaces, and which changes of the code no test can tell from it."""
import pathlib
import re
import typing

LITERAL = re.compile(r'//[^\n]*|/\*.*?\*/|b?"(?:\\.|[^"\\])*"|b?\'(?:\\.[^\']*|[^\'\\\n])\'', re.S)
FUNCTION = re.compile(r'\b(pub(?:\([^)]*\))?\s+)?(?:(?:const|unsafe|async|extern)\s+)*fn\s+(\w+)')
SCOPE = re.compile(r'^[ \t]*(?:pub(?:\([^)]*\))?\s+)?(?:unsafe\s+)?(mod|impl|trait)\b([^{};]*)\{', re.M)
CLAUSE = re.compile(r'\b(ensures|requires)\*?(?:\s+\w+)?\s*$')  # what stands before a clause, its name too
USE = re.compile(r'^(?:ghost )?(?:pub )?use Rattle\.(\w+)\.specs\.([\w.-]+?)(?:\.\{([^}]*)\}| as (\w+));?$', re.M)
REPLACEMENT = re.compile(r'^file: (.*)$|^old: (.*)\nnew: ?(.*)$', re.M)


def masked(text):
    """A source with its comments and its literals blanked, each as long as it was."""
    return LITERAL.sub(lambda match: re.sub(r'[^\n]', ' ', match[0]), text)


def closed(text, place):
    """The place after the brace that closes the one at a place."""
    depth = 0
    for match in re.finditer(r'[{}]', text[place:]):
        depth += 1 if match[0] == '{' else -1
        if depth == 0:
            return place + match.end()
    return len(text)


class Function:
    """A function of a source: its crate, file and name, the modules and the type that it stands in, whether it is public, its parameters, its
    contract with the clauses of it, whether it has no body of its own, all of its text and its lines."""

    def __init__(self, root, path, within, match, text, plain, block=None):
        _, self.crate, _, *parts = path.relative_to(root).with_suffix('').parts
        self.file, self.name = path, match[2]
        start, clauses = match.start(), []
        body = plain.find('{', start)
        while body >= 0 and (clause := CLAUSE.search(plain, start, body)):
            end = closed(plain, body)
            clauses.append((clause[1], text[body:end]))
            if plain[end:].lstrip().startswith(';'):  # a method of a trait: its impls have the body
                body = end = plain.index(';', end) + 1
                break
            body = plain.find('{', end)
        else:
            end = closed(plain, body) if body >= 0 else len(text)
        self.text, self.contract = text[start:end], text[start:body]
        self.bodiless = self.text.endswith(';')
        self.ensures = [clause for word, clause in clauses if word == 'ensures']
        self.requires = [clause for word, clause in clauses if word == 'requires']
        given = re.search(rf'\bghost {self.name}_gives = (\{{.*?\}});', text[slice(*block)], re.S) if block else None
        if given:  # what an impl says of a method of its trait
            self.ensures.append(given[1])
            self.contract += given[0]
        self.parameters = plain[match.end() : body].split('ensures')[0].split('requires')[0]
        first, after = text.count('\n', 0, start) + 1, text.count('\n', 0, start) + self.text.count('\n') + 2
        while first > 1 and text.split('\n')[first - 2].lstrip().startswith('#['):
            first -= 1  # its attributes
        self.lines = range(first, after)
        self.modules = [part for part in parts if part not in ('lib', 'main', 'mod')]
        self.modules += [name for kind, name in within if kind == 'mod']
        types = [name for kind, name in within if kind != 'mod']
        self.called = '::'.join([self.crate, *self.modules, *types, self.name])
        self.proof = '/'.join(['proofs', *self.modules, self.name])
        self.public = (match[1] or '').strip() == 'pub' or any(kind == 'trait' for kind, _ in within)

    def written(self):
        """The parameters that are lent to be written."""
        return re.findall(r"(\w+)\s*:\s*[^,:]*?&\s*(?:'\w+\s+)?mut\b", self.parameters) + re.findall(r"&\s*(?:'\w+\s+)?mut\s+(self)\b", self.parameters)


def scope(kind, rest):
    """What a function within is called by: a module's name, a type's; whatever a trait has is as public as the trait."""
    words = re.findall(r'\w+', re.sub(r'<[^>]*>', '', rest))
    if kind == 'impl' and 'for' in words:
        return 'trait', words[words.index('for') + 1]
    return kind, words[0] if words else ''


def functions(root):
    """Every function of every crate, methods and those of modules within too, by the words that its callers write."""
    found = {}
    for path in sorted(root.glob('crates/*/src/**/*.rt')):
        text = path.read_text()
        plain = masked(text)
        scopes = [(match.start(), closed(plain, match.end() - 1), scope(match[1], match[2])) for match in SCOPE.finditer(plain)]
        for match in FUNCTION.finditer(plain):
            around = [it for it in scopes if it[0] < match.start() < it[1]]
            within = [named for _, _, named in around]
            block = around[-1][:2] if around and around[-1][2][0] == 'trait' else None
            function = Function(root, path, within, match, text, plain, block)
            found[function.called] = function
    return found


class Definition(typing.NamedTuple):
    """A definition of a crate's specs: its file, its name and its text."""

    file: pathlib.Path
    name: str
    text: str


def words_in(text):
    """The words of a text, as antt parts them."""
    return set(re.findall(r'[^\s(){},;]+', text))


class Definitions:
    """The definitions of all specs, and what a word means in a file: a definition of that file, or one that it uses."""

    def __init__(self, root):
        self.root, self.known, self.uses = root, {}, {}
        for path in sorted(root.glob('crates/*/specs/**/*.antt')):
            for block in path.read_text().split('\n\n'):
                for match in re.finditer(r'\bpub (?:record |data )?(\S+)(?= [:({])', block):
                    self.known.setdefault((path, match[1]), Definition(path, match[1], block))

    def scope(self, file):
        """The definitions that a file uses, by the words that it writes for them."""
        if file not in self.uses:
            self.uses[file] = found = {}
            for crate, module, names, alias in USE.findall(file.read_text()):
                path = self.root / 'crates' / crate / 'specs' / (module.replace('.', '/') + '.antt')
                for name in filter(None, (name.strip() for name in names.split(','))):
                    was, _, now = name.partition(' as ')
                    found[now or was] = (path, was)
                if alias:
                    found.update({f'{alias}.{name}': (path, name) for at, name in self.known if at == path})
            found.update({name: (at, name) for at, name in self.known if at == file})
        return self.uses[file]

    def named_in(self, file, text):
        """The definitions that a text of a file names."""
        scope = self.scope(file)
        return {scope[word] for word in words_in(text) & scope.keys()} & self.known.keys()

    def cited(self, file, text):
        """The definitions that a text of a file names, and all that they rest on."""
        reach = self.named_in(file, text)
        left = list(reach)
        while left:
            definition = self.known[left.pop()]
            more = self.named_in(definition.file, definition.text) - reach
            reach |= more
            left += more
        return reach


class Edit(typing.NamedTuple):
    """A must-fail edit: its file; the texts of code and of definitions that it replaces, each with the file that it stands in and what takes its
    place; and those of proofs, which it fits to the code. Each applies to what those before it made."""

    path: pathlib.Path
    replaced: list
    fitted: list


def edits(root, crate='*'):
    """The must-fail edits of a crate, or of all."""
    for path in sorted(root.glob(f'crates/{crate}/must-fail/*.edit')):
        edit, file = Edit(path, [], []), None
        for named, old, new in REPLACEMENT.findall(path.read_text()):
            if named:
                file = path.parents[1] / named
            elif file.relative_to(path.parents[1]).parts[0] == 'proofs':
                edit.fitted.append((file, old, new))
            else:
                edit.replaced.append((file, old, new))
        yield edit


def equivalents(root):
    """The changes that tests/mutation/equivalent lists, each with the reason before it: the function, its line, the line as changed."""
    found, reason, fresh = {}, '', True
    lines = (root / 'tests/mutation/equivalent').read_text().split('\n')
    for place, line in enumerate(lines):
        if line.startswith('# '):
            reason = line[2:] if fresh else f'{reason} {line[2:]}'
            fresh = False
        elif line.startswith('in: '):
            found[line[4:], lines[place + 1][5:], lines[place + 2][5:]] = reason
            fresh = True
    return found
