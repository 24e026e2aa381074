"""What the prover says of a crate with a must-fail edit: the whole log of its check, of which rt ci shows the first line alone.

The check is rt's own of such an edit: rattle on a copy of the crate's src/, specs/ and proofs/ with the edit's texts in place, over the libraries that rt built
below it (crates/NAME/out/rlib) and over what a check of the crate as it stands proved. One thing more is done: a place of the code is named in a proof
after the words that stand there, as `if-n-gt-MOST`; where an edit changes these, the proofs get the new name, so that what is refused is
the answer and not the name. A log is kept in a folder of the machine's own (LOGS, or else ~/.cache/kawhiluhe/logs) by the sums of all that
it read, and taken from there where nothing has changed."""
import concurrent.futures
import hashlib
import json
import os
import pathlib
import re
import shutil
import subprocess
import tempfile

PARTS = ('src', 'specs', 'proofs')
NAME = re.compile(r"[A-Za-z_][\w'-]*")
PAIR = re.compile(r'^file: (.*)$|^old: (.*)\nnew: ?(.*)$', re.M)


def kit():
    """The kit's folder."""
    home = os.environ.get('RATTLE_HOME')
    return pathlib.Path(home) if home else pathlib.Path(os.path.realpath(shutil.which('rt') or 'rt')).parent.parent


def kept():
    """The folder of the logs that are kept."""
    cache = os.environ.get('XDG_CACHE_HOME') or os.path.expanduser('~/.cache')
    return pathlib.Path(os.environ.get('LOGS') or f'{cache}/kawhiluhe/logs')


def depended(root):
    """What each crate of crates.txt names after its colon."""
    lines = [line.split('#')[0] for line in (root / 'crates.txt').read_text().split('\n')]
    return {name.split()[0]: rest.split() for name, colon, rest in (line.partition(':') for line in lines) if colon}


def below(crate, deps):
    """The crates of the repository below one, each after those that it names."""
    found = []
    for dep in deps[crate]:
        if dep in deps:
            found += [name for name in [*below(dep, deps), dep] if name not in found]
    return found


def sum_of(*folders):
    """A sum of the files of crates, with their names."""
    total = hashlib.sha256()
    for folder in folders:
        for path in sorted(path for part in PARTS for path in (folder / part).rglob('*') if path.is_file()):
            total.update(f'{path.relative_to(folder.parent)}\0{hashlib.sha256(path.read_bytes()).hexdigest()}\n'.encode())
    return total.hexdigest()


def applied(edit, folder):
    """The texts of the files that an edit changes, by their names in the crate, as it leaves them."""
    texts, file = {}, None
    for named, old, new in PAIR.findall(edit):
        if named:
            file = named.strip()
            texts.setdefault(file, (folder / file).read_text())
        else:
            texts[file] = texts[file].replace(old, new, 1)
    return texts


def copied(folder, to, texts):
    """A copy of a crate with these texts in place of its own."""
    for part in PARTS:
        if (folder / part).is_dir():
            shutil.copytree(folder / part, to / part)
    for file, text in texts.items():
        (to / file).write_text(text)
    return to


class Prover:
    """Checks of the crates of a repository."""

    def __init__(self, root):
        self.given, self.root, self.kit, self.deps = root, root.resolve(), kit(), depended(root)

    def words(self, crate):
        """What rattle is called with."""
        program, static = (self.root / 'crates' / crate / 'src/main.rt').exists(), f'{crate} staticlib' in (self.root / 'crates.txt').read_text()
        words = [self.kit / 'bin/rattle', 'check', '--crate-name', crate, f'src/{"main" if program else "lib"}.rt', '--extern', f'std={self.kit}/rlibs/std.rlib']
        for dep in self.deps[crate]:
            words += ['--extern', f'{dep}={self.rlib(dep)}']
        for folder in [self.kit / 'rlibs', *(self.rlib(dep).parent for dep in below(crate, self.deps))]:
            words += ['-L', f'dependency={folder}']
        words += ['--crate-type', 'staticlib'] if static else []
        return [*words, '--antt-project', self.kit / 'rattle/logic/antt-project.json', '--logic-built', self.kit / 'logic_built', '--jobs', '1']

    def rlib(self, dep):
        return self.root / 'crates' / dep / f'out/rlib/{dep}.rlib' if dep in self.deps else self.kit / f'rlibs/{dep}.rlib'

    def check(self, crate, texts, over):
        """The log of a check of the crate with these texts, over what stands in a folder."""
        with tempfile.TemporaryDirectory(prefix='prover-') as room:
            copied(self.root / 'crates' / crate, pathlib.Path(room), texts)
            how = {'cwd': room, 'stdin': subprocess.DEVNULL, 'stdout': subprocess.PIPE, 'stderr': subprocess.STDOUT, 'text': True, 'errors': 'replace'}
            return subprocess.run([*self.words(crate), '--incremental', over], **how).stdout

    def names(self, crate, texts):
        """The names that the proof of each function cites of places in its code, each by where it stands there."""
        with tempfile.TemporaryDirectory(prefix='prover-') as room:
            copied(self.root / 'crates' / crate, pathlib.Path(room), texts)
            words = [*self.words(crate), '--generated', f'{room}/names', '--old-names']
            subprocess.run(words, cwd=room, stdin=subprocess.DEVNULL, stdout=subprocess.DEVNULL, stderr=subprocess.DEVNULL)
            listed = pathlib.Path(room) / 'names/names.json'
            return {function: dict(named(of)) for function, of in json.loads(listed.read_text()).items() if isinstance(of, dict)} if listed.exists() else {}

    def fitted(self, crate, texts, before):
        """The proofs of the functions that an edit changes, with the names that their places have then."""
        found, folder = {}, self.root / 'crates' / crate
        for function, names in self.names(crate, texts).items():
            was = before.get(function, {})
            turned = {was[place]: name for place, name in names.items() if was.get(place, name) != name}
            modules = function.split('.')[1:-1]  # Rattle-CRATE-proofs.FUNCTION.Lts
            for path in sorted(folder.joinpath('proofs', *modules).glob('*.antt')) if turned and modules else ():
                file = str(path.relative_to(folder))
                text = texts.get(file, path.read_text())
                found[file] = NAME.sub(lambda match: turned.get(match[0], match[0]), text)
        return found

    def seed(self, crate, room):
        """A folder of what a check of the crate as it stands proved."""
        seed, own = room / 'seed', self.root / 'crates' / crate / 'out/incremental'
        if own.is_dir():
            linked(own, seed)
        else:
            seed.mkdir()
        self.check(crate, {}, seed)
        return seed

    def name(self, crate, edit):
        """The name under which the log of an edit is kept: by all that its check reads."""
        sums = [sum_of(*(self.root / 'crates' / each for each in [*below(crate, self.deps), crate])), edit.read_text()]
        kit = (self.kit / 'KIT-ID').read_text() if (self.kit / 'KIT-ID').exists() else ''
        return hashlib.sha256('\0'.join([kit, *sums]).encode()).hexdigest()

    def of_crate(self, crate):
        """The log of each edit of a crate, by its file; those that are kept are not made again."""
        edits = sorted((self.given / 'crates' / crate / 'must-fail').glob('*.edit'))
        places = {edit: kept() / self.name(crate, edit) for edit in edits}
        found = {edit: place.read_text() for edit, place in places.items() if place.exists()}
        if len(found) == len(edits) or not all(self.rlib(dep).exists() for dep in below(crate, self.deps)):
            return found
        with tempfile.TemporaryDirectory(prefix='prover-') as room:
            seed, names = self.seed(crate, pathlib.Path(room)), self.names(crate, {})
            for edit in edits:
                if edit not in found:
                    over, texts = linked(seed, pathlib.Path(room) / edit.stem), applied(edit.read_text(), self.root / 'crates' / crate)
                    if any(file.startswith('src/') for file in texts):
                        texts.update(self.fitted(crate, texts, names))
                    found[edit] = self.check(crate, texts, over)
                    shutil.rmtree(over)
                    keep(places[edit], found[edit])
        return found

    def all(self):
        """The same of every crate, in their order, some at a time."""
        crates = [crate for crate in self.deps if (self.root / 'crates' / crate / 'must-fail').is_dir()]
        with concurrent.futures.ThreadPoolExecutor(int(os.environ.get('JOBS', os.cpu_count()))) as pool:
            return {edit: log for found in pool.map(self.of_crate, crates) for edit, log in found.items()}


def named(of):
    """The names of a function's places, goals and fields, each by its number among those of its kind."""
    for kind in ('needs', 'asked_at', 'loops'):
        for number, pair in enumerate(of.get(kind, [])):
            if isinstance(pair, list) and len(pair) > 1 and isinstance(pair[1], str):
                yield (kind, number, pair[0]), pair[1]
    for number, place in enumerate(of.get('places', [])):
        if isinstance(place[2], list) and isinstance(place[2][1], str):
            yield ('places', number, place[0]), place[2][1]
    for number, name in enumerate(of.get('places_by_name', [])):
        yield ('places_by_name', number, ''), name


def linked(folder, to):
    """A copy of what was proved, by links: a check replaces such a file, and changes none."""
    shutil.copytree(folder, to, symlinks=True, copy_function=lambda one, other: os.link(one, other) if one.endswith('.oantt') else shutil.copy2(one, other))
    return to


def keep(place, log):
    """Keeps a log that says what the prover said; what was killed, or could not begin, is tried again."""
    if re.search(r'^logic=|^rattle: no verdict', log.rstrip().rsplit('\n', 1)[-1]):
        place.parent.mkdir(parents=True, exist_ok=True)
        begun = place.with_suffix(f'.{os.getpid()}')
        begun.write_text(log)
        begun.replace(place)
