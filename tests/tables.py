"""Stored tables (02, request 01) for the tests: the fields of one, what is wrong with one, what `unstore` prints of one, and what a text of the modes
that store and read them reaches. Written from 02, for itself: no program reads them for it."""
import pathlib
import re

MOST_ITEMS = 1_024
MOST_SIZE = 2_147_483_647
MOST_ROOM = 131_072  # the programs' own limit
MOST_CONTENTS = 65_535
PACKAGE, INTEGER, TRUTH, SUBTYPE, END = 1, 2, 3, 4, 0
LANGUAGE = set(b'integer natural positive boolean true false'.split())
RESERVED = set((pathlib.Path(__file__).parent / 'vectors/reserved-words.vhd').read_bytes().lower().split())
BASIC = re.compile(rb'[a-z](?:_?[a-z0-9])*')
EXTENDED = re.compile(rb'\\(?:[ -\[\]-~\xa0-\xff]|\\\\)+\\')

# What can be wrong with a table; of several things the first one, front to back, too many items last.
FAULTS = ('cut', 'first tag', 'tag', 'end', 'behind', 'contents', 'truth', 'kind', 'ends', 'size', 'no name', 'name', 'upper case', 'underscore', 'reserved', 'extended', 'language', 'equal', 'items')
# What a text of each mode may come to, and what is in a table that is stored or read.
OUTCOMES = (
    *(f'store {outcome}' for outcome in ('stored', 1, 3, 4, 9, 10, 21, 22)),
    *(f'unstore {outcome}' for outcome in ('read', 24, 10)),
    *(f'again {outcome}' for outcome in ('stored', 24, 10, 22)),
)
HOLDS = (
    'tag 2', 'tag 3', 'tag 4', 'boolean', 'null range', 'largest', 'smallest', 'extended', 'doubled backslash', 'case alone', 'name of 1', 'contents over 255',
    'package as item', 'package as language', 'no item', 'one item', 'several',
)  # fmt: skip
EDGES = ('1022 items', '1023 items', '1024 items', '1025 items', 'contents of 65535', 'size of 131072')


def vector(path):
    """The bytes of a table that a file of tests/vectors-01 has: hexadecimal digits, white space anywhere between bytes, and notes from a # to the
    line's end."""
    return bytes.fromhex(re.sub('#.*', '', path.read_text()))


class Wrong(Exception):
    """Why some bytes aren't exactly one table: one of FAULTS."""


def fields(stored):
    """The fields one after the other, as (tag, contents), to the end of the bytes."""
    place = 0
    while place < len(stored):
        length = int.from_bytes(stored[place + 1 : place + 3], 'big')
        if len(stored) < place + 3 + length:
            raise Wrong('cut')
        yield stored[place], stored[place + 3 : place + 3 + length]
        place += 3 + length
    raise Wrong('cut')


def named(name):
    """The name, if it is legal."""
    if EXTENDED.fullmatch(name):
        return name
    if name[:1] in (b'', b'\\'):
        raise Wrong('extended' if name else 'no name')
    if not BASIC.fullmatch(name):
        lower, fewer = name.lower(), re.sub(rb'_+', b'_', name).strip(b'_')
        raise Wrong('upper case' if BASIC.fullmatch(lower) else 'underscore' if BASIC.fullmatch(fewer) else 'name')
    if name in RESERVED:
        raise Wrong('reserved')
    return name


def number(four):
    value = int.from_bytes(four, 'big', signed=True)
    if abs(value) > MOST_SIZE:
        raise Wrong('size')
    return value


def item(tag, contents):
    """(tag, kind, values, name) of an item's field: kind 1 for integers and 2 for truths, as a record has it."""
    before = {INTEGER: 4, TRUTH: 1, SUBTYPE: 9}.get(tag)
    if before is None:
        raise Wrong('tag')
    fixed, name = contents[:before], contents[before:]
    if len(fixed) < before:
        raise Wrong('contents')
    if tag == INTEGER:
        return tag, 1, (number(fixed),), named(name)
    if tag == TRUTH:
        if fixed[0] > 1:
            raise Wrong('truth')
        return tag, 2, (fixed[0],), named(name)
    if fixed[0] > 1:
        raise Wrong('kind')
    ends = number(fixed[1:5]), number(fixed[5:])
    if fixed[0] == 1 and ends != (0, 1):
        raise Wrong('ends')
    return tag, 1 + fixed[0], ends, named(name)


def read(stored):
    """The package's name and the items of a table."""
    parts = fields(stored)
    tag, package = next(parts)
    if tag != PACKAGE:
        raise Wrong('first tag')
    named(package)
    items, names, place = [], set(), 3 + len(package)
    for tag, contents in parts:
        place += 3 + len(contents)
        if tag == END:
            if contents:
                raise Wrong('end')
            if place < len(stored):
                raise Wrong('behind')
            if len(items) > MOST_ITEMS:
                raise Wrong('items')
            return package, items
        items.append(item(tag, contents))
        name = items[-1][3]
        if name in LANGUAGE:
            raise Wrong('language')
        if name in names:
            raise Wrong('equal')
        names.add(name)


def fault(stored):
    """What is wrong with a table, or None."""
    try:
        read(stored)
    except Wrong as wrong:
        return str(wrong)


def lines(package, items):
    """What `unstore` prints."""
    out = [b'package %s items %d\n' % (package, len(items))]
    for place, (tag, kind, values, name) in enumerate(items):
        words = [(b'false', b'true')[value] if kind == 2 else b'%d' % value for value in values]
        out.append(b'%d %s %s value %s\n' % (place, b'subtype' if tag == SUBTYPE else b'constant', name, b' to '.join(words)))
    return b''.join(out)


def parted(case):
    """A case of these modes as mode, element rows, item rows, room (None in `u`, which has none), text."""
    mode, text = case[:1], case[10:]
    element_rows, item_rows = int.from_bytes(case[1:4], 'big'), int.from_bytes(case[4:7], 'big')
    if mode == b'u':
        return mode, element_rows, item_rows, None, text
    return mode, element_rows, item_rows, int.from_bytes(text[:3], 'big'), text[3:]


def to_end(stored):
    """The fields of a table up to its end, package and end included."""
    for tag, contents in fields(stored):
        yield tag, contents
        if tag == END:
            return


def holds(stored):
    """What of HOLDS and EDGES a good table has."""
    package, items = read(stored)
    names = {name for *_, name in items}
    found = {f'tag {tag}' for tag, *_ in items}
    found |= {'boolean' for tag, kind, *_ in items if tag == SUBTYPE and kind == 2}
    found |= {'null range' for tag, _, values, _ in items if tag == SUBTYPE and values[0] > values[1]}
    every = {value for _, _, values, _ in items for value in values}
    found |= {word for word, value in (('largest', MOST_SIZE), ('smallest', -MOST_SIZE)) if value in every}
    every = names | {package}
    found |= {'extended' for name in every if name[:1] == b'\\'}
    found |= {'doubled backslash' for name in every if b'\\' in name[1:-1]}
    found |= {'case alone' for name in names if name[:1] == b'\\' and name.lower() != name and name.lower() in names}
    found |= {'name of 1' for name in every if len(name) == 1}
    lengths = [len(contents) for _, contents in to_end(stored)]
    found |= {'contents over 255' for length in lengths if length > 255}
    found |= {'contents of 65535' for length in lengths if length == MOST_CONTENTS}
    found |= {'package as item'} if package in names else set()
    found |= {'package as language'} if package in LANGUAGE else set()
    found |= {'size of 131072'} if len(stored) == MOST_ROOM else set()
    found.add({0: 'no item', 1: 'one item'}.get(len(items), 'several'))
    return found | {f'{len(items)} items'}


def reaches(case, answer):
    """What a text of these modes reaches, by what is printed of it and, where it is a table, by what it holds or what is wrong with it."""
    mode, _, _, _, text = parted(case)
    refused = re.match(rb'refused (\d+) ', answer)
    word = {b't': 'store', b'u': 'unstore', b'a': 'again'}[mode]
    found = {('outcome', f'{word} {int(refused[1]) if refused else "read" if mode == b"u" else "stored"}')}
    if not refused:
        every = holds(bytes.fromhex(answer.decode()) if mode == b't' else text)
        found |= {('holds', thing) for thing in every} | {('edge', thing) for thing in every}
    elif refused[1] == b'24':
        wrong = fault(text)
        found.add(('fault', wrong))
        if wrong == 'items':
            found.add(('edge', f'{len(list(to_end(text))) - 2} items'))
    return found


# What must be reached, and by how many texts of a whole run.
REACHED = {'outcome': (OUTCOMES, 100), 'fault': (FAULTS, 100), 'holds': (HOLDS, 100), 'edge': (EDGES, 20)}
# These outcomes were there before the request.
OLD = {f'store {outcome}' for outcome in (1, 3, 4, 9, 10)}
