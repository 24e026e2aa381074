"""The premises of the third demand, decided without any program: elements, pieces, claims, the names an item uses, and the
pieces that two texts have in common. Written from 01 alone, for tests/damage; quotations are 01's and the demand's."""
import functools
import re
from typing import NamedTuple

MOST_OPEN = 32
RESERVED = set(
    b'abs access after alias all and architecture array assert assume assume_guarantee attribute begin block body '
    b'buffer bus case component configuration constant context cover default disconnect downto else elsif end entity '
    b'exit fairness file for force function generate generic group guarded if impure in inertial inout is label '
    b'library linkage literal loop map mod nand new next nor not null of on open or others out package parameter port '
    b'postponed procedure process property protected pure range record register reject release rem report restrict '
    b'restrict_guarantee return rol ror select sequence severity shared signal sla sll sra srl strong subtype then to '
    b'transport type unaffected units until use variable vmode vprop vunit wait when while with xnor xor'.split()
)
OPENING = (b'constant', b'subtype', b'end')

DIGITS = rb'[0-9](?:_?[0-9])*'
HELD = rb' !#-\[\]-~\xa0-\xff'  # what strings and extended identifiers hold, but the quote and the backslash
LINE_END = re.compile(rb'[\n-\r]')
GAP = re.compile(rb'[\t \xa0]*(?:--.*)?', re.S)
NUMBER = re.compile(
    rb'(?:(D)#([X](?:_?[X])*)#(?:[Ee]\+?D)?|D\.D(?:[Ee][+-]?D)?|D(?:[Ee]\+?D)?)(?![A-Za-z0-9_.#"])'
    .replace(b'D', DIGITS).replace(b'X', b'0-9A-Fa-f')
)  # fmt: skip
WORD = re.compile(rb'[A-Za-z](?:_?[A-Za-z0-9])*(?![A-Za-z0-9_])')
EXTENDED = re.compile(rb'\\(?:[H"]|\\\\)+\\(?![\\_"])'.replace(b'H', HELD))
STRING = re.compile(rb'"(?:[H\\]|"")*"(?!")'.replace(b'H', HELD))
CHARACTER = re.compile(rb"'[ -~\xa0-\xff]'")
DELIMITER = re.compile(rb"(?!/\*)(?:=>|\*\*|:=|/=|>=|<=|<>|[&'()*+,\-./:;<=>|\[\]])")


class Element(NamedTuple):
    """Two are the same "if line number, place in the line and bytes agree"."""

    line: int
    place: int
    spelled: bytes

    def name(self):
        """The name it is, case ignored unless it is an extended one; none for any other element."""
        if self.spelled[:1] == b'\\':
            return self.spelled if EXTENDED.fullmatch(self.spelled) else None
        word = self.spelled.lower()
        return word if WORD.fullmatch(word) and word not in RESERVED else None

    def sign(self):
        """What it is to the forms: N a name, L a literal, ? unreadable; a reserved word or delimiter itself."""
        if self.name():
            return b'N'
        word = self.spelled.lower()
        if word in RESERVED or DELIMITER.fullmatch(word):
            return word
        literal = based(NUMBER.fullmatch(word)) or STRING.fullmatch(word) or CHARACTER.fullmatch(word)
        return b'L' if literal else b'?'


def based(number):
    """A number, unless it has a base that is none, or a digit that isn't below it."""
    if number and number[1]:
        base = int(number[1])
        if not 2 <= base <= 16 or any(int(digit, 16) >= base for digit in number[2].decode().replace('_', '')):
            return None
    return number


def element_end(line, place, ticks):
    """Where the element at a place of a line ends: at the line's end if it is unreadable."""
    byte = line[place : place + 1]
    if byte.isalpha():
        found = WORD.match(line, place)
        if found and found[0].lower() not in RESERVED and line[found.end() : found.end() + 1] == b'"':
            found = None
    elif byte.isdigit():
        found = based(NUMBER.match(line, place))
    elif byte == b"'" and line[place + 2 : place + 3] == b"'" and not ticks:
        found = CHARACTER.match(line, place)
    else:
        found = {b'\\': EXTENDED, b'"': STRING}.get(byte, DELIMITER).match(line, place)
    return found.end() if found else len(line)


def elements(text):
    """The elements of a text, line by line: "No element crosses a line end"."""
    rows = []
    for number, line in enumerate(LINE_END.split(text)):
        place, ticks = GAP.match(line).end(), False
        while place < len(line):
            end = element_end(line, place, ticks)
            row = Element(number, place, line[place:end])
            rows.append(row)
            ticks = row.spelled == b')' or row.name() is not None
            place = GAP.match(line, end).end()
    return rows


class Piece:
    """A piece: its elements, the name it claims, and the names it uses."""

    def __init__(self, rows):
        self.rows = tuple(rows)
        self.signs = [row.sign() for row in rows]
        claims = self.signs[:1] in ([b'constant'], [b'subtype']) and self.signs[1:2] == [b'N']
        self.claim = rows[1].name() if claims else None

    def is_item(self):
        """Items are all pieces but headings and closings."""
        heading = self.signs == [b'package', b'N', b'is']
        closing = re.fullmatch(rb'end( package)?( N)? ;', b' '.join(self.signs))
        return not heading and not closing

    @functools.cached_property
    def uses(self):
        """The names that its mark and its expressions look up. A broken piece uses none, being broken whatever they are."""
        return {self.rows[place].name() for place in Form(self.signs).names()}


class Broken(Exception):
    """No form fits."""


class Form:
    """Reads the signs of a piece as a constant or a subtype, by 01's table of forms."""

    def __init__(self, signs):
        self.signs, self.place, self.used = signs, 0, []

    def names(self):
        """The places of the names used; of none where no form fits."""
        open_now = 0
        for sign in self.signs:
            open_now += (sign == b'(') - (sign == b')')
            if open_now > MOST_OPEN:
                return []
        try:
            self.item()
        except Broken:
            return []
        return self.used

    def item(self):
        """constant N : mark := expression; or subtype N is mark [range 10];"""
        constant = self.next(b'constant', b'subtype') == b'constant'
        self.next(b'N')
        self.next(b':' if constant else b'is')
        self.used.append(self.place)
        self.next(b'N')
        if constant:
            self.next(b':=')
            self.expression()
        elif self.take(b'range'):
            self.simple()
            self.next(b'to', b'downto')
            self.simple()
        self.next(b';')
        if self.place < len(self.signs):
            raise Broken

    def take(self, *wanted):
        """The next sign, if it is one of these."""
        if self.place < len(self.signs) and self.signs[self.place] in wanted:
            self.place += 1
            return self.signs[self.place - 1]
        return None

    def next(self, *wanted):
        """The next sign, which must be one of these."""
        found = self.take(*wanted)
        if found is None:
            raise Broken
        return found

    def expression(self):
        """Relations in a chain of a single operator; nand or nor once."""
        self.relation()
        operator = self.take(b'and', b'or', b'xor', b'xnor', b'nand', b'nor')
        if operator:
            self.relation()
            while operator not in (b'nand', b'nor') and self.take(operator):
                self.relation()

    def relation(self):
        self.simple()
        if self.take(b'=', b'/=', b'<', b'<=', b'>', b'>='):
            self.simple()

    def simple(self):
        """One leading sign over the first term, then `+ - &`."""
        self.take(b'+', b'-')
        self.term()
        while self.take(b'+', b'-', b'&'):
            self.term()

    def term(self):
        self.factor()
        while self.take(b'*', b'/', b'mod', b'rem'):
            self.factor()

    def factor(self):
        """`**`, abs and not, with no chain of them."""
        if self.take(b'abs', b'not'):
            self.primary()
        else:
            self.primary()
            if self.take(b'**'):
                self.primary()

    def primary(self):
        if self.take(b'L'):
            return
        if self.take(b'('):
            self.expression()
            self.next(b')')
        else:
            self.named()

    def named(self):
        """A name; what stands in one with a parenthesis or a tick after is not looked up."""
        before = len(self.used)
        self.used.append(self.place)
        self.next(b'N')
        while opened := self.take(b'(', b"'"):
            if opened == b'(':
                self.expression()
                self.next(b')')
            else:
                self.next(b'N', b'range')
            del self.used[before:]


def pieces(text):
    """Elements are cut after each `;` and before each of the words constant, subtype, end."""
    cut, rows = [], []
    for row in elements(text):
        if rows and row.spelled.lower() in OPENING:
            cut.append(Piece(rows))
            rows = []
        rows.append(row)
        if row.spelled == b';':
            cut.append(Piece(rows))
            rows = []
    return cut + [Piece(rows)] * bool(rows)


class Pair:
    """Two texts that differ inside one line, as the third demand speaks of them."""

    def __init__(self, old, new, line):
        self.line = line
        self.sides = pieces(old), pieces(new)
        self.at = [{piece.rows: number for number, piece in enumerate(side)} for side in self.sides]
        self.common = {rows for rows in self.at[0].keys() & self.at[1].keys() if all(row.line != line for row in rows)}
        self.first = {piece.claim: number for number, piece in reversed(list(enumerate(self.sides[0])))}  # the first claims
        self.foreign = {piece.claim for side in self.sides for piece in side if piece.rows not in self.common}

    def items(self):
        """The items "made of the same elements, none of that line, in both texts", with their piece numbers."""
        for number, piece in enumerate(self.sides[0]):
            if piece.rows in self.common and piece.is_item():
                yield piece, number, self.at[1][piece.rows]

    def failing(self, piece):
        """Which parts of the premise fail: its own name, one it uses directly or one through other items is "claimed in
        either text by a piece not common to both"."""
        parts = {'own': {piece.claim} - {None}, 'direct': piece.uses, 'through': self.through(piece)}
        return {part for part, names in parts.items() if names & self.foreign}

    def through(self, piece):
        """The names that a piece uses through other items of the old text. A name leads to the item that it resolves to: the
        first that claims it, if that stands above its user, as names resolve upward only."""
        side, start, found = self.sides[0], self.at[0][piece.rows], set()
        reached = {start}
        for place in range(start, -1, -1):
            if place in reached:
                used = side[place].uses
                found |= used if place < start else set()
                reached |= {self.first[name] for name in used if self.first.get(name, place) < place}
        return found

    def always_common(self):
        """The pieces of both texts closed by a semicolon above the line, or opened below it by constant, subtype or end."""
        for side in self.sides:
            for piece in side:
                closed_above = piece.rows[-1].spelled == b';' and piece.rows[-1].line < self.line
                opened_below = piece.signs[0] in OPENING and piece.rows[0].line > self.line
                if closed_above or opened_below:
                    yield piece
