"""Prints the names that an archive of x86-64 objects needs from outside, one to a line: those that its objects use, weakly or not, and none of them has.

    tests/outside.py ARCHIVE"""
import pathlib
import struct
import sys

SYMBOLS = 2  # the type of a section that has an object's symbols


def members(archive):
    """The objects of an archive; its own tables begin with a stroke."""
    place = 8
    while place < len(archive):
        name, size = archive[place : place + 16], int(archive[place + 48 : place + 58])
        if not name.startswith((b'/ ', b'// ', b'/SYM64/')):
            yield archive[place + 60 : place + 60 + size]
        place += 60 + size + size % 2


def symbols(data):
    """The names of an object, each with whether it stands there."""
    first, (width, count) = struct.unpack_from('<Q', data, 40)[0], struct.unpack_from('<HH', data, 58)
    sections = [struct.unpack_from('<IIQQQQII', data, first + width * number) for number in range(count)]
    for _, kind, _, _, start, size, strings, _ in sections:
        for at in range(start, start + size, 24) if kind == SYMBOLS else ():
            name, _, _, section = struct.unpack_from('<IBBH', data, at)
            begin = sections[strings][4] + name
            yield data[begin : data.index(b'\0', begin)].decode(), section != 0


def main():
    archive = pathlib.Path(sys.argv[1]).read_bytes()
    if not archive.startswith(b'!<arch>\n'):
        sys.exit(f'{sys.argv[1]} is no archive')
    found = [symbol for data in members(archive) for symbol in symbols(data)]
    print(*sorted({name for name, _ in found if name} - {name for name, there in found if there}), sep='\n')


main()
