"""What the test scripts share: where the programs stand, how one is run, how a failure is shown, how a script ends.

BIN names a folder of programs that take the place of those that rt built (crates/NAME/out/NAME), RUN the words before a program (tools/run64 run; empty
for one that runs as it is)."""
import os
import pathlib
import shlex
import subprocess
import sys
import typing

os.chdir(pathlib.Path(__file__).resolve().parent.parent)
BIN = os.environ.get('BIN', '')
RUN = shlex.split(os.environ.get('RUN', 'tools/run64 run'))


def built(path):
    """The path of a program; the script ends where it isn't there."""
    if not os.path.exists(path):
        print(f'{path} is not built', '0 passed, 1 failed', sep='\n')
        sys.exit(1)
    return path


def program_file(name):
    """The file of a program which rt proved and built."""
    return built(f'{BIN}/{name}' if BIN else f'crates/{name}/out/{name}')


def proved(program):
    """The words that start a program which rt proved and built."""
    return RUN + [program_file(program)]


def second(job):
    """The words that start the second program on a job."""
    return [built('target/second'), job]


class Run(typing.NamedTuple):
    """What a run printed, what it said on standard error, and how it ended: its status, or the signal, below 0, that ended it."""

    printed: bytes
    said: bytes
    status: int

    def complaint(self):
        """What is wrong with the run, whatever it printed: an ending other than a good one, or anything on standard error."""
        ended = b'' if self.status == 0 else b'it ended with status %d\n' % self.status
        if self.status < 0:
            ended = b'it was ended by signal %d\n' % -self.status
        return ended + self.said

    def complaints(self):
        """The same as lines to show: one, or none."""
        return [f'  it complained: {shown(self.complaint())}'] if self.complaint() else []


def run(words, text=b'', seconds=120):
    """One run on a text."""
    try:
        done = subprocess.run(words, input=text, capture_output=True, timeout=seconds)
        return Run(done.stdout, done.stderr, done.returncode)
    except subprocess.TimeoutExpired:
        return Run(b'', b'no end within %d s\n' % seconds, -9)


def output(words, text=b'', seconds=120):
    """What a run that must go well printed; the script ends where it does not."""
    done = run(words, text, seconds)
    if done.complaint():
        print(f'{shlex.join(words)}: {shown(done.complaint())}', '0 passed, 1 failed', sep='\n')
        sys.exit(1)
    return done.printed


def shown(data, most=300):
    """Bytes in a printable form."""
    return repr(data[:most])[1:] + (f' and so on, {len(data)} bytes' if len(data) > most else '')


def differences(expected, printed, sides=('expected', 'printed'), most=12):
    """The first lines in which two outputs differ, in words."""
    outputs = expected.split(b'\n'), printed.split(b'\n')
    lines = []
    for number in range(max(map(len, outputs))):
        one, other = (shown(output[number]) if number < len(output) else 'no such line' for output in outputs)
        if one != other:
            lines.append(f'  line {number + 1}: {sides[0]} {one}, {sides[1]} {other}')
    return lines[:most] + ([f'  and {len(lines) - most} lines more'] if len(lines) > most else [])


def cases(stream):
    """The cases of a stream for the batch programs (second/main.rs says how one is written), each with its head, whose last
    three bytes are the length of the text."""
    place = 0
    while place < len(stream):
        end = place + 10 + int.from_bytes(stream[place + 7 : place + 10], 'big')
        yield stream[place:end]
        place = end


def case(mode, text, element_rows=8_192, other_rows=1_024):
    """A text as such a case."""
    return mode + b''.join(number.to_bytes(3, 'big') for number in (element_rows, other_rows, len(text))) + text


def answers(printed):
    """What was printed of each case, a line with a single point after each."""
    return printed.split(b'\n.\n')[:-1]


class Tally:
    """Counts the tests of a script and prints each failure; with STOP set, the first one ends the script."""

    def __init__(self):
        self.passed = self.failed = 0

    def test(self, holds, *lines):
        if holds:
            self.passed += 1
        else:
            self.failed += 1
            print(*lines, sep='\n', flush=True)
            if os.environ.get('STOP'):
                self.close()

    def close(self):
        print(f'{self.passed} passed, {self.failed} failed')
        sys.exit(0 if self.passed and not self.failed else 1)
