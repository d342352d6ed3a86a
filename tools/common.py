"""What tools/explain and tools/draw share: reading a sheet, its listing, lengths in words, writing the result."""
import math
import os
import re
import shlex
import struct
import subprocess
import sys
from collections import namedtuple
from decimal import ROUND_HALF_EVEN, Context, Decimal
from pathlib import Path

ROOT = Path(__file__).resolve().parent.parent
LONGEST = 1 << 20
REFUSED = 3
Names = namedtuple('Names', 'bodies parts coordinates pairs')
NO_NAMES = Names([], [], [], [])


class Failed(Exception):
    """What failed, in one line, and the status to end with: 1 for input or output, 2 for wrong words."""

    def __init__(self, message, status=1):
        super().__init__(message)
        self.status = status


# ---- Input and output ----

def run_tool(name, work):
    """Writes the text of a tool's work and ends with its status; a failure is one line on standard error."""
    try:
        if sys.stdout is None:
            raise Failed('standard output: closed')
        text, status = work(sys.argv[1:])
        write_out(text)
        sys.exit(status)
    except Failed as failed:
        say(f'{name}: {failed}')
        sys.exit(failed.status)
    except KeyboardInterrupt:
        sys.exit(130)


def say(line):
    """One line on standard error, if there is one."""
    try:
        os.write(2, (line + '\n').encode('utf-8', 'replace'))
    except OSError:
        pass


def write_out(text):
    """The text on standard output, in UTF-8 whatever the locale."""
    data = text.encode('utf-8', 'replace')
    try:
        while data:
            data = data[os.write(1, data):]
    except OSError as error:
        raise Failed(f'standard output: {error.strerror}') from None


def path_of(word):
    """The path that a word names; none, for standard input, where it is `-`."""
    return None if word == '-' else word


def bytes_of(path):
    """What a file holds, or standard input where there is no path, up to one byte past the longest."""
    if path is None and sys.stdin is None:
        raise Failed('standard input: closed')
    try:
        with open(path if path is not None else 0, 'rb', closefd=path is not None) as file:
            return file.read(LONGEST + 1)
    except (OSError, ValueError) as error:
        raise Failed(f'{shown_name(path)}: {getattr(error, "strerror", None) or error}') from None


def shown_name(path):
    """The name of the input in a message or a picture: its bytes as UTF-8 in any locale, printable, on one line."""
    if path is None:
        return 'standard input'
    name = os.fsencode(path).decode('utf-8', 'replace')
    return ''.join(c if c.isprintable() else '?' for c in name) or "''"


def read_input(path):
    """The bytes of a sheet; Failed where they can be none."""
    sheet = bytes_of(path)
    if not sheet.strip():
        raise Failed(f'{shown_name(path)}: empty')
    if len(sheet) > LONGEST:
        raise Failed(f'{shown_name(path)}: longer than {LONGEST:,} bytes')
    if is_binary(sheet):
        raise Failed(f'{shown_name(path)}: not a text')
    return sheet


def is_binary(sheet):
    """Whether the bytes are no text: a zero byte, or not UTF-8."""
    try:
        return '\0' in sheet.decode('utf-8')
    except UnicodeDecodeError:
        return True


# ---- Sheets ----

def is_text(sheet):
    """Whether it is a sheet text; the statements of a decimal sheet begin with small letters."""
    return bool(re.match(rb'[A-Z](,|\r?\n|$)', sheet))


def sheet_text(path, sheet):
    """The sheet text and its names: as it is and none, or turned from the decimal form."""
    if is_text(sheet):
        warn(check_lines(path, sheet))
        return sheet, NO_NAMES
    made = run_sheet('to-text', [], sheet)
    said = named_lines(made.stderr, 'standard input', path)
    if made.returncode:
        raise Failed(said[-1] if said else f'{shown_name(path)}: not a sheet')
    warn(said + [line for line in check_lines(path, sheet) if line not in said])
    return made.stdout, names_in(sheet.decode('utf-8-sig', 'replace'))


def run_sheet(command, words, sheet):
    """tools/sheet with a sheet as its standard input."""
    try:
        return subprocess.run([ROOT / 'tools/sheet', command, *words], input=sheet, capture_output=True, check=False)
    except OSError as error:
        raise Failed(f'tools/sheet: {error.strerror}') from None


def check_lines(path, sheet):
    """The warnings of `tools/sheet check`; none where it does not know that command or finds a fault."""
    made = run_sheet('check', ['/dev/stdin'], sheet)
    return [] if made.returncode else named_lines(made.stderr, '/dev/stdin', path)


def named_lines(said, stand_in, path):
    """Lines about an input with its own name in front."""
    lines = said.decode('utf-8', 'replace').splitlines()
    return [shown_name(path) + line[len(stand_in):] if line.startswith(stand_in + ':') else line for line in lines]


def warn(lines):
    for line in lines:
        say(line)


def names_in(sheet):
    """The names of bodies, parts, coordinates and pairs in a decimal sheet, by their numbers; '' for one without."""
    bodies, parts, coordinates, pairs = ['ground'], [], [], []
    for line in sheet.split('\n'):
        words = line.split('#')[0].split()
        given = words[1] if len(words) > 1 and words[1] != 'on' else ''
        if words[:1] == ['body']:
            bodies.append(given)
        if words[:1] == ['part']:
            parts.append(given)
        if words[:1] == ['coordinates']:
            coordinates = [word for word in words[1:] if not word.isdigit()]
        if words[:1] == ['pair']:
            pairs.append(given if len(words) > 2 else '')
    return Names(bodies, parts, coordinates, pairs)


def name_of(names, n, what):
    """A thing by its name and number, or by its number alone."""
    return f'{names[n]} ({what} {n})' if n < len(names) and names[n] else f'{what} {n}'


def named_number(names, n):
    """A number, with the name that it stands for where there is one."""
    return f'{n} ({names[n]})' if n < len(names) and names[n] else f'{n}'


# ---- Listings ----

def listing_of(command, path, text):
    """The listing of a sheet text, by ./readings or by another command that reads standard input."""
    try:
        words = shlex.split(command or '') or [str(ROOT / 'readings')]
        ran = subprocess.run(words, input=text, stdout=subprocess.PIPE, check=False)
    except (OSError, ValueError) as error:
        raise Failed(f'{shown_name(path)}: {command}: {getattr(error, "strerror", None) or error}') from None
    if ran.returncode not in (0, REFUSED):
        raise Failed(f'{shown_name(path)}: {words[0]} ended with status {ran.returncode}')
    return ran.stdout.decode('ascii', 'replace')


def number(field):
    """The double whose bits are sixteen hexadecimal digits."""
    if not re.fullmatch('[0-9a-f]{16}', field):
        raise ValueError(field)
    return struct.unpack('>d', bytes.fromhex(field))[0]


def first_smallest(gaps):
    """Where the first of the smallest gaps stands, a NaN in the first place staying; None of no gaps."""
    chosen = 0 if gaps else None
    for i, gap in enumerate(gaps):
        if gap < gaps[chosen]:
            chosen = i
    return chosen


# ---- Numbers in words ----

def plain(x):
    """A number in six digits, no zero with a sign."""
    return f'{x + 0.0:.6g}'


def rounded(x, shift, places):
    """x times ten to the shift, rounded from its exact value to so many decimals."""
    roomy = Context(prec=2000)
    return str(Decimal(x).scaleb(shift, roomy).quantize(Decimal(1).scaleb(-places), ROUND_HALF_EVEN, roomy))


def length(x):
    """A length in metres as millimetres with four decimals; below a tenth of one as micrometres with two."""
    if math.isnan(x):
        return 'NaN'
    if math.isinf(x):
        return 'infinite' if x > 0 else '-infinite'
    if x == 0:
        return '0 mm'
    if abs(x) < 5e-9:
        return 'almost 0 mm'
    if abs(x) < 1e-4:
        return f'{rounded(x, 6, 2)} \u00b5m'
    return f'{rounded(x, 3, 4)} mm' if abs(x) < 1e6 else f'{x:.4g} m'


def rate(joints, x):
    """What a coordinate does: for a hinge a degree, for a slide a millimetre, otherwise for its unit."""
    if joints == {'R'}:
        return f'{length(x * math.pi / 180)} a degree'
    return f'{plain(x)} mm a mm' if joints == {'P'} else f'{plain(x)} m a unit'
