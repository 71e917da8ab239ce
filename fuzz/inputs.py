"""What a stranger gives the programs: some runs that are the same for every seed, then random ones without end."""
import os
from dataclasses import dataclass

TOP = os.path.dirname(os.path.dirname(os.path.abspath(__file__)))
FOLDER = 'a folder'
# of standard input: closed, a folder, and the end of a file
NOTHING = ['<&-', '<.', '</dev/null']
# of an output: under these a run is made once more, and the other output has to be the same
REDIRECTIONS = {'>&-': 'stderr', '>/dev/full': 'stderr', '2>&-': 'stdout', '2>/dev/full': 'stdout'}

WORDS = [b'global:', b'local:', b'extern "C++" {', b'extern "C" {', b'extern ', b'{', b'}', b'};', b';', b'*', b'?', b'[', b']', b'[!a-z]', b'\\', b'"',
         b'haze_*', b'haze_month', b'V1', b'V2', b'#', b'\n', b' ', b'\t', b'\r', b'/*', b'*/', b'%%\n', b'\n%%\n', b'@', b'a', b'b', b'\xc3\xa9', b'\xff',
         b'\0', b'**', b'-', b'^']
# matchers and sections that every body may have
MATCHERS = [b'a;', b'b*;', b'*;', b'c?;', b'"d*";', b'e\\*;', b'[g-h];', b'h**;', b'**;', b'extern "C++" { f; };', b'extern "C" { g; *; };', b'/* c */ x;',
            b'# c\n y;', b'\xff;', b'a\0;', b'a\n b;', b'extern "C++" { f(*; "f(int)"; n?::f }; ', b'extern "C++" {};', b'a; a;', b'b?; [b]1;']
SECTIONS = [b'local: x;', b'local: *;', b'global: z;']
RUST_KINDS = [b'{ a; b1; local: *; };\n', b'{ x; "a"; a; local: b*; extern "C++" { *; };\n *; *; };\n']
TOKENS = [b'a', b'b*', b'*', b'c?', b'"d*"', b'e\\*', b'[g-h]', b'[', b'**', b'i**?***', b'[^**]**', b'', b'a ', b'\xff', b'\xff*', b'\0', b'a' * 4097]
# what stands behind a TAB is a demangled name for some programs, and part of the name for others
DEMANGLED = [b'\tf', b'\tf(int)', b'\tns::f', b'\t', b'\ta', b'\t\xff', b'\tf@V0', b'\tf\tf', b'\t \r', b'\t' + b'f' * 5000]
NAMES = [b'a', b'b1', b'a@V0', b'a@V1', b'a@V9', b'a@', b'@', b'@@V0', b'', b'x', b'\xff', b'\xc3\xa9', b'cc', b'd*', b'e*', b'g', b'a\r', b'a\0', b'2 G',
         b'! 9', b'a' * 4096, b'a' * 4097, b'a@' + b'V' * 4096, b'a@' + b'V' * 4097]
TEXTS = [b'a;', b'a', b'b*; c;', b'j**;', b'extern "C" { d; e; };', b'extern "C++" {};', b'extern "Ada" { d; };', b'[', b'\xff*;', b'#x', b'/*', b'', b' ',
         b'};']
BARE_COMMANDS = [b'undo', b'settle', b'counts', b'lines', b'dump']
BLUNDERS = [b'', b'?', b'nonsense', b'undo ', b' undo', b'UNDO', b'undo\r', b'undo\0', b'strike', b'strike ', b'strike -1', b'strike 1 ', b'add 0 0 0',
            b'add 1 0', b'add  0 0 0 x', b'symbol', b'symbol!', b'ask', b'%%', b'! 12', b'refused 2', b'strike 4294967296', b'strike ' + b'9' * 5000,
            b'add 4294967296 0 0 x', b'why', b'why\ta', b'Why a', b'ask\ta']
ODD_EDITS = [b'strike 4294967295', b'strike 000000000001', b'strike ' + b'0' * 5000 + b'1', b'add 9 0 0 x', b'add 1 2 0 x', b'add 1 0 2 x', b'add 00 00 00 x']


@dataclass
class Run:
    """What a program is started with."""
    given: bytes = b''      # on standard input
    words: tuple = ()       # arguments
    nothing: str = ''       # a redirection of standard input that has nothing to be read
    cases: object = None    # of a program that replays: the bytes of cases.txt, or FOLDER in its place; None where it is missing
    verdict: object = None  # of a text that is known: 0 where it is accepted, or the number that refuses it
    again: str = ''         # a redirection under which the run is made once more


def contents(*path):
    with open(os.path.join(TOP, *path), 'rb') as file:
        return file.read()


# ---- texts
def scrap(rng):
    """Bytes, one byte many times, long lines, or words that scripts have."""
    kind = rng.randrange(10)
    if kind == 0:
        return rng.randbytes(rng.choice([0, 1, 2, 10, 100, 1000, 65535, 65536, 65537, 70000]))
    if kind == 1:
        return bytes([rng.randrange(256)]) * rng.choice([1, 2, 100, 65535, 65536, 65537])
    if kind == 2:
        return b'V1 { global: ' + b'a' * rng.choice([4096, 4097, 60000, 65000]) + b'; };\n%%\n' + b'a' * rng.choice([1, 4095, 4096, 4097])
    return b''.join(rng.choice(WORDS) for _ in range(rng.randrange(60)))


def body(rng, matchers):
    return b'{ ' + b' '.join(rng.choice(matchers) for _ in range(rng.randrange(6))) + b' }'


def script(rng):
    """A script that is accepted."""
    kind = rng.randrange(8)
    if kind < 2:
        return rng.choice(RUST_KINDS) if kind else body(rng, MATCHERS + SECTIONS) + b';\n'
    return b''.join(b'V%d ' % k + body(rng, MATCHERS + SECTIONS) + (rng.choice([b'', b'V0', b' V0']) if k else b'') + b';\n' for k in range(rng.randrange(4)))


def name(rng):
    """A symbol's line, one in three with a demangled name."""
    return rng.choice(NAMES) + (b'' if rng.randrange(3) else rng.choice(DEMANGLED))


def command(rng):
    kind = rng.randrange(9)
    if kind == 0:
        return b'add %d %d %d ' % (rng.randrange(3), rng.randrange(2), rng.randrange(2)) + rng.choice(TOKENS)
    if kind == 1:
        return b'strike %d' % rng.choice([0, 0, 1, 1, 2, 3, 4, 5, 9, 99999])
    if kind == 2:
        return rng.choice([b'symbol ', b'symbol! ']) + rng.choice(TEXTS)
    if kind < 5:
        return rng.choice([b'ask ', b'why ']) + name(rng)
    return rng.choice(BARE_COMMANDS if kind < 8 else BLUNDERS + ODD_EDITS)


def orderly(rng, program, words):
    """A text that is accepted and lines behind it, or a token and names."""
    if program == 'matchlist':
        token = rng.choice(TOKENS) + rng.choice([b'', b'', rng.choice(TOKENS + WORDS)])
        return token + b'\n' + b'\n'.join(rng.choice([rng.choice(NAMES), scrap(rng)[:50]]) for _ in range(rng.randrange(9)))
    text = body(rng, MATCHERS) + b';\n' if words else script(rng)
    lines = [name(rng) for _ in range(rng.randrange(30))]
    if program == 'trial_desk':
        lines = [b'counts'] * rng.randrange(2) + [command(rng) for _ in range(rng.randrange(20))]
    return text + b'%%\n' + b'\n'.join(lines) + rng.choice([b'', b'\n'])


def mutated(rng, data):
    """The data with some parts of it cut, doubled or changed."""
    for _ in range(rng.randrange(1, 8)):
        start = rng.randrange(len(data) + 1)
        end = min(len(data), start + rng.choice([0, 1, 1, 2, 10, 100]))
        put = rng.choice([b'', bytes([rng.randrange(256)]), rng.choice(WORDS), data[start:end] * 2, rng.randbytes(3)])
        data = data[:start] + put + data[end:]
    return data[:rng.randrange(len(data) + 1)] if rng.randrange(8) == 0 else data


# ---- runs of the programs that read standard input
def modes(program):
    return [(), ('export',)] if program == 'trial_desk' else [()]


def sample(program, words):
    """An input that is accepted, with all commands of an export list, or the one that the gate runs."""
    if words:
        return (b'{ haze_*; };\n%%\nlines\nask main\nsymbol! main\nadd 0 0 1 b\nwhy main\nwhy x@V\tb\nstrike 0\nask main\ncounts\nundo\nwhy haze_\ndump\nundo\n'
                b'undo\nundo\nsettle\n?')
    return contents('crates', program, 'stdin')


def limits(program, words):
    """Inputs that reach a limit, and that pass it by one."""
    text = sample(program, words)
    for size in (65535, 65536, 65537):
        yield Run(text + b'\n' + b'a' * (size - len(text) - 1), words, verdict=0)
        yield Run(b'/*' + b' ' * (size - len(text) - 4) + b'*/' + text, words, verdict=0)
    if program == 'matchlist':
        return
    most, behind = (4096, b'%%\nlines\ndump\ncounts\nask a\n') if program == 'trial_desk' else (2048, b'%%\na\n')
    for n in (most, most + 1):
        yield Run((b'{' if words else b'V {') + b'a*;\n' * n + b'};\n' + behind, words, verdict=0 if n == most else 8)
    for n in (1023, 1024):
        yield Run(b''.join(b'V%d {};\n' % k for k in range(n)) + behind, words, verdict=2 if words else 0 if n == 1023 else 8)
    # a long name that is printed often
    yield Run(b'V' * 30000 + b' { a; };\n%%\n' + b'why a\na\n' * 100, words, verdict=2 if words else 0)
    yield Run(b'{ a; };\n%%\n' + b'add 0 0 0 a\n' * 1025 + b'counts\n', words, verdict=0)


def fixed(program):
    """In each mode no input, 64 KiB of each byte, the limits, other ends of lines, zero bytes, and outputs that take nothing; arguments that are not known."""
    for words in modes(program):
        text = sample(program, words)
        for nothing in NOTHING:
            yield Run(words=words, nothing=nothing)
        for given in (b'', *(bytes([b]) * 65536 for b in range(256))):
            yield Run(given, words)
        yield from limits(program, words)
        for given in (text.replace(b'\n', b'\r\n'), text.replace(b'\n', b'\r'), b'\0' + text, text.replace(b'a', b'\0'), text + b'\0'):
            yield Run(given, words)
        for again in REDIRECTIONS:
            yield Run(text, words, verdict=0, again=again)
            yield Run(words=words, nothing='<&-', again=again)
            for given in (b'\0' * 65537, b'V { [; };', b'\n%%\n?\nundo\n' + b'a' * 60000):
                yield Run(given, words, again=again)
    for word in ('exprot', '', 'Export', 'export ', 'exportexport', '-' * 5000) if program == 'trial_desk' else ():
        yield Run(sample(program, ()), (word,), again='>&-')
        yield Run(words=(word,), nothing='<&-')


def sometimes(rng):
    """A redirection, seldom."""
    return rng.choice(list(REDIRECTIONS)) if rng.randrange(50) == 0 else ''


def random_run(program, rng):
    words = rng.choice(modes(program))
    kind = rng.randrange(10)
    if kind < 3:
        return Run(scrap(rng), words, again=sometimes(rng))
    given = orderly(rng, program, words)
    if kind < 7:
        return Run(given, words, verdict=0, again=sometimes(rng))
    given = given.replace(b'\n', b'\r\n') if kind == 7 else mutated(rng, rng.choice([given, sample(program, words)]))
    return Run(given, words, again=sometimes(rng))


# ---- runs of the programs that replay a file
def fixed_replays(real, room):
    """A file that is missing, a folder, empty, the real one, or of one byte; longer than the program's buffer; fields and repeated texts of many lengths."""
    for cases in (None, FOLDER, b'', real, real * (room // len(real) + 1), b'a' * (room + 1), real.replace(b'\n', b'\r\n'), real.replace(b'\n', b'\0')):
        yield Run(real[:70000], cases=cases)
        for nothing in NOTHING:
            yield Run(nothing=nothing, cases=cases)
        for again in REDIRECTIONS:
            yield Run(cases=cases, again=again)
    for b in range(256):
        yield Run(cases=bytes([b]) * 65536)
    for n in (0, 1, 2, 63, 64, 65, 255, 256, 257, 400, 401, 499, 500, 501, 65536, 65537):
        fields = b'S 0 %s 0 0\nV %s 61 0\n' % (b'61' * n, b'61' * n)
        yield Run(cases=fields + b'< %s\n> refused 2\\n\n< %%%%\\n\\(%d a\0\\n\\)\n> \n' % (b'a' * n, n))


def starts(lines):
    """Where some lines of the real file may begin: with a text, where it has texts that questions are asked of."""
    return [k for k, line in enumerate(lines) if line[:4] in (b'S 0 ', b'S 1 ')] or range(len(lines))


def some_cases(rng, lines):
    """Some lines of the real file, as they are or changed, or none of it."""
    kind = rng.randrange(12)
    start = rng.choice(starts(lines))
    part = b'\n'.join(lines[start:start + rng.randrange(1, 15)]) + rng.choice([b'', b'\n'])
    if kind == 0:
        return rng.choice([None, FOLDER, b'', rng.randbytes(rng.choice([1, 100, 1000])), scrap(rng)])
    if kind == 1:
        return part + lines[start][4:] * rng.randrange(300)
    if kind == 2:
        return part.replace(b'\n', b'\r\n') if rng.randrange(20) else mutated(rng, b'\n'.join(lines))
    return mutated(rng, part) if kind < 10 else part


def random_replay(rng, lines):
    nothing = rng.choice([*NOTHING, '', '', ''])
    return Run(b'' if nothing else scrap(rng)[:100], nothing=nothing, cases=some_cases(rng, lines), again=sometimes(rng))


def runs(program, rng, room):
    """The runs of a program; of one that replays a file, with the size of its buffer."""
    if room is None:
        yield from fixed(program)
        while True:
            yield random_run(program, rng)
    real = contents('crates', program, 'data', 'cases.txt')
    yield from fixed_replays(real, room)
    lines = real.split(b'\n')
    while True:
        yield random_replay(rng, lines)
