"""What each program has to print and to say for an input. The output is walked beside the input's lines: a name may hold any byte and is given back as it is,
so only the input says where an answer ends. Where a text is accepted, every line that verlist, why and trial_desk print is asked for exactly, but for the
refusal of an edit, of which only the number is one of some: deciding.py has the book, and the line that decides over a name. Of matchlist and of the programs
that replay, how many answers there are, what each gives back and every number that the input alone decides are asked for; whether a match is the right one is
not: that is proved. All of standard error is asked for exactly, but for the place of what is refused."""
import re

import deciding
import places

LIMIT = 65536        # bytes of an input
NAME_LIMIT = 4096    # bytes of a name or of a wanted version

# crates/meanings
MEANINGS = {
    1: b'a text, a token or a name is too long',
    2: b'nothing that may stand here, or bytes behind the end',
    3: b'a comment that is not closed, or an extern block without its `}`',
    4: b'extern of another language than C or C++, or within an extern block',
    5: b'a pattern that is not UTF-8',
    6: b'a bracket that is not closed',
    7: b'a parent that no earlier node is',
    8: b'no room is left',
    9: b'a name that is not UTF-8',
    10: b'a version that no node has',
    11: b'no such node, section, language or standing line',
    12: b'no edit is left to undo',
    13: b'a book of this kind does not answer that',
}
KNOWN_COMMANDS = (b'trial_desk: known are add NODE SECTION LANGUAGE TOKEN, strike LINE, undo, settle, symbol TEXT, symbol! TEXT, '
                  b'ask NAME[@VERSION][<TAB>DEMANGLED], why NAME[@VERSION][<TAB>DEMANGLED], counts, lines and dump\n')
KNOWN_ARGUMENT = b'trial_desk: the one argument that is known is export, for an export list\n'
NO_FILE = b'cases.txt: No such file or directory\n'

NUMBER = rb'(\d{1,10})'


class Fault(Exception):
    """What is wrong with a run."""


class Printed:
    """What a program printed, and the place up to which it was walked."""

    def __init__(self, whole):
        self.whole, self.at = whole, 0

    def skip(self, text):
        """Goes past this text; says whether it comes next."""
        comes = self.whole.startswith(text, self.at)
        self.at += len(text) if comes else 0
        return comes

    def maybe(self, shape):
        """Goes past a line of this shape, where one comes next."""
        found = re.compile(rb'(?:%s)\n' % shape).match(self.whole, self.at)
        self.at = found.end() if found else self.at
        return found

    def line(self, shape):
        """Goes past a line of this shape, which has to come next."""
        found = self.maybe(shape)
        if not found:
            raise Fault(f'at byte {self.at} of the output {self.whole[self.at:self.at + 60]!r}, in place of {shape.decode()}')
        return found

    def answer(self, name, shape):
        """Goes past a line that gives the name back, and has this shape behind it."""
        if not self.skip(name + b' '):
            raise Fault(f'at byte {self.at} of the output {self.whole[self.at:self.at + 60]!r}, in place of an answer for {name[:60]!r}')
        self.line(shape)

    def exactly(self, line):
        """Goes past this line, which has to come next."""
        if not self.skip(line + b'\n'):
            raise Fault(f'at byte {self.at} of the output {self.whole[self.at:self.at + 160]!r}, in place of {line[:160]!r}')

    def end(self):
        if self.at < len(self.whole):
            raise Fault(f'behind the last answer, at byte {self.at} of the output, {self.whole[self.at:self.at + 60]!r}')


def lines_of(text):
    """The lines of a text; a last line feed may lack."""
    lines = text.split(b'\n')
    return lines if lines[-1] else lines[:-1]


def parts(given):
    """The text before the first line `%%`, and the lines behind it."""
    mark = re.search(rb'(?m)^%%$', given)
    return (given[:mark.start()], lines_of(given[mark.end() + 1:])) if mark else (given, [])


def is_utf8(name):
    try:
        name.decode()
    except UnicodeDecodeError:
        return False
    return True


def refused(printed, given, numbers):
    """The number of an input that is refused, 0 where it is not. `refused N` stands alone. An input over its limit is refused with 1."""
    found = re.fullmatch(rb'refused %s\n' % NUMBER, printed.whole)
    number = int(found[1]) if found else 0
    if number not in ({1} if len(given) > LIMIT else numbers):
        raise Fault(f'an input of {len(given)} bytes is answered by {printed.whole[:60]!r}')
    return number


def say(errors, wanted):
    """Standard error has to be this."""
    if errors != wanted:
        raise Fault(f'on standard error {errors[:200]!r}, in place of {wanted[:200]!r}')


def say_place(program, number, text, errors):
    """Standard error has to name a place of the text and what the number means."""
    found = re.fullmatch(rb'%s: line %s, column %s: %s\n' % (program, NUMBER, NUMBER, re.escape(MEANINGS[number])), errors)
    lines = text.split(b'\n')
    line, column = (int(found[1]), int(found[2])) if found else (0, 0)
    if not 1 <= line <= len(lines) or not 1 <= column <= len(lines[line - 1]) + 1:
        raise Fault(f'refused with {number}, and on standard error {errors[:200]!r}')


def verdicts(text, run):
    """What may come of a text, 0 where it is accepted. Without a body or a comment only blanks are, and only as a script; 6 is for a bracket alone."""
    if run.verdict is not None:
        return {run.verdict}
    if not set(text) & set(b'{#/'):
        return {2} if run.words or text.strip(b' \t\r\n') else {0}
    return {0, 2, 3, 4, 5, 8} | (set() if run.words else {7}) | ({6} if b'[' in text else set())


def refused_text(program, run, printed, errors):
    """Whether the text before the line `%%` is refused. An input over its limit is refused at its first byte."""
    text = parts(run.given)[0]
    number = refused(printed, run.given, verdicts(text, run))
    if number:
        say_place(program, number, b'' if number == 1 else text, errors)
    return number != 0


def taken(read, *given):
    """What the account reads of what a program has accepted."""
    try:
        return read(*given)
    except places.Unread as wrong:
        raise Fault(f'it is accepted, and {wrong}') from None


class Asked:
    """What a symbol's line asks of a book. The first `@` splits the name from the wanted version, of which an export list is asked nothing. Before that, where
    the program knows TABs, the first one splits off the demangled name; without one that is the name again."""

    def __init__(self, book, line, tabs=True):
        symbol, tab, demangled = line.partition(b'\t') if tabs else (line, b'', b'')
        self.name, at, wanted = symbol.partition(b'@')
        self.book = book
        self.demangled = demangled if tab else self.name
        self.wanted = wanted if at and book.kind != deciding.EXPORT_LIST else None

    def by_version(self):
        """Whether the wanted version decides."""
        return self.wanted is not None and self.book.kind == deciding.REGULAR

    def refusal(self):
        """The number that refuses it, 0 where none does. No input has a demangled name over its limit."""
        if max(len(self.name), len(self.wanted or b'')) > NAME_LIMIT:
            return 1
        if not is_utf8(self.name) or not is_utf8(self.demangled):
            return 9
        return 10 if self.by_version() and self.book.wanted(self.wanted) is None else 0

    def answer(self, fields):
        """The line that is printed: the name, and the fields or the number that refuses them."""
        number = self.refusal()
        return self.name + b' ' + (b'! %d' % number if number else fields())

    def line(self):
        """The number of the line that decides, and the line; None for both where none matches."""
        number = self.book.deciding(self.name, self.demangled)
        return number, None if number is None else self.book.lines[number]

    def version_and_locality(self):
        _, line = self.line()
        index = 0 if line is None or line.node == 0 else 1 + line.node
        if self.by_version():
            index = self.book.wanted(self.wanted)
        return (b'%d' % index if index else b'-') + (b' -' if line is None else b' L' if line.section else b' G')

    def membership(self):
        return b'out' if self.line()[1] is None else b'in'

    def why(self):
        if self.by_version():
            return b'wanted version'
        number, line = self.line()
        if line is None:
            return b'no line'
        told = b'line %d class %s node %d (%s) section %s language %s offset %d' % (
            number, deciding.CLASSES[line.kind], line.node, self.book.nodes[line.node], b'local' if line.section else b'global',
            b'C++' if line.language else b'general', line.offset)
        if line.offset == 0:
            return told
        before = self.book.text[:line.offset - 1]
        return told + b' at %d:%d' % (before.count(b'\n') + 1, len(before) - before.rfind(b'\n'))


def verlist(run, printed, errors):
    if refused_text(b'verlist', run, printed, errors):
        return
    text, lines = parts(run.given)
    book = taken(deciding.Book, text, False)
    printed.exactly(b'nodes %d parents %d' % book.versions())
    for line in lines:
        asked = Asked(book, line, tabs=False)
        printed.exactly(asked.answer(asked.version_and_locality))
    printed.end()
    say(errors, b'')


def why(run, printed, errors):
    if refused_text(b'why', run, printed, errors):
        return
    text, lines = parts(run.given)
    book = taken(deciding.Book, text, False)
    for line in lines:
        asked = Asked(book, line)
        printed.exactly(asked.answer(asked.why))
    printed.end()
    say(errors, b'')


def matchlist(run, printed, errors):
    token, _, names = run.given.partition(b'\n')
    glob = {0} if is_utf8(token) else {0, 5}
    number = refused(printed, run.given, glob | ({6} if b'[' in token else set()) if set(token) & set(b'*?[]') else {0})
    if number:
        return say(errors, b'matchlist: %s\n' % MEANINGS[number])
    found = printed.line(rb'(?:Exact|Escaped|NonStar|(Star)) ([^\n]{0,%d})|All ' % len(token))
    if found[1] and b'[' not in token and found[2] != re.sub(rb'\*+', b'*', token):
        raise Fault(f'{token[:60]!r} is kept as {found[2][:60]!r}')
    for name in lines_of(names):
        printed.answer(name, b'yes|no' if is_utf8(name) else b'! 9')
    printed.end()
    say(errors, b'')


def number_of(digits):
    """The number of decimal digits, None from 2^32 on."""
    digits = digits.lstrip(b'0') or b'0'
    return int(digits) if len(digits) <= 10 and int(digits) < 2**32 else None


class Desk:
    """A walk over the commands of trial_desk: the book that they leave, and what was said on standard error."""

    def __init__(self, book, printed):
        self.book, self.printed, self.said = book, printed, []
        self.export = book.kind == deciding.EXPORT_LIST
        self.edits = []        # those that can be undone: 1 for an add and 2 for a strike, and the line's number

    def refused(self, numbers):
        """Goes past `! N`, with one of these numbers, where it comes next."""
        found = self.printed.maybe(rb'! (%s)' % numbers)
        if found:
            self.said.append(b'trial_desk: %s\n' % MEANINGS[int(found[1])])
        return found

    def must_refuse(self, number):
        if not self.refused(number):
            raise Fault(f'{self.printed.whole[self.printed.at:self.printed.at + 60]!r}, in place of ! {number.decode()}')

    def append(self, line):
        self.edits.append((1, len(self.book.lines)))
        self.book.lines.append(line)

    def add(self, node, section, language, token):
        if self.refused(b'5|6|8|11|13'):
            return
        self.printed.exactly(b'added %d' % len(self.book.lines))
        token = places.Token(0, places.trimmed(token), node, section, language, False)
        self.append(taken(deciding.line_of, token, 0))

    def strike(self, line):
        if self.refused(b'8|11|13'):
            return
        self.printed.exactly(b'struck %d' % line)
        if line >= len(self.book.lines) or self.book.lines[line].struck:
            raise Fault(f'line {line} is struck, which does not stand')
        self.book.lines[line].struck = True
        self.edits.append((2, line))

    def undo(self):
        if not self.edits:
            return self.must_refuse(b'12')
        self.printed.exactly(b'undone')
        what, line = self.edits.pop()
        if what == 2:
            self.book.lines[line].struck = False
        else:
            self.book.lines.pop()

    def settle(self):
        standing = [line for line in self.book.lines if not line.struck]
        self.printed.exactly(b'settled %d' % len(standing))
        if len(standing) < len(self.book.lines):
            self.book.lines, self.edits = standing, []

    def symbol(self, text, without_semicolon):
        if not self.export:
            return self.must_refuse(b'13')
        if self.refused(b'2|3|4|5|6|8'):
            return
        tokens = taken(places.symbol, text, without_semicolon)
        self.printed.exactly(b'added %d' % len(tokens))
        for token in tokens:
            self.append(taken(deciding.line_of, token, 0))

    def ask(self, line):
        asked = Asked(self.book, line)
        self.printed.exactly(asked.answer(asked.membership if self.export else asked.version_and_locality))

    def why(self, line):
        asked = Asked(self.book, line)
        self.printed.exactly(asked.answer(asked.why))

    def counts(self):
        book = self.book
        self.printed.exactly(b'kind %d nodes %d names %d lines %d pool %d edits %d' % (
            book.kind, len(book.nodes), len(b''.join(book.nodes)), len(book.lines), sum(len(line.kept) for line in book.lines), len(self.edits)))

    def lines(self):
        for k, line in enumerate(self.book.lines):
            fields = k, line.node, line.kind, line.section, line.language, line.struck, len(line.kept), line.offset, line.kept
            self.printed.exactly(b'%d %d %d %d %d %d %d %d %s' % fields)

    def dump(self):
        """What the buffers hold, each as a line of numbers."""
        book, nodes, lines, names, pool = self.book, [], [], b'', b''
        for name, parent in zip(book.nodes, book.parents):
            nodes += [len(names), len(name), parent]
            names += name
        for line in book.lines:
            lines += [line.node, 4 * line.kind + 2 * line.section + line.language + 32 * line.struck, len(pool), len(line.kept), line.offset]
            pool += line.kept
        journal = [number for edit in self.edits for number in edit]
        for word, numbers in (b'nodes', nodes), (b'names', names), (b'lines', lines), (b'pool', pool), (b'journal', journal):
            self.printed.exactly(b' '.join([word, *(b'%d' % number for number in numbers)]))

    def unknown(self):
        self.printed.line(rb'\?')
        self.said.append(KNOWN_COMMANDS)

    WORDS = {b'undo': undo, b'settle': settle, b'counts': counts, b'lines': lines, b'dump': dump}

    def command(self, line):
        """Goes past what a line of the input prints."""
        add = re.match(rb'add (\d+) (\d+) (\d+) ', line)
        strike = re.fullmatch(rb'strike (\d+)', line)
        if add and None not in map(number_of, add.groups()):
            self.add(*map(number_of, add.groups()), line[add.end():])
        elif strike and number_of(strike[1]) is not None:
            self.strike(number_of(strike[1]))
        elif line.startswith((b'symbol ', b'symbol! ')):
            word, _, text = line.partition(b' ')
            self.symbol(text, word == b'symbol!')
        elif line.startswith(b'ask '):
            self.ask(line[4:])
        elif line.startswith(b'why '):
            self.why(line[4:])
        else:
            self.WORDS.get(line, Desk.unknown)(self)


def trial_desk(run, printed, errors):
    if run.words and run.words[0] != 'export':
        printed.end()
        return say(errors, KNOWN_ARGUMENT)
    if refused_text(b'trial_desk', run, printed, errors):
        return
    text, lines = parts(run.given)
    desk = Desk(taken(deciding.Book, text, bool(run.words)), printed)
    for line in lines:
        desk.command(line)
    printed.end()
    say(errors, b''.join(desk.said))


# ---- the programs that replay: how much of the file they read, and what a case begins with
ROOMS = {'replay_glob': 262144, 'replay_reading': 262144, 'replay_lookups': 262144, 'replay_verlist': 65536}
SIGNS = {'replay_glob': b'CUSM', 'replay_reading': b'R', 'replay_lookups': b'SVWLC'}

# the longest input or output of a case of replay_verlist, how many times it repeats a text at most, and how much of an output it shows
EXPANDED = 66000
MOST_TIMES = 100000
SHOWN = 400


def cases_of(program, data):
    """The cases of a file: the number of each one's line, and the lines that its answer depends on."""
    lines = lines_of(data[:ROOMS[program]])
    if program == 'replay_verlist':
        return [(k, case) for k, case in enumerate(zip(lines, [*lines[1:], b'']), 1) if case[0].startswith(b'<')]
    cases, text = [], b''
    for k, line in enumerate(lines, 1):
        if program == 'replay_lookups' and (k == 1 or line.startswith(b'S')):
            text = line
        cases.append((k, (text, line)))
    return cases


def is_case(program, case):
    """Whether a line has the sign of a case; one that has none is never the same."""
    if program == 'replay_verlist':
        return case[1].startswith(b'>')
    return case[1][:1] != b'' and case[1][:1] in SIGNS[program]


def times_at(line, at):
    """The decimal number at a place of a line: its digits up to the first that leads over the largest number."""
    number = 0
    while line[at:at + 1].isdigit() and number <= MOST_TIMES:
        number, at = number * 10 + line[at] - ord('0'), at + 1
    return number


def hex_value(digit):
    return max(b'0123456789abcdef'.find(digit), 0)


def expanded(line):
    """What a line of replay_verlist's file says behind its sign and a blank. The head of its main.rt has the signs."""
    text, start, times, at = bytearray(), 0, 1, 2
    while at < len(line):
        sign = line[at:at + 2]
        if sign == b'\\(':
            start, times = len(text), times_at(line, at + 2)
            at = line.find(b' ', at + 2) + 1 or len(line)
        elif sign == b'\\)':
            part, room = text[start:], EXPANDED - len(text)
            text += part * min(times - 1, room // max(len(part), 1) + 1)
            at += 2
        elif sign == b'\\x':
            text.append(16 * hex_value(line[at + 2:at + 3]) + hex_value(line[at + 3:at + 4]))
            at += 4
        elif sign[:1] == b'\\':
            text += {b'n': b'\n', b'r': b'\r', b't': b'\t', b'f': b'\f', b'': b'\0'}.get(sign[1:], sign[1:])
            at += 2
        else:
            text += sign[:1]
            at += 1
        del text[EXPANDED:]
    return bytes(text)


def skip_shown(printed, given):
    """Goes past the front of verlist's output for an input, which replay_verlist shows. Of an input that verlist would not read to its end it shows nothing."""
    end = printed.at + SHOWN
    if len(given) > LIMIT + 1 or printed.maybe(b'refused [2-8]' if len(given) <= LIMIT else b'refused 1'):
        return
    text, lines = parts(given)
    book = taken(deciding.Book, text, False)
    printed.exactly(b'nodes %d parents %d' % book.versions())
    for line in lines:
        if b'\n' not in printed.whole[printed.at:end]:
            printed.at = end
            return
        asked = Asked(book, line, tabs=False)
        printed.exactly(asked.answer(asked.version_and_locality))


def replay(program, run, real, printed, errors):
    """Each case is named or not, in their order; one that stands in the real file is the same. The counts behind them are those of the cases."""
    different = 0
    cases = cases_of(program, run.cases if isinstance(run.cases, bytes) else b'')
    for k, case in cases:
        if printed.skip(b'different: line %d\n' % k):
            different += 1
            if case in real:
                raise Fault(f'line {k} is different, and stands in data/cases.txt')
            if program == 'replay_verlist' and is_case(program, case):
                skip_shown(printed, expanded(case[0]))
        elif not is_case(program, case):
            raise Fault(f'line {k} is no case, and not named as different')
    printed.line(b'same %d different %d' % (len(cases) - different, different))
    printed.end()
    say(errors, NO_FILE if run.cases is None else b'')
