"""Which line decides over a name: document 01's classes, patterns and ranking, with document 02's requests 01 and 03, written out plainly. It knows nothing of
the library, and asks no more of a text or a token than that it was accepted."""
import functools
from dataclasses import dataclass

import places

EXACT, ESCAPED, NON_STAR, STAR, ALL = range(5)
CLASSES = [b'Exact', b'Escaped', b'NonStar', b'Star', b'All']
REGULAR, RUST, EXPORT_LIST = range(3)


# ---- classes and patterns
def scanned(token):
    """The class of a token without quotes that is more than a star."""
    kind, at = EXACT, 0
    while at < len(token):
        sign = token[at:at + 1]
        if sign == b'*':
            return STAR
        if sign in b'[]?':
            kind = NON_STAR
        if sign == b'\\':
            kind = ESCAPED if kind == EXACT else kind
            at += 1
        at += 1
    return kind


def unescaped(token):
    kept, at = bytearray(), 0
    while at < len(token):
        at += token[at:at + 1] == b'\\' and at + 1 < len(token)
        kept.append(token[at])
        at += 1
    return bytes(kept)


def elements(text):
    """The elements of a glob, as they are spelled."""
    found, at = [], 0
    while at < len(text):
        end = at + 1
        if text[at] == '[':
            # the first character behind `[` or `[!` never closes
            first = at + 1 + text.startswith('!', at + 1)
            end = text.find(']', first + 1) + 1
            if end == 0:
                raise places.Unread(f'a bracket of {text[:60]!r} is not closed')
        found.append(text[at:end])
        at = end
    return found


def classed(token):
    """The class and the kept bytes of a trimmed token."""
    if len(token) > 1 and token.startswith(b'"') and token.endswith(b'"'):
        return EXACT, token[1:-1]
    if token == b'*':
        return ALL, b''
    kind = scanned(token)
    if kind < NON_STAR:
        return kind, unescaped(token) if kind == ESCAPED else token
    try:
        text = token.decode()
    except UnicodeDecodeError:
        raise places.Unread(f'the glob {token[:60]!r} is not UTF-8') from None
    kept = []
    for element in elements(text.replace('[^', '[!')):
        if element != '*' or kept[-1:] != ['*']:
            kept.append(element)
    return kind, ''.join(kept).encode()


def takes(element, sign):
    """Whether an element that is no star takes a character."""
    if element == '?' or not element.startswith('['):
        return element in ('?', sign)
    out = element.startswith('!', 1)
    members, at = element[1 + out:-1], 0
    while at < len(members):
        if members[at + 1:at + 2] == '-' and at + 2 < len(members):
            if members[at] <= sign <= members[at + 2]:
                return not out
            at += 2
        elif members[at] == sign:
            return not out
        at += 1
    return out


@functools.lru_cache(maxsize=4096)
def elements_kept(kept):
    return elements(kept.decode())


def matches(kept, name):
    """Whether a kept glob matches a name, by all places of the glob that can be reached."""
    glob = elements_kept(kept)

    def past_stars(reached):
        for at in list(reached):
            while glob[at:at + 1] == ['*']:
                at += 1
                reached.add(at)
        return reached

    reached = past_stars({0})
    for sign in name.decode():
        if not reached:
            return False
        reached = past_stars({at + (glob[at] != '*') for at in reached if at < len(glob) and (glob[at] == '*' or takes(glob[at], sign))})
    return len(glob) in reached


# ---- books
@dataclass
class Line:
    node: int
    kind: int        # its class
    section: int
    language: int
    kept: bytes
    offset: int = 0
    struck: bool = False

    def matches(self, raw, demangled):
        name = demangled if self.language else raw
        if self.kind in (EXACT, ESCAPED):
            return self.kept == name
        return self.kind == ALL or matches(self.kept, name)


def line_of(token, offset):
    kind, kept = classed(token.token)
    return Line(token.node, kind, token.section, token.language, kept, offset)


class Book:
    """The book that an accepted text is opened as."""

    def __init__(self, text, export):
        walk = places.walk(text, export)
        self.text, self.nodes, self.parents = text, walk.nodes, walk.parents
        self.lines = [line_of(token, token.place + 1) for token in walk.tokens]
        pairs = list(zip(walk.tokens, self.lines))
        star = any(line.kind == ALL and line.section and not token.in_block for token, line in pairs)
        listed = all(line.section or line.kind == EXACT for line in self.lines) and not walk.global_blocks
        self.kind = EXPORT_LIST if export else RUST if star and listed and len(self.nodes) == 1 else REGULAR

    def versions(self):
        """The counts of versions and of parents."""
        return (len(self.nodes) if len(self.nodes) > 1 else 0), sum(parent > 0 for parent in self.parents)

    def wanted(self, version):
        """The index of a wanted version, None where no node has this name: the last node's."""
        if not version:
            return 1
        return max((1 + k for k, name in enumerate(self.nodes) if name == version), default=None)

    def deciding(self, raw, demangled):
        """The number of the line that decides, None where none matches."""
        if self.kind == RUST:
            listed = [k for k, line in enumerate(self.lines) if not line.section and line.kept == raw]
            stars = [k for k, line in enumerate(self.lines) if line.section and not line.language and line.kind == ALL]
            return (listed + stars)[0]
        matching = [k for k, line in enumerate(self.lines) if not line.struck and line.matches(raw, demangled)]
        by_bytes = [k for k in matching if self.lines[k].kind in (EXACT, ESCAPED)]

        def upward(k):
            line = self.lines[k]
            return line.node, line.language, line.section, k

        def downward(k):
            line = self.lines[k]
            return line.kind, -line.node, line.section, k

        return min(by_bytes, key=upward) if by_bytes else min(matching, key=downward, default=None)
