"""What is read of an accepted text: a plain walk of document 01's grammar, which knows nothing of the library. It tells the nodes and the tokens, and where
each token starts. It asks no more than it needs to find the next token: what refuses a text, it may take."""
import re
from dataclasses import dataclass

SKIP = re.compile(rb'(?:[ \t\r\n]+|#[^\n]*\n|/(?=\*).*?\*/)*', re.DOTALL)
NAME = re.compile(rb'[^ (){}\n\t]+')


class Unread(Exception):
    """The walk cannot go on."""


@dataclass
class Token:
    """A token, and where it stands."""
    place: int
    token: bytes     # without the blanks behind it
    node: int
    section: int     # 1 is local
    language: int    # 1 is C++
    in_block: bool


class Walk:
    """A walk over a text: the names of the nodes, their parents, and the tokens that it has come past."""

    def __init__(self, text):
        self.text, self.at, self.tokens = text, 0, []
        self.nodes, self.parents = [b''], [0]
        self.section = 0
        self.global_blocks = 0    # extern blocks among the globals

    def skip(self):
        self.at = SKIP.match(self.text, self.at).end()

    def takes(self, word):
        """Goes past this word; says whether it comes next."""
        comes = self.text.startswith(word, self.at)
        self.at += len(word) if comes else 0
        return comes

    def must_take(self, *words):
        """Goes past the first of these words that comes next, and says which it is."""
        for word in words:
            if self.takes(word):
                return word
        raise Unread(f'no {words[0]!r} at byte {self.at}')

    def up_to(self, sign):
        found = self.text.find(sign, self.at)
        if found < 0:
            raise Unread(f'no {sign!r} behind byte {self.at}')
        self.at = found

    def script(self):
        self.skip()
        if self.text.startswith(b'{', self.at):
            self.body()
            self.must_take(b';')
            self.skip()
            return
        while self.at < len(self.text):
            name = NAME.match(self.text, self.at)
            if not name:
                raise Unread(f'no name at byte {self.at}')
            self.at = name.end()
            self.nodes.append(name[0])
            self.skip()
            self.body()
            start = self.at
            self.up_to(b';')
            self.parent(self.text[start:self.at])
            self.must_take(b';')
            self.skip()

    def parent(self, name):
        """The first earlier node of this name; none where the text is empty."""
        if name not in self.nodes[:-1]:
            raise Unread(f'no node {name[:60]!r} before byte {self.at}')
        self.parents.append(self.nodes.index(name))

    def body(self):
        self.section = 0
        self.must_take(b'{')
        self.skip()
        while not self.takes(b'}'):
            if self.takes(b'global:'):
                self.section = 0
            elif self.takes(b'local:'):
                self.section = 1
            else:
                self.matcher()
            self.skip()
        self.skip()

    def export_list(self):
        self.skip()
        self.must_take(b'{')
        self.skip()
        while not self.takes(b'};'):
            self.matcher()
            self.skip()
        self.skip()

    def matcher(self, without_semicolon=False):
        if self.takes(b'extern '):
            self.block()
        elif without_semicolon and b'}' not in self.text:
            self.tokens.append(Token(0, trimmed(self.text), 0, 0, 0, False))
        else:
            self.token(b'}' if without_semicolon else b';', 0, False)

    def block(self):
        language = int(self.must_take(b'"C++"', b'"C"') == b'"C++"')
        self.global_blocks += self.section == 0
        self.skip()
        self.must_take(b'{')
        self.skip()
        while not self.takes(b'};'):
            # the block is closed somewhere; a `;` that is the close's own does not end a token
            own = self.text.find(b';', self.at) > self.text.find(b'};', self.at)
            self.token(b'}' if own else b';', language, True)
            self.skip()
        self.skip()

    def token(self, sign, language, in_block):
        """A token up to a sign."""
        start = self.at
        self.up_to(sign)
        if self.at == start:
            raise Unread(f'no token at byte {self.at}')
        self.tokens.append(Token(start, trimmed(self.text[start:self.at]), len(self.nodes) - 1, self.section, language, in_block))
        self.skip()
        self.takes(b';')


def trimmed(token):
    return token.rstrip(b' \t\n\f\r')


def walk(text, export):
    """A walk over a script or an export list. It has to come to the text's end."""
    walked = Walk(text)
    walked.export_list() if export else walked.script()
    if walked.at < len(text):
        raise Unread(f'bytes are left at byte {walked.at}')
    return walked


def symbol(text, without_semicolon):
    """The tokens of what `add_symbol` is given: one matcher, and what is left is ignored."""
    walked = Walk(text)
    walked.matcher(without_semicolon)
    return walked.tokens
