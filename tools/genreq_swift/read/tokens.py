"""The tokens of a Swift source, read one at a time from any place, and quick ways past what is not looked at."""
import bisect
from enum import Enum
import re
from typing import Callable, Dict, List, NamedTuple, Optional, cast

from .model import Place

# Where a pattern that fits everywhere fits.
Always = Callable[[str, int], "re.Match[str]"]

# What may begin and what may go on in an identifier, by the grammar of Swift.
_HEAD = (
    "A-Za-z_\u00a8\u00aa\u00ad\u00af\u00b2-\u00b5\u00b7-\u00ba\u00bc-\u00be\u00c0-\u00d6\u00d8-\u00f6\u00f8-\u02ff\u0370-\u167f\u1681-\u180d"
    "\u180f-\u1dbf\u1e00-\u1fff\u200b-\u200d\u202a-\u202e\u203f-\u2040\u2054\u2060-\u20cf\u2100-\u218f\u2460-\u24ff\u2776-\u2793\u2c00-\u2dff"
    "\u2e80-\u2fff\u3004-\u3007\u3021-\u302f\u3031-\u303f\u3040-\ud7ff\uf900-\ufd3d\ufd40-\ufdcf\ufdf0-\ufe1f\ufe30-\ufe44\ufe47-\ufffd"
    "\U00010000-\U000efffd"
)
_TAIL = _HEAD + "0-9\u0300-\u036f\u1dc0-\u1dff\u20d0-\u20ff\ufe20-\ufe2f"
_NUMBER = r"0[xX][0-9a-fA-F_]+(?:\.[0-9a-fA-F_]+)?(?:[pP][+-]?[0-9_]+)?|0[bo][0-7_]+|[0-9][0-9_]*(?:\.[0-9][0-9_]*)?(?:[eE][+-]?[0-9_]+)?"
_TOKEN = re.compile(
    r"([%s][%s]*|\$[%s]+)|(`[^`\n]+`)|(%s)|(#[A-Za-z_]\w*)|(->|==|\.\.[.<]|.)" % (_HEAD, _TAIL, _TAIL, _NUMBER), re.DOTALL
)
_SPACE = cast(Always, re.compile(r"(?:[\s\x00\ufeff]+|//[^\n\r]*)*").match)
_OPERATOR = re.compile(r"[^\s\w(){}\[\],;:@#\"'`\\$]+")
_COMMENT_MARK = re.compile(r"/\*|\*/")
_QUOTE = cast(Always, re.compile(r'#*"""|#*"').match)  # where a string begins
_PLAIN_STRING = re.compile(r'"(?:[^"\\\n\r]|\\[^(\n\r])*"')
_LINE_REST = cast(Always, re.compile(r"[^\n\r]*").match)
_REGEX = re.compile(r"/(?![ \t*/)])(?:\\.|[^\\\n\r/])*(?<![ \t])/")
_BRACE = re.compile(r"[{}\"#/`]")
_BRACKET = re.compile(r"[{}()\[\]\"#/`]")
_DIRECTIVE = re.compile(r"[\"/`]|#(?:if|elseif|else|endif)\b|#")
_QUOTED_NAME = re.compile(r"`[^`\n\r]+`")


class TokenKind(Enum):
    """What a token is."""

    NAME = 1
    QUOTED = 2  # a name in backticks, which is no keyword; its text is without them
    NUMBER = 3
    DIRECTIVE = 4  # `#` and a word
    MARK = 5
    LITERAL = 6  # a string or a regular expression
    END = 7


_IN_GROUPS = (TokenKind.NAME, TokenKind.QUOTED, TokenKind.NUMBER, TokenKind.DIRECTIVE, TokenKind.MARK)
_KINDS: Dict[Optional[int], TokenKind] = dict(enumerate(_IN_GROUPS, 1))
_MARK, _LITERAL, _QUOTED = TokenKind.MARK, TokenKind.LITERAL, TokenKind.QUOTED


class Token(NamedTuple):
    """A token, the places at which it begins and ends, and what stands in front of it."""

    kind: TokenKind
    text: str
    start: int
    end: int
    after_line: bool  # a line break
    after_space: bool  # white space or a comment


class SourceError(Exception):
    """A source that cannot be read: what is wrong, and where."""

    def __init__(self, message: str, place: Optional[Place]):
        super().__init__(message)
        self.message = message
        self.place = place


class Source:
    """A file, the module to which it belongs, and its text. `imports` are the modules that it imports, after its declarations are read."""

    def __init__(self, file: str, text: str, module: str = ""):
        self.file = file
        self.text = text
        self.module = module
        self.imports: List[str] = []
        self._starts: Optional[List[int]] = None

    def line(self, offset: int) -> int:
        """The line of a place, from 1."""
        if self._starts is None:
            self._starts = [0] + [found.end() for found in re.finditer(r"\r\n?|\n", self.text)]
        return bisect.bisect_right(self._starts, offset)

    def place(self, offset: int) -> Place:
        """A place as it is told."""
        line = self.line(offset)
        assert self._starts is not None
        before = self.text[self._starts[line - 1] : offset]
        return Place(self.file, line, 1 + (len(before) if before.isascii() else len(before.encode("utf-8", "replace"))))

    def error(self, message: str, offset: int) -> SourceError:
        """The error that something is wrong at a place."""
        return SourceError(message, self.place(offset))

    def written(self, start: int, end: int) -> str:
        """What is written between two places, on one line."""
        return " ".join(self.text[start:end].split())

    # Tokens.

    def token(self, offset: int) -> Token:
        """The token at or after a place."""
        text = self.text
        start = _SPACE(text, offset).end()
        while text.startswith("/*", start):
            start = _SPACE(text, self._after_comment(start)).end()
        spaced = start > offset
        broken = spaced and ("\n" in (before := text[offset:start]) or "\r" in before)
        found = _TOKEN.match(text, start)
        if found is None:
            return Token(TokenKind.END, "", start, start, True, True)
        kind, word, end = _KINDS[found.lastindex], found[0], found.end()
        if kind is _MARK:
            if word in '"#/':
                after = self._after_literal(start)
                if after is not None:
                    return Token(_LITERAL, text[start:after], start, after, broken, spaced)
        elif kind is _QUOTED:
            word = word[1:-1]
        return Token(kind, word, start, end, broken, spaced)

    def operator(self, offset: int) -> Optional[Token]:
        """The operator that begins at a place, as a declaration names it. A last `<` with a name after it begins generic parameters."""
        found = _OPERATOR.match(self.text, offset)
        if found is None:
            return None
        word = re.split(r"//|/\*", found[0])[0] if found[0] not in ("//", "/*") else ""
        if len(word) > 1 and word[-1] == "<" and self.token(offset + len(word)).kind in (TokenKind.NAME, TokenKind.QUOTED):
            word = word[:-1]
        return Token(_MARK, word, offset, offset + len(word), False, True) if word else None

    # Ways past.

    def after_braces(self, offset: int) -> int:
        """The end of the `}` that closes the `{` at a place."""
        return self._after(offset, _BRACE, "{", "}")

    def after_brackets(self, offset: int) -> int:
        """The end of the bracket that closes the one at a place."""
        return self._after(offset, _BRACKET, "([{", ")]}")

    def _after(self, offset: int, stop: "re.Pattern[str]", opening: str, closing: str) -> int:
        text, depth, at = self.text, 0, offset
        while True:
            found = stop.search(text, at)
            if found is None:
                raise self.error("%s is not closed" % text[offset], offset)
            at, mark = found.end(), found[0]
            if mark in opening:
                depth += 1
            elif mark in closing:
                depth -= 1
                if depth == 0:
                    return at
            else:
                at = self._past(found.start())

    def next_branch(self, offset: int) -> Token:
        """The `#elseif`, `#else` or `#endif` that ends the branch in which a place stands."""
        text, depth, at = self.text, 0, offset
        while True:
            found = _DIRECTIVE.search(text, at)
            if found is None:
                raise self.error("#if is not closed", offset)
            at, mark = found.end(), found[0]
            if len(mark) == 1:
                at = self._past(found.start())
            elif mark == "#if":
                depth += 1
            elif depth == 0:
                return Token(TokenKind.DIRECTIVE, mark, found.start(), at, True, True)
            elif mark == "#endif":
                depth -= 1

    def _past(self, at: int) -> int:
        """The end of the comment, literal or quoted name that begins at a place, or of the one character there."""
        text = self.text
        if text.startswith("//", at):
            return _LINE_REST(text, at).end()
        if text.startswith("/*", at):
            return self._after_comment(at)
        if text[at] == "`":
            quoted = _QUOTED_NAME.match(text, at)
            return quoted.end() if quoted else at + 1
        after = self._after_literal(at)
        return at + 1 if after is None else after

    def _after_comment(self, offset: int) -> int:
        depth = 0
        for mark in _COMMENT_MARK.finditer(self.text, offset):
            depth += 1 if mark[0] == "/*" else -1
            if depth == 0:
                return mark.end()
        raise self.error("the comment is not closed", offset)

    def _after_literal(self, at: int) -> Optional[int]:
        """The end of the string or regular expression that begins at a `"`, `#` or `/`, or None where none begins there."""
        text = self.text
        if text[at] == '"':
            plain = _PLAIN_STRING.match(text, at)
            if plain and not text.startswith('"""', at):
                return plain.end()
            return self._after_string(at)
        if text[at] == "/":
            return self._after_bare_regex(at)
        marks = at
        while text.startswith("#", marks):
            marks += 1
        if text.startswith('"', marks):
            return self._after_string(at)
        if text.startswith("/", marks):
            end = text.find("/" + text[at:marks], marks + 1)
            return None if end < 0 else end + 1 + marks - at
        return None

    def _after_bare_regex(self, at: int) -> Optional[int]:
        """As the compiler: one begins where an operator could stand in front of an operand, ends on its line, and closes no bracket of others."""
        text = self.text
        if at > 0 and text[at - 1] not in " \t\n\r([{,;:":
            return None
        found = _REGEX.match(text, at)
        if found is None:
            return None
        depth = 0
        for mark in re.finditer(r"\\.|[()]", found[0]):
            depth += {"(": 1, ")": -1}.get(mark[0], 0)
            if depth < 0:
                return None
        return found.end()

    def _after_string(self, offset: int) -> int:
        quote = _QUOTE(self.text, offset)[0]
        marks = "#" * quote.count("#")
        at = offset + len(quote)
        if marks and quote.endswith('"""') and self.text[at : at + 1] not in ("\n", "\r", " ", "\t"):
            at, quote = at - 2, quote[:-2]  # the string of one quote, as #"""#, or one that begins with a quote
        close = quote[len(marks) :] + marks
        stop = re.compile(r"%s|\\%s|[\n\r]" % (close, marks) if len(quote) - len(marks) == 1 else r"%s|\\%s" % (close, marks))
        while True:
            found = stop.search(self.text, at)
            if found is None or found[0] in "\n\r":
                raise self.error("the string is not closed", offset)
            at = found.end()
            if found[0] == close:
                return at
            at = self.after_brackets(at) if self.text.startswith("(", at) else at + 1
