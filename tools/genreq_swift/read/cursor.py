"""The tokens of a source in those branches of `#if` that are taken, with a look ahead."""
from collections import deque
from typing import Callable, Deque, Tuple

from .conditions import Configuration, condition
from .tokens import Source, SourceError, Token, TokenKind

_DIRECTIVE, _NAME, _QUOTED = TokenKind.DIRECTIVE, TokenKind.NAME, TokenKind.QUOTED
_BRANCHES = frozenset(("#if", "#elseif", "#else", "#endif"))


class Cursor:
    """Stands at a token of a source. `last_end` is where the token before it ends."""

    token: Token

    def __init__(self, source: Source, configuration: Configuration):
        self.source = source
        self._configuration = configuration
        self._open = 0  # how many branches of `#if` are taken where the last token was read
        self._open_here = 0  # the same at this token
        self._ahead: Deque[Tuple[Token, int]] = deque()
        self.last_end = 0
        self._jump(0)

    def advance(self) -> Token:
        """Goes to the next token, and answers the one that was here."""
        taken = self.token
        self.last_end = taken.end
        if self._ahead:
            self.token, self._open_here = self._ahead.popleft()
        else:
            self.token = self._read(taken.end)
            self._open_here = self._open
        return taken

    def next(self, count: int = 1) -> Token:
        """The token that many places after this one."""
        while len(self._ahead) < count:
            token = self._read(self._ahead[-1][0].end if self._ahead else self.token.end)
            self._ahead.append((token, self._open))
        return self._ahead[count - 1][0]

    @property
    def at_name(self) -> bool:
        """Whether this token is a name."""
        kind = self.token.kind
        return kind is _NAME or kind is _QUOTED

    def at(self, text: str) -> bool:
        """Whether this token is a mark or a keyword."""
        return self.token.text == text and self.token.kind is not _QUOTED

    def want(self, text: str) -> Token:
        """Goes past a mark or keyword. Raises SourceError where it does not stand here."""
        if not self.at(text):
            raise self.wanted(repr(text))
        return self.advance()

    def take(self, text: str) -> bool:
        """Goes past a mark or keyword, if it stands here."""
        if not self.at(text):
            return False
        self.advance()
        return True

    def wanted(self, what: str) -> SourceError:
        """The error that something else is wanted here."""
        found = repr(self.token.text) if self.token.kind is not TokenKind.END else "the end"
        return self.source.error("%s is wanted, and not %s" % (what, found), self.token.start)

    def skip_brackets(self) -> None:
        """Goes past the bracket that closes the one here."""
        self._jump(self.source.after_brackets(self.token.start))

    def skip_braces(self) -> None:
        """Goes past the `}` that closes the `{` here. Brackets of other kinds are not looked at."""
        self._jump(self.source.after_braces(self.token.start))

    def behind_braces(self) -> "Callable[[], None]":
        """What goes past the `}` that closes the `{` here, from wherever the cursor is by then."""
        start, is_open = self.token.start, self._open_here

        def go() -> None:
            self._open_here = is_open
            self._jump(self.source.after_braces(start))

        return go

    def operator(self) -> Token:
        """Takes the operator here, as a declaration names it."""
        token = self.source.operator(self.token.start)
        if token is None:
            raise self.wanted("a name")
        self._jump(token.end)
        return token

    def _jump(self, offset: int) -> None:
        self._ahead.clear()
        self._open = self._open_here
        self.last_end = offset
        self.token = self._read(offset)
        self._open_here = self._open

    def _read(self, offset: int) -> Token:
        token = self.source.token(offset)
        while token.kind is _DIRECTIVE and token.text in _BRANCHES:
            token = self.source.token(self._behind(token))._replace(after_line=True)
        if token.kind is TokenKind.END and self._open:
            raise self.source.error("#if is not closed", token.start)
        return token

    def _behind(self, directive: Token) -> int:
        """Where to read on at a directive: in the branch that is taken, or after the last one."""
        if directive.text == "#if":
            self._open += 1
            return self._branch(directive)
        if self._open == 0:
            raise self.source.error("%s without #if" % directive.text, directive.start)
        while directive.text != "#endif":
            directive = self.source.next_branch(directive.end)
        self._open -= 1
        return directive.end

    def _branch(self, directive: Token) -> int:
        """Where the first branch begins whose condition is true, or after `#endif`."""
        while True:
            if directive.text == "#endif":
                self._open -= 1
                return directive.end
            if directive.text == "#else":
                return directive.end
            value, end = condition(self.source, directive.end, self._configuration)
            if value:
                return end
            directive = self.source.next_branch(end)
