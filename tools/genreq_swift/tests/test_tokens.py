"""Tokens, and what is gone past."""
import unittest

from ..read.model import Place
from ..read.tokens import Source, SourceError, Token, TokenKind


def texts(text: str):
    """The texts of all tokens of a source."""
    source, found = Source("f", text), []
    token = source.token(0)
    while token.kind is not TokenKind.END:
        found.append(token.text)
        token = source.token(token.end)
    return found


class Tokens(unittest.TestCase):
    def test_names_marks_and_numbers_are_told_apart(self):
        self.assertEqual(texts("func f<T>(x: T...)->[T?] where T==U"), "func f < T > ( x : T ... ) -> [ T ? ] where T == U".split())
        self.assertEqual(texts("0x1Fp3 1.5e-3 t.0"), ["0x1Fp3", "1.5e-3", "t", ".", "0"])

    def test_comments_nest_and_stand_for_white_space(self):
        self.assertEqual(texts("a/* /* b */ */c // d\n e"), ["a", "c", "e"])

    def test_emoji_is_a_name_and_backticks_quote_one(self):
        source = Source("f", "🦊 `where`")
        self.assertEqual(source.token(0).kind, TokenKind.NAME)
        self.assertEqual((source.token(1).text, source.token(1).kind), ("where", TokenKind.QUOTED))

    def test_a_string_is_one_token_with_what_is_interpolated(self):
        for string in ['"a"', '"\\"}"', '"\\(f("}", g(")")))"', '#"\\("#', '#"\\#(f("x"))"#', '"""\n"} \\(a["b"]) \n"""', '#"""#', '##"a"#b"##', '""']:
            self.assertEqual(texts(string + " }"), [string, "}"])

    def test_a_regular_expression_is_one_token(self):
        for regex in ['#/[^"]/#', '/[^"]}/', '##/a/#b/##']:
            self.assertEqual(texts("= " + regex + " }"), ["=", regex, "}"])
        self.assertEqual(texts("a / b / c"), ["a", "/", "b", "/", "c"])
        self.assertEqual(texts("(/a), (/b)"), ["(", "/", "a", ")", ",", "(", "/", "b", ")"])

    def test_what_is_not_closed_is_told_with_its_place(self):
        for text, line, column in [('\n "a\n', 2, 2), ("/* /* */", 1, 1), ('é"""\n', 1, 3)]:
            with self.subTest(text), self.assertRaises(SourceError) as raised:
                texts(text)
            self.assertEqual(raised.exception.place, Place("f", line, column), text)

    def test_braces_in_literals_and_comments_do_not_count(self):
        body = '{ let s = "}" + #"}"# /* } */ // }\n let r = /}/; `}`; { } }'
        self.assertEqual(Source("f", body + "x").after_braces(0), len(body))

    def test_an_operator_leaves_the_generic_parameters_behind_it(self):
        for text, name in [("==<T>(", "=="), ("<<T>(", "<"), ("< <T>(", "<"), (">>(", ">>"), ("/(a: T) -> T { a/b }", "/"), ("...(", "...")]:
            operator = Source("f", text).operator(0)
            self.assertEqual(operator and operator.text, name, text)

    def test_columns_count_bytes(self):
        self.assertEqual(Source("f", "a\n  é x").place(6), Place("f", 2, 6))


if __name__ == "__main__":
    unittest.main()
