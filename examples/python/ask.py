"""Asks genreq from Python, by ctypes: ask.py LIBRARY [WORDS..], where LIBRARY is libgenreq.so.

With words it does what the program does with them, over the standard input. Without words it asks whether the elements of a collection's
slice are Equatable where its own are, and what is left of a where clause that says more than it has to.
"""
import ctypes
import os
import sys


class Answer(ctypes.Structure):
    _fields_ = [("status", ctypes.c_uint8), ("count", ctypes.c_size_t)]


class Genreq:
    def __init__(self, library):
        self.call = ctypes.CDLL(library).genreq_run
        self.call.argtypes = [ctypes.c_char_p, ctypes.c_size_t] * 3
        self.call.restype = Answer

    def run(self, words, text):
        """The status and what is printed. A buffer that has no room for all is made larger, and the call is made again."""
        said, room = b"\0".join(words), 256
        while True:
            out = ctypes.create_string_buffer(room)
            answer = self.call(said, len(said), text, len(text), out, room)
            if answer.count <= room:
                return answer.status, out.raw[: answer.count]
            room = answer.count


PROTOCOLS = b"""
protocol Equatable { }
protocol Sequence { associatedtype Element }
protocol Collection: Sequence {
  associatedtype SubSequence: Collection where SubSequence.Element == Element
}
"""

QUESTIONS = [
    b"""
func f<C: Collection>() where C.Element: Equatable
query f(C.SubSequence.Element : Equatable)
""",
    b"""
func f<C: Sequence & Collection>() where C.Element: Equatable, C.SubSequence.Element: Equatable
query f()
""",
]


def main():
    genreq, words = Genreq(sys.argv[1]), [os.fsencode(word) for word in sys.argv[2:]]
    asked = [(words, sys.stdin.buffer.read())] if words else [([b"answer"], PROTOCOLS + question) for question in QUESTIONS]
    worst = 0
    for said, text in asked:
        status, printed = genreq.run(said, text)
        sys.stdout.buffer.write(printed)
        worst = max(worst, status)
    return worst


if __name__ == "__main__":
    sys.exit(main())
