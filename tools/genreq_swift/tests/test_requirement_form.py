import unittest

from ..ask.parts import protocol_part
from ..ask.program import Program, default_program
from ..ask.asking import requirement_signatures
from ..ask.reduced_requirements import kept_numbers, reduced_signatures
from ..ask.swift_form import compiler_form
from .samples import reading

SOURCE = """
protocol Iterating { associatedtype Element }
protocol Seq { associatedtype Element; associatedtype Iterator: Iterating where Iterator.Element == Element }
protocol Coll: Seq { associatedtype Sub: Coll where Sub.Iterator.Element == Iterator.Element; associatedtype Index: AnyObject }
protocol Parser { associatedtype Encoding: Encoded }
protocol Encoded where Forward.Encoding == Self, Reverse.Encoding == Self {
  associatedtype Forward: Parser
  associatedtype Reverse: Parser
  associatedtype Scalar: Coll where Scalar.Iterator.Element == Code
  associatedtype Code
}
protocol Three { associatedtype A; associatedtype B; associatedtype C where C == A, B == A }
"""
# What swift-frontend 6.0.3 prints with -debug-generic-signatures of the same source.
COMPILER = {
    "Iterating": "<Self>",
    "Seq": "<Self where Self.[Seq]Element == Self.[Seq]Iterator.[Iterating]Element, Self.[Seq]Iterator : Iterating>",
    "Coll": "<Self where Self : Seq, Self.[Seq]Element == Self.[Coll]Sub.[Seq]Element, Self.[Coll]Index : AnyObject, Self.[Coll]Sub : Coll>",
    "Parser": "<Self where Self.[Parser]Encoding : Encoded>",
    "Encoded": "<Self where Self == Self.[Encoded]Forward.[Parser]Encoding, Self.[Encoded]Code == Self.[Encoded]Scalar.[Seq]Element, "
    "Self.[Encoded]Forward : Parser, Self.[Encoded]Reverse : Parser, Self.[Encoded]Scalar : Coll, "
    "Self.[Encoded]Forward.[Parser]Encoding == Self.[Encoded]Reverse.[Parser]Encoding>",
    "Three": "<Self where Self.[Three]A == Self.[Three]B, Self.[Three]B == Self.[Three]C>",
}


def kept_of(protocols):
    return requirement_signatures(Program(default_program()), [protocol_part(protocol) for protocol in protocols]).signatures


class RequirementForm(unittest.TestCase):
    def test_is_what_the_compiler_prints(self):
        protocols = reading(SOURCE).protocols
        found = reduced_signatures(Program(default_program()), protocols, kept_of(protocols))
        self.assertEqual({label: str(compiler_form(signature)) for label, signature in found.items()}, COMPILER)

    def test_copies_have_labels_of_their_own(self):
        protocols = reading("protocol P { associatedtype A; associatedtype B where A == B }\nprotocol P_0 { }").protocols
        found = reduced_signatures(Program(default_program()), protocols, kept_of(protocols))
        self.assertEqual({label: str(signature) for label, signature in found.items()}, {"P": "<Self where Self.[P]A == Self.[P]B>", "P_0": "<Self>"})

    def test_of_equal_requirements_the_first_is_kept(self):
        protocols = reading("protocol P { }\nprotocol Q { associatedtype A: P, P where A: P }").protocols
        self.assertEqual(kept_numbers(protocols[1], kept_of(protocols)["Q"]), frozenset([0]))


if __name__ == "__main__":
    unittest.main()
