"""How the call of the library gets its name."""
import unittest

from building.unproved import Failed
from building.unproved_library import exported

MODULE = """define internal noundef { i8, i64 } @"swreq_c::call::genreq_run"(ptr noundef %a0, i64 noundef %a1) #0 {
  ret { i8, i64 } zeroinitializer
}

define i32 @main() #0 {
  ret i32 0
}
"""


class Exported(unittest.TestCase):
    def test_the_call_has_its_name_in_c_and_the_program_has_none(self) -> None:
        text = exported(MODULE)
        self.assertTrue(text.endswith('\n@genreq_run = alias { i8, i64 } (ptr, i64), ptr @"swreq_c::call::genreq_run"\n'))
        self.assertIn('define i32 @"unproved::entry"() #0 {', text)
        self.assertNotIn("@main(", text)

    def test_a_module_without_the_call_is_refused(self) -> None:
        with self.assertRaises(Failed):
            exported("define i32 @main() {\n}\n")
