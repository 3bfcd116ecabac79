"""What the manual page of this repository has."""
import unittest

from manual_page import page


class Manual(unittest.TestCase):
    def setUp(self) -> None:
        self.text = page.manual(page.TOP, True)

    def test_it_has_each_part(self) -> None:
        for part in page.PARTS:
            self.assertIn("\n.SH %s\n" % part.heading, self.text)

    def test_it_has_the_usage_line_of_the_program(self) -> None:
        self.assertIn("\\fBgenreq\\fR (answer | signatures |", self.text)
        self.assertIn("\\fBgenreq\\-at\\fR [", self.text)

    def test_it_names_the_release_and_its_date(self) -> None:
        version, date = page.release_of(page.TOP)
        self.assertTrue(self.text.startswith('.TH GENREQ 1 "%s" "genreq %s" "genreq"\n' % (date, version)))

    def test_it_says_where_the_program_is_not_proved(self) -> None:
        self.assertIn(", not proved", page.manual(page.TOP, False).split("\n")[0])
        self.assertNotIn("not proved", self.text.split("\n")[0])
