"""The picture of the page of locks, which the first page shows."""

import unittest
import xml.dom.minidom

from harness import needs_loopback, needs_programs
from page_picture import PICTURE, draw, page_of_now, words_of


@needs_programs
@needs_loopback
class Picture(unittest.TestCase):
    def test_it_has_the_words_of_a_page_of_now(self):
        with open(PICTURE, encoding="utf-8") as file:
            kept = file.read()
        xml.dom.minidom.parseString(kept)
        self.assertEqual(words_of(kept), words_of(draw(page_of_now(0.05))))


if __name__ == "__main__":
    unittest.main()
