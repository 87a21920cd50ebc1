import unittest

from .. import words


def found(path, text):
    return [word for _, word, _ in words.found_in(path, words.prose_of(path, text))]


class Words(unittest.TestCase):
    def test_words_of_comments_are_found(self):
        self.assertEqual(found("a.rt", "    /// It stands in\nlet behind = 1;\n//! or else it has to\n"), ["stands", "has to", "else"])
        self.assertEqual(found("a.antt", "-- the bits behind\nbehind : ℕ\n"), ["behind"])
        self.assertEqual(found("a.h", "/* What is refused.\n * And what *refusal says, refusal->code. */\nint behind;\n"), ["refused"])

    def test_words_of_scripts_are_found(self):
        self.assertEqual(found("scripts/a", '#!/usr/bin/env python3\n"""What stands here.\n\nIt refuses."""\nx = "behind"\n    # Behind it.\n'), ["refuses", "Behind", "stands"])
        self.assertEqual(found("scripts/a", "%% The octets behind it.\nbehind() -> ok.\n"), ["behind"])

    def test_words_that_begin_a_sentence_are_found(self):
        self.assertEqual(found("a.rt", "/// Goes past a number.\n// Behind it no memory is wanting.\n"), ["Behind", "is wanting", "Goes past"])

    def test_words_that_a_line_divides_are_found(self):
        self.assertEqual(found("a.rt", "    /// It reads so\n    /// many bits.\n"), ["so many"])
        self.assertEqual(found("a.antt", "-- what is not\n-- there\n\n-- or is\n\n-- there\n"), ["is not there"])
        self.assertEqual(found("a.antt", "-- what goes\n-- past it\n"), ["goes past"])

    def test_names_of_mutation_tests_are_prose(self):
        text = "reads_the_octet_behind\nsrc/a.rt, refuses\n- behind\n+ in front\n"
        self.assertEqual(found("crates/a/mutations.txt", text), ["behind"])

    def test_code_is_no_prose(self):
        self.assertEqual(found("a.rt", "/// The clause `refused` of `behind`.\n"), [])

    def test_words_are_found_in_crates_and_bindings(self):
        text = "/// Gives so many octets; the place is there.\n"
        self.assertEqual(found("crates/asn1_memory_tests/src/a.rt", text), ["Gives", "the place", "is there", "so many"])
        self.assertEqual(found("bindings/rust/a.rs", text), ["Gives", "the place", "is there", "so many"])
        self.assertEqual(found("crates/asn1_bits/src/a.rt", text), ["Gives", "the place", "is there", "so many"])
        self.assertEqual(found("crates/asn1_bits/specs/A.antt", "-- the bits from a place on\n"), ["a place"])
        self.assertEqual(found("crates/asn1_bits/mutations.txt", "gives_half_the_room\n"), ["gives"])
        self.assertEqual(found("crates/asn1_bits/src/a.rt", "/// It passes `usize`, and not passes on.\n// It gives up.\n"), ["passes on", "passes"])

    def test_words_of_the_field_are_no_words_of_the_house(self):
        text = "/// It gives up, passes a test, and sorts in place. If there is none, both are then there.\n"
        self.assertEqual(found("bindings/rust/a.rs", text), [])

    def test_parts_of_words_are_other_words(self):
        self.assertEqual(found("a.rt", "/// It misspells, or behind-the-scenes.\n"), [])


if __name__ == "__main__":
    unittest.main()
