import unittest

from .. import pages

TEXT = """# A page

```sh
first
```

```
its output
```

```sh
second
```

```console
$ third
a
b
$ fourth
```

```rust
fn main() {}
```

Put it in place, with the line `mine: asn1_bits` in a file. It prints `{1}`.
"""


class Pages(unittest.TestCase):
    def test_output_of_a_shell_block_is_the_next_block(self):
        self.assertEqual(list(pages.shell(TEXT)), [("first\n", "its output\n"), ("second\n", "")])

    def test_output_of_a_console_command_is_below_it(self):
        self.assertEqual(list(pages.console(TEXT)), [("third", "a\nb\n"), ("fourth", "")])

    def test_program_has_its_line_and_its_output(self):
        self.assertEqual(pages.program(TEXT), ("fn main() {}\n", "mine: asn1_bits", "{1}"))

    def test_pages_have_what_is_run(self):
        self.assertGreater(len(list(pages.console(pages.text_of(pages.GUIDE)))), 10)
        self.assertEqual(len(list(pages.shell(pages.text_of(pages.README)))), 2)
        self.assertIn("asn1_x691_decode", pages.program(pages.text_of(pages.README))[1])
        self.assertTrue(all(list(pages.shell(pages.text_of(it))) for it in pages.SHELL))


if __name__ == "__main__":
    unittest.main()
