"""The sizes in docs/READING.md: which numbers of a page are those of definitions."""

import unittest

from ..pages.sizes import with_lines, with_totals

PAGE = """| `Ends` | the program, `a::b` | 1,219 | 4,759 | 136 |
| `Other` | no contract | 1 | 2 | 3 |

## The walk

`one`: `Beside` is of no step.

### 1. Words, 5 lines

`one`: `First`, `Second`,
`Deep/Third` (`law`). `two`:
`Fourth`, from `one` on, `Other`.

### 2. More, 7 lines

Nothing but `First`.

## After it

`one`: `First`
"""


class Sizes(unittest.TestCase):
    def test_totals_of_named_contracts(self) -> None:
        self.assertEqual(
            with_totals(PAGE, {"Ends": (1220, 4760, 99)}),
            PAGE.replace("1,219 | 4,759 | 136", "1,220 | 4,760 | 99"),
        )

    def test_lines_of_files_by_their_crate(self) -> None:
        asked = []

        def lines_of(head: str, crate: str, file: str) -> int:
            asked.append((head, crate, file))
            return 100

        found = with_lines(PAGE, lines_of)
        files = [("one", "First"), ("one", "Second"), ("one", "Deep/Third"), ("two", "Fourth")]
        self.assertEqual(asked, [("### 1. Words", *file) for file in files])
        self.assertEqual(found, PAGE.replace("Words, 5 lines", "Words, 400 lines").replace("More, 7 lines", "More, 0 lines"))
