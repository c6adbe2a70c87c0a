"""The check of the assembler's tables: what it compares, and which line it tells, with stand-ins of mw and GNU as."""

import os
import subprocess
import sys
import unittest

from base import ToolTest

# A stand-in of `mw asm bad.s`: the image is the source, and a source with `bad`, or of more than 1,000 bytes, is refused.
MW = r'''#!/bin/sh
[ "$*" = "asm bad.s" ] || exit 2
size=$(wc -c < bad.s)
[ "$size" -gt 1000 ] && size=1000
if grep -q bad bad.s || [ "$size" = 1000 ]; then
  echo "mw: bad.s:1:$((size)): bad input" >&2
  exit 6
fi
cat bad.s
'''
# Stand-ins of the tools of GNU: the object is the source with `ours` in the place of `theirs`, and so is the image.
AS = r'''#!/bin/sh
if grep -q none gnu.s; then
  echo "gnu.s:2: Error: unrecognized opcode" >&2
  exit 1
fi
sed s/theirs/ours/ gnu.s > gnu.o
'''
OBJCOPY = "#!/bin/sh\ncp gnu.o gnu.img\n"
PAGE = r'''# A page
| Token | What |
|---|---|
| `a` | a table of another kind |

| What | GNU as | Here |
|---|---|---|
| one | `theirs 1` | `ours 1` |
| | `theirs 2`, `same \| 3` | `ours 2`, `same \| 3` |

| The place | Source | mw prints | Why |
|---|---|---|---|
| here | `bad`, `b` | `mw: bad.s:1:6: bad input` | six bytes |
| | `bad\r` | `mw: bad.s:1:5: bad input` | a carriage return |
| there | `#` 1,001 times | `mw: bad.s:1:1000: bad input` | too long |
'''


class AsmPageTest(ToolTest):
    """The script beside stand-ins."""

    def setUp(self):
        super().setUp()
        self.write_program("bin/mw", MW)
        self.write_program("path/powerpc64le-linux-gnu-as", AS)
        self.write_program("path/powerpc64le-linux-gnu-objcopy", OBJCOPY)

    def check_page(self, page, status, output, errors, words=()):
        """Checks what is said of a page."""
        self.write("page.md", page)
        path = os.path.join(self.folder, "path") + ":/usr/bin:/bin"
        environment = dict(os.environ, PATH=path, MW=os.path.join(self.folder, "bin", "mw"))
        run = subprocess.run([sys.executable, "tools/asm_page", *words, "page.md"], capture_output=True, text=True,
                             cwd=self.folder, env=environment, check=False)
        self.assertEqual((run.returncode, run.stdout, run.stderr), (status, output, errors))

    def test_all_is_as_told(self):
        self.check_page(PAGE, 0, "asm_page: 3 pairs of lines, 0 differ\nasm_page: 3 mistakes, 0 differ\n", "")

    def test_one_of_both(self):
        self.check_page(PAGE, 0, "asm_page: 3 pairs of lines, 0 differ\n", "", ["gnu"])
        self.check_page(PAGE, 0, "asm_page: 3 mistakes, 0 differ\n", "", ["mistakes"])

    def test_other_bytes(self):
        line = b"there: .long 0\n%s\n.long 0x60000000\n"
        self.check_page(PAGE.replace("`ours 2`", "`ours 4`"), 1, "asm_page: 3 pairs of lines, 1 differ\n",
                        "page.md:9: `theirs 2` gives %s, `ours 4` gives %s\n"
                        % ((line % b"ours 2").hex(), (line % b"ours 4").hex()), ["gnu"])

    def test_unknown_to_gnu(self):
        line = b"there: .long 0\nours 1\n.long 0x60000000\n"
        self.check_page(PAGE.replace("theirs 1", "none 1"), 1, "asm_page: 3 pairs of lines, 1 differ\n",
                        "page.md:8: `none 1` gives gnu.s:2: Error: unrecognized opcode, `ours 1` gives %s\n" % line.hex(),
                        ["gnu"])

    def test_fewer_lines_on_one_side(self):
        self.check_page(PAGE.replace("| `ours 2`, ", "| "), 1, "asm_page: 1 pairs of lines, 1 differ\n",
                        "page.md:9: 1 lines for 2\n", ["gnu"])

    def test_another_place(self):
        self.check_page(PAGE.replace("1:5:", "1:4:"), 1, "asm_page: 3 mistakes, 1 differ\n",
                        "page.md:14: `bad\\r` gives status 6, `mw: bad.s:1:5: bad input`, no image\n", ["mistakes"])

    def test_no_mistake(self):
        self.check_page(PAGE.replace("`bad\\r`", "`good`"), 1, "asm_page: 3 mistakes, 1 differ\n",
                        "page.md:14: `good` gives status 0, ``, an image\n", ["mistakes"])

    def test_page_without_a_table(self):
        self.check_page("# A page\n", 2, "", "asm_page: page.md has no table of pairs of lines\n")


if __name__ == "__main__":
    unittest.main()
