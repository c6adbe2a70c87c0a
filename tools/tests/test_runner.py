"""bin/mw: what it tells, what it leaves to `rt` and where it puts what that prints. `rt` is a stand-in here."""

import os
import shutil
import subprocess
import tempfile
import time
import unittest

from base import TOP

# The program stands on these four; `lonely` and `mw_tests` are no part of it, and `byteorder` is a library of the kit.
CRATES = """\
# NAME: what it stands on
mw_tests: mw_low mw_high
lonely:
mw_high: mw_low mw_side byteorder
mw: mw_high mw_low
mw_side opt_level=1: mw_low
mw_low:
"""
ORDER = ["mw_low", "mw_side", "mw_high", "mw"]
# What bin/mw calls, and what the stand-in does, so that a path can be without `rt`, wherever the machine has it.
TOOLS = ("bash", "dirname", "find", "mkdir", "readlink", "rm", "touch")
OF_RT = ("basename", "cat", "cp", "sleep")
# Notes its folder and words, prints to both streams, fails in the crate that the file `fails` names, and makes the program.
RT = r"""#!/usr/bin/env bash
crate="$(basename "$PWD")"
echo "$crate: $*" >> "$NOTES/calls"
echo "logic=proved $crate"
echo "rt: chose --jobs 4 for $crate" >&2
cat
[ ! -e "$NOTES/fails-$crate" ] || exit 3
[ ! -e "$NOTES/changes-$crate" ] || { sleep 0.05; touch src/main.rt; }
[ "$1" != run ] || [ -e "$NOTES/makes-nothing" ] || { mkdir -p out; cp "$NOTES/program" out/mw; }
"""
# Tells its words and its folder, and ends with a status of its own.
PROGRAM = r"""#!/usr/bin/env bash
printf "ran:"; printf " <%s>" "$@"; echo
echo "in: $PWD"
exit 6
"""
# The program's statuses, from Done and Offence to NoMemory.
STATUSES = range(8)
# Ends with the status that its only word is.
ENDING = r"""#!/usr/bin/env bash
echo "end $1"
exit "$1"
"""


class RunnerTest(unittest.TestCase):
    """A copy of bin/mw in a fresh folder, over a small crates.txt."""

    maxDiff = None

    def setUp(self):
        folder = tempfile.TemporaryDirectory()
        self.addCleanup(folder.cleanup)
        self.folder = os.path.realpath(folder.name)
        # A blank in the name, since a checkout may have one.
        self.top = os.path.join(self.folder, "a checkout")
        self.elsewhere = os.path.join(self.folder, "elsewhere")
        self.program = os.path.join(self.top, "crates", "mw", "out", "mw")
        self.log = os.path.join(self.top, "out", "mw.log")
        self.write("a checkout/crates.txt", CRATES)
        for crate in ["lonely", "mw_tests", *ORDER]:
            self.write("a checkout/crates/%s/src/%s.rt" % (crate, "main" if crate == "mw" else "lib"), "")
        self.write("a checkout/crates/mw_low/specs/Low.antt", "")
        self.write("a checkout/crates/mw_low/README.md", "")
        os.makedirs(os.path.join(self.top, "bin"))
        shutil.copy(os.path.join(TOP, "bin", "mw"), os.path.join(self.top, "bin", "mw"))
        for folder in ("tools", "elsewhere", "notes", "rt"):
            os.makedirs(os.path.join(self.folder, folder))
        for tool in TOOLS + OF_RT:
            os.symlink(shutil.which(tool), os.path.join(self.folder, "tools", tool))
        self.write("notes/program", PROGRAM, 0o755)
        self.write("rt/rt", RT, 0o755)

    def write(self, name, content, mode=0o644):
        """Writes a file into the folder."""
        path = os.path.join(self.folder, name)
        os.makedirs(os.path.dirname(path), exist_ok=True)
        with open(path, "w", encoding="utf-8") as file:
            file.write(content)
        os.chmod(path, mode)

    def read(self, path):
        """The text of a file, or None where it isn't there."""
        if not os.path.exists(path):
            return None
        with open(path, encoding="utf-8") as file:
            return file.read()

    def build(self, program=PROGRAM):
        """Puts a program in its place that is newer than every source, as a build by hand or by the gate leaves it."""
        self.write("a checkout/crates/mw/out/mw", program, 0o755)
        self.date(self.program, 100)

    def date(self, path, seconds):
        """Sets the time at which a file was last written to so many seconds from now; it was read now."""
        now = time.time()
        os.utime(os.path.join(self.top, path), (now, now + seconds))

    def mw(self, *words, rt=True):
        """The status, standard output and lines of standard error of bin/mw with these words, called from elsewhere."""
        parts = [os.path.join(self.folder, part) for part in (["rt"] if rt else []) + ["tools"]]
        environment = {"PATH": os.pathsep.join(parts), "NOTES": os.path.join(self.folder, "notes")}
        run = subprocess.run([os.path.join(self.top, "bin", "mw"), *words], input=b"typed\n", capture_output=True,
                             cwd=self.elsewhere, env=environment, check=False)
        return run.returncode, run.stdout.decode(), run.stderr.decode().splitlines()

    def calls(self):
        """The calls of `rt` so far, as crate and words."""
        return (self.read(os.path.join(self.folder, "notes", "calls")) or "").splitlines()

    def ran(self, *words):
        """What the program prints for these words: it is handed all of them, in the folder of whoever called."""
        return "ran:%s\nin: %s\n" % ("".join(" <%s>" % word for word in words or [""]), self.elsewhere)

    def told(self, first, count=len(ORDER)):
        """The lines of a build's first crates."""
        lines = ["bin/mw: %d of %d: %s" % (at + 1, len(ORDER), crate) for at, crate in enumerate(ORDER[:count])]
        return ["bin/mw: %s; the log is %s" % (first, self.log), *lines]

    FIRST = "proves and builds the program first, which takes 20 to 30 minutes on four cores"
    ANEW = "proves and builds the program anew"
    BUILT = "bin/mw: the program is proved and built"
    BUILDS = [crate + ": lib" for crate in ORDER[:-1]] + ["mw: run -- run data/li_and_loop.img --cycles 0"]

    def test_first_run(self):
        status, output, errors = self.mw("run", "a b.img", "--cycles", "6")
        self.assertEqual(errors, self.told(self.FIRST) + [self.BUILT],
                         "one line a crate in the order in which they are built, and nothing that rt prints")
        self.assertEqual(self.calls(), self.BUILDS, "each crate of the program is built once, behind those below, and no other")
        self.assertEqual((status, output), (6, self.ran("run", "a b.img", "--cycles", "6")),
                         "standard output and the status are the program's")

    def test_log(self):
        self.write("a checkout/out/mw.log", "of an earlier build\n")
        self.mw("--rebuild")
        expected = "".join("logic=proved %s\nrt: chose --jobs 4 for %s\n" % (crate, crate) for crate in ORDER)
        self.assertEqual(self.read(self.log), expected,
                         "both of rt's streams are in the log, of this build alone, and rt can't read what was typed")
        self.assertEqual(os.listdir(os.path.join(self.top, "out")), ["mw.log"], "nothing else is left there")

    def test_log_is_ignored(self):
        rules = (self.read(os.path.join(TOP, ".gitignore")) or "").splitlines()
        self.assertIn("out/", rules, "the log lies where git doesn't look")

    def test_second_run(self):
        self.mw("run", "x", "--cycles", "0")
        made = len(self.calls())
        self.assertEqual(self.mw("dis", "x"), (6, self.ran("dis", "x"), []), "a program that is up to date runs, and nothing is told")
        self.assertEqual(len(self.calls()), made, "rt isn't called again")

    def test_no_rt(self):
        expected = ["bin/mw: rt isn't there: it proves and builds the program (README.md tells which kit)"]
        self.assertEqual(self.mw("run", "x", "--cycles", "0", rt=False), (127, "", expected), "where it is wanted, one line says so")
        self.assertEqual(self.mw("--rebuild", rt=False), (127, "", expected), "also where the program is to be made anew")
        self.assertIsNone(self.read(self.log), "no log is begun")

    def test_no_rt_wanted(self):
        self.build()
        self.assertEqual(self.mw("dis", "x", rt=False), (6, self.ran("dis", "x"), []), "a program that is there needs no rt")

    def test_older_program(self):
        for source in ("crates/mw/src/main.rt", "crates/mw_side/src/lib.rt", "crates/mw_low/specs/Low.antt"):
            with self.subTest(source=source):
                self.build()
                self.date(source, 200)
                line = "bin/mw: the program is older than %s: bin/mw --rebuild makes it anew" % source
                self.assertEqual(self.mw("asm", "x"), (6, self.ran("asm", "x"), [line]), "one line, and the program runs as it is")
                self.assertEqual(self.calls(), [], "nothing is built unasked")
                self.date(source, 0)

    def test_older_than_what_it_has_no_part_of(self):
        self.build()
        for other in ("crates.txt", "crates/lonely/src/lib.rt", "crates/mw_tests/src/lib.rt", "crates/mw_low/README.md"):
            self.date(other, 200)
        self.write("a checkout/crates/mw_low/src/.lib.rt.swp", "")
        self.date("crates/mw_low/src/.lib.rt.swp", 200)
        self.assertEqual(self.mw("asm", "x")[2], [], "a crate that the program doesn't stand on, or what is no source, isn't told of")

    def test_rebuild(self):
        self.build()
        self.date("crates/mw_low/src/lib.rt", -1)
        status, output, errors = self.mw("--rebuild")
        self.assertEqual((status, output), (0, ""), "nothing is run")
        self.assertEqual(errors, self.told(self.ANEW) + [self.BUILT], "it tells the same as at first")
        self.assertEqual(self.calls(), self.BUILDS, "rt is asked for every crate, and knows what is still good")

    def test_rebuild_of_touched_sources(self):
        # `rt` goes by contents: it leaves a program as it is where a source only has another time.
        self.build()
        self.date(self.program, -100)
        self.write("notes/makes-nothing", "")
        self.mw("--rebuild")
        self.assertEqual(self.mw("asm", "x")[2], [], "behind a rebuild the program isn't older than its sources")

    def test_source_that_changes_during_a_build(self):
        self.write("notes/changes-mw", "")
        self.mw("--rebuild")
        self.assertEqual(self.mw("asm", "x")[2], ["bin/mw: the program is older than crates/mw/src/main.rt: bin/mw --rebuild makes it anew"],
                         "what changed behind the beginning may not be in the program")

    def test_rebuild_beside_other_words(self):
        self.build()
        for words in (("--rebuild", "run"), ("run", "--rebuild"), ("--rebuild", "--rebuild")):
            self.assertEqual(self.mw(*words), (6, self.ran(*words), []), "it counts as the only word; else the program judges the words")
        self.assertEqual(self.calls(), [], "nothing is built")

    def test_failed_build(self):
        self.write("notes/fails-mw_side", "")
        line = "bin/mw: mw_side wasn't built, as rt ended with status 3; the log is " + self.log
        status, output, errors = self.mw("run", "x", "--cycles", "0")
        self.assertEqual((status, output), (126, ""), "it ends there with a status that the program never has")
        self.assertEqual(errors, self.told(self.FIRST, 2) + [line], "the crate that failed and the log are named")
        self.assertEqual(self.calls(), self.BUILDS[:2], "no crate behind it is tried")
        self.assertIn("logic=proved mw_side\n", self.read(self.log), "what rt said stands in the log")

    def test_failed_rebuild(self):
        self.build()
        self.write("notes/fails-mw", "")
        status, _, errors = self.mw("--rebuild")
        self.assertEqual((status, len(errors)), (126, len(ORDER) + 2), "a failure of the last crate is one too")
        self.assertEqual(self.mw("asm", "x")[0], 6, "the program that was there stays")

    def test_build_without_a_program(self):
        self.write("notes/makes-nothing", "")
        status, output, errors = self.mw("run", "x", "--cycles", "0")
        self.assertEqual((status, output), (126, ""), "that isn't passed over in silence")
        self.assertEqual(errors[-1], "bin/mw: rt ended well and made no program; the log is " + self.log, "the log is named")

    def test_each_status(self):
        self.build(ENDING)
        for number in STATUSES:
            self.assertEqual(self.mw(str(number)), (number, "end %d\n" % number, []),
                             "the status is the program's, 1 of an offence too, and nothing is told of it")
        self.date("crates/mw/src/main.rt", 200)
        line = "bin/mw: the program is older than crates/mw/src/main.rt: bin/mw --rebuild makes it anew"
        self.assertEqual(self.mw("1"), (1, "end 1\n", [line]), "also where the program is older than a source")

    def test_offence_behind_a_build(self):
        self.write("notes/program", ENDING, 0o755)
        status, output, errors = self.mw("1")
        self.assertEqual((status, output), (1, "end 1\n"), "a first run that ends at an offence isn't taken for a failed build")
        self.assertEqual(errors, self.told(self.FIRST) + [self.BUILT], "nothing is told of it")

    def test_no_words(self):
        self.build()
        self.assertEqual(self.mw(), (6, self.ran(), []), "no words are the program's business")

    def test_called_by_a_link(self):
        self.build()
        os.symlink(os.path.join(self.top, "bin", "mw"), os.path.join(self.folder, "tools", "mw"))
        run = subprocess.run([os.path.join(self.folder, "tools", "mw"), "dis"], capture_output=True, cwd=self.elsewhere, check=False)
        self.assertEqual((run.returncode, run.stdout.decode()), (6, self.ran("dis")), "its own checkout is found through a link")


class RealListTest(unittest.TestCase):
    """The repository's own crates.txt, with a stand-in of `rt` alone."""

    def test_every_crate_below_the_program(self):
        with tempfile.TemporaryDirectory() as folder:
            top = os.path.join(folder, "top")
            os.makedirs(os.path.join(top, "bin"))
            shutil.copy(os.path.join(TOP, "bin", "mw"), os.path.join(top, "bin"))
            shutil.copy(os.path.join(TOP, "crates.txt"), top)
            listed = {}
            with open(os.path.join(TOP, "crates.txt"), encoding="utf-8") as file:
                for line in file:
                    if not line.startswith("#"):
                        name, _, names = line.partition(":")
                        listed[name] = names.split()
                        os.makedirs(os.path.join(top, "crates", name))
            os.makedirs(os.path.join(folder, "rt"))
            path = os.path.join(folder, "rt", "rt")
            with open(path, "w", encoding="utf-8") as file:
                file.write('#!/usr/bin/env bash\n[ "$1" != run ] || { mkdir -p out; cp "$0" out/mw; }\n')
            os.chmod(path, 0o755)
            environment = {**os.environ, "PATH": os.path.dirname(path) + os.pathsep + os.environ["PATH"]}
            run = subprocess.run([os.path.join(top, "bin", "mw"), "--rebuild"], capture_output=True, env=environment, check=False)
            lines = run.stderr.decode().splitlines()
        wanted, new = set(), {"mw"}
        while new:
            wanted |= new
            new = {below for name in new for below in listed[name] if below in listed} - wanted
        told = [line.rpartition(" ")[2] for line in lines[1:-1]]
        self.assertEqual(run.returncode, 0, "the list is read to its end")
        self.assertEqual(sorted(told), sorted(wanted), "each crate at or below the program is built, once")
        self.assertEqual(lines[1], "bin/mw: 1 of %d: %s" % (len(wanted), told[0]), "they are counted before the first")
        for at, name in enumerate(told):
            self.assertLessEqual({below for below in listed[name] if below in listed}, set(told[:at]), name + " comes behind what it stands on")


if __name__ == "__main__":
    unittest.main()
