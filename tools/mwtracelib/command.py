"""The command line of mwtrace."""

import argparse
import os
import sys

from mwtracelib import diff, names, picture, profile, summary
from mwtracelib.trace import BadInput

BAD_STATUS = 2
# What a shell tells of a program whose output is read no more.
PIPE_STATUS = 141

OVERVIEW = """\
Looks at a printed run of the board, which is what `mw run` writes. TRACE is a
file, or - for standard input. The text is read as it comes, and never stands
in memory as a whole."""
OVERVIEW_EXAMPLE = """\
Example:
  bin/mw run examples/text.img --cycles 4331 | tools/mwtrace summary -

Status 0, or of diff 1 where the two runs differ; status 2 and one line on
standard error for an input that can't be used. Each word has its own --help."""

NAMES_EXAMPLE = """\
Each line of an event gets its name and offset behind it, and its file and line
where the ELF file has lines and addr2line is installed; - where it has no name.
The line of an offence gets the same, for the address of its access.

Example:
  bin/mw run firmware.img --cycles 1000 | tools/mwtrace names - --elf firmware.elf"""
PROFILE_EXAMPLE = """\
The cycles from one event to the next belong to the first one's address. A
return is paired with the last trap or interrupt that had none.

Example:
  tools/mwtrace profile run.txt --elf firmware.elf --top 10"""
DIFF_EXAMPLE = """\
Nothing is printed and the status is 0 where the runs are the same, else it is 1.
With --ignore-cycles the cycles of events and of the end don't count.

Example:
  tools/mwtrace diff before.txt after.txt --ignore-cycles"""
PICTURE_EXAMPLE = """\
A cell is darker (on a dark page brighter) the more instructions retired in it.

Example:
  tools/mwtrace picture run.txt --elf firmware.elf -o run.svg"""
SUMMARY_EXAMPLE = """\
Where the run stopped at an offence, two lines more tell its access and why.

Example:
  bin/mw run examples/sum.img --cycles 6 | tools/mwtrace summary -"""


class Parser(argparse.ArgumentParser):
    """A parser that tells a mistake in one line."""

    def error(self, message):
        sys.stderr.write("%s: %s\n" % (self.prog, " ".join(message.split())))
        sys.exit(BAD_STATUS)


def positive(text: str) -> int:
    """A number from 1 on."""
    number = int(text)
    if number < 1:
        raise ValueError(text)
    return number


def add_symbols(parser, is_needed: bool) -> None:
    """The words that name a program's symbols."""
    group = parser.add_mutually_exclusive_group(required=is_needed)
    group.add_argument("--elf", metavar="FILE", help="the ELF file whose symbols name the addresses")
    group.add_argument("--nm", metavar="FILE", help="a text of such symbols, as nm prints it")


def parser_of_words() -> Parser:
    """The parser of all words."""
    raw = argparse.RawDescriptionHelpFormatter
    parser = Parser(prog="mwtrace", description=OVERVIEW, epilog=OVERVIEW_EXAMPLE, formatter_class=raw)
    words = parser.add_subparsers(dest="word", metavar="WORD", required=True)

    def word(name, text, example, run):
        one = words.add_parser(name, help=text, description=text[0].upper() + text[1:] + ".", epilog=example,
                               formatter_class=raw)
        one.set_defaults(run=run)
        return one

    one = word("names", "each event with the name of its address", NAMES_EXAMPLE, names.run)
    one.add_argument("trace", metavar="TRACE")
    add_symbols(one, True)
    one = word("profile", "where the time went", PROFILE_EXAMPLE, profile.run)
    one.add_argument("trace", metavar="TRACE")
    add_symbols(one, False)
    one.add_argument("--top", metavar="N", type=positive, default=20, help="the lines of each table (20)")
    one = word("diff", "where two runs part", DIFF_EXAMPLE, diff.run)
    one.add_argument("first", metavar="A")
    one.add_argument("second", metavar="B")
    one.add_argument("--ignore-cycles", action="store_true", help="two events are the same at any cycles")
    one = word("picture", "a picture of a run, which a browser shows", PICTURE_EXAMPLE, picture.run)
    one.add_argument("trace", metavar="TRACE")
    add_symbols(one, False)
    one.add_argument("-o", metavar="FILE.svg", dest="output", required=True, help="where the picture is written")
    one = word("summary", "a run in a dozen lines", SUMMARY_EXAMPLE, summary.run)
    one.add_argument("trace", metavar="TRACE")
    return parser


def main(words: list) -> int:
    """Runs these words and gives the status."""
    arguments = parser_of_words().parse_args(words)
    try:
        status = arguments.run(arguments)
        sys.stdout.flush()
        return status
    except BadInput as error:
        sys.stdout.flush()
        sys.stderr.write("mwtrace: %s\n" % error)
        return BAD_STATUS
    except BrokenPipeError:
        # what is left of the output goes nowhere
        os.dup2(os.open(os.devnull, os.O_WRONLY), sys.stdout.fileno())
        return PIPE_STATUS
    except OSError as error:
        sys.stderr.write("mwtrace: cannot write: %s\n" % error.strerror)
        return BAD_STATUS
    except KeyboardInterrupt:
        return 130
