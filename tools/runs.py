"""Runs the program for the tools of this folder, and tests what it said against a condition."""
import os
import re
import subprocess

TOP = os.path.dirname(os.path.dirname(os.path.abspath(__file__)))
PROGRAM = os.path.join(TOP, "crates/e3_main/out/e3_main")


def add_words(parser):
    """The words of a condition, and of the program."""
    parser.add_argument("--status", type=int, help="the program ends with this status")
    parser.add_argument("--line", action="append", default=[], metavar="TEXT", help="a line of the output is this one; may come several times")
    parser.add_argument("--match", action="append", default=[], metavar="REGEX", help="a line of the output matches; may come several times")
    parser.add_argument("--lacks", action="append", default=[], metavar="REGEX", help="no line of the output matches; may come several times")
    parser.add_argument("--trace", action="store_true", help="run with --trace, so that lines of the trace count too")
    parser.add_argument("--program", default=os.environ.get("E3PC", PROGRAM), help="the program; the built one if left out, or that of the variable E3PC")
    parser.add_argument("--seconds", type=float, default=60, help="how long a run may take; one that takes longer meets no condition")


def lacks_program(program):
    """What to say where the program cannot be run; None where it can."""
    if os.access(program, os.X_OK):
        return None
    return f"there is no built program at {program}. To build and prove it: .ci/run. Another one is taken by --program, or by the variable E3PC"


class Condition:
    def __init__(self, words):
        self.words, self.count = words, 0
        self.matches = [re.compile(it) for it in words.match]
        self.lacks = [re.compile(it) for it in words.lacks]

    def is_given(self):
        return self.words.status is not None or bool(self.words.line or self.words.match or self.words.lacks)

    def run(self, text):
        """The status and the output of a run; (None, "") where it took too long."""
        self.count += 1
        try:
            ran = subprocess.run([self.words.program, "run", *(["--trace"] if self.words.trace else [])], input=text.encode("utf-8"), stdout=subprocess.PIPE, stderr=subprocess.DEVNULL, timeout=self.words.seconds)
        except subprocess.TimeoutExpired:
            return None, ""
        return ran.returncode, ran.stdout.decode("utf-8", "replace")

    def is_met(self, status, output):
        lines = output.split("\n")
        return (
            status is not None
            and self.words.status in (None, status)
            and all(it in lines for it in self.words.line)
            and all(any(it.search(line) for line in lines) for it in self.matches)
            and not any(it.search(line) for line in lines for it in self.lacks)
        )

    def holds(self, text):
        return self.is_met(*self.run(text))
