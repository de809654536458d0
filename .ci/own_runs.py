#!/usr/bin/env python3
"""Runs the proved program as a shell does, and holds its standard output, its standard error and its status against what they must be.

usage: .ci/own_runs.py [PROGRAM]      PROGRAM by default: crates/c25/out/c25, which `rt ci` leaves there

`rt ci` compares a program's standard output and its status; no contract and no other run of the gate says that what c25 reports
reaches standard error, or that all of its words arrive. It prints nothing where all is well.
"""
import dataclasses
import os
import subprocess
import sys
import tempfile

TOP = os.path.dirname(os.path.dirname(os.path.abspath(__file__)))
# The most seconds that a run may take.
LIMIT = 60


@dataclasses.dataclass
class Run:
    """The words of a run and what is given to it, and its answer, worked out from docs/FAULTS.md and docs/manual/program.md."""

    words: list
    files: dict = dataclasses.field(default_factory=dict)
    stdin: str = ""
    status: int = 0
    stdout: str = ""
    # What standard error must be, or, with `more`, begin with.
    stderr: str = ""
    more: bool = False
    # Where standard output goes, if not to a pipe.
    to: str = ""


sys.path.insert(0, os.path.join(TOP, "docs"))
os.chdir(TOP)
import reference  # noqa: E402

SOURCES = [f"s{number:03}.asm" for number in range(298)]

RUNS = [
    Run(["asm", "none.asm", "--obj", "none.obj"], status=1, stderr="none.asm: 8 CannotRead\n"),
    Run(["build", "a.asm", "b.asm", "--out", "ab"], {"a.asm": " NOP\n", "b.asm": "* B\n LACK 256\n"}, status=1, stderr="b.asm:2: 53 FieldRange\n"),
    Run(
        ["build", "a.asm", "--out", "a", "--explain"],
        {"a.asm": " LACK 256\n"},
        status=1,
        stderr="a.asm:1: 53 FieldRange\na.asm:1:  LACK 256\n  1 |  LACK 256\n    |       ^^^ 256 does not go into 0 to 255",
        more=True,
    ),
    # Two faults of the first phase, and all of the lines that are reported.
    Run(["asm", "a.asm", "--obj", "a.obj", "--all"], {"a.asm": " FOO\n NOP\n9X NOP\n"}, status=1, stderr="a.asm:1: 50 UnknownMnemonic\na.asm:3: 10 BadLabel\n"),
    # Without words the source comes from standard input.
    Run([], stdin=" NOP\n FOO\n", status=1, stderr="stdin:2: 50 UnknownMnemonic\n"),
    # 300 words: the last source alone has a fault.
    Run(["build", *SOURCES, "--out=all"], {name: " NOP\n" for name in SOURCES} | {SOURCES[-1]: " FOO\n"}, status=1, stderr="s297.asm:1: 50 UnknownMnemonic\n"),
    # A run that leaves its code reports that on standard output alone.
    Run(["run", "a.asm"], {"a.asm": " NOP\n"}, status=3, stdout="left 1 OutOfCode\n"),
    # Standard output that takes nothing.
    Run(["run", "a.asm"], {"a.asm": " NOP\n"}, status=1, stderr="stdout: 7 CannotWrite\n", to="/dev/full"),
    # All examples of the page of instructions and directives.
    Run(["asm", "forms.asm", "--obj", "forms.obj"], {"forms.asm": reference.examples()}),
    Run(["build"], status=2, stderr="error: ", more=True),
    Run(["--version"], status=2, stderr="c25 ", more=True),
]


def answer(program, run):
    """Returns the status, standard output and standard error of a run in a folder of its own."""
    with tempfile.TemporaryDirectory() as folder:
        for name, text in run.files.items():
            with open(os.path.join(folder, name), "w", encoding="ascii") as file:
                file.write(text)
        out = open(run.to, "wb") if run.to else subprocess.PIPE
        try:
            ran = subprocess.run([program, *run.words], cwd=folder, input=run.stdin.encode(), stdout=out, stderr=subprocess.PIPE, timeout=LIMIT)
        finally:
            if run.to:
                out.close()
    return ran.returncode, (ran.stdout or b"").decode(), ran.stderr.decode()


def main():
    program = os.path.abspath(sys.argv[1]) if len(sys.argv) > 1 else os.path.join(TOP, "crates", "c25", "out", "c25")
    wrong = 0
    for run in RUNS:
        status, stdout, stderr = answer(program, run)
        shown = stderr[: len(run.stderr)] if run.more else stderr
        if (status, stdout, shown) != (run.status, run.stdout, run.stderr):
            wrong += 1
            print(f"c25 {' '.join(run.words)[:60]}: status {status}, standard output {stdout!r}, standard error {stderr[:400]!r}")
            print(f"  must be: status {run.status}, {run.stdout!r}, {run.stderr!r}")
    if wrong:
        sys.exit(f"{wrong} of {len(RUNS)} runs of {program} are not as they must be")


if __name__ == "__main__":
    main()
