#!/usr/bin/env python3
"""Runs the larger programs of examples/ and the gate's packed cases by node in the modules that tools/page.py made.

    python3 tools/page/test_node.py [--page HTML] [MODULE..]    (without modules: tools/out/c25-32.wasm and tools/out/c25-64.wasm)

Status, standard output, standard error and written files have to be those of the cases. Of the module of 64-bit addresses it says
where this node cannot run it; with --page chromium does, in this page, on the cases that have no standard input.
"""
import argparse
import base64
import glob
import json
import os
import shlex
import subprocess
import sys
import tempfile

HERE = os.path.dirname(os.path.abspath(__file__))
TOP = os.path.dirname(os.path.dirname(HERE))
DATA = os.path.join(TOP, "crates", "c25_examples", "data")
sys.path.insert(0, HERE)
sys.dont_write_bytecode = True
from in_page import coded  # noqa: E402
import in_page  # noqa: E402
import kit  # noqa: E402
import lower  # noqa: E402

OUT = os.path.join(TOP, "tools", "out")
SMALL, WIDE = "c25-32.wasm", "c25-64.wasm"
SMALL_MEMORY = 512      # pages of 64 KiB
MANY_LABELS = 60000
# Node has a memory of 64-bit addresses since 24; some before it have one behind a flag.
FOR_NODE = ([], ["--experimental-wasm-memory64"])


class Case:
    """A call, and what it must give; what is None may be anything."""

    def __init__(self, name, command_line=None, given=b"", files=None):
        self.name, self.command_line, self.given, self.files = name, command_line or [], given, files or {}
        self.status, self.output, self.errors, self.written = 0, b"", None, {}

    def sent(self):
        files = {name: coded(it) for name, it in self.files.items()}
        return json.dumps({"command_line": self.command_line, "given": coded(self.given), "files": files})

    def difference(self, answer):
        if "trap" in answer:
            return "trap: " + answer["trap"]
        wanted = {"status": self.status, "output": coded(self.output), "errors": None if self.errors is None else coded(self.errors)}
        for key, value in wanted.items():
            if value is not None and answer[key] != value:
                return "another %s: %r" % (key, answer[key] if key == "status" else base64.b64decode(answer[key])[:200])
        return next(("another file " + name for name, it in self.written.items() if answer["written"].get(name) != coded(it)), None)


def bytes_of(*path):
    with open(os.path.join(*path), "rb") as file:
        return file.read()


def larger_programs():
    for session in sorted(glob.glob(os.path.join(TOP, "examples", "*", "session"))):
        folder = os.path.dirname(session)
        case = Case("examples/" + os.path.basename(folder))
        case.command_line = shlex.split(bytes_of(session).decode().splitlines()[0])[1:]
        names = [name for name in case.command_line if os.path.isfile(os.path.join(folder, name))]
        case.files = {name: bytes_of(folder, name) for name in names}
        case.output, case.status = bytes_of(folder, "output.txt"), None
        yield case


def packed(path):
    """The cases of a file; crates/c25_examples/src/packed.rt describes its form."""
    rest, cases = bytes_of(path), []
    while rest:
        line, _, rest = rest.partition(b"\n")
        kind, _, more = line.decode().partition(" ")
        if kind == "case":
            cases.append(Case("%s: %s" % (os.path.basename(path), more)))
        elif kind == "word":
            cases[-1].command_line.append(more)
        elif kind == "status":
            cases[-1].status = int(more)
        else:
            length, _, name = more.partition(" ")
            size, _, copies = length.partition("*")
            content, rest = rest[:int(size)] * int(copies or 1), rest[int(size) + 1:]
            put(cases[-1], kind, name, content)
    return cases


def put(case, kind, name, content):
    if kind == "input":
        case.given += content
    elif kind == "output":
        case.output += content
    elif kind == "errors":
        case.errors = (case.errors or b"") + content
    else:
        files = case.files if kind == "given" else case.written
        files[name] = files.get(name, b"") + content


def all_cases():
    found = list(larger_programs())
    for pattern in ("*.cases", os.path.join("cases", "*.cases"), os.path.join("random", "*.cases")):
        for path in sorted(glob.glob(os.path.join(DATA, pattern))):
            found += packed(path)
    return found


def out_of_memory():
    """A source that 32 MiB do not suffice for."""
    case = Case("out of memory")
    source = "".join("L%d NOP\n" % number for number in range(MANY_LABELS))
    case.command_line, case.files = ["build", "a.asm", "--out", "a"], {"a.asm": source.encode()}
    case.status, case.errors = 1, b"memory: 9 NoMemory\n"
    return case


def answers(node, module, cases):
    """What the module answers to the cases, or None where this node cannot run it."""
    sent = "".join(case.sent() + "\n" for case in cases)
    for flags in FOR_NODE:
        done = subprocess.run([node] + flags + [os.path.join(HERE, "run_cases.js"), module], input=sent, stdout=subprocess.PIPE,
                              stderr=subprocess.PIPE, universal_newlines=True)
        if done.returncode == 0:
            return [json.loads(line) for line in done.stdout.splitlines()]
        if "CompileError" not in done.stderr and "bad option" not in done.stderr:
            sys.exit(done.stderr)
    return None


def differences(node, module, cases, page=None):
    """Prints where the module answers something else, and returns in how many cases it does."""
    name, got = os.path.basename(module), answers(node, module, cases)
    if got is None:
        print("%s: this node cannot run it%s" % (name, ", so chromium does" if page else ""))
        cases = [case for case in cases if page and not case.given]
        got = in_page.answers(page, cases, module) if page else []
    bad = 0
    for case, answer in zip(cases, got):
        difference = case.difference(answer)
        if difference:
            bad += 1
            print("%s: %s: %s" % (name, case.name, difference))
    if cases:
        print("%s: %d cases the same, %d others" % (name, len(cases) - bad, bad), flush=True)
    return bad


def in_small_memory(node, module):
    with tempfile.TemporaryDirectory() as folder:
        small = os.path.join(folder, "small-32.wasm")
        with open(small, "wb") as file:
            file.write(lower.lowered(bytes_of(module), SMALL_MEMORY))
        return differences(node, small, [out_of_memory()])


def main():
    parser = argparse.ArgumentParser(description=__doc__, formatter_class=argparse.RawDescriptionHelpFormatter)
    parser.add_argument("modules", nargs="*", default=[os.path.join(OUT, name) for name in (SMALL, WIDE)])
    parser.add_argument("--page", metavar="HTML")
    options = parser.parse_intermixed_args()
    node = kit.node()
    if node is None:
        print("test_node.py: node is missing: nothing was tested")
        return 0
    cases, page = all_cases(), options.page and os.path.abspath(options.page)
    bad = sum(differences(node, module, cases, page) for module in options.modules)
    bad += sum(in_small_memory(node, module) for module in options.modules if os.path.basename(module) == WIDE)
    return 1 if bad else 0


if __name__ == "__main__":
    sys.exit(main())
