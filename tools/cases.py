"""The calls of the program c25 that this repository has as data: what the gate's examples run."""
import os
import shlex

TOP = os.path.dirname(os.path.dirname(os.path.abspath(__file__)))
DATA = os.path.join(TOP, "crates", "c25_examples", "data")


class Call:
    """A command line without the program's name, the bytes on standard input, and the files in the folder, by their names."""

    def __init__(self, name, words, given, files):
        self.name, self.words, self.given, self.files = name, words, given, files


def files_in(folder):
    found = {}
    for root, _, names in os.walk(folder):
        for name in names:
            path = os.path.join(root, name)
            with open(path, "rb") as file:
                found[os.path.relpath(path, folder)] = file.read()
    return found


def call_of(name, line, files):
    """The call of a session's line, or None where it is another command."""
    line, given = line.replace(" 2>/dev/null", ""), b""
    if line.startswith("echo ") and " | c25" in line:
        text, _, line = line.rpartition(" | ")
        given = (shlex.split(text)[1] + "\n").encode()
    elif " < " in line:
        line, _, file = line.partition(" < ")
        given = files[file]
    words = line.split()
    return Call(name, words[1:], given, files) if words and words[0] == "c25" else None


def session_calls(folder):
    """The calls of a folder's session, each with the files that lie there at first."""
    files, name = files_in(folder), os.path.relpath(folder, DATA)
    lines = files.pop("session").decode().splitlines()
    files.pop("output.txt", None)
    calls = [call_of("%s:%d" % (name, number), line, files) for number, line in enumerate(lines, 1)]
    return [call for call in calls if call]


def packed_calls(path):
    """The calls of a file of packed cases; crates/c25_examples/src/packed.rt describes its form."""
    with open(path, "rb") as file:
        rest = file.read()
    calls, base = [], os.path.basename(path)
    while rest:
        line, _, rest = rest.partition(b"\n")
        kind, _, told = line.decode().partition(" ")
        length = told.split(" ")[0]
        if kind == "case":
            calls.append(Call("%s:%s" % (base, told), [], b"", {}))
        elif kind == "word":
            calls[-1].words.append(told)
        elif kind != "status":
            size, _, copies = length.partition("*")
            held, rest = rest[:int(size)] * int(copies or 1), rest[int(size) + 1:]
            if kind == "input":
                calls[-1].given += held
            elif kind == "given":
                name = told.partition(" ")[2]
                calls[-1].files[name] = calls[-1].files.get(name, b"") + held
    return calls


def groups():
    """The calls of each folder and of each file of packed cases, by its name."""
    found = {}
    for part in ("programs", "pages", "cases"):
        top = os.path.join(DATA, part)
        for name in sorted(os.listdir(top)):
            path = os.path.join(top, name)
            found["%s/%s" % (part, name)] = session_calls(path) if os.path.isdir(path) else packed_calls(path)
    for name in ("faults.cases", "explained.cases"):
        found[name] = packed_calls(os.path.join(DATA, name))
    for name in sorted(os.listdir(os.path.join(DATA, "random"))):
        found["random/" + name] = packed_calls(os.path.join(DATA, "random", name))
    return found
