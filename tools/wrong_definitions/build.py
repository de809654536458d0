"""Makes one executable of c25_examples, without proofs, in which each change of meaning is on where its number stands in the executable's data.

`rt try` hands one module of LLVM's to clang; it is kept while `rt try` runs, as tools/unproved.py keeps an executable. In the module's text the
calls of `is_changed` are made to compare their number with a word of the executable's data, which has the value MARK; clang then compiles it again.
`executable_of` puts a number there.
"""
import os
import re
import shutil
import signal
import subprocess
import sys
import tempfile
import time

MARK = 0x7D0BEEF1
NO_CHANGE = 999_999
TARGET = "x86_64-unknown-linux-gnu"
BITCODE = b"BC\xc0\xde"
# `rt try` first compiles a module of some hundred bytes; that of the program has many millions.
LEAST_BYTES = 1_000_000
NAME = re.compile(r'@("(?:[^"\\]|\\.)*"|[\w.$]+)\(')


def keep_modules(made, into, seen):
    """Links each file called module.bc below a folder to a name that stays when the file is removed."""
    for at, _, files in os.walk(made):
        for name in files:
            path = os.path.join(at, name)
            try:
                inode = os.stat(path).st_ino
                if name == "module.bc" and inode not in seen:
                    seen[inode] = os.path.join(into, "%d.bc" % len(seen))
                    os.link(path, seen[inode])
            except OSError:
                seen.pop(inode, None)


def whole_module(seen):
    """The largest kept module that is written to its end: it has not grown for five seconds."""
    kept = [it for it in seen.values() if os.path.exists(it)]
    if not kept:
        return None
    largest = max(kept, key=os.path.getsize)
    with open(largest, "rb") as file:
        begins = file.read(4) == BITCODE
    whole = begins and os.path.getsize(largest) >= LEAST_BYTES
    return largest if whole and time.time() - os.path.getmtime(largest) > 5 else None


def module_of(crate, folder):
    """The module that `rt try` makes of a crate; it is stopped when the module is there."""
    made, into, seen = os.path.join(folder, "made"), os.path.join(folder, "kept"), {}
    os.makedirs(made)
    os.makedirs(into)
    with open(os.path.join(folder, "said"), "w+b") as said:
        trying = subprocess.Popen(["rt", "try", "--steps", "1", "--seconds", "1"], cwd=crate, env={**os.environ, "TMPDIR": made},
                                  stdin=subprocess.DEVNULL, stdout=said, stderr=said, start_new_session=True)
        while trying.poll() is None:
            time.sleep(0.01)
            keep_modules(made, into, seen)
            module = whole_module(seen)
            if module:
                os.killpg(trying.pid, signal.SIGTERM)
                trying.wait()
                return module
        said.seek(0)
        sys.exit(said.read().decode("utf-8", "replace")[-6000:] + "wrong_definitions.py: `rt try` made no module")


def compared(head):
    """The text of a function `is_changed` that compares its argument with the word in the data."""
    argument = re.search(r"\(i32[^%]*(%\w+)", head)[1]
    return [re.sub(r"\) .*\{$", ") alwaysinline nounwind {", head.rstrip("\n")) + "\n", "  %mark = load i32, ptr @c25_wrong_definition\n",
            "  %on = icmp eq i32 %mark, " + argument + "\n", "  ret i1 %on\n", "}\n"]


def with_numbers(source, target):
    """Copies a module's text; in the copy each `is_changed` compares."""
    skipped = False
    with open(source, encoding="utf-8", errors="surrogateescape") as lines, open(target, "w", encoding="utf-8", errors="surrogateescape") as out:
        for line in lines:
            if skipped:
                skipped = line != "}\n"
                continue
            if line.startswith("define ") and NAME.search(line)[1].strip('"').endswith("::is_changed"):
                out.writelines(compared(line))
                skipped = True
            else:
                out.write(line)
        out.write("@c25_wrong_definition = global i32 %d\n" % MARK)


def compiled(module, program, folder):
    """Compiles a module with the kit's clang, and links it as `rt` does."""
    kit = os.path.dirname(os.path.dirname(os.path.realpath(shutil.which("rt"))))
    clang = [kit + "/toolchain/bin/clang", "--target=" + TARGET, "-Wno-override-module"]
    plain, numbered, made = (os.path.join(folder, it) for it in ("plain.ll", "numbered.ll", "made.o"))
    subprocess.run([*clang, "-S", "-emit-llvm", "-O0", "-Xclang", "-disable-O0-optnone", "-Xclang", "-disable-llvm-passes", module, "-o", plain], check=True)
    with_numbers(plain, numbered)
    subprocess.run([*clang, "-O1", "-c", numbered, "-o", made], check=True)
    subprocess.run([kit + "/bin/rattle-link", "--target", TARGET, "--toolchain", kit + "/toolchain", "-o", program, made,
                    kit + "/c/libos_c.a", kit + "/c/liblibc_c.a"], check=True, stdout=subprocess.DEVNULL)


def executable_of(number, program, path):
    """Writes the program with one change on to a file of its own."""
    with open(program, "rb") as file:
        data = file.read()
    mark = MARK.to_bytes(4, "little")
    if data.count(mark) != 1:
        sys.exit("wrong_definitions.py: %s has no one place for a number" % program)
    with open(path, "wb") as file:
        file.write(data.replace(mark, number.to_bytes(4, "little")))
    os.chmod(path, 0o755)


def build(copy_with_all, program):
    """Makes the executable of a copy of the repository with all changes."""
    with tempfile.TemporaryDirectory(prefix="wrong-definitions-", dir=os.path.dirname(os.path.abspath(program))) as folder:
        copy = os.path.join(folder, "copy")
        os.makedirs(copy)
        done = copy_with_all(copy)
        print("%d changes; the build takes ten minutes or more" % len(done), file=sys.stderr)
        module = module_of(os.path.join(copy, "crates", "c25_examples"), folder)
        compiled(module, program, folder)
