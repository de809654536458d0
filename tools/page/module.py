"""Keeps the module that `rt` hands to clang when it builds a program crate, and holds it against the program's object.

`rt` removes the module when clang has read it, so it is linked under another name while `rt` runs.
"""
import os
import re
import subprocess
import time

BITCODE = b"BC\xc0\xde"
MODULE, OBJECT = "module.bc", "module.o"
MADE, PRINTED = "made", "printed"
# The line that `rt` prints when a crate is proved.
PROVED_CRATE = re.compile(r"^crate (\w+): .*\n", re.MULTILINE)
# What `rt` has clang do with the module of a proved program.
FOR_CLANG = ["-no-trap-after-noreturn", "-trap-unreachable", "-no-x86-call-frame-opt", "-disable-machine-licm",
             "-disable-postra-machine-licm", "-sink-common-insts=false"]
AS_RT = (["--target=x86_64-unknown-linux-gnu", "-march=x86-64"] + [word for flag in FOR_CLANG for word in ("-mllvm", flag)]
         + ["-ffunction-sections", "-fdata-sections", "--no-default-config", "-no-canonical-prefixes", "-fintegrated-cc1",
            "-fno-crash-diagnostics", "-Werror", "-c", "-x", "ir", MODULE, "-o", OBJECT, "-fPIE", "-O3", "-Xclang",
            "-fmerge-functions", "-mllvm", "-mergefunc-use-aliases"])


class Failed(Exception):
    """Why there is no module."""


def bytes_of(path):
    with open(path, "rb") as file:
        return file.read()


def link_modules(made, kept):
    """Links each module below the folder `made` into the folder `kept`."""
    for folder, _, files in os.walk(made):
        if MODULE in files:
            path = os.path.join(folder, MODULE)
            try:
                os.link(path, os.path.join(kept, "%d.bc" % os.stat(path).st_ino))
            except OSError:
                pass        # it is kept already, or gone meanwhile


def begin(command_line, crate, folder):
    """Begins `rt` in the crate's folder; what it prints goes to the file `printed` of the other folder."""
    with open(os.path.join(folder, PRINTED), "w", encoding="utf-8") as printed:
        return subprocess.Popen(command_line, cwd=crate, env={**os.environ, "TMPDIR": os.path.join(folder, MADE)}, stdin=subprocess.DEVNULL,
                                stdout=printed, stderr=printed)


def run_keeping(command_line, crate, folder, progress):
    """Runs `rt` in the crate's folder, and returns the module that it made, or None, and what it printed.

    `progress` is called with the name of each crate that is proved."""
    made, kept, text, proved = os.path.join(folder, MADE), os.path.join(folder, "kept"), "", []
    os.makedirs(made)
    os.makedirs(kept)
    running = begin(command_line, crate, folder)
    with open(os.path.join(folder, PRINTED), encoding="utf-8", errors="replace") as printed:
        while running.poll() is None:
            link_modules(made, kept)
            more = printed.read()
            text += more
            for name in PROVED_CRATE.findall(text)[len(proved):] if more else ():
                proved.append(name)
                progress(name)
            time.sleep(0.003)
        text += printed.read()
    return largest_module(kept), text


def largest_module(folder):
    """The largest of the modules in a folder, or None: the program's has the libraries in it."""
    modules = [os.path.join(folder, name) for name in os.listdir(folder)]
    modules = [path for path in modules if bytes_of(path)[:4] == BITCODE]
    return max(modules, key=os.path.getsize, default=None)


def unproved(crate, folder):
    """The module of `rt try`, with its checks; nothing of it is proved."""
    module, text = run_keeping(["rt", "try", "--steps", "1"], crate, folder, lambda name: None)
    if module is None:
        raise Failed(text + "`rt try` made no module")
    return module


def program_of(crate):
    return os.path.join(crate, "out", os.path.basename(crate))


def object_of(crate):
    return program_of(crate) + ".o"


def built_again(crate, folder, progress):
    """Has `rt run` build the crate's program again, which proves it first where that is not done yet."""
    # (a program that is there would only be run; it comes back where no other is made)
    aside = {path: path + ".aside" for path in (program_of(crate), object_of(crate)) if os.path.exists(path)}
    for path, other in aside.items():
        os.replace(path, other)
    try:
        module, text = run_keeping(["rt", "run"], crate, folder, progress)
    finally:
        for path, other in aside.items():
            if os.path.exists(path):
                os.remove(other)
            else:
                os.replace(other, path)
    verdicts = [line for line in text.splitlines() if line.startswith("logic=proved")]
    if module is None or not verdicts:
        raise Failed(text + "`rt run` made no proved program")
    return module, verdicts[-1]


def same_object(module, crate, folder, toolchain):
    """Whether clang makes the program's own object of the module, byte for byte."""
    os.link(module, os.path.join(folder, MODULE))
    subprocess.run([toolchain + "/bin/clang", "--sysroot=" + toolchain] + AS_RT, cwd=folder, check=True)
    return bytes_of(os.path.join(folder, OBJECT)) == bytes_of(object_of(crate))
