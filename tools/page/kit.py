"""The kit of `rt`: its tools that the page is made with, and what is missing of them."""
import os
import shutil
import subprocess

COMPILER, LINKER = "clang", "ld.lld"


class Missing(Exception):
    """What is needed and is not there, a sentence for each thing."""

    def __init__(self, sentences):
        super().__init__("\n".join(sentences))
        self.sentences = sentences


def printed(command_line, folder=None):
    """What a command prints, without blanks around it; nothing where it fails or is not there."""
    try:
        done = subprocess.run(command_line, cwd=folder, stdout=subprocess.PIPE, stderr=subprocess.DEVNULL, universal_newlines=True)
    except OSError:
        return ""
    return done.stdout.strip() if done.returncode == 0 else ""


def toolchain():
    """The folder in whose `bin` clang and the linker are; raises Missing where something that is needed is not there."""
    if shutil.which("rt") is None:
        raise Missing(["rt is missing: put the folder bin of the kit into PATH"])
    folder = os.path.join(os.path.dirname(printed(["rt", "doc"])), "toolchain")
    sentences = list(missing(folder))
    if sentences:
        raise Missing(sentences)
    return folder


def missing(folder):
    """A sentence for each tool that this folder lacks, or that cannot do what is needed."""
    clang, linker = (os.path.join(folder, "bin", name) for name in (COMPILER, LINKER))
    absent = [path for path in (clang, linker) if not os.access(path, os.X_OK)]
    for path in absent:
        yield "%s is missing: the kit has no %s" % (os.path.basename(path), path)
    if clang not in absent and " wasm64 " not in printed([clang, "--print-targets"]):
        yield "the target wasm64 is missing: %s compiles for other processors alone" % clang
    if linker not in absent and not printed([linker, "-flavor", "wasm", "--version"]):
        yield "the linker for WebAssembly is missing: %s has no flavor wasm" % linker


def node():
    """The command of node, or None."""
    return shutil.which("node") or shutil.which("nodejs")
