#!/usr/bin/env python3
"""Makes the program c25 as a page that any browser opens from a disk, and as a script for node, of the module of the proved program.

    python3 tools/page.py                 tools/out/c25.html and tools/out/c25.js, of the program that `rt run` proves and builds
    python3 tools/page.py --unproved      the same of what `rt try` builds, with its checks: nothing of it is proved

`rt run` builds the program again, and proves it first where crates/c25 is not proved yet. The module that it hands to clang is
compiled as `rt` compiles it, and has to give the program's own object, byte for byte. Then the same module is compiled for
WebAssembly by the kit's clang and linked by its linker. tools/out/c25-64.wasm is that module, with addresses of 64 bits,
tools/out/c25-32.wasm what the page has: the same over a memory of 32-bit addresses, which every engine takes.

The kit is all that is needed; where node is there, the script is tried. tools/page/README.md says what each part does.
"""
import argparse
import os
import subprocess
import sys
import tempfile
import time

TOP = os.path.dirname(os.path.dirname(os.path.abspath(__file__)))
OUT = os.path.join(TOP, "tools", "out")
CRATE = os.path.join(TOP, "crates", "c25")
sys.path.insert(0, os.path.join(TOP, "tools", "page"))
sys.dont_write_bytecode = True
import claim  # noqa: E402
import kit  # noqa: E402
import lower  # noqa: E402
import module  # noqa: E402
import one_file  # noqa: E402
import wasm  # noqa: E402

MEBIBYTE = 1 << 20
# What node tries the script on, and what it must print.
TRIED = ["run", os.path.join("examples", "port.asm")]
TRIED_PRINTS = "1 0041\nran 1000"
BEGAN = time.time()


def part(text):
    """Prints which part begins or is done, after how many seconds."""
    print("%4.0f s  %s" % (time.time() - BEGAN, text), flush=True)


def proved_module(folder, toolchain):
    part("rt run: builds crates/c25, and proves it where it is not proved yet (hours, where no library is)")
    made, verdict = module.built_again(CRATE, folder, lambda name: part("rt run: %s is proved" % name))
    part("compiles the module that rt handed to clang, as rt does")
    if not module.same_object(made, CRATE, folder, toolchain):
        raise module.Failed("the kept module is not the one of %s: nothing was made" % module.object_of(CRATE))
    part("it is the proved program's: clang makes the program's object of it, byte for byte")
    return made, verdict


def unproved_module(folder):
    part("rt try: builds crates/c25 without proofs, in two or three minutes")
    return module.unproved(CRATE, folder), "none: nothing is proved"


def try_script(script, folder):
    """Has node run the script on an example."""
    node, path = kit.node(), os.path.join(folder, "c25.js")
    if node is None:
        part("node is missing, so c25.js was not tried")
        return
    with open(path, "w", encoding="utf-8") as file:
        file.write(script)
    printed = kit.printed([node, path] + TRIED, TOP)
    if printed != TRIED_PRINTS:
        raise module.Failed("%s %s %s printed:\n%s" % (node, path, " ".join(TRIED), printed))
    part("node runs the script: %s prints what it must" % TRIED[-1])


def write(files):
    """Writes the files that are made, all at the end, so that they belong together."""
    for name, content in files.items():
        path = os.path.join(OUT, name)
        content = content if isinstance(content, bytes) else content.encode("utf-8")
        with open(path, "wb") as file:
            file.write(content)
        part("%s has %d bytes" % (os.path.relpath(path, TOP), len(content)))
    os.chmod(os.path.join(OUT, "c25.js"), 0o755)


def make(options, folder):
    toolchain = kit.toolchain()
    made, verdict = unproved_module(folder) if options.unproved else proved_module(folder, toolchain)
    part("compiles it for WebAssembly, in one to three minutes")
    wide = wasm.linked(toolchain, wasm.compiled(toolchain, made, folder), folder, options.memory * MEBIBYTE)
    part("turns its addresses into ones of 32 bits")
    small = lower.lowered(wide)
    script = one_file.node_script(small)
    try_script(script, folder)
    said = claim.UNPROVED if options.unproved else claim.PROVED
    revision = kit.printed(["git", "describe", "--always", "--dirty", "--abbrev=12"], TOP) or "unknown"
    about = claim.about(said, revision, kit.printed(["rt", "version"]), verdict, small)
    write({"c25-64.wasm": wide, "c25-32.wasm": small, "c25.js": script, "c25.html": one_file.page(small, TOP, said, about)})


def main():
    parser = argparse.ArgumentParser(description=__doc__, formatter_class=argparse.RawDescriptionHelpFormatter)
    parser.add_argument("--unproved", action="store_true", help="of what `rt try` builds")
    parser.add_argument("--memory", type=int, default=4096, metavar="MIB", help="how many MiB the program may take at most (4096)")
    options = parser.parse_args()
    os.makedirs(OUT, exist_ok=True)
    with tempfile.TemporaryDirectory(dir=OUT) as folder:
        try:
            make(options, folder)
        except kit.Missing as error:
            sys.exit("\n".join("page.py: " + sentence for sentence in error.sentences))
        except (module.Failed, wasm.Refused, lower.Unknown) as error:
            sys.exit("page.py: %s" % error)
        except subprocess.CalledProcessError as error:
            sys.exit("page.py: %s ended with status %d" % (error.cmd[0], error.returncode))
        except KeyboardInterrupt:
            sys.exit("page.py: ended by the keyboard: nothing was made")


if __name__ == "__main__":
    main()
