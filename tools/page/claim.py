"""What the page says of the module that it is made of: a line at its head, and more under About."""
import hashlib

PROVED = "made of the proved program's module"
UNPROVED = "NOT PROVED: built by rt try, without the proofs"
ABOUT = """%(claim)s

%(meaning)s

revision  %(revision)s
kit       %(kit)s
verdict   %(verdict)s
module    WebAssembly, %(size)d bytes, SHA-256
          %(digest)s
"""
MEANING = {
    PROVED: """Each answer is one of the program whose contracts README.md lists, as far as these are
right: clang for WebAssembly instead of for x86-64, the changes of tools/page (target, heap
and calls of C, addresses of 32 bits), this browser's engine, and the page's own script, which
shows answers and computes none. No verdict of rt covers the module.""",
    UNPROVED: """Nothing of what this page answers is proved. The program stops at an index out of bounds
and at a sum that overflows, and is slower than the proved one.""",
}


def about(claim, revision, kit, verdict, module):
    """The text under About."""
    return ABOUT % {"claim": claim, "meaning": MEANING[claim], "revision": revision, "kit": kit, "verdict": verdict, "size": len(module),
                    "digest": hashlib.sha256(module).hexdigest()}
