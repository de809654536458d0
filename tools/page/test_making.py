#!/usr/bin/env python3
"""Tests how tools/page.py makes the page: what is missing is said, what cannot be turned is refused, and a module that is not the proved
program's makes no page.

    python3 tools/page/test_making.py [--proved]      (seconds; with --proved a minute or more)

--proved has `rt run` prove and build a small program, and holds the module that it kept against its object.
"""
import os
import random
import re
import shutil
import subprocess
import sys
import tempfile
import unittest
from unittest import mock

HERE = os.path.dirname(os.path.abspath(__file__))
TOOLS = os.path.dirname(HERE)
sys.path[:0] = [HERE, TOOLS]
sys.dont_write_bytecode = True
from dense import ASIDE, dense  # noqa: E402
import kit  # noqa: E402
import lower  # noqa: E402
import module  # noqa: E402
import one_file  # noqa: E402
import page  # noqa: E402
import wasm  # noqa: E402

PROVED = "--proved" in sys.argv
PROGRAM = "int main(void) { return 7; }\n"
# Takes, widens and gives back blocks of all sizes: each has to begin at a multiple of 16 and to keep what was put into it.
HEAP = """typedef struct { unsigned long ok; unsigned char *block; } Tried;
Tried rattle_alloc(unsigned long, unsigned long);
Tried rattle_realloc(void *, unsigned long, unsigned long, unsigned long);
void rattle_dealloc(void *);
static struct { unsigned char *at; unsigned long count; unsigned char mark; } held[500];
static unsigned seed = 1;
static unsigned any(unsigned count) { return (seed = seed * 1103515245 + 12345) / 65536 % count; }
int main(void) {
    for (int turn = 0; turn < 200000; turn++) {
        int k = any(500);
        for (unsigned long i = 0; i < held[k].count; i++)
            if (held[k].at[i] != held[k].mark) return 1;
        unsigned long count = any(any(9) ? 100 : 30000);
        if (held[k].at && any(2)) { rattle_dealloc(held[k].at); held[k].at = 0; held[k].count = 0; continue; }
        Tried it = held[k].at ? rattle_realloc(held[k].at, held[k].count, count, 8) : rattle_alloc(count, 8);
        if (!it.ok || (unsigned long)it.block % 16) return 2;
        unsigned long kept = held[k].count < count ? held[k].count : count;
        for (unsigned long i = 0; i < kept; i++) if (it.block[i] != held[k].mark) return 3;
        held[k].at = it.block; held[k].count = count; held[k].mark = any(256);
        for (unsigned long i = 0; i < count; i++) it.block[i] = held[k].mark;
    }
    return 7;
}
"""
RUN = """const fs = require("fs"), c25 = new Function(fs.readFileSync(%r, "utf8") + "; return c25;")();
process.exitCode = c25(new WebAssembly.Module(fs.readFileSync(%r)), [], {});"""


def write(path, text):
    os.makedirs(os.path.dirname(path), exist_ok=True)
    with open(path, "w", encoding="ascii") as file:
        file.write(text)
    os.chmod(path, 0o755)


def change_a_byte(path):
    data = bytearray(module.bytes_of(path))
    data[len(data) // 2] ^= 1
    with open(path, "wb") as file:
        file.write(data)


class InFolder(unittest.TestCase):
    def setUp(self):
        self.folder = tempfile.mkdtemp(prefix="c25making")
        self.addCleanup(shutil.rmtree, self.folder, ignore_errors=True)

    def path(self, *names):
        return os.path.join(self.folder, *names)


class Missing(InFolder):
    """What page.py says in a kit that lacks something; it begins to build nothing."""

    def said(self, **tools):
        for name, text in tools.items():
            write(self.path("kit", *name.split("__")), "#!/bin/sh\n%s\n" % text)
        os.makedirs(self.path("kit", "bin"), exist_ok=True)
        done = subprocess.run([sys.executable, os.path.join(TOOLS, "page.py"), "--unproved"], stdout=subprocess.PIPE, stderr=subprocess.PIPE,
                              env={"PATH": self.path("kit", "bin")}, universal_newlines=True)
        self.assertEqual((done.returncode, done.stdout), (1, ""))
        return done.stderr.replace(self.path("kit"), "KIT").splitlines()

    def rt(self):
        return "echo %s" % self.path("kit", "START-HERE.md")

    def test_no_kit(self):
        self.assertEqual(self.said(), ["page.py: rt is missing: put the folder bin of the kit into PATH"])

    def test_no_tools(self):
        self.assertEqual(self.said(bin__rt=self.rt()), [
            "page.py: clang is missing: the kit has no KIT/toolchain/bin/clang",
            "page.py: ld.lld is missing: the kit has no KIT/toolchain/bin/ld.lld"])

    def test_no_target(self):
        tools = {"toolchain__bin__clang": "echo '    x86-64 - 64-bit X86'", "toolchain__bin__ld.lld": "exit 1"}
        self.assertEqual(self.said(bin__rt=self.rt(), **tools), [
            "page.py: the target wasm64 is missing: KIT/toolchain/bin/clang compiles for other processors alone",
            "page.py: the linker for WebAssembly is missing: KIT/toolchain/bin/ld.lld has no flavor wasm"])

    def test_no_node(self):
        with mock.patch.object(kit, "node", lambda: None), mock.patch.object(page, "part") as part:
            page.try_script("", self.folder)
        part.assert_called_once_with("node is missing, so c25.js was not tried")


class Packed(InFolder):
    """Bytes as text between quotes, and packed, and back by node."""

    def given_back(self, expression):
        """The bytes that an expression has, over the scripts that read such texts."""
        scripts = [module.bytes_of(os.path.join(HERE, "src", name)).decode("ascii") for name in ("dense.js", "lzma.js")]
        with open(self.path("back.js"), "w", encoding="utf-8", newline="") as file:
            file.write("%s\nrequire('fs').writeFileSync(process.argv[2], %s);\n" % ("".join(scripts), expression))
        subprocess.run([kit.node(), self.path("back.js"), self.path("bytes")], check=True)
        return module.bytes_of(self.path("bytes"))

    def test_text(self):
        text = dense(bytes(range(256)) * 7)
        self.assertIn(len(text.encode("utf-8")), (256 * 8, 256 * 8 + 1))
        self.assertFalse(set(text) & set(ASIDE.decode("ascii")))

    @unittest.skipIf(kit.node() is None, "node is missing")
    def test_all_is_given_back(self):
        for data in (b"", b"\0", b"\xff", b"<\"\\\r\n\0" * 9, b"\x15", *(os.urandom(size) for size in range(2, 20)), bytes(range(256)) * 40):
            self.assertEqual(self.given_back('bytes_of_dense(%d, "%s")' % (len(data), dense(data))), data)

    @unittest.skipIf(kit.node() is None, "node is missing")
    def test_all_is_unpacked(self):
        # (letters, copies from near and far, of one byte and of many, from each of the four distances that are remembered)
        rng = random.Random(68)
        far = os.urandom(70000)
        mixed = b"".join(bytes(rng.choice(b"abc") for _ in range(rng.randrange(1, 40))) + far[at:at + rng.randrange(400)] for at in range(0, 70000, 300))
        for data in (b"", b"a", b"ab" * 5000, far, mixed, mixed + far + mixed, module.bytes_of(os.path.abspath(__file__))):
            self.assertEqual(self.given_back("unpacked(%s)" % one_file.packed(data)), data)


# How colours are seen without one of the three sorts of cones (Machado, Oliveira, Fernandes, 2009), on linear red, green and blue.
SIGHTS = {
    "all cones": ((1, 0, 0), (0, 1, 0), (0, 0, 1)),
    "no long cones": ((0.152286, 1.052583, -0.204868), (0.114503, 0.786281, 0.099216), (-0.003882, -0.048116, 1.051998)),
    "no middle cones": ((0.367322, 0.860646, -0.227968), (0.280085, 0.672501, 0.047413), (-0.011820, 0.042940, 0.968881)),
    "no short cones": ((1.255528, -0.076749, -0.178779), (-0.078411, 0.930809, 0.147602), (0.004733, 0.691367, 0.303900)),
}
# Which letters stand on which grounds, and what is no letter but has to be seen on its ground (WCAG 2: 4.5 and 3).
ON_GROUND = {"back": ("ink", "faint", "accent", "bad", "comment", "mnemonic", "directive", "number", "string"), "soft": ("ink", "faint", "accent", "bad"),
             "bad-soft": ("ink", "bad", "comment", "mnemonic", "directive", "number", "string"),
             "now": ("ink", "comment", "mnemonic", "directive", "number", "string"), "accent": ("on-accent",), "bad": ("back",)}
SHAPES = {"back": ("curve", "edge", "accent", "bad")}


def linear(text):
    parts = [int(text[at:at + len(text) // 3] * (3 - len(text) // 3), 16) / 255 for at in range(0, len(text), len(text) // 3)]
    return [part / 12.92 if part <= 0.04045 else ((part + 0.055) / 1.055) ** 2.4 for part in parts]


def luminance(colour, sight):
    seen = [min(1, max(0, sum(weight * part for weight, part in zip(row, colour)))) for row in sight]
    return sum(weight * part for weight, part in zip((0.2126, 0.7152, 0.0722), seen))


def contrast(one, other, sight):
    low, high = sorted(luminance(linear(colour), sight) for colour in (one, other))
    return (high + 0.05) / (low + 0.05)


class Colours(unittest.TestCase):
    """Letters and curves are told from their ground by light alone, by all eyes; what a colour marks has a sign beside it."""

    def setUp(self):
        style = module.bytes_of(os.path.join(HERE, "src", "style.css")).decode("ascii", "replace")
        self.looks = [dict(re.findall(r"--([\w-]+): #([0-9a-f]+);", text)) for text in re.findall(r":root \{(.*?)\}", style, re.DOTALL)]

    def held(self, pairs, least):
        self.assertEqual(len(self.looks), 2)
        for look in self.looks:
            for sight, matrix in SIGHTS.items():
                for ground, names in pairs.items():
                    for name in names:
                        with self.subTest(sight=sight, ground=look[ground], name=name, colour=look[name]):
                            self.assertGreaterEqual(contrast(look[name], look[ground], matrix), least)

    def test_letters(self):
        self.held(ON_GROUND, 4.5)

    def test_shapes(self):
        self.held(SHAPES, 3)


class Refused(unittest.TestCase):
    """Modules that cannot be turned."""

    def test_instructions_of_x86(self):
        for line in ("  %1 = call i64 @llvm.x86.rdtsc()\n", '  %1 = call i64 asm "nop", "=r"()\n', '  tail call void asm sideeffect "nop", ""()\n',
                     'module asm "nop"\n', '  invoke void asm "nop", ""() to label %1 unwind label %2\n'):
            with self.assertRaises(wasm.Refused):
                list(wasm.retargeted([line]))

    def test_what_is_changed(self):
        given = ['target triple = "x86_64-unknown-linux-gnu"\n', "define i32 @main() #0 {\n", '  ret i32 7 ; " asm "\n',
                 'attributes #0 = { "target-cpu"="x86-64" "tune-cpu"="generic" }\n']
        self.assertEqual(list(wasm.retargeted(given)), ['target triple = "wasm64-unknown-unknown"\n', "define i32 @c25_main() #0 {\n", given[2],
                                                        "attributes #0 = { nounwind }\n"])

    def test_addresses_are_cut(self):
        """The parameters are two numbers of 64 bits; a new local is number 2."""
        get_both, store, end = b"\x20\x00\x20\x01", b"\x37\x03\x90\x80\x80\x80\x00", b"\x0B"
        for given, wanted in ((b"\x20\x00\x29\x03\x88\x00", b"\x20\x00\xA7\x29\x03\x08"),
                              (get_both + store, b"\x20\x00\xA7\x20\x01\x37\x03\x10"),
                              (get_both + b"\x20\x01\x7C" + store, get_both + b"\x20\x01\x7C\x21\x02\xA7\x20\x02\x37\x03\x10")):
            new = b"\x01\x01\x7E" if b"\x21" in wanted else b"\x00"
            self.assertEqual(lower.Body(b"\x00" + given + end, 2).lowered(), new + wanted + end)

    def test_unknown_instructions(self):
        self.assertEqual(lower.Body(b"\x00\x41\x07\x0B", 0).lowered(), b"\x00\x41\x07\x0B")
        for opcode in (0x06, 0x12, 0x25, 0xD0, 0xFB, 0xFD, 0xFE):
            with self.assertRaises(lower.Unknown):
                lower.Body(bytes([0, opcode, 0, 0x0B]), 0).lowered()

    def test_unknown_sections(self):
        with self.assertRaises(lower.Unknown):
            lower.lowered(b"\0asm\1\0\0\0" + bytes([13, 1, 0]))


class Compared(InFolder):
    """The comparison with the program's object, on a program that clang makes."""

    def setUp(self):
        super().setUp()
        self.toolchain, self.crate = kit.toolchain(), self.path("crates", "c25")
        self.kept = self.module_of(PROGRAM)
        os.makedirs(os.path.join(self.crate, "out"))
        shutil.copy(self.kept, self.path(module.MODULE))
        subprocess.run([self.toolchain + "/bin/clang", "--sysroot=" + self.toolchain] + module.AS_RT, cwd=self.folder, check=True)
        os.rename(self.path(module.OBJECT), module.object_of(self.crate))
        os.remove(self.path(module.MODULE))

    def module_of(self, text):
        source, made = self.path("c25.c"), self.path("kept.bc")
        write(source, text)
        for_x86 = ["--target=x86_64-unknown-linux-gnu", "-c", "-O2", "-emit-llvm"]
        subprocess.run([self.toolchain + "/bin/clang"] + for_x86 + [source, "-o", made], check=True)
        return made

    def proved_module(self):
        built = mock.patch.object(module, "built_again", lambda *of: (self.kept, "logic=proved"))
        with built, mock.patch.object(page, "CRATE", self.crate), mock.patch.object(page, "part"):
            return page.proved_module(self.folder, self.toolchain)

    def test_the_same(self):
        self.assertEqual(self.proved_module(), (self.kept, "logic=proved"))

    def test_one_byte_of_the_object(self):
        change_a_byte(module.object_of(self.crate))
        with self.assertRaisesRegex(module.Failed, "nothing was made"):
            self.proved_module()

    def test_another_module(self):
        self.module_of(PROGRAM.replace("7", "8"))
        with self.assertRaisesRegex(module.Failed, "nothing was made"):
            self.proved_module()

    def test_by_node(self):
        if kit.node() is None:
            self.skipTest("node is missing")
        for text in (PROGRAM, HEAP):
            wide = wasm.linked(self.toolchain, wasm.compiled(self.toolchain, self.module_of(text), self.folder), self.folder, 1 << 30)
            with open(self.path("small.wasm"), "wb") as file:
                file.write(lower.lowered(wide))
            script = RUN % (os.path.join(HERE, "src", "host.js"), self.path("small.wasm"))
            self.assertEqual(subprocess.run([kit.node(), "-e", script]).returncode, 7)


@unittest.skipUnless(PROVED, "with --proved alone")
class Proved(InFolder):
    """A small program, proved and built by `rt run`, in the place of c25."""

    def test_a_proved_program(self):
        crate = self.path("crates", "hello")
        subprocess.run(["git", "init", "-q", self.folder], check=True)
        os.makedirs(self.path("crates"))
        subprocess.run(["rt", "new", "crates/hello", "start_io"], cwd=self.folder, check=True, stdout=subprocess.DEVNULL)
        write(self.path("crates.txt"), "hello:\n")
        for name in ("BUILD.bazel", "stdin"):
            if os.path.exists(os.path.join(crate, name)):
                os.remove(os.path.join(crate, name))
        toolchain, work = kit.toolchain(), self.path("work")
        os.makedirs(work)
        proved = []
        made, verdict = module.built_again(crate, work, proved.append)
        self.assertEqual(proved, ["hello"])
        self.assertIn("logic=proved", verdict)
        self.assertTrue(module.same_object(made, crate, work, toolchain))
        change_a_byte(module.object_of(crate))
        os.remove(os.path.join(work, module.MODULE))
        self.assertFalse(module.same_object(made, crate, work, toolchain))


if __name__ == "__main__":
    unittest.main(argv=[word for word in sys.argv if word != "--proved"])
