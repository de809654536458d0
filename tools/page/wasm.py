"""Compiles the module that `rt` hands to clang for WebAssembly, and links it, by the kit's own tools.

Both targets have pointers and `usize` of 64 bits, so sizes, offsets and sums stay as they are. A module with an instruction of
x86-64's own is refused.
"""
import os
import re
import subprocess

HERE = os.path.dirname(os.path.abspath(__file__))
TARGET = "wasm64-unknown-unknown"
LAYOUT = "e-m:e-p:64:64-p10:8:8-p20:8:8-i64:64-i128:128-n32:64-S128-ni:1:10:20"
FLAGS = ["--target=" + TARGET, "-mcpu=lime1", "-O3", "-ffunction-sections", "-fdata-sections", "-Wno-override-module", "-c",
         "-mllvm", "-expand-div-rem-bits=64", "-mllvm", "-expand-fp-convert-bits=64"]
FOR_RUNTIME = ["-ffreestanding", "-nostdinc", "-fwrapv", "-x", "c"]
OF_X86 = re.compile(r' ?"(?:target-cpu|target-features|tune-cpu|frame-pointer|probe-stack|stack-probe-size)"="[^"]*"')
ASSEMBLY = re.compile(r"module asm |\s+(?:%\S+ = )?(?:\w+ )?(?:call|callbr|invoke) .* asm ")
STACK = 8 << 20


class Refused(Exception):
    """Why a module cannot be compiled for WebAssembly."""


def has_target(toolchain):
    said = subprocess.run([toolchain + "/bin/clang", "--print-targets"], stdout=subprocess.PIPE, universal_newlines=True, check=True)
    return " wasm64 " in said.stdout


def retargeted(lines):
    """The lines of a module's text, for WebAssembly."""
    for line in lines:
        if "@llvm.x86" in line or " asm " in line and ASSEMBLY.match(line):
            raise Refused("the module has an instruction of x86-64's own: " + line.strip())
        if line.startswith("target datalayout"):
            line = 'target datalayout = "%s"\n' % LAYOUT
        elif line.startswith("target triple"):
            line = 'target triple = "%s"\n' % TARGET
        elif line.startswith("attributes "):
            line = OF_X86.sub("", line).replace(" sanitize_address", "").replace("{ }", "{ nounwind }")
        elif line.startswith("define ") and " @main(" in line:
            line = line.replace(" @main(", " @c25_main(", 1)
        yield line


def as_text(toolchain, module, path):
    subprocess.run([toolchain + "/bin/clang", "--target=x86_64-unknown-linux-gnu", "-x", "ir", module, "-S", "-emit-llvm", "-O0",
                    "-Xclang", "-disable-llvm-passes", "-o", path], check=True)


def compiled(toolchain, module, folder):
    """The module's object for WebAssembly."""
    given, web, made = (os.path.join(folder, name) for name in ("given.ll", "web.ll", "web.o"))
    as_text(toolchain, module, given)
    with open(given, encoding="utf-8") as lines, open(web, "w", encoding="utf-8") as out:
        out.writelines(retargeted(lines))
    subprocess.run([toolchain + "/bin/clang"] + FLAGS + ["-x", "ir", web, "-o", made], check=True)
    return made


def linked(toolchain, program, folder, most_memory):
    """The bytes of the WebAssembly module, whose memory has at most so many bytes."""
    runtime, made = os.path.join(folder, "runtime.o"), os.path.join(folder, "linked.wasm")
    subprocess.run([toolchain + "/bin/clang"] + FLAGS + FOR_RUNTIME + [os.path.join(HERE, "runtime.c"), "-o", runtime], check=True)
    subprocess.run([toolchain + "/bin/ld.lld", "-flavor", "wasm", "-mwasm64", "--no-entry", "--stack-first", "-z",
                    "stack-size=%d" % STACK, "--max-memory=%d" % most_memory, "--export=__heap_base", "--gc-sections", "--strip-all",
                    "--compress-relocations", "--threads=1", "-o", made, program, runtime], check=True)
    with open(made, "rb") as file:
        return file.read()
