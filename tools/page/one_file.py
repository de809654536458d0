"""Puts the program, the page's parts and the examples into files that stand alone: c25.html for browsers, c25.js for node."""
import base64
import glob
import gzip
import hashlib
import json
import lzma
import os
import shlex

from dense import dense

HERE = os.path.dirname(os.path.abspath(__file__))
SOURCES = os.path.join(HERE, "src")
WORKER = ("host.js", "files.js", "numbers.js", "dense.js", "lzma.js", "worker.js")
PAGE = ("basics.js", "numbers.js", "program.js", "storage.js", "archive.js", "project.js", "colours.js", "editor.js", "pictures.js",
        "signals.js", "sound.js", "debugger.js", "debugger_view.js", "outputs.js", "help.js", "views.js", "running.js", "opening.js", "page.js")
FIRST_EXAMPLE = "fir"
SMALL_EXAMPLES = ("count", "port")
# What `src/lzma.js` reads.
PACKING = {"id": lzma.FILTER_LZMA1, "preset": 9 | lzma.PRESET_EXTREME, "lc": 4, "lp": 0, "pb": 0}
# No network and no eval: the page's scripts by their digests, the worker that they make, and WebAssembly.
POLICY = ("default-src 'none'; script-src %s 'wasm-unsafe-eval'; style-src %s; worker-src blob:; base-uri 'none'; "
          "form-action 'none'")


def text_of(*path):
    with open(os.path.join(*path), encoding="utf-8", newline="") as file:
        return file.read()


def joined(names):
    """The texts of several scripts as one."""
    parts = [text_of(SOURCES, name) for name in names]
    return "".join(['"use strict";\n'] + [part.replace('"use strict";\n', "", 1) for part in parts])


def example(folder):
    """The files that an example's session names, and the session."""
    session = text_of(folder, "session")
    names = [word for word in shlex.split(session.splitlines()[0]) if os.path.isfile(os.path.join(folder, word))]
    return {**{name: text_of(folder, name) for name in names}, "session": session}


def examples(top):
    found = {os.path.basename(os.path.dirname(path)): example(os.path.dirname(path))
             for path in sorted(glob.glob(os.path.join(top, "examples", "*", "session")))}
    for name in SMALL_EXAMPLES:
        source = name + ".asm"
        found[name] = {source: text_of(top, "examples", source), "session": "c25 run %s\n" % source}
    return found


def packed(module):
    """The module as what JavaScript takes for a list: how many bytes it has, how many it has packed, and the text of these."""
    made = lzma.compress(module, format=lzma.FORMAT_RAW, filters=[PACKING])
    return '[%d, %d, "%s"]' % (len(module), len(made), dense(made))


def digest(text):
    return "'sha256-%s'" % base64.b64encode(hashlib.sha256(text.encode("utf-8")).digest()).decode("ascii")


def page(module, top, claim, about):
    """The text of c25.html; `claim` stands in its head line, and `about` says more of the module."""
    data = {"worker": joined(WORKER), "examples": examples(top), "first": FIRST_EXAMPLE, "claim": claim, "about": about}
    data_script = "const DATA = %s, MODULE = %s;" % (json.dumps(data, sort_keys=False).replace("<", "\\u003c"), packed(module))
    script, style = joined(PAGE), text_of(SOURCES, "style.css")
    policy = POLICY % (digest(data_script) + " " + digest(script), digest(style))
    made = text_of(SOURCES, "index.html")
    for mark, text in (("<!--POLICY-->", '<meta http-equiv="Content-Security-Policy" content="%s">' % policy), ("/*STYLE*/", style),
                       ("/*DATA*/", data_script), ("/*SCRIPT*/", script)):
        before, _, after = made.partition(mark)
        made = before + text + after
    return made


def node_script(module):
    """The text of c25.js, which begins anew with each call: what node unpacks by itself is there at once."""
    first, _, rest = text_of(SOURCES, "node.js").partition("\n")
    made = gzip.compress(module, 9, mtime=0)
    return '%s\n"use strict";\nconst MODULE = [%d, "%s"];\n%s%s' % (first, len(made), dense(made), joined(("host.js", "dense.js")).partition("\n")[2], rest)
