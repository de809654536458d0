"""The answers of the page in chromium to cases, with its own module or another one: node 20 has no memory of 64-bit addresses."""
import base64
import json

import browser

IN_PAGE = """const files = Object.fromEntries(%s.map(([name, text]) => [name, Uint8Array.from(atob(text), (it) => it.charCodeAt(0))]));
const coded = (bytes) => { let text = ""; for (const byte of bytes) text += String.fromCharCode(byte); return btoa(text); };
const it = await program.run(%s, files);
return it.trap ? { trap: it.trap } : { status: it.status, output: coded(it.out), errors: coded(it.errors),
    written: Object.fromEntries(Object.entries(it.files).map(([name, bytes]) => [name, coded(bytes)])) };"""

OTHER_MODULE = """program.module = await WebAssembly.compile(Uint8Array.from(atob(%s), (it) => it.charCodeAt(0)));
program.worker.terminate(); program.begin(); await program.ready;"""


def coded(data):
    return base64.b64encode(data).decode("ascii")


def answers(page, cases, module=None):
    """What the page answers to each case, as run_cases.js does; `module` is the path of another module."""
    driven = browser.Chromium()
    try:
        driven.open(page)
        driven.until("document.body && document.body.dataset.begun")
        if module:
            with open(module, "rb") as file:
                driven.do(OTHER_MODULE % json.dumps(coded(file.read())))
        for case in cases:
            files = json.dumps([[name, coded(data)] for name, data in case.files.items()])
            yield driven.do(IN_PAGE % (files, json.dumps(case.command_line)))
    finally:
        driven.close()
