#!/usr/bin/env python3
"""Tests the page in Debian's chromium and firefox-esr, as far as they are installed, from its file and without a window.

    python3 tools/page/test_page.py [PAGE] [--browser NAME] [--pictures FOLDER]     (without PAGE: tools/out/c25.html)

Without a browser it says so and ends with status 0. --pictures keeps what each part looks like in chromium.
"""
import argparse
import base64
import json
import os
import shutil
import socket
import subprocess
import sys
import tarfile
import time
import xml.etree.ElementTree

HERE = os.path.dirname(os.path.abspath(__file__))
TOP = os.path.dirname(os.path.dirname(HERE))
EXAMPLES = os.path.join(TOP, "examples")
SIGNALS = os.path.join(EXAMPLES, "tools", "signals.py")
sys.path.insert(0, HERE)
sys.dont_write_bytecode = True
import browser  # noqa: E402
import claim  # noqa: E402
import lower  # noqa: E402

EDIT = """const area = editor.area(); area.focus(); area.value = %s; area.dispatchEvent(new Event("input"));"""
# What the browser itself puts in can be undone.
TYPE = """const area = editor.area(); area.focus(); area.setSelectionRange(0, 0); document.execCommand("insertText", false, %s);"""
MOST_BYTES = 1000000
LOOP = "HERE B HERE\n"
OUTPUTS = "HERE OUT 60h,PA0\n B HERE\n"
# Step 2 puts 1 out at port 1, steps 3 and 5 put 1 and 0 out at port 2.
STEPS = " LACK 1\n SACL 60h\n OUT 60h,PA1\n OUT 60h,PA2\n LACK 2\n OUT 61h,PA2\nHERE B HERE\n"
MANY_STEPS = """element("steps").value = 4294967295; element("steps").onchange();"""
CHANGE = """const it = element(%s); it.value = %s; it.dispatchEvent(new Event("change"));"""
FETCHED = "return await fetch('%s').then(() => 'got', () => 'refused');"
FETCHED_BY_WORKER = """const script = new Blob(["fetch('%s').then(() => postMessage('got'), () => postMessage('refused'))"]);
const worker = new Worker(URL.createObjectURL(script)); return await new Promise((yes) => { worker.onmessage = (it) => yes(it.data); });"""
IMAGE = """const image = new Image(); image.src = "%s";
return await new Promise((yes) => { image.onload = () => yes("got"); image.onerror = () => yes("refused"); });"""
# A module whose program the engine ends: a memory, and `start` with the instruction `unreachable`.
TRAP = (b"\0asm\1\0\0\0" b"\1\5\1\x60\0\1\x7f" b"\3\2\1\0" b"\5\3\1\0\1" b"\7\x12\2\6memory\2\0\5start\0\0"
        b"\x0a\5\1\3\0\0\x0b")
BEGIN = """program.own = program.own || program.module; program.module = %s; program.worker.terminate(); program.begin();
await program.ready; await run();"""
COMPILED = "await WebAssembly.compile(Uint8Array.from(atob(%s), (it) => it.charCodeAt(0)))"
OPENED = "[new File([Uint8Array.from(atob(%s), (it) => it.charCodeAt(0))], %s)]"
DROP = """const given = new DataTransfer(); for (const it of %s) given.items.add(it);
document.dispatchEvent(new DragEvent("drop", { dataTransfer: given, bubbles: true, cancelable: true }));"""
PICK = """const given = new DataTransfer(); for (const it of %s) given.items.add(it);
element("pick").files = given.files; element("pick").dispatchEvent(new Event("change"));"""
PRESS = """[...element("view").querySelectorAll("button")].find((it) => it.textContent === %s).click()"""
# The pages of 64 KiB that 32 MiB have, and a source that they do not suffice for.
SMALL_MEMORY = 512
MANY_LABELS = 'Array.from({ length: 60000 }, (_, i) => `L${i} NOP\\n`).join("")'
# What stands in the head line where the page's script does not begin, once it is seen.
NO_SCRIPT = """const state = document.getElementById("state"), told = state && getComputedStyle(state, "::before");
return told !== null && told.visibility === "visible" && told.content.includes("needs a newer browser")"""


def bytes_of(*path):
    with open(os.path.join(*path), "rb") as file:
        return file.read()


def asked(server):
    """Whether somebody asks the server within its time."""
    try:
        server.accept()[0].close()
        return True
    except OSError:
        return False


class Tests:
    def __init__(self, driven, page, pictures):
        self.driven, self.page, self.pictures, self.bad, self.count = driven, page, pictures, 0, 0

    # ---- what the tests are made of ----
    def hold(self, name, value, wanted=True):
        fine = value == wanted
        self.bad += not fine
        self.count += 1
        print("%s %s: %s%s" % (self.driven.name, "ok " if fine else "BAD", name, "" if fine else ": %r, not %r" % (value, wanted)), flush=True)

    def value(self, expression):
        return self.driven.do("return " + expression)

    def holds(self, name, expression, wanted=True):
        self.hold(name, self.value(expression), wanted)

    def click(self, name):
        self.driven.do("element(%s).click()" % json.dumps(name))

    def change(self, name, value):
        self.driven.do(CHANGE % (json.dumps(name), json.dumps(value)))

    def picture(self, name):
        if self.pictures and self.driven.name == "chromium":
            self.driven.picture(os.path.join(self.pictures, name + ".png"))

    def choose(self, name):
        """Opens an example as it was at first, and waits for its run."""
        self.driven.do("program.stop(); keep_waiting(); keep_folder(%s, null);" % json.dumps(name))
        self.change("example", name)
        self.driven.until("project.name === %s && views.ran && !program.call" % json.dumps(name))

    def open_again(self):
        self.driven.do("document.body.dataset.begun = ''")
        self.driven.open(self.page)
        self.driven.until("document.body && document.body.dataset.begun")

    # ---- the tests ----
    def begun(self):
        self.open_again()
        print("%s: first answer after %s ms" % (self.driven.name, self.value("document.body.dataset.begun")))
        self.hold("it has less than a million bytes", os.path.getsize(self.page) < MOST_BYTES)
        self.hold("its head says what it is made of", self.value('element("claim").textContent') in (claim.PROVED, claim.UNPROVED))

    def examples(self):
        for name in sorted(os.listdir(EXAMPLES)):
            if os.path.exists(os.path.join(EXAMPLES, name, "output.txt")):
                self.choose(name)
                self.holds("example " + name, "await views.ran.outputs.text().text()", bytes_of(EXAMPLES, name, "output.txt").decode())
        self.holds("a picture for each signal", 'document.querySelectorAll(".picture").length > 0')
        self.picture("outputs")

    def given(self, name, data):
        """A list of one file, as a script has it."""
        return OPENED % (json.dumps(base64.b64encode(data).decode()), json.dumps(name))

    def opened(self, name, data):
        self.driven.do("await picked(%s)" % self.given(name, data))

    def button(self, text):
        self.driven.do(PRESS % json.dumps(text))

    def signals(self):
        for name, file in (("mulaw", "samples.wav"), ("fir", "samples.csv"), ("fir", "samples.txt")):
            self.choose(name)
            self.driven.do("project.files[project.roles.samples] = ''")
            self.opened(file, bytes_of(EXAMPLES, name, file))
            self.holds("samples of " + file, "project.files[project.roles.samples]", bytes_of(EXAMPLES, name, "samples.txt").decode())
        for way, script in (("dropped", DROP), ("chosen", PICK)):
            self.driven.do(script % self.given("samples.txt", b"0 0001\n"))
            self.hold("samples that are " + way, self.driven.until('project.files["samples.txt"].length === 7 && project.files["samples.txt"]'), "0 0001\n")
            self.driven.do("project.files['samples.txt'] = ''")
        there_and_back = ("(() => { const it = words_of_wav(wav_of(Uint16Array.from([0, 1, 32767, 32768, 65535]), 9600)); "
                          "return it.words.join() + ' ' + it.rate; })()")
        self.holds("a recording there and back", there_and_back, "0,1,32767,32768,65535 9600")

    def outputs(self):
        self.choose("fir")
        self.driven.do('views.show("Outputs")')
        printed = os.path.join(EXAMPLES, "fir", "output.txt")
        for name, words in (("port1.csv", ["csv", printed]), ("port1.wav", ["wav", printed, "-"])):
            self.button(name[-3:].upper())
            made = subprocess.run([sys.executable, SIGNALS] + words, stdout=subprocess.PIPE, check=True).stdout
            self.hold("%s is saved, as signals.py makes it" % name, bytes_of(self.driven.saved(name)), made)
        self.button("SVG")
        picture = xml.etree.ElementTree.parse(self.driven.saved("port1.svg")).getroot()
        self.hold("port1.svg is saved", picture.tag, "{http://www.w3.org/2000/svg}svg")
        self.button("Save")
        self.hold("what was printed is saved", bytes_of(self.driven.saved("output.txt")), bytes_of(printed))
        self.change("axis", "seconds")
        self.holds("an axis in seconds", 'document.querySelector(".picture text:last-of-type").textContent', "0.00988 s")
        self.change("axis", "words")
        # (both at once, since the sound is short)
        heard = self.driven.do("%s; const first = element('state').textContent; %s; return [first, element('state').textContent]"
                               % ((PRESS % '"Hear"',) * 2))
        self.hold("a port is heard, and again ends it", heard, ["plays port 1 for 0.0 s; Hear again ends it", "sound ended"])

    def faults(self):
        self.choose("fir")
        self.driven.do(EDIT % 'area.value.replace("LDPK    XNEW", "LDPK    XNEWS")')
        self.driven.until('element("fault").textContent')
        self.holds("a fault while typing", 'element("fault").firstChild.textContent', "fir.asm:27: 22 Undefined")
        self.driven.do('element("fault").firstChild.click()')
        self.hold("its line is marked", self.driven.until('(document.querySelector("#gutter .bad") || {}).textContent'), "27")
        self.holds("its line has the cursor", "editor.line()", 27)
        self.picture("fault")
        self.driven.do(EDIT % 'area.value.replace("XNEWS", "XNEW")')
        self.driven.until('!element("fault").textContent && views.built')
        self.holds("mended", "views.built !== null")
        self.driven.do('element("module").click()')
        self.driven.until('element("fault").textContent.startsWith("no file is a module")')
        self.driven.do('element("module").click()')
        self.driven.until('!element("fault").textContent && views.built')

    def files(self):
        self.driven.do("await run()")
        for view, content in (("Listing", "LDPK"), ("Map", "C25 MAP 1"), ("Hex", ":00000001FF"), ("Help", "Ctrl+Z"), ("About", "SHA-256")):
            self.driven.do("views.choose(%s)" % json.dumps(view))
            self.holds("view " + view, 'element("view").textContent.includes(%s)' % json.dumps(content))
            self.picture(view.lower())
        there_and_back = "JSON.stringify(files_of_tar(await tar_of(project.folder()).arrayBuffer())) === JSON.stringify(project.folder())"
        self.holds("saved as one file and back", there_and_back)

    def saving(self):
        self.choose("fir")
        self.click("save_all")
        with tarfile.open(self.driven.saved("fir.tar")) as archive:
            saved = {it.name: archive.extractfile(it).read() for it in archive.getmembers()}
        for name in ("fir.asm", "samples.txt", "session"):
            self.hold("Save all has " + name, saved.get(name), bytes_of(EXAMPLES, "fir", name))
        for view in ("Listing", "Map", "Hex"):
            self.driven.do("views.choose(%s)" % json.dumps(view))
            names = self.value('[...element("view").querySelectorAll("button")].map((it) => it.title.replace("save ", ""))')
            for at, name in enumerate(names):
                self.driven.do('element("view").querySelectorAll("button")[%d].click()' % at)
                self.hold("%s: %s is saved" % (view, name), bytes_of(self.driven.saved(name)).decode(), self.value("views.built[%s]" % json.dumps(name)))
        self.opened("mine.tar", bytes_of(self.driven.saved("fir.tar")))
        self.driven.until("views.ran && !program.call")
        self.holds("a saved folder is opened", "[project.name, project.modules.join(), views.ran.outputs.count]", ["your own", "fir.asm", 80])
        self.opened("latin.asm", b" NOP ; \xe4\n")
        self.holds("a file that is no text is refused", 'element("state").textContent', "latin.asm: it is not a text in UTF-8")

    def undoing(self):
        self.choose("ring")
        self.driven.do('editor.show("ring.asm");' + TYPE % '"* typed\\n"')
        self.driven.do('document.execCommand("undo")')
        self.holds("Ctrl+Z undoes in a text", 'project.files["ring.asm"].startsWith("* typed")', False)
        self.driven.do('editor.show("ring.asm");' + TYPE % '"* typed\\n"')
        self.driven.do('editor.show("board.cmd"); editor.show("ring.asm"); editor.area().focus(); document.execCommand("undo")')
        self.holds("also after another file was shown", 'project.files["ring.asm"].startsWith("* typed")', False)
        self.click("new")
        self.change("name", "second.asm")
        self.holds("a new file has a name", "project.modules.join()", "ring.asm,second.asm")
        self.click("earlier")
        self.holds("Earlier moves it", "project.modules.join()", "second.asm,ring.asm")
        self.change("name", "-x y")
        self.holds("a name that no command line has is refused", 'element("name").value', "second.asm")
        self.click("remove")
        self.holds("Remove removes it", "project.modules.join()", "ring.asm")
        self.click("undo")
        self.driven.until("views.ran && !program.call")
        self.holds("Undo brings it back", "project.modules.join()", "second.asm,ring.asm")
        for _ in range(3):
            self.click("undo")
        self.holds("Undo of all", "project.modules.join()", "ring.asm")
        self.click("redo")
        self.holds("Redo", "project.modules.join()", "ring.asm,new.asm")
        self.click("restore")
        self.holds("Restore", "project.modules.join()", "ring.asm")
        self.click("undo")
        self.holds("Undo of Restore", "project.modules.join()", "ring.asm,new.asm")
        self.click("restore")

    def debugger(self):
        self.choose("fir")
        self.driven.do('await build(); views.show("Debugger"); await inspector.from_reset()')
        self.holds("at reset", "inspector.seen.where", "0000 LDPK 6 fir.asm:27")
        for told in ("signs are extended", "sums go round", "AR0 is current", "stack, the top first: 0000 0000", "RPTC", "AR7"):
            self.holds("it tells: " + told, 'element("view").textContent.includes(%s)' % json.dumps(told))
        self.holds("instructions from PC on", "inspector.seen.instructions[0] === inspector.seen.where")
        for way, on in (("sets", True), ("takes away", False)):
            self.driven.do("document.querySelector('#gutter [data-line=\"33\"]').click(); await inspector.turn")
            self.holds("a click on a line's number %s a breakpoint" % way, 'editor.marks.has("fir.asm:33")', on)
        self.driven.press("F10")
        self.driven.until('inspector.seen.ended === "ran 1"')
        self.driven.do("editor.go_to(33)")
        self.driven.press("F9")
        self.driven.press("F8")
        self.driven.until('inspector.seen.ended.startsWith("break")')
        self.holds("at the breakpoint, by keys that do not wait", "editor.now.line", 33)
        self.driven.do("await inspector.step(2); await inspector.over()")
        self.holds("over a repetition", "editor.now.line", 38)
        self.driven.press("F10")
        self.driven.press("F10", "Shift")
        self.driven.do("await inspector.turn")
        self.holds("over the next one, by keys", "editor.now.line", 41)
        self.driven.do("editor.go_to(44)")
        self.driven.press("F7")
        self.driven.do("await inspector.turn")
        self.holds("to the cursor", "editor.now.line", 44)
        self.holds("what changed is marked", 'document.querySelectorAll("td.new").length > 0')
        self.picture("debugger")
        self.driven.do('await inspector.look("data", "0300"); show_memory_from("XOLD")')
        self.driven.until('inspector.from === address_of("XOLD") && inspector.seen.memory[0].startsWith(inspector.from)')
        self.holds("memory from a name on", 'inspector.from === "XOLD"', False)

    def stop(self):
        self.choose("port")
        self.driven.do(EDIT % json.dumps(LOOP) + MANY_STEPS + "run();")
        self.driven.until('element("state").textContent.startsWith("runs..") && !element("stop").disabled')
        clicked = ("const begin = performance.now(); element('stop').click(); await new Promise((yes) => setTimeout(yes, 0)); "
                   "return performance.now() - begin")
        took = self.driven.do(clicked)
        print("%s: stopped after %.0f ms" % (self.driven.name, took))
        self.hold("stopped within 0.1 s", (self.value('element("state").textContent'), took < 100), ("stopped", True))
        self.driven.do('views.show("Debugger"); await inspector.from_reset(); inspector.run()')
        self.driven.until('!element("stop").disabled')
        self.click("stop")
        self.driven.do("await inspector.step()")
        self.holds("the debugger is stopped, and goes on", "inspector.seen.ended", "ran 1")
        self.choose("count")
        self.hold("runs again", self.value('element("state").textContent').startswith("ran 1000"))

    def waits(self):
        self.choose("count")
        self.driven.do("views.ran = null; program.worker.terminate(); program.worker = program.module = null; await run()")
        self.holds("a run waits until the program is compiled", "views.ran.registers.startsWith('PC')")

    def trap(self):
        self.choose("count")
        self.driven.do(BEGIN % ("await WebAssembly.compile(Uint8Array.from(%s))" % list(TRAP)))
        self.holds("a program that the engine ends", 'element("fault").textContent.startsWith("the program stopped by itself")')
        self.driven.do(BEGIN % "program.own")
        self.holds("and goes on", '[element("fault").textContent, element("state").textContent.startsWith("ran 1000")]', ["", True])

    def memory(self):
        wide = os.path.join(os.path.dirname(self.page), "c25-64.wasm")
        if not os.path.exists(wide):
            print("%s: %s is not there: not tested with 32 MiB" % (self.driven.name, wide))
            return
        small = base64.b64encode(lower.lowered(bytes_of(wide), SMALL_MEMORY)).decode("ascii")
        self.choose("count")
        self.driven.do(EDIT % MANY_LABELS)
        self.driven.do(BEGIN % (COMPILED % json.dumps(small)))
        self.holds("32 MiB do not suffice for 60,000 labels", 'element("fault").textContent.split("\\n")[0]', "memory: 9 NoMemory")
        self.choose("count")
        self.holds("and the page goes on", '[element("fault").textContent, element("state").textContent.startsWith("ran 1000")]', ["", True])
        self.driven.do(BEGIN % "program.own")

    def many_outputs(self):
        self.choose("port")
        self.driven.do('views.show("Outputs");' + EDIT % json.dumps(OUTPUTS) + MANY_STEPS + "run();")
        self.driven.until('element("state").textContent.startsWith("stopped: the page keeps")', 400)
        self.holds("a run with more outputs than the page keeps is stopped", "views.ran.outputs.count >= 1 << 24")
        self.holds("and shown", 'document.querySelectorAll(".picture").length', 1)
        self.choose("count")

    def steps(self):
        self.choose("port")
        self.driven.do('views.show("Outputs"); element("steps").value = 10; element("steps").onchange();' + EDIT % json.dumps(STEPS))
        self.change("axis", "steps")
        self.driven.until("views.ran && views.ran.when && views.ran.registers && !program.call")
        told = "[...views.ran.outputs.ports].map(([port, it]) => [port, [...it.steps.all()].join(), [...it.words.all()].join()].join(' '))"
        self.holds("the step of each output", told, ["1 2 1", "2 3,5 1,0"])
        self.holds("all pictures have the steps of the run", '[...document.querySelectorAll(".picture text:last-of-type")].map((it) => it.textContent)',
                   ["10", "10"])
        self.holds("the command line says so", 'element("view").textContent.includes("c25 run port.asm --steps 10 --when")')
        signal = "({ words: Uint16Array.from([1, 65535]), steps: Uint32Array.from([3, 5]), last: 10 })"
        self.holds("what the pointer is told", "[0.1, 0.4, 1].map((part) => told_at(%s, part, 1))" % signal,
                   ["step 1: no word yet", "step 4: 1 (0001h), put out in step 3", "step 10: -1 (FFFFh), put out in step 5"])
        self.holds("a table with steps", "csv_of_steps(2, [1, 65535], [3, 5])", "step,port 2\n3,1\n5,-1\n")
        self.picture("steps")
        self.change("axis", "words")
        self.holds("and words again", '[...document.querySelectorAll(".picture text:last-of-type")].map((it) => it.textContent)', ["1", "1"])
        self.choose("lms")
        self.change("axis", "steps")
        self.driven.until("views.ran && views.ran.when && views.ran.registers && !program.call")
        rises = "[...views.ran.outputs.ports.values()].every((it) => it.steps.count === it.words.count && it.steps.all().every((step, i, all) => !i || step > all[i - 1]))"
        self.holds("a step for each word of a longer run, rising", rises)
        self.picture("steps-of-lms")
        self.change("axis", "words")
        self.choose("count")

    def storage(self):
        self.choose("count")
        self.driven.do(EDIT % '"* edited\\n" + area.value' + "keep();")
        self.open_again()
        self.holds("kept in the browser", '[project.name, editor.area().value.startsWith("* edited")]', ["count", True])
        self.click("restore")
        self.holds("restored", 'editor.area().value.startsWith("* edited")', False)
        self.choose("your own")
        self.holds("a program of one's own", "[project.names()[0], views.ran.outputs.count]", ["main.asm", 1])

    def keys(self):
        self.choose("count")
        self.driven.do('element("files").querySelector("[aria-selected=true]").focus()')
        self.driven.press("ArrowRight")
        self.holds("arrows go from tab to tab", "document.activeElement.textContent", "command")
        self.driven.press("Home")
        self.driven.do(EDIT % '"X"' + "area.setSelectionRange(1, 1);")
        self.driven.press("Tab")
        self.holds("Tab goes to the next column", "editor.area().value", "X" + 7 * " ")
        self.driven.press("Escape")
        self.holds("Escape leaves the text", "document.activeElement.role", "tab")
        self.choose("count")
        self.driven.do("editor.area().focus(); views.ran = null")
        self.driven.press("Enter", "Control")
        self.driven.until("views.ran && views.ran.registers && !program.call")
        self.holds("Ctrl+Enter runs", "views.ran.outputs.count", 4)

    def looks(self):
        if self.driven.name != "chromium":
            return
        self.hold("every control has a name", self.driven.unnamed(), [])
        self.choose("fir")
        self.driven.do("views.show('Outputs')")
        for name, width, dark in (("dark", browser.WIDTH, True), ("narrow", 420, False)):
            self.driven.look(width, browser.HEIGHT, dark)
            self.holds("%s: nothing is cut off" % name, "document.documentElement.scrollWidth <= innerWidth")
            self.picture(name)
        self.driven.look(browser.WIDTH, browser.HEIGHT)

    def quiet(self):
        self.hold("the console is empty", self.driven.console(), [])

    def policy(self):
        self.driven.do("const it = document.createElement('script'); it.textContent = 'window.added = 1'; document.body.append(it);")
        self.driven.do("setTimeout('window.evaluated = 1', 0); await new Promise((yes) => setTimeout(yes, 300));")
        self.holds("an added script is refused", "window.added === undefined")
        self.holds("eval is refused", "window.evaluated === undefined")
        with socket.create_server(("127.0.0.1", 0)) as server:
            server.settimeout(1)
            web = "http://127.0.0.1:%d/" % server.getsockname()[1]
            for address in (web, "file://" + os.path.abspath(__file__)):
                kind = address.partition(":")[0]
                self.hold("%s: is refused" % kind, self.driven.do(FETCHED % address), "refused")
                self.hold("%s: is refused in a worker" % kind, self.driven.do(FETCHED_BY_WORKER % address), "refused")
            self.hold("an image is refused", self.driven.do(IMAGE % web), "refused")
            self.hold("nothing came to the network", asked(server), False)

    def altered(self):
        """The page with one letter of its script changed, which the policy refuses: it says that it does not run, as in an old browser."""
        page = os.path.join(self.driven.folder, "altered.html")
        with open(page, "wb") as file:
            file.write(bytes_of(self.page).replace(b"begin();\n</script>", b"begun();\n</script>"))
        self.driven.open(page)
        self.hold("a page whose script is altered does nothing, and says so", self.driven.until("(() => {%s})()" % NO_SCRIPT))

    def all(self, only):
        parts = (self.begun, self.examples, self.signals, self.outputs, self.faults, self.files, self.saving, self.undoing, self.debugger,
                 self.stop, self.waits, self.trap, self.memory, self.many_outputs, self.steps, self.storage, self.keys, self.looks, self.quiet,
                 self.policy, self.altered)
        for part in [part for part in parts if only in (None, part.__name__) or part == self.begun]:
            began = time.monotonic()
            try:
                part()
            except browser.Failed as error:
                self.hold(part.__name__ + " goes on", str(error), "")
            print("%s    (%s: %.0f s)" % (self.driven.name, part.__name__, time.monotonic() - began), flush=True)


def test(driven, page, options):
    tests = Tests(driven, page, options.pictures)
    try:
        tests.all(options.only)
    finally:
        driven.close()
    print("%s: %d tests, %d failed" % (driven.name, tests.count, tests.bad))
    return tests.bad


def main():
    parser = argparse.ArgumentParser(description=__doc__, formatter_class=argparse.RawDescriptionHelpFormatter)
    parser.add_argument("page", nargs="?", default=os.path.join(TOP, "tools", "out", "c25.html"))
    parser.add_argument("--browser", help="chromium or firefox-esr alone")
    parser.add_argument("--pictures", metavar="FOLDER")
    parser.add_argument("--only", metavar="PART", help="the beginning and one part alone, as `debugger`")
    options = parser.parse_args()
    if not os.path.exists(options.page):
        sys.exit("test_page.py: there is no %s: make it by tools/page.py" % options.page)
    kinds = [kind for kind in (browser.Chromium, browser.Firefox) if options.browser in (None, kind.name)]
    for kind in [kind for kind in kinds if not shutil.which(kind.command)]:
        print("%s is not installed: not tested there" % kind.name)
        kinds.remove(kind)
    if options.pictures:
        os.makedirs(options.pictures, exist_ok=True)
    return 1 if sum(test(kind(), os.path.abspath(options.page), options) for kind in kinds) else 0


if __name__ == "__main__":
    sys.exit(main())
