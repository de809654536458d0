#!/usr/bin/env python3
"""Drives editors, without a screen, over the files of this folder and the program c25.

usage: python3 editors/test.py PROGRAM [NAME..]     (from the top of the repository; PROGRAM is crates/c25/out/c25)

An editor that is not installed is skipped, and a line says so. The names are those of the parts below: colours, places, settings, efm,
bash, man. The status is 1 where something is not as expected.

- colours: each character of all sources in examples/ and of a text with every mnemonic and directive must have the colour that `mask`
  gives it, in Vim, Neovim, Emacs and by the grammar of VS Code. The grammar is read by a small reader here (`grammar_mask`), not by
  VS Code.
- places: each of `CASES` is a command with a fault, run by :make of Vim and Neovim and by compile of Emacs; the cursor must then be
  where the case says. The problem matchers of VS Code are applied to what the command prints by `matched` here.
- settings: a file of this kind gets its file type, its comments and its command in Vim, Neovim and Emacs.
- efm: efm-langserver is started as an editor starts it, and asked for the faults of a text that is not on the disk.
- bash: completions of the beginnings of command lines. man: the page has no mistake that groff warns of.
"""
import glob
import json
import os
import re
import shlex
import shutil
import subprocess
import sys
import tempfile

sys.path.insert(0, os.path.dirname(os.path.abspath(__file__)))
import make

HERE = os.path.dirname(os.path.abspath(__file__))
VIMS = {"vim": ["vim", "-u", "NONE", "-i", "NONE", "-N", "-n", "-es"], "nvim": ["nvim", "-u", "NONE", "-i", "NONE", "-n", "-es"]}
EMACS = ["emacs", "-Q", "--batch", "-l", f"{HERE}/emacs/c25-mode.el"]
COLOURS = {"l": "label", "m": "mnemonic", "d": "directive", "p": "call of a macro", "r": "register", "n": "number", "i": "indirect operand",
           "v": "name between colons", "s": "string", "c": "comment", " ": "nothing"}
wrong = []


def report(what, is_right, detail=""):
    if not is_right:
        wrong.append(what)
        print(f"WRONG {what}: {detail}")


def run(command, folder=None, seconds=120):
    found = subprocess.run(command, cwd=folder, stdin=subprocess.DEVNULL, capture_output=True, text=True, errors="replace", timeout=seconds)
    return found.stdout + found.stderr


def is_there(editor):
    if shutil.which(editor):
        return True
    print(f"{editor}: not installed, skipped")
    return False


# Colours.

OPERANDS = re.compile(r"""(?P<c>;.*)|(?P<s>"(?:[^"]|"")*"|'(?:''|[^'])')|(?P<v>:[A-Za-z_][\w$]*:)
    |(?P<i>(?<=[\s,])\*(?:BR0[+-]|0[+-]|[+-])?(?=\s*(?:[,;]|$)))|(?P<w>[A-Za-z_.][\w$.]*|\d[\w$.]*)""", re.X | re.I)
NUMBER = re.compile(r"(?:\d+|\d[\dA-F]*H|[0-7]+Q|[01]+B)", re.I)


def mask(line):
    """The colour of each character of a line, as docs/manual/language.md has lines."""
    if line[:1] in ("*", ";"):
        return "c" * len(line)
    label, blanks, word = re.match(r"([^\s;]*)(\s*)([^\s;]*)", line).groups()
    field = "m" if word.upper() in make.mnemonics() else "d" if word[:1] == "." and word[1:].lower() in make.directives() else " " if word[:1] == "." else "p"
    begin = len(label + blanks)
    colours = list("l" * len(label) + " " * len(blanks) + (field if blanks else "") * len(word) + " " * (len(line) - begin - len(word)))
    for it in OPERANDS.finditer(line, begin + (len(word) if blanks else 0)):
        kind = it.lastgroup
        if kind == "w":
            kind = "n" if NUMBER.fullmatch(it[0]) else "r" if it[0].upper() in make.predefined() or it[0] in make.memory_mapped() else " "
        colours[it.start():it.end()] = kind * len(it[0])
    return "".join(colours)


def vim_masks(command, files, folder):
    groups = {"c25Label": "l", "c25Mnemonic": "m", "c25Directive": "d", "c25Call": "p", "c25Register": "r", "c25Number": "n", "c25Indirect": "i",
              "c25Substitution": "v", "c25String": "s", "c25Comment": "c"}
    script = f"""set runtimepath^={HERE}/vim
filetype plugin on
syntax on
let g:groups = {json.dumps(groups)}
let found = []
for file in {json.dumps(files)}
  execute 'edit' file
  call add(found, map(range(1, line('$')), {{_, l -> join(map(range(1, len(getline(l))), {{_, c -> get(g:groups, synIDattr(synID(l, c, 1), 'name'), ' ')}}), '')}}))
endfor
call writefile([json_encode(found)], '{folder}/masks')
qall!
"""
    return masks_of(command, script, folder)


def emacs_masks(files, folder):
    faces = {"font-lock-function-name-face": "l", "font-lock-keyword-face": "m", "font-lock-preprocessor-face": "d", "font-lock-builtin-face": "p",
             "font-lock-type-face": "r", "font-lock-constant-face": "n", "font-lock-variable-name-face": "i", "c25-substitution": "v",
             "font-lock-string-face": "s", "font-lock-comment-face": "c", "font-lock-comment-delimiter-face": "c"}
    script = """(require 'json)
(let (found)
  (dolist (file '(FILES))
    (find-file file)
    (font-lock-set-defaults)
    (syntax-propertize (point-max))
    (font-lock-fontify-region (point-min) (point-max))
    (let (lines)
      (goto-char (point-min))
      (while (not (eobp))
        (push (mapconcat (lambda (at) (let ((face (get-text-property at 'face))) (or (cdr (assq (if (consp face) (car face) face) '(FACES))) " ")))
                         (number-sequence (point) (1- (line-end-position))) "") lines)
        (forward-line 1))
      (push (vconcat (nreverse lines)) found)))
  (with-temp-file "FOLDER/masks" (insert (json-encode (vconcat (nreverse found))))))
""".replace("FILES", " ".join(json.dumps(it) for it in files)).replace("FACES", " ".join(f'({face} . "{letter}")' for face, letter in faces.items()))
    return masks_of(EMACS, script.replace("FOLDER", folder), folder)


def masks_of(command, script, folder):
    path = f"{folder}/script.{'el' if command is EMACS else 'vim'}"
    with open(path, "w", encoding="utf-8") as file:
        file.write(script)
    if os.path.exists(f"{folder}/masks"):
        os.remove(f"{folder}/masks")
    output = run([*command, "-l" if command is EMACS else "-S", path], folder)
    if not os.path.exists(f"{folder}/masks"):
        return output
    with open(f"{folder}/masks", encoding="utf-8") as file:
        return json.load(file)


def grammar_patterns():
    with open(f"{HERE}/vscode/c25.tmLanguage.json", encoding="utf-8") as file:
        grammar = json.load(file)
    return [(re.compile(it["match"]), it.get("name"), it.get("captures", {})) for it in (grammar["repository"][p["include"][1:]] if "include" in p else p for p in grammar["patterns"])]


def grammar_mask(patterns, line):
    """The colours of a line as an editor with this grammar gives them: from the left, the pattern that matches first, of several the first."""
    scopes = {"comment": "c", "entity.name.label": "l", "keyword.mnemonic": "m", "keyword.control.directive": "d", "entity.name.function": "p", "string": "s",
              "variable.other": "v", "variable.language": "r", "constant": "n", "keyword.operator": "i"}
    colours, at = [" "] * len(line), 0
    while at <= len(line):
        found = [(it.start(), number, it) for number, (pattern, _, _) in enumerate(patterns) for it in [pattern.search(line, at)] if it and it.end() > it.start()]
        if not found:
            break
        _, number, it = min(found[:], key=lambda one: one[:2])
        for group, name in [(0, patterns[number][1])] + [(int(g), c["name"]) for g, c in patterns[number][2].items()]:
            if name and it.start(group) >= 0:
                letter = next(letter for scope, letter in scopes.items() if name.startswith(scope))
                colours[it.start(group):it.end(group)] = letter * (it.end(group) - it.start(group))
        at = it.end()
    return "".join(colours)


ODD_LINES = """
* a comment ; "and" 'more'
; LACK 5
START:  NOP                     ; it's "one"
X:N:    .word   X:N:,:N:+1
ALONE
B       B       B,*             ; three times B
LAC$1   lack    0FFh&~0Fh,101b,144q,1100100B
        .string "A;B","say ""so"" now",'it'
        .byte   'A','''',';',"1 2"
        ADD     *+,0,AR3
        LAC     *BR0-,0,ar1 ;x
        MAC     TAB,*
W?      BANZ    W?,*-,AR2
        .eval   N*N+4*4 - 2 * 2,k
        .word   1+2<<3,K$1,$-1,12G,0x10,8Q,1F,DRR,drr,IMR+1
        .foo    5
        ADD3    60h,61h
        .loop
        .copy   "ports.inc" ; *+
        ZAC;no blank
        .word   ''
        .word   "open
NOP     ;
        IN      60h,PA16
        IN      60h,pa15
""".splitlines()[1:]


def colours(folder):
    sample = [f"L{number}     {word}  5" for number, word in enumerate(make.mnemonics())] + [f"        {it.lower()} *+" for it in make.mnemonics()]
    sample += [f"        .{it} X,1" for it in make.directives()] + [f"Y .{it.upper()} \"s\"" for it in make.directives()] + ODD_LINES
    with open(f"{folder}/sample.asm", "w", encoding="utf-8") as file:
        file.write("\n".join(sample) + "\n")
    files = [f"{folder}/sample.asm"] + sorted(os.path.abspath(it) for it in glob.glob(f"{HERE}/../examples/**/*.asm", recursive=True))
    texts = []
    for name in files:
        with open(name, encoding="utf-8") as file:
            texts.append(file.read().splitlines())
    wanted = [[mask(line) for line in text] for text in texts]
    found = {name: vim_masks(command, files, folder) for name, command in VIMS.items() if is_there(name)}
    if is_there("emacs"):
        found["emacs"] = emacs_masks(files, folder)
    patterns = grammar_patterns()
    found["grammar"] = [[grammar_mask(patterns, line) for line in text] for text in texts]
    for editor, masks in found.items():
        if isinstance(masks, str):
            report(f"colours {editor}", False, masks[:600])
            continue
        for name, text, right, seen in zip(files, texts, wanted, masks):
            for number, (line, one, other) in enumerate(zip(text, right, seen), 1):
                report(f"colours {editor} {os.path.basename(name)}:{number}", one.rstrip() == other.rstrip(), f"\n  {line}\n  {one}|\n  {other}|")
            report(f"colours {editor} {name}", len(text) == len(seen), f"{len(seen)} lines of {len(text)}")
    print(f"colours: {len(files)} files, {sum(map(len, texts))} lines, in {', '.join(found)}")


# Places.

FILES = {
    "a.asm": " NOP\n LACK 256\n",
    "good.asm": "STOP B STOP\n",
    "my file.asm": " NOP\n LACK 256\n",
    "inc.inc": "P .macro n\n LACK n\n .endm\n .loop 1\n P 256\n .endloop\n",
    "b.asm": " .copy \"inc.inc\"\n",
    "octal.cmd": "/* ranges */\nMEMORY { P : o = 010, l = 10h }\n",
    "open.cmd": "MEMORY {\n",
    "far.asm": "* FAR away\n NOP ; FAR\n .ref FAR\n B FAR\n",
    "go.asm": "GO NOP\n .def GO\n",
    "gone.asm": " NOP\nGO NOP\n .def GO\n",
    "norange.cmd": "SECTIONS {\n .text : > NONE\n}\n",
    "small.cmd": "MEMORY { P : o = 0, l = 10h }\n",
    "wide.asm": " NOP\n .sect \"wide\"\n .space 17*16\n",
    "overlap.cmd": "SECTIONS {\n .text : > 0\n wide : > 0\n}\n",
    "noted.cmd": "/* .text */\nSECTIONS {\n .text : > NONE\n}\n",
    "high.cmd": "SECTIONS {\n wide : run = 0FFFAh\n}\n",
    "ldpk.asm": " .ref X\n LDPK X\n",
    "x.asm": " .def X\nX .set 70000\n",
    "entry.cmd": "\n-e MAIN\n",
    "bad.samples": "0 0001\n16 0000\n",
    "bad.schedule": "5 INT0\n4 INT1\n",
    "bad.script": "step 5\nstep\n",
    "copy.asm": " NOP\n .copy \"none.inc\"\n",
    "latin.asm": b" NOP\n NOP ; \xff\n",
    "dry.asm": " NOP\n OUT 60h,PA0\n IN 60h,PA1\n",
    "bad.hex": ":02004000240594\n",
    "Makefile": "all:\n\tc25 build far.asm --command octal.cmd --out far\n",
    "sub/Makefile": "all:\n\tc25 asm deep.asm --obj deep.obj --explain\n",
    "sub/deep.asm": "\n\n NOP 5\n",
    "under/Makefile": "all:\n\tc25 run low.asm --command low.cmd\nlink:\n\tc25 run low.asm\nread:\n\tc25 run high.asm --samples low.samples --explain\n",
    "under/low.asm": " NOP\n .ref FAR\n B FAR\n",
    "under/high.asm": " NOP\n",
    "under/low.cmd": "\n-o\n",
    "under/low.samples": "0 0001\n\n0\n",
}
# A command, where the first fault is, the other places in the list, and where VS Code finds it if that differs (`None`: nowhere).
CASES = [
    ("c25 asm a.asm --obj /dev/null", "a.asm:2"),
    ("c25 asm a.asm --obj /dev/null --explain", "a.asm:2"),
    ("c25 asm 'my file.asm' --obj /dev/null --explain", "my file.asm:2"),
    ("c25 asm good.asm --obj /dev/null --explain", None),
    ("c25 build b.asm --out b --explain", "inc.inc:2", ["inc.inc:5", "inc.inc:6", "b.asm:1"]),
    ("c25 build good.asm --out b --command octal.cmd", "octal.cmd:2", [], None),
    ("c25 build good.asm --out b --command=octal.cmd --explain", "octal.cmd:2:18"),
    ("c25 build good.asm --out b --command open.cmd --explain", "open.cmd:1"),
    ("c25 asm good.asm --obj good.obj; c25 link octal.cmd good.obj --out b", "octal.cmd:2", [], None),
    ("c25 run good.asm --samples bad.samples", "bad.samples:2", [], None),
    ("c25 run good.asm --samples bad.samples --explain", "bad.samples:2"),
    ("c25 run good.asm --schedule=bad.schedule", "bad.schedule:2", [], None),
    ("c25 run good.asm --schedule bad.schedule --explain", "bad.schedule:2"),
    ("c25 debug good.asm --script bad.script", "bad.script:2", [], None),
    ("c25 debug good.asm --script bad.script --explain", "bad.script:2"),
    ("c25 dis bad.hex", "bad.hex:1", [], None),
    ("c25 < a.asm", "a.asm:2", [], None),
    ("c25 run good.asm far.asm --explain", "far.asm:3", [], None),
    ("c25 run go.asm gone.asm", "go.asm:1", [], None),
    ("c25 run wide.asm --command norange.cmd", "norange.cmd:2", [], None),
    ("c25 run wide.asm --command norange.cmd --explain", "norange.cmd:2"),
    ("c25 run good.asm --command noted.cmd --explain", "noted.cmd:3"),
    ("c25 run wide.asm --command small.cmd --explain", "wide.asm:2", [], None),
    ("c25 run wide.asm --command overlap.cmd --explain", "overlap.cmd:3"),
    ("c25 run wide.asm --command high.cmd --explain", "high.cmd:2"),
    ("c25 run ldpk.asm x.asm --explain", "ldpk.asm:2"),
    ("c25 run good.asm --command entry.cmd --explain", "entry.cmd:2", [], None),
    ("c25 run copy.asm --explain", "copy.asm:2", [], None),
    ("c25 run latin.asm --explain", "latin.asm:2"),
    ("c25 run latin.asm", "latin.asm:1", [], None),
    ("c25 run none.asm --explain", None),
    ("c25 run good.asm good.asm", None),
    ("c25 link small.cmd good.asm --out b", None),
    ("c25 asm good.asm --obj /nowhere/good.obj --explain", None),
    ("c25 run dry.asm --regs --explain", "dry.asm:3"),
    ("c25 run dry.asm", None),
    ("make", "octal.cmd:2", [], None),
    ("make -C sub", "sub/deep.asm:3", [], "deep.asm:3"),
    ("make -C under", "under/low.cmd:2", [], None),
    ("make -C under link", "under/low.asm:2", [], None),
    ("make -C under read", "under/low.samples:3", [], "low.samples:3"),
]


def vim_places(command, cases, folder):
    script = f"""set runtimepath^={HERE}/vim
filetype plugin on
edit {folder}/good.asm
cd {folder}
let found = []
for command in {json.dumps(cases)}
  edit! {folder}/good.asm
  let &makeprg = command
  silent make
  let list = map(filter(getqflist(), {{_, item -> item.valid && item.bufnr}}), {{_, item -> [fnamemodify(bufname(item.bufnr), ':p'), item.lnum, item.col, item.nr]}})
  call add(found, {{'at': [expand('%:p'), line('.'), col('.')], 'list': list}})
endfor
call writefile([json_encode(found)], '{folder}/masks')
qall!
"""
    return masks_of(command, script, folder)


def emacs_places(cases, folder):
    script = """(require 'json)
(setq compilation-always-kill t compilation-scroll-output nil)
(let (found (default-directory "FOLDER/"))
  (dolist (command '(CASES))
    (let ((buffer (compile command)) at list)
      (while (get-buffer-process buffer) (accept-process-output nil 0.05))
      (with-current-buffer buffer
        (compilation--ensure-parse (point-max))
        (goto-char (point-min))
        (let ((last nil))
          (while (not (eobp))
            (let ((message (get-text-property (point) 'compilation-message)))
              (when (and message (not (eq message last)))
                (let* ((place (compilation--message->loc message)) (file (car (compilation--loc->file-struct place))))
                  (when (car file)
                    (push (list (expand-file-name (car file) (or (cadr file) default-directory)) (compilation--loc->line place)) list))))
              (setq last message))
            (goto-char (next-single-property-change (point) 'compilation-message nil (point-max))))))
      (condition-case fault
          (save-window-excursion
            (with-current-buffer buffer (goto-char (point-min)))
            (setq next-error-last-buffer buffer)
            (first-error)
            (with-current-buffer (window-buffer (selected-window))
              (goto-char (window-point (selected-window)))
              (setq at (list (buffer-file-name) (line-number-at-pos) (1+ (current-column))))))
        (error (setq at (list (error-message-string fault) 0 0))))
      (push (list (cons 'at at) (cons 'list (vconcat (nreverse list)))) found)))
  (with-temp-file "FOLDER/masks" (insert (json-encode (vconcat (nreverse found))))))
""".replace("CASES", " ".join(json.dumps(it) for it in cases)).replace("FOLDER", folder)
    return masks_of(EMACS, script, folder)


def matched(output):
    """The places that the problem matchers of VS Code find in an output, in the order of its lines."""
    with open(f"{HERE}/vscode/package.json", encoding="utf-8") as file:
        matchers = json.load(file)["contributes"]["problemMatchers"]
    lines, found = output.splitlines(), []
    for matcher in matchers:
        patterns = matcher["pattern"] if isinstance(matcher["pattern"], list) else [matcher["pattern"]]
        for at in range(len(lines) - len(patterns) + 1):
            matches = [re.search(it["regexp"], line) for it, line in zip(patterns, lines[at:])]
            if all(matches):
                said = {key: it[group] for pattern, it in zip(patterns, matches) for key, group in pattern.items() if key != "regexp"}
                found.append((at, ":".join(said[it] for it in ("file", "line", "column") if said.get(it))))
    return [place for _, place in sorted(found)]


def short(folder, place):
    """A place as a case has it, or `None` where there is none."""
    name, line = place[:2]
    return f"{os.path.relpath(name, folder)}:{line}" if os.path.isabs(name) else None


def places(folder):
    for name, text in FILES.items():
        os.makedirs(os.path.dirname(f"{folder}/{name}"), exist_ok=True)
        with open(f"{folder}/{name}", "wb") as file:
            file.write(text if isinstance(text, bytes) else text.encode())
    commands = [it[0] for it in CASES]
    found = {name: vim_places(command, commands, folder) for name, command in VIMS.items() if is_there(name)}
    if is_there("emacs"):
        found["emacs"] = emacs_places(commands, folder)
    for editor, answers in found.items():
        if isinstance(answers, str):
            report(f"places {editor}", False, answers[:600])
            continue
        for (command, first, *more), answer in zip(CASES, answers):
            wanted = ([":".join(first.split(":")[:2])] if first else []) + (more[0] if more else [])
            seen = [short(folder, it) for it in answer["list"] if os.path.exists(it[0]) and os.path.basename(it[0]) != "Makefile"]
            report(f"places {editor} `{command}`", seen == wanted, f"the list has {seen}, not {wanted}")
            at = short(folder, answer["at"]) + (f":{answer['at'][2]}" if first and first.count(":") == 2 else "") if os.path.isabs(answer["at"][0]) else None
            right = first or ("good.asm:1" if editor != "emacs" else None)
            report(f"places {editor} `{command}`", at == right, f"the cursor is at {at}, not {right} ({answer['at'][0]})")
    for command, first, *more in CASES:
        wanted = more[1] if len(more) > 1 else first
        seen = matched(run(["bash", "-c", command], folder))
        report(f"places of VS Code `{command}`", seen == ([wanted] if wanted else []), f"{seen}, not {wanted}")
    print(f"places: {len(CASES)} commands in {', '.join(found)}, and by VS Code's matchers")


# The rest.

def settings(folder):
    for source in ("new.inc", "new.asm"):
        with open(f"{folder}/{source}", "w", encoding="utf-8") as file:
            file.write(" NOP\n")
    for name, source, command in ((name, source, command) for name, command in VIMS.items() for source in ("new.inc", "new.asm")):
        if is_there(name):
            script = f"""set runtimepath^={HERE}/vim
filetype plugin on
syntax on
cd {folder}
edit {source}
call writefile([json_encode([&filetype, &commentstring, &makeprg, b:current_compiler, b:current_syntax])], '{folder}/masks')
qall!
"""
            found = masks_of(command, script, folder)
            report(f"settings {name} {source}", found == ["c25", "; %s", "c25 asm %:S --obj /dev/null --explain", "c25", "c25"], found)
    for name, command in VIMS.items():
        if is_there(name):
            script = f"""set runtimepath^={HERE}/vim
filetype plugin on
let g:c25make = 'build a|b.asm --out x'
cd {folder}
edit new.asm
let found = [&makeprg]
unlet g:c25make
call writefile([''], 'Makefile')
compiler c25
call writefile([json_encode(found + [&makeprg])], '{folder}/masks')
call delete('Makefile')
qall!
"""
            found = masks_of(command, script, folder)
            script = f"""set runtimepath^={HERE}/vim
filetype plugin on
let g:c25make = 'build new.asm --command new.cmd --out x'
compiler! c25
cd {folder}
call writefile(['', '-o'], 'new.cmd')
edit new.txt
silent make
call writefile([json_encode([expand('%'), line('.')])], '{folder}/masks')
qall!
"""
            report(f"settings {name} compiler!", masks_of(command, script, folder) == ["new.cmd", 2], "another place")
            report(f"settings {name} g:c25make", found == ["c25 build a|b.asm --out x", "make"], found)
    if is_there("emacs"):
        script = """(require 'json)
(require 'imenu)
(find-file "new.inc")
(goto-char (point-max)) (insert "LOOP B LOOP") (comment-dwim nil)
(let ((found (vector mode-name compile-command (buffer-substring (line-beginning-position) (point)) (caar (cdr (imenu--make-index-alist))))))
  (set-buffer-modified-p nil)
  (with-temp-file "FOLDER/masks" (insert (json-encode found))))
""".replace("FOLDER", folder)
        found = masks_of(EMACS, script, folder)
        report("settings emacs", isinstance(found, list) and found[:2] == ["C25", "c25 asm new.inc --obj /dev/null --explain"] and found[2].split() == ["LOOP", "B", "LOOP", ";"]
               and found[3] == "LOOP", found)
    print("settings: looked at")


def message(body):
    text = json.dumps(body)
    return f"Content-Length: {len(text.encode())}\r\n\r\n{text}".encode()


def answers(stream):
    while True:
        length = None
        for line in iter(stream.readline, b""):
            if line == b"\r\n":
                break
            if line.lower().startswith(b"content-length:"):
                length = int(line.split(b":")[1])
        if length is None:
            return
        yield json.loads(stream.read(length))


def efm(folder):
    if not is_there("efm-langserver"):
        return
    with open(f"{folder}/inc.inc", "w", encoding="utf-8") as file:
        file.write(FILES["inc.inc"])
    server = subprocess.Popen(["efm-langserver", "-c", f"{HERE}/efm/config.yaml"], cwd=folder, stdin=subprocess.PIPE, stdout=subprocess.PIPE, stderr=subprocess.DEVNULL)
    uri, stream = f"file://{folder}/edited.asm", answers(server.stdout)
    texts = [(" NOP\n\n LACK 300\n", [(2, "FieldRange")]), (" NOP\n\n LACK 200\n", []), ("\n .FOO\n", [(1, "UnknownMnemonic")])]

    def send(body):
        server.stdin.write(message({"jsonrpc": "2.0", **body}))
        server.stdin.flush()

    send({"id": 1, "method": "initialize", "params": {"processId": None, "rootUri": f"file://{folder}", "capabilities": {}}})
    next(it for it in stream if it.get("id") == 1)
    for version, (text, wanted) in enumerate(texts, 1):
        document = {"uri": uri, "version": version}
        if version == 1:
            send({"method": "textDocument/didOpen", "params": {"textDocument": {**document, "languageId": "c25", "text": text}}})
        else:
            send({"method": "textDocument/didChange", "params": {"textDocument": document, "contentChanges": [{"text": text}]}})
        said = next(it for it in stream if it.get("method") == "textDocument/publishDiagnostics" and it["params"].get("version") == version)
        found = [(it["range"]["start"]["line"], it["message"]) for it in said["params"]["diagnostics"]]
        report(f"efm {text!r}", len(found) == len(wanted) and all(line == at and name in words for (line, words), (at, name) in zip(found, wanted)), found)
    server.kill()
    server.wait()
    neovim_and_efm(folder)
    print("efm: looked at")


def neovim_and_efm(folder):
    """Neovim with the two files of editors/efm in a home of its own: the fault of a text as it is typed, and none once it is mended."""
    if not (is_there("nvim") and is_there("efm-langserver")):
        return
    for source, target in (("efm/config.yaml", "efm-langserver/config.yaml"), ("efm/nvim.lua", "nvim/after/ftplugin/c25.lua")):
        os.makedirs(os.path.dirname(f"{folder}/.config/{target}"), exist_ok=True)
        shutil.copy(f"{HERE}/{source}", f"{folder}/.config/{target}")
    shutil.copytree(f"{HERE}/vim", f"{folder}/.config/nvim", dirs_exist_ok=True)
    with open(f"{folder}/typed.asm", "w", encoding="utf-8") as file:
        file.write(" NOP\n LACK 256\n")
    with open(f"{folder}/drive.lua", "w", encoding="utf-8") as file:
        file.write(f"""vim.cmd('edit typed.asm')
local function faults() return vim.diagnostic.get(0) end
vim.wait(20000, function() return #faults() > 0 end, 20)
local found = {{ #faults(), faults()[1] and faults()[1].lnum, faults()[1] and faults()[1].message }}
vim.api.nvim_buf_set_lines(0, 1, 2, false, {{ ' LACK 255' }})
vim.wait(20000, function() return #faults() == 0 end, 20)
table.insert(found, #faults())
vim.fn.writefile({{ vim.fn.json_encode(found) }}, '{folder}/masks')
vim.cmd('qall!')
""")
    environment = {**os.environ, "HOME": folder, "XDG_CONFIG_HOME": f"{folder}/.config"}
    subprocess.run(["nvim", "--headless", "-n", "-i", "NONE", "-c", "luafile drive.lua"], cwd=folder, env=environment, stdin=subprocess.DEVNULL, capture_output=True, timeout=100)
    with open(f"{folder}/masks", encoding="utf-8") as file:
        found = json.load(file)
    report("efm nvim", found[:2] == [1, 1] and "53 FieldRange" in found[2] and found[3] == 0, found)


def bash(folder):
    with open(f"{folder}/one.asm", "w", encoding="utf-8") as file:
        file.write(" NOP\n")
    program = make.command_line()
    names = {it.name for it in program.subcommand}
    options = {it.name: {name for names, _, _ in make.options(it) for name in names if name.startswith("--")} | {"--help"} for it in program.subcommand}
    cases = [("c25 ", names | {"help"}), ("c25 d", {it for it in names if it.startswith("d")}), ("c25 --v", {"--version"}), ("c25 run --s", {it for it in options["run"] if it.startswith("--s")}),
             ("c25 run one", {"one.asm"}), ("c25 run one.asm --steps ", set()), ("c25 explain 5", {it for it in make.faults() if it.startswith("5")}), ("c25 explain Bad", {it for it in make.faults() if it.startswith("Bad")}),
             ("c25 help d", {it for it in names if it.startswith("d")}), ("c25 --ex", {"--explain"}), ("c25 --explain bu", {"build"}), ("c25 --explain --all build --", options["build"]),
             ("c25 run one.asm --command on", {"one.asm"}), ("c25 run one.asm --command = on", {"one.asm"}), ("c25 asm --", options["asm"])]
    for line, wanted in cases:
        words = line.split() + [""] * line.endswith(" ")
        script = f"source {shlex.quote(HERE)}/bash/c25; COMP_WORDS=({' '.join(map(shlex.quote, words))}); COMP_CWORD={len(words) - 1}; _c25; printf '%s\\n' \"${{COMPREPLY[@]}}\""
        found = set(run(["bash", "--norc", "-c", script], folder).split())
        report(f"bash `{line}`", found == wanted, found)
    print(f"bash: {len(cases)} lines")


def man(folder):
    if is_there("groff"):
        found = subprocess.run(["groff", "-man", "-Tutf8", "-ww", f"{HERE}/man/c25.1"], capture_output=True, text=True)
        report("man", found.stderr == "" and "SUBCOMMANDS" in re.sub(".\b", "", found.stdout), found.stderr)
        print("man: looked at")


PARTS = {"colours": colours, "places": places, "settings": settings, "efm": efm, "bash": bash, "man": man}


def main(words):
    if not words:
        print(__doc__.splitlines()[2])
        return 2
    for name in words[1:] or PARTS:
        with tempfile.TemporaryDirectory() as folder:
            folder = os.path.realpath(folder)
            os.makedirs(f"{folder}/bin")
            os.symlink(os.path.abspath(words[0]), f"{folder}/bin/c25")
            os.environ["PATH"] = f"{folder}/bin:" + os.environ["PATH"]
            PARTS[name](folder)
    print("all as expected" if not wrong else f"{len(wrong)} not as expected")
    return 1 if wrong else 0


if __name__ == "__main__":
    sys.exit(main(sys.argv[1:]))
