#!/usr/bin/env python3
"""Measures pages in Debian's chromium and firefox-esr: the first answer, a hundred million steps, a source of 60,000 lines.

    python3 tools/page/measure.py [PAGE..] [--browser NAME] [--times N]      (without PAGE: tools/out/c25.html)

Each page is opened N times (5), in turn with the others. The least and the middle time of each part are printed, in milliseconds: the
first paint and the first answer since the page was opened, and what the program took for its calls, as the page tells it.
"""
import argparse
import json
import os
import shutil
import statistics
import sys

HERE = os.path.dirname(os.path.abspath(__file__))
TOP = os.path.dirname(os.path.dirname(HERE))
sys.path.insert(0, HERE)
sys.dont_write_bytecode = True
import browser  # noqa: E402

LOOP = """NEXT    LT      60h
        MPY     61h
        APAC
        SACH    62h,1
        LAC     60h,4
        SUB     61h
        XOR     62h
        SACL    61h
        B       NEXT
"""
LABELS = "".join("L%d     ADD     0%Xh,3           ; line %d\n" % (line, line % 128, line) for line in range(60000))
CALLS = (("100 million steps", ["run", "a.asm", "--steps", "100000000"], LOOP),
         ("60,000 lines with labels", ["build", "a.asm", "--out", "a"], LABELS))
RUN = "const it = await program.run(%s, { 'a.asm': %s }); return [it.status, it.milliseconds];"
PAINT = "return (performance.getEntriesByType('paint')[0] || {}).startTime || null"


def times_of(driven, page):
    """What each part takes in a page that is opened anew."""
    driven.do("if (document.body) document.body.dataset.begun = ''")
    driven.open(page)
    driven.until("document.body && document.body.dataset.begun")
    found = {"first paint": driven.do(PAINT), "first answer": int(driven.do("return document.body.dataset.begun"))}
    for name, words, source in CALLS:
        status, found[name] = driven.do(RUN % (json.dumps(words), json.dumps(source)))
        if status != 0:
            sys.exit("measure.py: c25 %s ended with status %s" % (" ".join(words), status))
    return found


def measure(kind, pages, count):
    driven, found = kind(), {page: [] for page in pages}
    try:
        for page in [page for _ in range(count) for page in pages]:
            found[page].append(times_of(driven, page))
    finally:
        driven.close()
    for page, times in found.items():
        for name in times[0]:
            some = [it[name] for it in times if it[name] is not None]
            if some:
                print("%s %s: %s: %.0f, %.0f ms" % (kind.name, os.path.relpath(page), name, min(some), statistics.median(some)), flush=True)


def main():
    parser = argparse.ArgumentParser(description=__doc__, formatter_class=argparse.RawDescriptionHelpFormatter)
    parser.add_argument("pages", nargs="*", default=[os.path.join(TOP, "tools", "out", "c25.html")])
    parser.add_argument("--browser", help="chromium or firefox-esr alone")
    parser.add_argument("--times", type=int, default=5)
    options = parser.parse_intermixed_args()
    for kind in [kind for kind in (browser.Chromium, browser.Firefox) if options.browser in (None, kind.name)]:
        if shutil.which(kind.command):
            measure(kind, [os.path.abspath(page) for page in options.pages], options.times)
        else:
            print("%s is not installed: not measured there" % kind.name)


if __name__ == "__main__":
    main()
