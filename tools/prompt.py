#!/usr/bin/env python3
"""prompt.py PROGRAM [SESSIONS]: sessions at the debugger's prompt over a pipe, fed line by line; 50 by default.

Each command is written only when the answer to the one before has come, within a time limit. The commands of a session are random: after
each the registers, the stack, the place and a word of data are those that `debug --script` answers after as many steps, and they are the
same again after `back n`, `rback` or `restart` and as many steps forward. `rback` and `hits` answer what runs of a script to the same
breakpoint met, and a run after `ignore` stops at the first of these meetings that it does not pass; `print` the word that `data` shows,
`list A n` what `list n` shows at A, `line` the lines of the source around that of `where`, and `trace` the jumps that single steps of a
script make; what is displayed comes after each answer, as `print` shows it then, and no longer once `undisplay` has taken it away. First a
session is typed at a terminal, where standard error must get a prompt for each command that is waited for, and one over a pipe, where it
must get none. Prints a line for each session that differs, and the number of sessions; the status is 1 if one differs, 2 if the command
line is no such call.
"""

import os
import pty
import random
import select
import subprocess
import sys
import tempfile

SOURCE = """        .bss    SUM,1
        .text
START   LDPK    SUM
        LARK    AR1,2
        LARP    AR1
        ZAC
LOOP    CALL    MORE
        BANZ    LOOP,*-
DONE    B       DONE
MORE    ADDK    5
        SACL    SUM
        RET
"""
LIMIT = 20


class Session:
    """A running program, asked one command after another."""

    def __init__(self, program, folder):
        self.running = subprocess.Popen([program, "debug", "count.asm", "-i"], cwd=folder, stdin=subprocess.PIPE, stdout=subprocess.PIPE)
        self.kept = b""
        self.shown, self.given, self.differs = {}, 0, False

    def line(self):
        """The next line of the answers; stops where none comes in time."""
        while b"\n" not in self.kept:
            if not select.select([self.running.stdout], [], [], LIMIT)[0]:
                self.running.kill()
                sys.exit("no answer within %d seconds" % LIMIT)
            more = os.read(self.running.stdout.fileno(), 65536)
            if not more:
                sys.exit("the program ended before it answered")
            self.kept += more
        line, _, self.kept = self.kept.partition(b"\n")
        return line.decode()

    def ask(self, command, lines=1):
        """The lines that a command is answered with."""
        self.running.stdin.write(command.encode() + b"\n")
        self.running.stdin.flush()
        return [self.line() for _ in range(lines)]

    def go(self, command):
        """The answer to a command that does steps or goes back, without what is displayed after it, which must be what `print` shows."""
        first, *displayed = self.ask(command, 1 + len(self.shown))
        self.differs |= displayed != ["%d: %s" % (number, self.ask("print " + what)[0]) for number, what in self.shown.items()]
        return first

    def display(self, what):
        """Displays something more."""
        self.given += 1
        self.differs |= self.ask("display " + what) != ["%d: %s" % (self.given, self.ask("print " + what)[0])]
        self.shown[self.given] = what

    def undisplay(self, number):
        """Displays what has this number no longer."""
        self.differs |= self.ask("undisplay %d" % number) != ["%s %d" % ("cleared" if number in self.shown else "none", number)]
        self.shown.pop(number, None)

    def end(self):
        self.running.stdin.close()
        return self.running.wait(LIMIT)


def shown(session):
    """The registers, the stack, the place and a word of data."""
    return session.ask("regs", 3)[:2] + session.ask("stack") + session.ask("where") + session.ask("data SUM 1")


def scripted(program, folder, counts):
    """What a script shows after each of these numbers of steps, which rise."""
    commands, before = [], 0
    for count in counts:
        commands += ["step %d" % (count - before), "regs", "stack", "where", "data 0300 1"]
        before = count
    with open(folder + "/script", "w") as file:
        file.write("\n".join(commands) + "\n")
    words = [program, "debug", "count.asm", "--script", "script"]
    lines = subprocess.run(words, cwd=folder, stdout=subprocess.PIPE, check=True).stdout.decode().splitlines()
    return {count: lines[6 * at + 1 : 6 * at + 6] for at, count in enumerate(counts)}


def met(program, folder, place, steps):
    """After how many of the first steps a script meets a breakpoint at an address."""
    with open(folder + "/script", "w") as file:
        file.write("break %s\n" % place + "run %d\n" % steps * (steps + 1))
    words = [program, "debug", "count.asm", "--script", "script"]
    lines = subprocess.run(words, cwd=folder, stdout=subprocess.PIPE, check=True).stdout.decode().splitlines()
    return [int(line.split()[1]) for line in lines if line.startswith("break ") and int(line.split()[1]) <= steps]


def looks_back(program, folder, session, done, place):
    """Whether `hits` and `rback` find the breakpoint at this address where runs of a script meet it, and `restart` the first state."""
    before = shown(session)
    times = met(program, folder, place, done)
    if session.ask("hits %s" % place) != ["hits %s %d" % (place, len(times))]:
        return False
    session.ask("break %s" % place)
    earlier = [time for time in times if time < done]
    wanted = "break %d %s" % (earlier[-1], place) if earlier else "ran 0"
    found = session.ask("rback") == [wanted]
    session.ask("clear %s" % place)
    session.ask("step %d" % (done - (earlier[-1] if earlier else 0)))
    same = shown(session) == before
    begun = session.ask("restart") == ["ran 0"]
    session.ask("step %d" % done)
    return found and same and begun and shown(session) == before


def passes(program, folder, session, done, place, count):
    """Whether a run from the first state passes the first meetings of a breakpoint that a script meets, so many, and stops at the next."""
    times = met(program, folder, place, done)
    session.ask("restart"), session.ask("break %s" % place)
    asked = session.ask("ignore %s %d" % (place, count)) == ["ignore %s %d" % (place, count)]
    wanted = "break %d %s" % (times[count], place) if count < len(times) else "ran %d" % done
    found = session.ask("run %d" % done) == [wanted]
    left = ["ignore %s %d" % (place, count - len(times))] if count > len(times) else []
    shows = session.ask("ignore", len(left)) == left
    session.ask("clear %s" % place)
    session.ask("step %d" % (done - (times[count] if count < len(times) else done)))
    return asked and found and shows and session.ask("step 0") == ["ran %d" % done]


def jumps(program, folder, steps):
    """The jumps that a script makes in the first steps: with how many steps done, from where to where, and the line."""
    with open(folder + "/script", "w") as file:
        file.write("where\n" + "step 1\nwhere\n" * steps)
    words = [program, "debug", "count.asm", "--script", "script"]
    places = subprocess.run(words, cwd=folder, stdout=subprocess.PIPE, check=True).stdout.decode().splitlines()[::2]
    pairs = enumerate(zip(places, places[1:]), 1)
    return ["%d %s %s %s" % (done, a[:4], b[:4], a.split()[-1]) for done, (a, b) in pairs if (int(b[:4], 16) - int(a[:4], 16)) % 65536 > 2]


def traces(program, folder, session, done, most):
    """Whether `trace` shows the last of the jumps that a script makes."""
    wanted = jumps(program, folder, done)
    wanted = wanted[len(wanted) - min(most, len(wanted)):]
    return session.ask("trace %d" % most, len(wanted)) == wanted


def around(number):
    """The lines of the source around the line of this number, as `line` shows them."""
    lines = enumerate(SOURCE.splitlines(), 1)
    return ["%s %d\t%s" % ("=>" if at == number else "  ", at, line) for at, line in lines if abs(at - number) <= 3]


def looks_around(session):
    """Whether `print` shows the word that `data` shows, `list A n` what `list n` shows where PC is A, and `line` the lines there."""
    word = session.ask("data SUM 1")[0].split()[1]
    number = int(word, 16) - (65536 if int(word, 16) > 32767 else 0)
    printed = session.ask("print *SUM")[0].split()
    place = session.ask("where")[0]
    listed = session.ask("list %s 1" % place[:4])
    shown = around(int(place.split(":")[1]))
    return printed[1:3] == [word, str(number)] and listed == [place] and session.ask("line", len(shown)) == shown


def compared(program, folder, seed):
    """Whether a session shows what a script does, and going back and forward again leads to where it was."""
    chosen, session, seen = random.Random(seed), Session(program, folder), {}
    if chosen.random() < 0.5:
        session.ask("break %s" % chosen.choice(["LOOP", "MORE", "DONE", "count.asm:11", "MORE+1"]))
    if chosen.random() < 0.5:
        session.ask("watch SUM")
    else:
        session.ask("step %d" % chosen.randrange(0, 60))
        done = int(session.ask("step 0")[0].split()[1])
        if not looks_around(session) or not traces(program, folder, session, done, chosen.randrange(0, 15)):
            return False
        session.ask("clear LOOP"), session.ask("clear MORE"), session.ask("clear DONE"), session.ask("clear count.asm:11")
        session.ask("clear MORE+1")
        place = chosen.choice(["0004", "000A", "0008", "0006"])
        if not looks_back(program, folder, session, done, place) or not passes(program, folder, session, done, place, chosen.randrange(0, 6)):
            return False
    for _ in range(20):
        if chosen.random() < 0.2:
            session.display(chosen.choice(["*SUM", "MORE", "*SUM+1", "*0300", "LOOP+3"]))
        if chosen.random() < 0.2:
            session.undisplay(chosen.randrange(0, session.given + 2))
        session.go(chosen.choice(["step %d", "run %d", "next %d"]) % chosen.randrange(0, 40))
        before, done = shown(session), int(session.go("step 0").split()[1])
        seen[done] = before
        back = chosen.randrange(0, done + 10)
        session.go("back %d" % back)
        seen[done - min(back, done)] = shown(session)
        session.go("step %d" % min(back, done))
        if shown(session) != before:
            return False
    return session.end() == 0 and not session.differs and scripted(program, folder, sorted(seen)) == seen


def prompts(program, folder):
    """What standard error gets where two commands and `quit` are typed at a terminal, and where they come over a pipe."""
    typed, terminal = pty.openpty()
    os.write(typed, b"step 1\nwhere\nquit\n")
    words = [program, "debug", "count.asm", "-i"]
    at_terminal = subprocess.run(words, cwd=folder, stdin=terminal, stdout=subprocess.PIPE, stderr=subprocess.PIPE, timeout=LIMIT)
    os.close(typed), os.close(terminal)
    piped = subprocess.run(words, cwd=folder, input=b"step 1\nwhere\nquit\n", stdout=subprocess.PIPE, stderr=subprocess.PIPE, timeout=LIMIT)
    return at_terminal.stderr, piped.stderr, at_terminal.stdout == piped.stdout


def main(words):
    if not words or words[0].startswith("-") or len(words) > 2 or not all(it.isdecimal() for it in words[1:]):
        print(__doc__.strip(), file=sys.stderr)
        return 2
    program, sessions = os.path.abspath(words[0]), int(words[1]) if words[1:] else 50
    with tempfile.TemporaryDirectory() as folder:
        with open(folder + "/count.asm", "w") as file:
            file.write(SOURCE)
        if prompts(program, folder) != (b"(c25) " * 3, b"", True):
            print("at a terminal: the prompts or the answers differ")
            return 1
        wrong = [seed for seed in range(sessions) if not compared(program, folder, seed)]
    for seed in wrong:
        print("session %d differs" % seed)
    print("%d sessions" % sessions)
    return 1 if wrong else 0


if __name__ == "__main__":
    sys.exit(main(sys.argv[1:]))
