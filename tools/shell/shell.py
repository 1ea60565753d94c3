#!/usr/bin/env python3
"""An interactive session: each call is answered at once, by the program (./rvdyn --line), or with --model by the slow model, which
needs no kit.

A line is a statement of the session in the prompt, or a line of a script: `2 BEGIN` is a call of session 2, which the
prompt then shows, and `--`, `-- 0`, `-- 1`, `-- 2` begin a phase, with that judge from then on. A statement that does not
fit is told with its place, and another refusal with what helps. Further lines:

  \\session N     the session of the next statements, 1 to 8
  \\show [NAME]   what the retrieval of a cursor did so far, by default of the one that was opened last
  \\timing        tells behind each reply how long it took, or no longer
  \\script        the script that was typed so far
  \\save FILE     writes that script into a file, which ./rvdyn FILE runs
  \\i FILE        makes the calls of a script (so does \\run FILE)
  \\undo          all calls but the last are made anew
  \\help, \\quit   this, the end (so does Ctrl-D)

Lines that were typed come back by the arrow keys, also in a later session, and Tab completes words of the language, and names that
were typed."""
from __future__ import annotations

import argparse
import atexit
import os
import re
import sys
import time
from typing import Callable, Iterable, Protocol, TextIO

if not __package__:  # run as a file: the other folders are found from tools/
    sys.path[0] += "/.."

from ending import end
from model.language import KEYWORDS, Mark, Syntax, calls_of, fault_of, read_statement
from model.slow_program import add_run_options, session
from shell import rvdyn
from shell.check_script import of_syntax

HISTORY = os.path.expanduser("~/.rvdyn_history")

# What helps where a call is refused, by the first words of the reply.
HINTS = {
    "no transaction": "BEGIN begins a transaction, BEGIN READ ONLY one that only reads",
    "active": "this session is in a transaction: COMMIT or ROLLBACK ends it",
    "busy": "CREATE waits until no session is in a transaction; that one is",
    "read only": "the transaction was begun READ ONLY",
    "no cursor": "OPEN NAME SELECT .. opens a cursor, and COMMIT and ROLLBACK close all of the session",
    "cursor open": "CLOSE NAME closes it",
    "unknown": "no table, column or index has this name",
    "exists": "a table or an index has this name",
    "kind": "that column has another kind",
    "changed": "another commit wrote that row since this transaction began: ROLLBACK and begin anew",
    "held": "another transaction that is active has changed that row",
    "duplicate": "a unique index has this row already",
    "limit": "docs/LANGUAGE.md lists the limits",
}


class Engine(Protocol):
    """What answers calls."""

    def call(self, session: int, text: str) -> str: ...
    def mark(self, judge: int | None) -> None: ...
    def close(self) -> None: ...


class Program:
    """The program, in a process of its own."""

    def __init__(self, judge: int | str, steps: int, race: bool, program: str | None):
        self.database = rvdyn.open(judge, steps, race, program)
        self.mark, self.close = self.database.mark, self.database.close

    def call(self, session: int, text: str) -> str:
        return self.database.reply(text, session)


class Model:
    """The slow model."""

    def __init__(self, judge: int | str = 0, steps: int = 1, plain: bool = False, race: bool = False):
        made = session(judge, steps, plain, race=race)
        self.call, self.mark = made.call, made.mark

    def close(self) -> None:
        pass


class Quit(Exception):
    pass


class Shell:
    """What answers, the session whose turn it is, and the script so far."""

    def __init__(self, start: Callable[[], Engine], out: TextIO):
        self.start, self.out = start, out
        self.engine, self.session, self.script = start(), 1, []
        self.cursor, self.timing, self.names = "", False, set(KEYWORDS)

    def tell(self, words: str) -> None:
        print(words, file=self.out)

    def line(self, line: str) -> None:
        """Does what a line says."""
        if line.startswith("\\"):
            self.command(*line[1:].split(maxsplit=1))
        elif line.startswith("--") or line[:1] == "#" or (line[:1] in "12345678" and line[1:2] == " "):
            self.script_line(line)
        elif line.strip():
            self.script_line(f"{self.session} {line}")

    def script_line(self, line: str) -> None:
        fault = fault_of(line.encode())
        if fault is not None:
            self.tell(f"# no line of a script: {fault[1]}")
            return
        self.script.append(line)
        for call in calls_of(line):
            if isinstance(call, Mark):
                self.engine.mark(call.judge)
                continue
            self.session = call.session
            began = time.perf_counter()
            reply = self.engine.call(call.session, call.text)
            took = time.perf_counter() - began
            self.tell(f"= {reply}")
            self.note(call.text, reply)
            if self.timing:
                self.tell(f"# {1000 * took:.3f} ms")

    def note(self, text: str, reply: str) -> None:
        """Tells what helps where a call is refused, and keeps its names else."""
        if reply == "syntax":
            self.place(text)
        elif rvdyn.is_refusal(reply):
            self.tell("".join(f"# {hint}" for words, hint in HINTS.items() if reply.startswith(words)) or "# refused")
        else:
            self.names.update(re.findall(r"[A-Za-z_]\w*", text))
            opened = re.match(r"\s*OPEN\s+(\w+)", text, re.IGNORECASE)
            self.cursor = opened.group(1) if opened else self.cursor

    def place(self, text: str) -> None:
        try:
            read_statement(text)
        except Syntax as fault:
            at, words = of_syntax(text, fault)
            self.tell(f"# at column {at + 1}: {words}")
            if text.strip().lower() in ("help", "quit", "exit"):
                self.tell("# \\help tells what can be typed, \\quit ends")

    # Commands.

    def command(self, word: str = "", rest: str = "") -> None:
        if word not in ("session", "show", "timing", "script", "save", "i", "run", "undo", "help", "quit"):
            self.tell(f"# no command \\{word}: \\help tells them")
        else:
            getattr(self, "do_" + word)(rest.strip())

    def do_session(self, rest: str) -> None:
        if rest in tuple("12345678"):
            self.session = int(rest)
        else:
            self.tell("# \\session takes a number from 1 to 8")

    def do_show(self, rest: str) -> None:
        if rest or self.cursor:
            self.script_line(f"{self.session} SHOW {rest or self.cursor}")
        else:
            self.tell("# no cursor was opened yet: \\show NAME tells of one")

    def do_timing(self, rest: str) -> None:
        self.timing = not self.timing
        self.tell(f"# times are {'told' if self.timing else 'told no longer'}")

    def do_script(self, rest: str) -> None:
        for line in self.script:
            self.tell(line)

    def do_save(self, rest: str) -> None:
        try:
            with open(rest, "w", encoding="utf-8") as file:
                file.writelines(line + "\n" for line in self.script)
            self.tell(f"# {len(self.script)} lines are in {rest}")
        except OSError as error:
            self.tell(f"# {rest or 'a file'}: {error.strerror}")

    def do_run(self, rest: str) -> None:
        try:
            with open(rest, "rb") as file:
                data = file.read()
        except OSError as error:
            self.tell(f"# {rest or 'a file'}: {error.strerror}")
            return
        fault = fault_of(data)
        if fault is not None:
            self.tell(f"# {fault[1]}")
            return
        for line in data.decode().removeprefix("\ufeff").splitlines():
            if line:
                self.tell(line)
                self.script_line(line)

    do_i = do_run

    def do_undo(self, rest: str) -> None:
        """The calls so far, but for the last one, are made anew from nothing, without being told."""
        kept, self.script, out = self.script[:-1], [], self.out
        self.engine.close()
        self.engine, self.session = self.start(), 1
        with open(os.devnull, "w", encoding="utf-8") as self.out:
            for line in kept:
                self.script_line(line)
        self.out = out
        self.tell(f"# {len(kept)} lines stay")

    def do_help(self, rest: str) -> None:
        self.tell(__doc__.strip())

    def do_quit(self, rest: str) -> None:
        raise Quit


def typed(shell: Shell) -> Iterable[str]:
    """Lines from the terminal, with history."""
    import readline

    try:
        readline.read_history_file(HISTORY)
    except OSError:
        pass
    readline.set_history_length(2000)
    atexit.register(lambda: save_history(readline))
    readline.set_completer(completer(shell, readline))
    readline.parse_and_bind("tab: complete")
    shell.tell("# \\help tells what can be typed.")
    while True:
        try:
            yield input(f"{shell.session}> ")
        except KeyboardInterrupt:
            shell.tell("")
        except EOFError:
            shell.tell("")
            return


def completer(shell: Shell, readline) -> Callable[[str, int], str | None]:
    """Completes words of the language, in the case that was begun, and names that were typed."""

    def complete(text: str, place: int) -> str | None:
        found = sorted(name for name in shell.names if name.upper().startswith(text.upper()))
        return (found[place].lower() if text.islower() and found[place] in KEYWORDS else found[place]) if place < len(found) else None

    readline.set_completer_delims(" ,()=<>")
    return complete


def save_history(readline) -> None:
    try:
        readline.write_history_file(HISTORY)
    except OSError:
        pass


def piped() -> Iterable[str]:
    """Lines from a file or a pipe, which are shown before their replies."""
    for line in sys.stdin:
        line = line.rstrip("\r\n")
        if line:
            print(line)
        yield line


def main() -> int:
    parser = argparse.ArgumentParser(description=__doc__, formatter_class=argparse.RawDescriptionHelpFormatter)
    add_run_options(parser)
    parser.add_argument("--model", action="store_true", help="the slow model answers (so it does with --plain)")
    parser.add_argument("--program", metavar="PROGRAM", help="this built program answers, in place of ./rvdyn, and has judges by their numbers alone")
    words = parser.parse_args()

    def start() -> Engine:
        if words.model or words.plain:
            return Model(words.judge, words.steps, words.plain, words.race)
        return Program(words.judge, words.steps, words.race, words.program)

    try:
        shell = Shell(start, sys.stdout)
    except ValueError as fault:
        parser.error(str(fault))
    try:
        for line in typed(shell) if sys.stdin.isatty() else piped():
            shell.line(line)
    except Quit:
        pass
    except rvdyn.Ended as ended:
        print(f"shell: the engine ended with {ended}", file=sys.stderr)
        return ended.status
    shell.engine.close()
    return 0


if __name__ == "__main__":
    end(main)
