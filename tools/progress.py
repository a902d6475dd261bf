#!/usr/bin/env python3
"""Runs a session and shows how far it is in one line that is written anew in place, instead of its record lines.

    tools/progress.py line|no PROGRAM run|resume KEY=VALUE.. < SCRIPT

The line has the query, the level and the information set of the phase, how many of its blocks are done, the bound, the least weight seen,
words a second, and how long the search still takes at this rate, if no lighter word is found. If the session pauses, or a signal ends it,
the last line stays. Other lines of standard error stay as they are. Standard output and the status are those of the program. With `no`
there is no such line. `./codes run` calls this where standard error is a terminal.
"""
import os
import shutil
import signal
import subprocess
import sys
import threading
import time

import filters
import plan
import search
from reference import Fault

PAUSE = 0.1  # seconds between two looks at the clock
SPAN = 20.0  # seconds over which a rate is taken
PAUSED = "codes: paused "


class Plans(threading.Thread):
    """The plans of the searches of a script, by their numbers, made beside the session."""

    def __init__(self, script):
        super().__init__(daemon=True)
        self.script, self.made = script, {}

    def run(self):
        try:
            for number, (code, _) in enumerate(plan.searches(self.script)):
                if code.rows:
                    self.made[number] = plan.Plan(code)
        except (Fault, ValueError, RecursionError, OverflowError):
            pass  # the session says what is wrong with the script; without a plan the line is shorter


def short(number):
    """A number in three digits or so."""
    for size, letter in ((1e12, "T"), (1e9, "G"), (1e6, "M"), (1e3, "k")):
        if number >= size:
            return f"{number / size:.3g} {letter}"
    return f"{number:.3g}"


class Watch:
    """What is known of the search that goes on."""

    def __init__(self, plans):
        self.plans, self.number, self.last, self.seen = plans, None, None, []

    def hear(self, number, record):
        if number != self.number:
            self.number, self.seen = number, []
        self.last = record
        self.seen.append((time.monotonic(), record.blocks))
        while len(self.seen) > 2 and self.seen[-1][0] - self.seen[1][0] > SPAN:
            self.seen.pop(0)

    def blocks_a_second(self):
        if len(self.seen) < 2:
            return None
        (begun, first), (now, last) = self.seen[0], self.seen[-1]
        return (last - first) / (now - begun) if now > begun and last > first else None

    def phases(self):
        """The phases of the search up to its end, if no word lighter than the best one is found."""
        made = self.plans.made.get(self.number)
        if made is None:
            return None
        if made.found > self.last.best:
            made.found = self.last.best
            made.phases = list(made.all_phases())
        return made.phases

    def line(self, wide):
        """The line of a terminal with so many columns. Where it would be too long the rate is left out, and then what is left over is cut."""
        if self.last is None:
            return ""
        parts = [f"query {self.number}"]
        phases, rate = self.phases(), self.blocks_a_second()
        phase = phases and next((one for one in phases if one.until > self.last.blocks), None)
        if phase:
            done = self.last.blocks - (phase.until - phase.blocks)
            parts.append(f"level {phase.level} set {phase.set} {100 * done / phase.blocks:.0f} %")
        else:
            parts.append(f"blocks {self.last.blocks:,}")
        parts.append(f"bound {self.last.bound} best {self.last.best}")
        if rate:
            parts.append(f"{short(rate * search.BLOCK)} words/s")
            if phase:
                left = phases[-1].until - self.last.blocks
                parts.append(f"at most {plan.duration(left / rate)} left")
        if len(parts) == 5 and len("  ".join(parts)) > wide:
            del parts[3]
        return "  ".join(parts)[:wide]


class Terminal:
    """Standard error, with a line that is written anew, if one is wanted."""

    def __init__(self, has_line):
        self.has_line, self.shown, self.lock = has_line, "", threading.Lock()

    def show(self, watch):
        if not self.has_line:
            return
        text = watch.line(shutil.get_terminal_size((80, 24)).columns - 1)
        with self.lock:
            if self.has_line and text != self.shown:
                self.write("\r" + text + " " * max(0, len(self.shown) - len(text)))
                self.shown = text

    def clear(self):
        with self.lock:
            if self.shown:
                self.write("\r" + " " * len(self.shown) + "\r")
                self.shown = ""

    def leave(self, watch):
        """Leaves the line as it is now above what comes; it is the last one of the session."""
        self.show(watch)
        with self.lock:
            self.has_line = False
            if self.shown:
                self.write("\n")
                self.shown = ""

    def say(self, line):
        self.clear()
        self.write(line)

    @staticmethod
    def write(text):
        try:
            sys.stderr.write(text)
            sys.stderr.flush()
        except OSError:
            pass  # nobody looks


def listen(stream, watch, terminal):
    """Takes the record lines of the session, and hands on the others."""
    for raw in stream:
        text = raw.decode("utf-8", "replace")
        found = plan.RECORD.fullmatch(text.strip())
        if found:
            number, *rest = map(int, found.groups())
            watch.hear(number, plan.Record(*rest))
        else:
            if text.startswith(PAUSED):
                terminal.leave(watch)
            terminal.say(text)


def copy_output(stream, terminal):
    """The text of the session, below which no line is left over."""
    while piece := stream.read1(65536):
        terminal.clear()
        sys.stdout.buffer.write(piece)
        sys.stdout.buffer.flush()


def feed(stream, script):
    # (a session that ends before it has read all of it doesn't end this program: for this thread alone the pipe is no signal)
    signal.pthread_sigmask(signal.SIG_BLOCK, [signal.SIGPIPE])
    try:
        stream.write(script)
        stream.close()
    except OSError:
        pass  # the session has ended


def session(has_line, words, script):
    plans, terminal = Plans(script), Terminal(has_line)
    watch = Watch(plans)
    if has_line:
        plans.start()
    with subprocess.Popen(words, stdin=subprocess.PIPE, stdout=subprocess.PIPE, stderr=subprocess.PIPE) as running:
        signal.signal(signal.SIGINT, signal.SIG_IGN)  # the session gets it too, and ends as it ends
        threads = [
            threading.Thread(target=feed, args=(running.stdin, script), daemon=True),
            threading.Thread(target=listen, args=(running.stderr, watch, terminal), daemon=True),
        ]
        for thread in threads:
            thread.start()
        output = threading.Thread(target=copy_output, args=(running.stdout, terminal), daemon=True)
        output.start()
        while output.is_alive():
            output.join(PAUSE)
            if output.is_alive():
                terminal.show(watch)
        threads[1].join()
        status = running.wait()
        if status < 0:
            terminal.leave(watch)
        terminal.clear()
        return status


def main():
    if sys.argv[1:] in (["-h"], ["--help"]):
        print(__doc__.strip())
        return 0
    if len(sys.argv) < 4 or sys.argv[1] not in ("line", "no") or sys.argv[3] not in ("run", "resume"):
        print("usage: tools/progress.py line|no PROGRAM run|resume KEY=VALUE.. < SCRIPT", file=sys.stderr)
        return 2
    status = session(sys.argv[1] == "line", sys.argv[2:], filters.read_input())
    if status < 0:
        # as the session was ended
        signal.signal(-status, signal.SIG_DFL)
        os.kill(os.getpid(), -status)
    return status


if __name__ == "__main__":
    filters.end(main)
