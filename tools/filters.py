"""How the programs of this folder behave in a pipe, at Ctrl-C, and where standard input or output fails.

`end(main)` runs `main`, which returns a status, and ends with it. A pipe whose reader has gone and Ctrl-C end the program silently, as
they end any other; a stream that fails ends it as it ends `codes`: a line, and status 4 for standard input, 5 for standard output.
`run` runs a command on a text, all of which it need not read.
"""
import os
import signal
import subprocess
import sys

UNREAD, UNWRITTEN = 4, 5


def fault(text, status):
    try:
        print(f"codes: {text}", file=sys.stderr, flush=True)
    except (OSError, AttributeError):
        pass  # nobody can be told
    os._exit(status)  # without a second try to write what could not be written


def read_input():
    """The bytes of standard input."""
    if sys.stdin is None:
        fault("source fault", UNREAD)
    try:
        return sys.stdin.buffer.read()
    except OSError:
        return fault("source fault", UNREAD)


def run(command, text, **options):
    """What `subprocess.run` gives of a command with `text` as its standard input. One that ends before it has read all of it, as `codes`
    does if there is too much, doesn't end this program."""
    before = signal.signal(signal.SIGPIPE, signal.SIG_IGN) if hasattr(signal, "SIGPIPE") else None
    try:
        return subprocess.run(command, input=text, check=False, **options)
    finally:
        if before is not None:
            signal.signal(signal.SIGPIPE, before)


def end(main):
    signal.signal(signal.SIGINT, signal.SIG_DFL)
    if hasattr(signal, "SIGPIPE"):
        signal.signal(signal.SIGPIPE, signal.SIG_DFL)
    try:
        if sys.stdout is None:
            raise OSError
        status = main()
        sys.stdout.flush()
    except OSError as error:
        if error.filename is not None:
            fault(f"{error.filename}: {error.strerror}", UNREAD)
        fault("sink fault", UNWRITTEN)
    sys.exit(status)
