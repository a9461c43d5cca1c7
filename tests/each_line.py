"""A word of the package that meets something at a line of its code: out of memory, or a signal as Ctrl-C sends it.

Each run is a child of this process, in which lines of functions of the package are counted. At the line with the wanted
number an exception is raised, or a signal is sent.
"""

import importlib
import os
import pathlib
import signal
import sys
import traceback

from harness import SECONDS, TOP, Ran

PACKAGE = f"{TOP}/python/excp/"

# The flag of code of a function (inspect.CO_OPTIMIZED): modules and bodies of classes have it not.
FUNCTION = 1


class Lines:
    """Counts lines, and does something at one of them."""

    def __init__(self, number, act, folder):
        self.count, self.number, self.act, self.folder = 0, number, act, f"{PACKAGE}{folder}"

    def enter(self, frame, _event, _argument):
        """Traces the functions of the package."""
        code = frame.f_code
        return self.step if code.co_flags & FUNCTION and code.co_filename.startswith(self.folder) else None

    def step(self, _frame, event, _argument):
        if event == "line":
            self.count += 1
            if self.count == self.number:
                self.act()
        return self.step


def lack_memory():
    raise MemoryError


def ran_at(number, act, part, words, folder, given=os.devnull):
    """A run of a word in a folder on a file as standard input, with an act at the line of this number of a part of the package; and
    how many lines there were, up to 65,535."""
    # before the child, which would import it each time
    main = importlib.import_module("excp.command.main").main
    importlib.import_module(f"excp.command.{words[0]}")
    output, answer = os.path.join(folder, ".."), os.pipe()
    files = [os.open(output, os.O_TMPFILE | os.O_RDWR) for _ in range(2)]
    child = os.fork()
    if child == 0:
        lines, status = Lines(number, act, part), 1
        os.chdir(folder)
        os.dup2(os.open(given, os.O_RDONLY), 0)
        os.dup2(files[0], 1)
        os.dup2(files[1], 2)
        for it in signal.SIGINT, signal.SIGTERM, signal.SIGHUP:
            signal.signal(it, signal.default_int_handler if it == signal.SIGINT else signal.SIG_DFL)
        signal.alarm(SECONDS)
        try:
            sys.settrace(lines.enter)
            status = main(words, lambda _: pathlib.Path())
        except BaseException:
            sys.settrace(None)
            os.write(2, traceback.format_exc().encode())
        finally:
            sys.settrace(None)
            os.write(answer[1], min(lines.count, 65_535).to_bytes(2, "big"))
            os._exit(status)
    os.close(answer[1])
    status = os.waitstatus_to_exitcode(os.waitpid(child, 0)[1])
    with open(answer[0], "rb") as it:
        count = int.from_bytes(it.read(), "big")
    texts = []
    for it in files:
        texts.append(os.pread(it, os.fstat(it).st_size, 0).decode("utf-8", "surrogateescape"))
        os.close(it)
    return Ran([*words, f"(line {number})"], status, *texts), count
