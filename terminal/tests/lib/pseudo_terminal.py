"""A program at a pseudo-terminal: keys are typed, and what is shown up to the next prompt is read."""

import fcntl
import os
import pty
import re
import select
import signal
import struct
import termios
import time

PROMPTS = {"xterm": b"> \x1b[3G", "dumb": b"\n> "}  # how the prompt is shown, and then a line is waited for
CONTROLS = re.compile(r"\x1b\[[0-9;?]*[A-Za-z]")
ROWS, COLUMNS = 50, 220  # so wide that no line of a test is broken
LAST = "@"  # a key that no word begins with


class Terminal:
    def __init__(self, words, environment, wait=120.0, folder=None, kind="xterm"):
        self.wait, self.prompt = wait, PROMPTS[kind]
        self.child, self.device = pty.fork()
        if self.child == 0:
            # Before the program is there: one that hears of another size later shows its prompt twice.
            fcntl.ioctl(0, termios.TIOCSWINSZ, struct.pack("HHHH", ROWS, COLUMNS, 0, 0))
            os.environ.update(environment, TERM=kind)
            if folder is not None:
                os.chdir(folder)
            os.execvp(words[0], words)
        self.status = None
        self.start = self.read()

    def read(self, after=""):
        """What is shown up to a prompt that comes after a text, or up to the program's end."""
        shown, end = b"", time.monotonic() + self.wait
        while time.monotonic() < end:
            ready, _, _ = select.select([self.device], [], [], 0.5)
            if not ready:
                continue
            try:
                piece = os.read(self.device, 65536)
            except OSError:
                piece = b""
            if piece == b"":
                self.wait_for_end()
                return text_of(shown)
            shown += piece
            if shown.replace(b"\r", b"").endswith(self.prompt) and after in text_of(shown):
                return text_of(shown)
        raise TimeoutError(f"no prompt after {text_of(shown)[-300:]!r}")

    def read_until(self, text):
        """What is shown up to a text."""
        shown, end = b"", time.monotonic() + self.wait
        while text not in text_of(shown):
            if time.monotonic() > end:
                raise TimeoutError(f"no {text!r} after {text_of(shown)[-300:]!r}")
            if select.select([self.device], [], [], 0.5)[0]:
                shown += os.read(self.device, 65536)
        return text_of(shown)

    def press(self, keys):
        os.write(self.device, keys.encode())

    def type(self, line):
        """Types a line, and gives the lines that are shown up to the next prompt."""
        self.press(line + "\r")
        shown = self.read()
        return shown.split("\n")[1:-1] if self.status is None else shown.split("\n")[1:]

    def send(self, line):
        """Types a line, and waits until it is taken, but not for what comes of it."""
        self.press(f"{line}\r")
        self.read_until(f"{line}\n")

    def press_tab(self, line):
        """Types the beginning of a line and Tab. Once the line is shown Tab was read, and no key is before it is
        answered."""
        self.press(f"{line}\t")
        return self.read_until(line)

    def drop_line(self):
        self.press("\x15")
        self.read()

    def complete(self, line):
        """Types the beginning of a line and the Tab key; what stands in the line then. The line is dropped again."""
        shown = self.press_tab(line)
        self.press(LAST)
        shown += self.read_until(LAST)
        self.drop_line()
        return shown.partition(LAST)[0].split("> ")[-1]

    def offered(self, line):
        """Types the beginning of a line and the Tab key twice; the words that are shown then. The line is dropped
        again."""
        self.press_tab(line)
        self.press("\t")
        shown = self.read_until("\n> ")
        self.drop_line()
        return shown.partition("\n")[2].rpartition("\n> ")[0].split()

    def reads_lines(self):
        """Are whole lines read, as by a shell, and no keys one by one?"""
        return termios.tcgetattr(self.device)[3] & termios.ICANON != 0

    def wait_for_end(self):
        self.status = os.waitstatus_to_exitcode(os.waitpid(self.child, 0)[1])

    def hang_up(self):
        """Closes the terminal, as a window is closed, and waits until the program has ended."""
        os.close(self.device)
        self.device = None
        self.wait_for_end()

    def end(self):
        if self.status is None:
            os.kill(self.child, signal.SIGKILL)
            self.wait_for_end()
        if self.device is not None:
            os.close(self.device)


def text_of(shown):
    return CONTROLS.sub("", shown.decode("utf-8", "replace")).replace("\r", "")
