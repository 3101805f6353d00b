"""A journal as the program writes it, and the script that works on its segments."""
import os
import random
import subprocess
import time

import program

LIB = os.path.join(program.TOP, "deploy", "lib")


class Main:
    """The journal of the main machine, as its program writes it."""

    def __init__(self, folder):
        self.folder, self.count, self.ended = folder, 0, []
        os.mkdir(folder)
        self.begin()

    def begin(self):
        self.path = os.path.join(self.folder, f"{self.count:020}.script")
        open(self.path, "ab").close()

    def write(self, text):
        with open(self.path, "ab") as file:
            file.write(text)

    def line(self, is_ended=True):
        """Writes the entry of a command."""
        line = b"comment root num=%d&text=a" % self.count
        head = b"# time=%d&revision=%d&accounts=1&items=0&submissions=0\n"
        self.write(head % (1_000 + self.count, self.count) + line + b"\n")
        self.count += 1
        if is_ended:
            self.write(b"# ended&revision=%d&accounts=1&items=0&submissions=0\n\n" % self.count)
            self.ended.append(line)

    def cut(self):
        """A line that was not obeyed is cut off again."""
        before = os.path.getsize(self.path)
        self.line(is_ended=False)
        time.sleep(random.uniform(0, 0.1))
        os.truncate(self.path, before)
        self.count -= 1


def journal(*words):
    ran = subprocess.run([os.path.join(LIB, "journal"), *words], capture_output=True, timeout=60)
    return ran.returncode, ran.stdout.decode(), ran.stderr.decode()


def read(*names):
    with open(os.path.join(*names), "rb") as file:
        return file.read()


def names_in(folder):
    """The names of the segments that are not packed."""
    return sorted(it for it in os.listdir(folder) if it.endswith(".script"))


def text_of(folder):
    """The text of all segments, in their order."""
    return b"".join(read(folder, it) for it in names_in(folder))


def lose(db):
    """A registry's file is gone, with its log."""
    for end in ("", "-wal", "-shm"):
        if os.path.exists(db + end):
            os.remove(db + end)


def name_of(number, end=""):
    return f"{number:020}.script{end}"
