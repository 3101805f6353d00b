"""The program with a terminal as its standard error, as a person has it."""
import os
import subprocess
import threading
import time


def read_all(file, pieces):
    """Reads a file to its end, or until the other side of the terminal is closed."""
    try:
        while piece := os.read(file, 65_536):
            pieces.append(piece)
    except OSError:
        pass


def at_terminal(words, text=b"", output=subprocess.PIPE, typed=None, **how):
    """What the program prints, what the terminal shows, and the exit status. The text is standard
    input; what is typed comes from the terminal in its place, a moment after the start."""
    here, there = os.openpty()
    given = subprocess.PIPE if isinstance(text, bytes) else text
    run = subprocess.Popen(
        words, stdin=there if typed is not None else given, stdout=output, stderr=there, **how
    )
    os.close(there)
    shown = []
    reader = threading.Thread(target=read_all, args=(here, shown))
    reader.start()
    if typed is not None:
        time.sleep(0.3)
        os.write(here, typed + b"\x04")
    out = run.communicate(text if given is subprocess.PIPE and typed is None else None, 60)[0]
    reader.join()
    os.close(here)
    return out, b"".join(shown).replace(b"\r\n", b"\n"), run.returncode
