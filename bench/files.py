"""Rows of the program on files of names."""
from processes import in_turn, peak_memory
from rows import OURS, Figures, Row

# The name of a row, its file, the bars of tidy and of check.
TEXTS = (
    ("debian", "Debian's file", (1.3, None), (1.0, None)),
    ("debian-shuffled", "Debian's file, shuffled", (2.2, None), (None, None)),
    ("vendors", "50,000 vendors with a device, shuffled", (1.6, 1.3), (None, None)),
    ("50k", "50,000 subsystems of one device", (1.3, None), (None, None)),
    ("100k", "100,000 subsystems of one device", (1.3, None), (None, None)),
)


def of_both(measured, theirs, words, text):
    """What the program with these arguments and another take with the same file."""

    def measure(room):
        path = room.text(text)
        return measured([room.program, *words], theirs(room, path), path)

    return measure


def plain_rust(room, _):
    return [room.reference]


def libpci(room, path):
    return [room.libpci_load, path]


def time(ours, other, path):
    return Figures(*in_turn([ours, other], path, 100))


def memory(ours, other, path):
    return Figures(peak_memory(ours, path), peak_memory(other, path), "MB")


def look_up(theirs):
    def measure(room):
        path = room.text("Debian's file")
        numbers = ["--flags", "3", "--vendor", "8086", "--device", "1237"]
        words = [room.program, "lookup", "--ids", path, *numbers]
        return Figures(*in_turn([words, theirs(room, path)], path))

    return measure


def check(room, _):
    return [room.program, "check"]


ROWS = [
    *(Row(f"tidy-{name}", f"tidy, {text} / plain Rust", OURS,
          of_both(time, plain_rust, [], text), *bars)
      for name, text, bars, _ in TEXTS),
    *(Row(f"check-{name}", f"check, {text} / libpci's load", OURS,
          of_both(time, libpci, ["check"], text), *bars)
      for name, text, _, bars in TEXTS),
    Row("lookup-ids-check", "`lookup --ids`, Debian's file / `check` of it", OURS, look_up(check)),
    Row("lookup-ids-libpci", "`lookup --ids`, Debian's file / libpci's load", OURS,
        look_up(libpci)),
    *(Row(f"memory-tidy-{name}", f"memory of tidy, {text} / plain Rust", OURS,
          of_both(memory, plain_rust, [], text))
      for name, text, _, _ in TEXTS if name in ("debian", "vendors", "100k")),
    Row("memory-check-debian", "memory of check, Debian's file / libpci's load", OURS,
        of_both(memory, libpci, ["check"], "Debian's file")),
]
