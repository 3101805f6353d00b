"""Rows of a registry with a journal."""
import os
import shutil
import tempfile

from processes import Script, peak_memory, seconds
from registry import COMMANDS, ROUNDS, keyed_lines, lines_after, with_bob
from room import IN_MEMORY, SMALL, ran, removed
from rows import OURS, Figures, Row, Skip

REPLAYED = 100_000


def journaled(words, journal):
    """These words with a journal in an empty folder."""
    shutil.rmtree(journal, ignore_errors=True)
    return [*words, "--journal", journal]


def waited(room, ours, lines, folder, has_journal):
    """How long lines take on a copy of a file in a folder, the wait for their replies included."""
    database = removed(os.path.join(folder, "r.db"))
    shutil.copyfile(ours, database)
    words = room.script(database)
    if has_journal:
        words = journaled(words, os.path.join(folder, "journal"))
    with Script(words) as script:
        return script.wait_for(lines)


def command_in(place):
    """The wall time of a command with and without a journal, both in a folder of this one."""

    def measure(room):
        where = place or room.folder
        if not os.access(where, os.W_OK):
            raise Skip(f"{where} is missing")
        ours, count = with_bob(room, room.registry(SMALL)), room.sized(COMMANDS)
        lines, times = keyed_lines(ours, count), ([], [])
        with tempfile.TemporaryDirectory(dir=where) as folder:
            for _ in range(room.rounds(ROUNDS)):
                for at, has_journal in enumerate((True, False)):
                    times[at].append(waited(room, ours, lines, folder, has_journal) / count)
        return Figures(*map(min, times))

    return measure


def import_time(room):
    """Debian's file into a new registry, whole processes."""
    text, times = room.text("Debian's file"), ([], [])
    for _ in range(room.rounds(ROUNDS)):
        words = room.import_words(removed(room.path("with-journal")), text)
        times[0].append(seconds(journaled(words, room.path("journal"))))
        times[1].append(seconds(room.import_words(removed(room.path("without")), text)))
    return Figures(*map(min, times))


def in_memory(room, name):
    """A path in memory, if there can be one, for what waits for the disk a hundred thousand
    times."""
    return os.path.join(room.in_memory.name, name)


def replayed_lines(room, count):
    """Commands from the first one on, and their journal."""
    count = room.sized(count)
    text = b"account root who=bob&rank=1\n" + lines_after(0, count)
    lines, journal = in_memory(room, f"lines-{count}"), in_memory(room, f"journal-{count}")
    if not os.path.exists(lines):
        ran(journaled(room.script(removed(in_memory(room, "first"))), journal), input=text)
        with open(lines, "wb") as file:
            file.write(text)
    return lines, journal


def replaying(room, journal):
    """An opening of a registry whose file is gone."""
    return [*room.script(removed(in_memory(room, "replayed"))), "--journal", journal]


def replay_time(room):
    """Whole processes: an opening that obeys all lines of a journal, beside a script of them."""
    lines, journal = replayed_lines(room, REPLAYED)
    times = ([], [])
    for _ in range(room.rounds(3)):
        times[0].append(seconds(replaying(room, journal)))
        times[1].append(seconds(room.script(removed(in_memory(room, "scripted"))), lines))
    return Figures(*map(min, times))


def replay_memory(room):
    return Figures(*(
        peak_memory(replaying(room, replayed_lines(room, count)[1]))
        for count in (REPLAYED, REPLAYED // 100)
    ), "MB")


ROWS = [
    Row("journal-disk", "a script's command with a journal / without, wall, on a disk", OURS,
        command_in(None)),
    Row("journal-memory", "the same, in memory", OURS, command_in(IN_MEMORY)),
    Row("journal-import", "`import` with a journal, Debian's file / without", OURS, import_time),
    Row("replay", "opening that obeys 100,000 lines of a journal / `script` of them", OURS,
        replay_time, 2),
    Row("replay-memory", "the same, memory / of 1,000 lines", OURS, replay_memory),
]
