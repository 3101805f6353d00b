"""Rows of a registry in a file."""
from processes import Profile, Script, in_turn, memory_of, peak_memory, seconds
from room import LARGE, MIDDLE, SMALL, closed, ran, selected
from rows import KITS, OURS, Figures, Row

COMMANDS = 1_000
ROUNDS = 5


def least_of_lines(database, room, lines, rounds=ROUNDS):
    """The least time of lines of a script on copies of the file."""
    times = []
    for _ in range(room.rounds(rounds)):
        with Script(room.script(room.copy(database))) as script:
            times.append(script.time_of(lines))
    return min(times)


# -- import and export


def imported(name):
    def measure(room):
        return Figures(*room.imported(name)[2:])

    return measure


def export_line(room):
    """The first export of an open registry: the text is kept from then on."""
    ours, theirs = room.imported("100,000 items")[:2]
    size = len(ran([room.program, "export", "--db", ours]))
    times = []
    for _ in range(room.rounds(ROUNDS)):
        with Script(room.script(ours)) as script:
            times.append(script.time_of_export(size))
    [whole] = in_turn([[room.sqlite, theirs, "export", "1"]], rounds=9)
    return Figures(min(times), whole - room.idle)


def export_instructions(room):
    """The same of fewer items, in instructions, without those of opening the registry."""
    database = room.registry(MIDDLE)

    def counted(words, lines=b""):
        return Profile(room.folder, words, lambda process: process.stdin.write(lines)).total

    ours = counted(room.script(database), b"export\n") - counted(room.script(database))
    words = [room.sqlite, database]
    theirs = counted([*words, "export", "1"]) - counted([*words, "nothing", "0"])
    return Figures(ours, theirs, "instructions")


def export_process(room):
    ours, theirs = room.imported("Debian's file")[:2]
    words = [room.program, "export", "--db", ours], [room.sqlite, theirs, "export", "1"]
    return Figures(*in_turn(words, rounds=room.rounds(9)))


# -- commands


def keyed_lines(database, count):
    """So many commands under keys, on a file."""
    number = int(selected(database, "SELECT value FROM meta WHERE label = 'submissions'"))
    return lines_after(number, count)


def lines_after(number, count):
    """Submissions and approvals, each a transaction with its receipt and its commit, after so many
    submissions."""
    lines = []
    for at in range(count // 2):
        lines.append(f"submit bob key=k{at}&path=PC/{at:04x}&name=renamed")
        lines.append(f"approve root key=k{at}&num={number + at + 1}")
    return "".join(f"{line}\n" for line in lines).encode()


def with_bob(room, database):
    """A copy with the account that commands are of."""
    path = room.copy(database, "with-bob")
    ran(room.script(path), input=b"account root who=bob&rank=1\n")
    return closed(path)


def command_time(room, ours, theirs, rounds=ROUNDS):
    """The time of a command within the process, so that opening the file is not in it."""
    ours, theirs = with_bob(room, ours), closed(theirs)
    count = room.sized(COMMANDS)
    took = least_of_lines(ours, room, keyed_lines(ours, count), rounds)
    times = []
    for _ in range(room.rounds(rounds)):
        words = [room.sqlite, room.copy(theirs), "keyed", str(count // 2)]
        times.append(seconds(words))
    return Figures(took / count, (min(times) - room.idle) / count)


def command_of_items(name):
    def measure(room):
        return command_time(room, *room.imported(name)[:2])

    return measure


def command_of_submissions(room):
    return command_time(room, room.registry(LARGE), room.registry(LARGE), rounds=3)


def command_share(room):
    """The instructions of a command in the program's own crates, and all of them: those of a run
    with commands without those of one with none."""
    count = room.sized(500)
    database = with_bob(room, room.registry(SMALL))
    runs = []
    for lines in (b"", keyed_lines(database, count)):
        words = room.script(room.copy(database))
        runs.append(Profile(room.folder, words, lambda process: process.stdin.write(lines)))
    idle, worked = runs
    return Figures(
        (worked.of_ours() - idle.of_ours()) / count, (worked.total - idle.total) / count,
        "instructions",
    )


def import_share(room):
    """The same of an import into a new registry, for an item."""
    words = room.import_words(room.path("anew"), room.text("10,000 items"))
    profile, count = Profile(room.folder, words), room.sized(10_000)
    return Figures(profile.of_ours() / count, profile.total / count, "instructions")


# -- look-ups

PAIR = "lookup flags=3&vendor={:04x}&device={:04x}\n"


def look_up_kept(room):
    """Pairs of names that the registry keeps, beside libpci that parses as many lines."""
    database, count = room.imported("100,000 items")[0], room.sized(100_000)
    pairs = "".join(PAIR.format(at % 500, 0) for at in range(count)).encode()
    asked = room.lines("asked", (f"3 {at % 500:x} 0 0 0 0 0 1024" for at in range(count)))
    words = [room.libpci_lookups, room.text("100,000 items")]
    [least], [worked] = in_turn([words], rounds=5), in_turn([words], asked, 5)
    return Figures(least_of_lines(database, room, pairs) / count, (worked - least) / count)


def look_up_read(room):
    """Pairs of names that it reads, beside two selects."""
    (ours, theirs), count = room.imported("100,000 items")[:2], room.sized(100_000)
    pairs = "".join(PAIR.format(0xFFFF, at % 34_000) for at in range(count)).encode()
    [worked] = in_turn([[room.sqlite, theirs, "unknown", str(count)]], rounds=5)
    return Figures(least_of_lines(ours, room, pairs) / count, (worked - room.idle) / count)


# -- opening


def open_beside_check(database, has_kits_part):
    """Opening beside `PRAGMA integrity_check`, with or without what the kit's opening alone takes,
    which is that of a file whose schema is a later one."""

    def measure(room):
        ours, theirs = database(room)
        words = [room.script(ours), [room.sqlite, theirs, "open", "1"]]
        took, other = in_turn(words, rounds=room.rounds(ROUNDS))
        if not has_kits_part:
            newer = room.script(room.newer(ours))
            took -= min(seconds(newer, status=3) for _ in range(room.rounds(ROUNDS)))
        return Figures(took, other)

    return measure


def of_items(room):
    return room.imported("100,000 items")[:2]


def of_rows(room):
    return [room.made("rows", "rows", room.sized(100_000))] * 2


def open_time(room):
    """Beside the kit's opening alone."""
    ours = room.registry(LARGE)
    newer = room.script(room.newer(ours))
    times = [(seconds(room.script(ours)), seconds(newer, status=3)) for _ in range(3)]
    return Figures(*(min(column) for column in zip(*times)))


def open_instructions(room):
    """Of a smaller one with the same rows, since all are judged alike."""
    ours = room.registry((10_000, 100_000, 10))
    counted = (
        Profile(room.folder, room.script(database), status=status).total
        for database, status in ((ours, 0), (room.newer(ours), 3))
    )
    return Figures(*counted, "instructions")


def open_memory(room):
    ours = room.registry(LARGE)
    newer = room.script(room.newer(ours))
    return Figures(peak_memory(room.script(ours)), peak_memory(newer), "MB")


def migration(has_opening):
    """Schema 1 to schema 2; or that without opening and judging the file, which a second run does
    alone."""

    def measure(room):
        old = room.made("old", "old", room.sized(100_000))
        times = []
        for _ in range(room.rounds(ROUNDS)):
            path = room.copy(old)
            words = [room.program, "migrate", "--db", path]
            ours, again = seconds(words), seconds(words)
            theirs = seconds([room.sqlite, room.copy(old), "migrate", "1"])
            times.append((ours, again, theirs))
        ours, again, theirs = (min(column) for column in zip(*times))
        return Figures(ours if has_opening else ours - again, theirs)

    return measure


# -- memory


def script_memory(room):
    """Reads and look-ups of the same names, more and more of them."""
    peaks = []
    for count in (room.sized(1_000_000), room.sized(1_000)):
        lines = "".join(
            f"read path=PC/{at % 500:04x}\n" if at % 1_000 < 500 else PAIR.format(at % 500, 0)
            for at in range(count)
        )
        with Script(room.script(room.imported("1,000 items")[0])) as script:
            script.time_of(lines.encode())
            peaks.append(memory_of(script.process))
    return Figures(*peaks, "MB")


def memory_of_job(words):
    def measure(room):
        return Figures(peak_memory(words(room)), None, "MB")

    return measure


def many_opened(room):
    return room.script(of_items(room)[0])


def many_exported(room):
    return [room.program, "export", "--db", of_items(room)[0]]


def many_imported(room):
    return room.import_words(room.path("imported"), room.text("100,000 items"))


ROWS = [
    Row("import-debian", "`import`, Debian's file, new registry / C SQLite", KITS,
        imported("Debian's file")),
    Row("import-1k", "`import`, 1,000 items / C SQLite", KITS, imported("1,000 items")),
    Row("import-100k", "`import`, 100,000 items / C SQLite", KITS, imported("100,000 items")),
    Row("import-share", "`import` of an item, instructions in `pid_*` / all", OURS, import_share,
        0.1),
    Row("export-100k", "a script's `export`, 100,000 items / C SQLite", OURS, export_line),
    Row("export-count", "the same of 10,000 items, instructions", OURS, export_instructions, 2,
        1.2),
    Row("export-debian", "`export`, Debian's file, whole process / C SQLite", KITS,
        export_process),
    Row("command-1k", "a script's command, 1,000 items / C SQLite", KITS,
        command_of_items("1,000 items")),
    Row("command-100k", "a script's command, 100,000 items / C SQLite", KITS,
        command_of_items("100,000 items")),
    Row("command-1m", "a script's command, 1,000,000 submissions / C SQLite", KITS,
        command_of_submissions),
    Row("command-share", "a script's command, instructions in `pid_*` / all", OURS, command_share,
        0.1),
    Row("lookup-kept", "a script's look-up, names asked for before / libpci", OURS, look_up_kept,
        5),
    Row("lookup-read", "a script's look-up, names that are read / two selects", OURS, look_up_read,
        1.5),
    Row("open-items", "opening 100,000 items / `PRAGMA integrity_check`", KITS,
        open_beside_check(of_items, True)),
    Row("open-items-ours", "the same, without the kit's opening", OURS,
        open_beside_check(of_items, False), 4),
    Row("open-rows-ours", "100,000 rows in each table, so", OURS,
        open_beside_check(of_rows, False), 4),
    Row("open-1m-time", "opening 1,000,000 submissions, time / the kit's opening alone", OURS,
        open_time),
    Row("open-1m-memory", "the same, memory", OURS, open_memory, 1.15, 1.0),
    Row("open-count", "the same of 100,000 submissions, instructions", OURS, open_instructions,
        1.5, 1.2),
    Row("migrate", "`migrate`, 100,000 items, whole process / C SQLite", KITS, migration(True)),
    Row("migrate-ours", "the same, without opening the file", OURS, migration(False)),
    Row("memory-script", "memory, script of 1,000,000 lines / of 1,000 lines", OURS, script_memory,
        1.01),
    Row("memory-open", "memory, opening 100,000 items", OURS, memory_of_job(many_opened), 40,
        unit="MB"),
    Row("memory-export", "memory, `export` of 100,000 items", OURS, memory_of_job(many_exported),
        40, unit="MB"),
    Row("memory-import", "memory, `import` of 100,000 items into a new registry", OURS,
        memory_of_job(many_imported), 40, unit="MB"),
]
