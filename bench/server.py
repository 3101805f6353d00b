"""Rows of the server."""
import os

from processes import Profile, memory_of, seconds
from registry import ROUNDS, least_of_lines
from room import LARGE, MIDDLE, SMALL, ran, selected
from rows import KITS, OURS, Figures, Row
from serving import connected, free_port, get, nginx, our_server, posted, served, whole_reply

READ, LOOK_UP = "/read/PC/8086", "/lookup?flags=3&vendor=8086&device=1237"


def debians(room):
    return room.imported("Debian's file")[0]


def small(room):
    return room.registry(SMALL)


def middle(room):
    return room.registry(MIDDLE)


def large(room):
    return room.registry(LARGE)


def all_pending(count):
    return lambda room: room.registry((1_000, count, count))


def many(kind, *counts):
    return lambda room: room.many(kind, *counts)


def vendors(devices):
    """As many vendors as Debian's file has with its classes, and so many devices."""
    return many("tree", 2_400, devices, 0)


def devices(subsystems):
    """As many devices of one vendor as Intel has, and so many subsystems of these."""
    return many("tree", 1, 4_234, subsystems)


def profiled(room, database, talk, connections=1):
    """The instructions of a server that serves so many clients, each of whom talks."""
    port = free_port()
    words = ["serve", "--db", database, "--port", str(port), "--connections", str(connections)]

    def clients(process):
        process.stdout.readline()
        for _ in range(connections):
            with connected(port) as client:
                talk(client)

    return Profile(room.folder, [room.program, *words], clients)


# -- beside nginx


def asked_of_both(room, database, target, body):
    """A request of the server, and of an nginx that has the body in a file."""
    file = room.path(os.path.join("www", target.partition("?")[0][1:]))
    os.makedirs(os.path.dirname(file), exist_ok=True)
    with open(file, "wb") as written:
        written.write(body)
    with our_server(room, database) as ours, nginx(room.folder) as theirs:
        return Figures(ours.ask(target), theirs.ask(target))


def beside_nginx(target, body):
    return lambda room: asked_of_both(room, debians(room), target, body)


def published(registry):
    """The text of all items, nothing changed since it was asked for first."""

    def measure(room):
        database = registry(room)
        text = ran([room.program, "export", "--db", database])
        return asked_of_both(room, database, "/pci.ids", text)

    return measure


def rename(client, number, name):
    """Renames an item: the submission with that number, and its approval."""
    form = f"path=PC/0001&name={name}".encode()
    for request in (
        posted("/submit", "bob", form),
        posted("/approve", "root", f"num={number}".encode()),
    ):
        client.sendall(request)
        whole_reply(client)


def changes_then(room, database, asks, count):
    """All instructions of a server on which an item is renamed so many times, and something is
    asked after each."""
    number = made_so_far(database)

    def talk(client):
        for at in range(count):
            rename(client, number + at + 1, f"renamed+{at}")
            for request in asks:
                client.sendall(request)
                whole_reply(client)

    return profiled(room, room.copy(database), talk).total


def published_after_change(room):
    """The first request after an item was renamed, beside one walk of the items."""
    database, count, asked = middle(room), 3, get("/pci.ids")
    without = changes_then(room, database, [], count)
    took = (changes_then(room, database, [asked], count) - without) / count
    export = Profile(room.folder, [room.program, "export", "--db", database])
    # All that the job does but opening the registry.
    walk = export.within("::run_job::") - export.within("::AloneRegistries::open::")
    return Figures(took, walk, "instructions")


# -- beside a smaller registry


def of_both_sizes(target, smaller=small, larger=large):
    """The same request of a large registry and of a smaller one."""

    def measure(room):
        times = []
        for database in larger(room), smaller(room):
            asked = target(database)
            with our_server(room, database) as server:
                times.append(server.ask(asked))
        return Figures(*times)

    return measure


def instructions_of_both(target, smaller, larger):
    """The same in instructions: those of three such requests without those of one."""

    def asked(count):
        def talk(client):
            for _ in range(count):
                client.sendall(get(target))
                whole_reply(client)

        return talk

    def measure(room):
        return Figures(*(
            (profiled(room, database, asked(3)).total
             - profiled(room, database, asked(1)).total) / 2
            for database in (larger(room), smaller(room))
        ), "instructions")

    return measure


def times_of_both(time_of, smaller=small, larger=large):
    """The least of some times of a large registry, and of a smaller one."""

    def measure(room):
        return Figures(*(
            max(min(time_of(room, registry(room))), 0.000_001) for registry in (larger, smaller)
        ))

    return measure


def first_of_both(target, *registries):
    """The first request after a start, of both."""

    def first(room, database):
        asked = get(target(database))
        for _ in range(room.rounds(3)):
            with our_server(room, database) as server, connected(server.port) as client:
                yield server.time_of(client, asked)

    return times_of_both(first, *registries)


def next_of_both(target, *registries):
    """The first request after an item was renamed, of both."""

    def following(room, database):
        asked, number = get(target(database)), made_so_far(database)
        with our_server(room, room.copy(database)) as server, connected(server.port) as client:
            for at in range(room.rounds(7)):
                rename(client, number + at + 1, f"renamed+{at}")
                yield server.time_of(client, asked)

    return times_of_both(following, *registries)


def same(target):
    return lambda _: target


def labelled(database, label):
    return int(selected(database, f"SELECT value FROM meta WHERE label = '{label}'"))


def made_so_far(database):
    """How many submissions there are."""
    return labelled(database, "submissions")


def changed_by(count):
    """What the latest commands changed, so many of them."""
    return lambda database: f"/changes?since={labelled(database, 'revision') - count}"


def last_remarks(database):
    last = int(selected(database, "SELECT max(seq) FROM remark"))
    return f"/remarks?num=1&after={last - 100}"


def changes_of_all(room):
    """The first page of items that all were changed, beside the selects of it."""
    database, times = large(room), 1_000
    with our_server(room, database) as server:
        ours = server.ask("/changes?since=0")
    theirs = min(
        seconds([room.sqlite, room.copy(database), "changes", "0", str(times)]) for _ in range(3)
    )
    return Figures(ours, (theirs - room.idle) / times)


# -- connections


def requests_on(room, connections, requests):
    """All instructions of a server that answers so many requests on each of so many connections."""

    def talk(client):
        for _ in range(requests):
            client.sendall(get("/read/PC/0001"))
            whole_reply(client)

    return profiled(room, small(room), talk, connections).total


def own_connection(room):
    """A request on a connection of its own, beside one of many on one: what more of them take."""
    few, many = (5, 15) if room.is_small else (100, 600)
    own = requests_on(room, many, 1) - requests_on(room, few, 1)
    shared = requests_on(room, 1, many) - requests_on(room, 1, few)
    return Figures(own / (many - few), shared / (many - few), "instructions")


def at_once(target):
    def measure(room):
        with our_server(room, debians(room)) as server:
            return Figures(server.ask(target, at_once=100), server.ask(target))

    return measure


# -- commands


def submit_time(room):
    """Submissions without keys, over one connection and as lines of a script."""
    count, database = room.sized(1_000), debians(room)
    forms = [b"path=PC/%04x&name=renamed" % at for at in range(count)]

    def submit(client):
        for form in forms:
            client.sendall(posted("/submit", "root", form))
            whole_reply(client)

    ours = min(
        served([room.program, "serve", "--db", room.copy(database)], submit)[1]
        for _ in range(room.rounds(ROUNDS))
    )
    lines = b"".join(b"submit root %s\n" % form for form in forms)
    return Figures(ours / count, least_of_lines(database, room, lines) / count)


FORMS = [f"path=PC/{at:04x}&name=renamed" for at in range(200)]

# The function of the program that answers a line of a script.
LINE = "::answer_line::"


def line_profile(room):
    lines = "".join(f"submit root {form}\n" for form in FORMS).encode()
    words = room.script(room.copy(small(room)))
    return Profile(room.folder, words, lambda process: process.stdin.write(lines))


def submit_instructions(room):
    """The instructions of submissions by requests and by lines, without the kernel's."""

    def talk(client):
        for form in FORMS:
            client.sendall(posted("/submit", "root", form.encode()))
            whole_reply(client)

    idle = profiled(room, room.copy(small(room)), lambda client: None)
    count = profiled(room, room.copy(small(room)), talk).total - idle.total
    lines = line_profile(room).within(LINE)
    return Figures(count / len(FORMS), lines / len(FORMS), "instructions")


def line_instructions(room):
    """The instructions of lines, and those in the registry's call that obeys their commands."""
    profile = line_profile(room)
    counts = profile.within(LINE), profile.within("::RegistryRegistryCalls::obey::")
    return Figures(*(count / len(FORMS) for count in counts), "instructions")


def import_time(room):
    """Debian's file into a new registry, whole processes."""
    text = room.text("Debian's file")
    with open(text, "rb") as file:
        request = posted("/import", "root", file.read())

    def send(client):
        client.sendall(request)
        whole_reply(client)

    ours, theirs = [], []
    for at in range(room.rounds(ROUNDS)):
        words = [room.program, "serve", "--db", room.path(f"posted-{at}")]
        ours.append(served(words, send)[0])
        theirs.append(seconds(room.import_words(room.path(f"sent-{at}"), text)))
    return Figures(min(ours), min(theirs))


# -- memory


def memory_after_look_ups(room):
    with our_server(room, debians(room)) as server:
        server.ask(LOOK_UP)
        before = memory_of(server.process)
        with connected(server.port) as client:
            client.sendall(get(LOOK_UP))
            size = whole_reply(client)
            server.batch(client, get(LOOK_UP), size, room.sized(1_000_000), 100)
        return Figures(memory_of(server.process), before, "MB")


def memory_of_text(room):
    """What the server has in memory once the published text is kept, and before."""
    with our_server(room, room.imported("100,000 items")[0]) as server:
        with connected(server.port) as client:
            server.time_of(client, get("/read/PC/0001"))
            before = memory_of(server.process, "VmRSS")
        server.ask("/pci.ids")
        return Figures(memory_of(server.process, "VmRSS"), before, "MB")


NAME = b'{"name":"Intel Corporation","path":"PC/8086"}'
NAMES = b"Intel Corporation 440FX - 82441FX PMC [Natoma]"

ROWS = [
    Row("read", f"`GET {READ}` / nginx, a file of that size", OURS, beside_nginx(READ, NAME), 4),
    Row("lookup", "`GET /lookup`, one device / nginx, so", OURS, beside_nginx(LOOK_UP, NAMES), 4),
    Row("pci-ids-debian", "`GET /pci.ids`, Debian's file, nothing changed since / nginx, so", OURS,
        published(debians), 10, 4),
    Row("pci-ids-1k", "the same, 1,000 submissions, 1,000 items / nginx, so", OURS,
        published(small), 10, 4),
    Row("pci-ids-1m", "the same, 1,000,000 submissions, 100,000 items / nginx, so", OURS,
        published(large), 10, 4),
    Row("pci-ids-changed", "`GET /pci.ids`, first after a change / `export`'s walk", OURS,
        published_after_change, 0.12, 0.03),
    Row("pending", "`GET /pending`, ten of 1,000,000 / ten of 1,000", OURS,
        of_both_sizes(same("/pending")), 5, 1.5),
    Row("queue", "`GET /queue`, so", OURS, of_both_sizes(same("/queue")), 5),
    Row("queue-first", "the same, first after a start", OURS, first_of_both(same("/queue")), 3),
    Row("submissions-first", "`GET /submissions` for a path, so", OURS,
        first_of_both(same("/submissions?path=PC/0000/0001")), 3),
    Row("submissions", "`GET /submissions`, the latest of 1,000,000 / of 1,000", OURS,
        of_both_sizes(same("/submissions")), 5),
    Row("submissions-none", "the same of an author with none, 1,000,000 / 10,000 submissions", OURS,
        of_both_sizes(same("/submissions?author=nobody"), middle), 3),
    Row("submissions-author", "the latest 100 of an author, so", OURS,
        of_both_sizes(same("/submissions?author=author-1"), middle), 3),
    Row("submissions-path", "the one for a path, the second of all, so", OURS,
        of_both_sizes(same("/submissions?path=PC/0000/0001"), middle), 3),
    Row("submissions-next", "the same, first after a change", OURS,
        next_of_both(same("/submissions?path=PC/0000/0001")), 3),
    Row("account", "`GET /account`, 1,000,000 submissions / 1,000", OURS,
        of_both_sizes(same("/account?who=root")), 5),
    Row("status", "`GET /status`, so", OURS, of_both_sizes(same("/status")), 5),
    Row("status-pending", "the same, 1,000,002 pending / 1,000 pending", OURS,
        of_both_sizes(same("/status"), all_pending(1_000), all_pending(1_000_002)), 3),
    Row("status-accounts", "the same, 500,000 accounts / 500", OURS,
        of_both_sizes(same("/status"), many("accounts", 500), many("accounts", 500_000)), 3),
    Row("children", "`GET /children`, 2,400 vendors, 36,000 items / 2,400 items", OURS,
        of_both_sizes(same("/children"), vendors(0), vendors(33_600)), 3),
    Row("children-first", "the same list, first after a start", OURS,
        first_of_both(same("/children"), vendors(0), vendors(33_600)), 3),
    Row("children-of", "`GET /children?of=`, 4,234 devices, 10,000 subsystems / none", OURS,
        of_both_sizes(same("/children?of=PC/0000"), devices(0), devices(10_000))),
    Row("children-of-count", "the same devices, instructions", OURS,
        instructions_of_both("/children?of=PC/0000", devices(0), devices(10_000)), 3, 1.5),
    Row("children-of-99", "the same of 99 devices, 100,000 items / 1,000 items", OURS,
        of_both_sizes(same("/children?of=PC/0001")), 3),
    Row("remarks", "`GET /remarks`, the first 100 of 2,500 long ones / of 100", OURS,
        of_both_sizes(same("/remarks?num=1&after=0"), many("remarks", 100),
                      many("remarks", 2_500)), 3),
    Row("remarks-last", "the last 100 of them, so", OURS,
        of_both_sizes(last_remarks, many("remarks", 100), many("remarks", 2_500)), 3),
    Row("changes", "`GET /changes`, nothing new, 100,000 items / 1,000 items", OURS,
        of_both_sizes(changed_by(0)), 5, 1.5),
    Row("changes-few", "the same, what five commands changed", OURS,
        of_both_sizes(changed_by(5)), 3),
    Row("changes-first", "what five commands changed, first after a start", OURS,
        first_of_both(changed_by(5)), 3),
    Row("changes-next", "the same, first after a change", OURS, next_of_both(changed_by(5)), 3),
    Row("changes-all", "`GET /changes`, 100,000 items, all changed / selects", KITS,
        changes_of_all),
    Row("own-connection", "a read on a connection of its own / one of many on one", OURS,
        own_connection, 2, 1.3),
    Row("read-at-once", f"`GET {READ}`, a hundred sent at once / one at a time", OURS,
        at_once(READ)),
    Row("lookup-at-once", "`GET /lookup`, so", OURS, at_once(LOOK_UP)),
    Row("submit", "`POST /submit` / a script's line of the same", OURS, submit_time),
    Row("submit-count", "the same, instructions", OURS, submit_instructions, 1.3),
    Row("line-obey", "a script's line of the same, instructions / `obey` within it", OURS,
        line_instructions),
    Row("post-import", "`POST /import`, Debian's file / `import`, whole processes", OURS,
        import_time, 1.3),
    Row("memory-lookups", "memory of a server, 1,000,000 look-ups more / before", OURS,
        memory_after_look_ups, 1.01),
    Row("memory-text", "memory of a server, 100,000 items, their text kept / before", OURS,
        memory_of_text),
]
