"""Each route with each refusal that it can answer, asked of two servers alike: one answers in JSON,
the other in text."""
import json
import os

import pytest

import http_rows
import refusals
from answer_texts import as_json, as_text
from http_server import JSON, TEXT, Server, posted, reply
from registry import asked, script

pytestmark = pytest.mark.needs("curl")

MANY = b"".join(b"%04x  a\n" % vendor for vendor in range(65_536)) + b"".join(
    b"\t%04x  a\n" % device for device in range(34_465)
)

# More than a server holds of a body, and fewer than it takes.
LONG = b"10ec  Realtek\n" + b"#" * 3_000_000

# The target, the account and the body of a command, and the refusal, 0 where it is accepted.
COMMANDS = [
    ("/account", "root", b"who=alice&rank=0", 0),
    ("/account", "root", b"who=bob&rank=1", 0),
    ("/account", "root", b"rank=2&who=mona", 0),
    ("/account", None, b"who=dora&rank=0", 3),
    ("/account", "Root", b"who=dora&rank=0", 3),
    ("/account", "root", b"who=Dora&rank=0", 3),
    ("/account", "root", b"who=dora&rank=4", 3),
    ("/account", "root", b"who=dora", 3),
    ("/account", "root", b"who=dora&rank=0&rank=0", 3),
    ("/account", "root", b"who=dora&rank=0&of=us", 3),
    ("/account", "root", b"who=dora&rank=0&key=k1", 3),
    ("/account", "root", b"who=dora&rank=0\xff", 3),
    ("/account", "carol", b"who=dora&rank=0", 4),
    ("/account", "mona", b"who=dora&rank=0", 5),
    ("/account", "root", b"who=root&rank=3", 10),
    ("/account", "root", b"who=alice&rank=0", 13),
    ("/submit", "alice", b"path=PC/8086&name=Intel", 0),
    ("/submit", "alice", b"path=PC/80A6&name=Intel", 1),
    ("/submit", "alice", b"path=PC/8086&name=+Intel", 2),
    ("/submit", "alice", b"path=PC/8086", 3),
    ("/submit", "alice", b"path=PC/8086&name=Intel&remove=yes", 3),
    ("/submit", "alice", b"path=PC/8086&remove=no", 3),
    ("/submit", "carol", b"path=PC/8086&name=Intel", 4),
    ("/submit", "alice", b"path=PC/8086/1237&name=440FX&note=a+bridge", 0),
    ("/submit", "bob", b"path=PC/8086/7000&name=82371SB", 0),
    ("/comment", "bob", b"num=1&text=seen+in+%22a+laptop%22%09%5C+%C3%A9+%F0%9F%98%80", 0),
    ("/comment", "bob", b"num=1&text=", 3),
    ("/comment", "bob", b"num=01&text=seen", 3),
    ("/comment", "carol", b"num=1&text=seen", 4),
    ("/comment", "bob", b"num=9&text=seen", 7),
    ("/approve", "bob", b"num=0", 3),
    ("/approve", "carol", b"num=1", 4),
    ("/approve", "alice", b"num=1", 5),
    ("/approve", "bob", b"num=1", 5),
    ("/approve", "mona", b"num=9", 7),
    ("/approve", "bob", b"num=3", 10),
    ("/approve", "bob", b"num=2", 11),
    ("/approve", "mona", b"num=1", 0),
    ("/approve", "mona", b"num=1", 8),
    ("/approve", "bob", b"num=2", 0),
    ("/submit", "alice", b"path=PC/8086&name=Intel", 0),
    ("/approve", "mona", b"num=4", 13),
    ("/submit", "alice", b"path=PC/8086&remove=yes&note=gone", 0),
    ("/approve", "mona", b"num=5", 12),
    ("/reject", "mona", b"num=5", 3),
    ("/reject", "mona", b"num=5&reason=", 3),
    ("/reject", "carol", b"num=5&reason=still+sold", 4),
    ("/reject", "bob", b"num=5&reason=still+sold", 5),
    ("/reject", "mona", b"num=9&reason=still+sold", 7),
    ("/reject", "bob", b"num=3&reason=still+sold", 10),
    ("/reject", "mona", b"num=5&reason=still+sold", 0),
    ("/reject", "mona", b"num=5&reason=still+sold", 8),
    ("/withdraw", "alice", b"num=x", 3),
    ("/withdraw", "carol", b"num=4", 4),
    ("/withdraw", "alice", b"num=9", 7),
    ("/withdraw", "bob", b"num=4", 9),
    ("/withdraw", "alice", b"num=4", 0),
    ("/withdraw", "alice", b"num=4", 8),
    ("/import", None, b"10ec  Realtek\n", 3),
    ("/import", None, LONG, 3),
    ("/import", "carol", b"10ec  Realtek\n", 4),
    ("/import", "bob", b"10ec  Realtek\n", 5),
    ("/import", "mona", b"10ec  Realtek\n10ec \n", 14),
    ("/import", "mona", MANY, 14),
    ("/import", "mona", b"10ec  Realtek\r\n8086  Intel Corporation\n\t1237  440FX\n", 0),
    # The longest texts, as forms of up to 12,000 bytes.
    ("/submit", "alice", b"path=PC/8086/7111&name=82371AB&note=" + b"%C3%A9" * 2_000, 0),
    ("/submit", "alice", b"path=PC/8086/7111&name=82371AB&note=" + b"%C3%A9" * 2_000 + b"a", 3),
    ("/submit", "alice", b"path=PC/8086/7112&name=" + b"%22" * 1_000, 0),
    ("/submit", "alice", b"path=PC/8086/7112&name=" + b"%22" * 1_001, 2),
    ("/comment", "bob", b"num=6&text=" + b"a" * 4_000, 0),
    ("/comment", "alice", b"num=6&text=" + b"%5C" * 4_000, 0),
    ("/comment", "bob", b"num=6&text=" + b"%5C" * 4_001, 3),
    ("/comment", "mona", b"num=6&text=thanks", 0),
    ("/reject", "mona", b"num=6&reason=" + b"%26" * 4_000, 0),
]

# Approvals of what was seen.
CONFIRMATIONS = [
    ("/account", "root", b"who=alice&rank=0", 0),
    ("/account", "root", b"who=bob&rank=1", 0),
    ("/account", "root", b"who=mona&rank=2", 0),
    ("/import", "mona", b"8086  Intel Corporation\n", 0),
    ("/submit", "alice", b"path=PC/8086&name=Intel", 0),
    ("/confirm", "mona", b"num=1", 3),
    ("/confirm", "mona", b"num=1&was=+Intel", 3),
    ("/confirm", "mona", b"num=1&was=Intel+Corporation&was=Intel+Corporation", 3),
    ("/confirm", "carol", b"num=1&was=Intel", 4),
    ("/confirm", "bob", b"num=1&was=Intel", 5),
    ("/confirm", "mona", b"num=2&was=Intel+Corporation", 7),
    ("/confirm", "mona", b"num=1&was=Intel", 30),
    ("/confirm", "mona", b"num=1&was=", 30),
    ("/confirm", "mona", b"was=Intel+Corporation&num=1", 0),
    ("/confirm", "mona", b"num=1&was=Intel", 8),
    ("/submit", "alice", b"path=PC/8086&name=Intel", 0),
    ("/confirm", "mona", b"num=2&was=Intel", 13),
    ("/submit", "alice", b"path=PC/1af4&name=Red+Hat", 0),
    ("/confirm", "mona", b"num=3&was=Red+Hat", 30),
    ("/confirm", "mona", b"num=3&was=", 0),
]

# What a registry that has counted as many commands as it may is asked: each that would be accepted
# is refused.
FULL = [
    ("/account", "root", b"who=bob&rank=0", 15),
    ("/account", "alice", b"who=bob&rank=0", 5),
    ("/submit", "alice", b"path=PC/10ec&name=Realtek", 15),
    ("/submit", "alice", b"path=PC/10ec", 3),
    ("/comment", "mona", b"num=1&text=seen", 15),
    ("/withdraw", "alice", b"num=1", 15),
    ("/approve", "mona", b"num=1", 15),
    ("/approve", "mona", b"num=2", 7),
    ("/confirm", "mona", b"num=1&was=", 15),
    ("/confirm", "mona", b"num=1&was=Intel", 30),
    ("/reject", "mona", b"num=1&reason=no", 15),
    ("/import", "mona", b"8086  Intel\n", 15),
    ("/import", "mona", b"8086 \n", 14),
]

# The target of a question and the refusal, 0 where it is answered.
QUESTIONS = [
    ("/read/PC/8086", 0),
    ("/read/PC/8086/1237", 0),
    ("/read/pc/8086", 1),
    ("/read/PC/8087", 25),
    ("/children", 0),
    ("/children?of=PC/8086", 0),
    ("/children?of=PC/8086/1237", 0),
    ("/children?of=PC", 1),
    ("/children?of=PC/8087", 25),
    ("/children?of=" + "%41" * 4_000, 1),
    ("/read/PC/8086?" + "&" * 8_000, 0),
    *((f"/submission/{number}", 0) for number in range(1, 8)),
    ("/submission/8", 7),
    ("/submission/x", 3),
    *((f"/remarks?num={number}", 0) for number in range(1, 8)),
    ("/remarks?num=6&after=2", 0),
    ("/remarks?num=6&after=2000000000", 0),
    ("/remarks?num=8", 7),
    ("/pending", 0),
    ("/pending?after=3", 0),
    ("/changes", 0),
    ("/changes?since=6&after=PC/8086", 0),
    ("/changes?since=9000000000000000000", 0),
    ("/changes?after=PC", 1),
    ("/queue", 0),
    ("/queue?after=3", 0),
    ("/submissions", 0),
    ("/submissions?path=&before=0", 0),
    ("/submissions?path=PC/8086&author=alice&before=5", 0),
    ("/submissions?path=PC/8087", 0),
    ("/submissions?author=carol", 0),
    ("/submissions?path=PC", 1),
    ("/status", 0),
    ("/account?who=alice", 0),
    ("/account?who=root", 0),
    ("/account?who=" + "a" * 32, 29),
]

# A question that is judged by its query alone, with the refusal that it gets in any format.
BAD_QUERIES = [
    "/account",
    "/account?who=",
    "/account?who=Alice",
    "/account?who=" + "a" * 33,
    "/account?who=alice&who=alice",
    "/account?who=alice&rank=0",
    "/account?who=alice&format=xml",
    "/queue?after=",
    "/queue?after=01",
    "/queue?before=1",
    "/submissions?before=",
    "/submissions?before=2000000001",
    "/submissions?after=1",
    "/submissions?author=",
    "/submissions?author=Alice&path=PC",
    "/submissions?path=PC/8086&path=PC/8086",
    "/status?after=0",
    "/remarks",
    "/remarks?num=",
    "/remarks?num=01",
    "/remarks?num=2000000001",
    "/remarks?num=1&num=1",
    "/remarks?num=1&after=",
    "/remarks?num=1&after=2000000001",
    "/remarks?num=1&of=PC/8086",
    "/remarks?after=1",
]

# What these questions are answered, whoever asks.
ANSWERS = [
    (
        "/queue?after=2",
        b'[{"author":"bob","name":"82371SB","note":"","now":null,"num":3,"path":"PC/8086/7000",'
        b'"remarks":0},{"author":"alice","name":"' + b'\\"' * 1_000 + b'","note":"","now":null,'
        b'"num":7,"path":"PC/8086/7112","remarks":0}]',
    ),
    ("/queue?after=6&format=text", b"7 alice name PC/8086/7112 " + b'"' * 1_000 + b"\n"),
    (
        "/submissions?path=PC/8086",
        b'{"before":0,"submissions":[{"author":"alice","decider":"mona","name":null,"num":5,'
        b'"path":"PC/8086","reason":"still sold","remarks":0,"state":"rejected"},'
        b'{"author":"alice","decider":"alice","name":"Intel","num":4,"path":"PC/8086","reason":"",'
        b'"remarks":0,"state":"withdrawn"},{"author":"alice","decider":"mona","name":"Intel",'
        b'"num":1,"path":"PC/8086","reason":"","remarks":1,"state":"approved"}]}',
    ),
    (
        "/submissions?author=bob",
        b'{"before":0,"submissions":[{"author":"bob","decider":"","name":"82371SB","num":3,'
        b'"path":"PC/8086/7000","reason":"","remarks":0,"state":"pending"}]}',
    ),
    (
        "/submissions?author=alice&before=6&format=text",
        b"before 0\n5 rejected alice remove PC/8086\n4 withdrawn alice name PC/8086 Intel\n"
        b"2 approved alice name PC/8086/1237 440FX\n1 approved alice name PC/8086 Intel\n",
    ),
    ("/submissions?author=bob&path=PC/8086&format=text", b"before 0\n"),
    (
        "/status",
        b'{"accounts":4,"items":3,"pending":2,"revision":20,"submissions":7}',
    ),
    (
        "/status?format=text",
        b"accounts 4\nitems 3\npending 2\nrevision 20\nsubmissions 7\n",
    ),
    ("/account?who=alice", b'{"rank":0,"who":"alice"}'),
    ("/account?who=bob&format=json", b'{"rank":1,"who":"bob"}'),
    ("/account?who=mona", b'{"rank":2,"who":"mona"}'),
    ("/account?who=root", b'{"rank":3,"who":"root"}'),
    ("/account?format=text&who=alice", b"alice 0\n"),
    ("/account?who=root&format=text", b"root 3\n"),
]


def asked_alike(cases, known, servers, name, target, refusal, *words):
    """The same asked of the server that is asked in JSON and of the one that is asked in text."""
    both = target + ("&" if "?" in target else "?") + "format=text"
    (status, kind, body), (text_status, text_kind, text) = servers[0].curl(target, *words), servers[
        1
    ].curl(both, *words)
    told = json.loads(body)
    word, want_status = known[refusal] if refusal else (None, 200)
    got = (
        (status, kind, told["refused"], told["word"])
        if refusal and "refused" in told
        else (status, kind)
    )
    cases.equal(name, got, (want_status, JSON, refusal, word) if refusal else (200, JSON))
    cases.equal(f"{name}: its form", body, as_json(json.loads(body)))
    cases.equal(
        f"{name}: as text",
        (text_status, text_kind, text.decode()),
        (want_status, TEXT, as_text(told)),
    )


def ask_commands(cases, known, servers, commands, folder):
    body = os.path.join(folder, "body")
    for target, account, fields, refusal in commands:
        with open(body, "wb") as file:
            file.write(fields)
        words = (["-H", f"X-Account: {account}"] if account else []) + ["--data-binary", f"@{body}"]
        asked_alike(
            cases, known, servers, f"{target} of {account}: {fields[:60]}", target, refusal, *words
        )


@pytest.mark.needs("sqlite3")
def test_full(cases, folder):
    """Registries that have counted as many commands as they may."""
    known = refusals.shown()
    files = [os.path.join(folder, name) for name in ("full in JSON", "full in text")]
    for path in files:
        script(
            path,
            "account root who=alice&rank=0",
            "account root who=mona&rank=2",
            "submit alice key=k1&path=PC/8086&name=Intel",
        )
        cases.equal(
            "full: the revision is set",
            asked(path, "UPDATE meta SET value = 9000000000000000000 WHERE label = 'revision'"),
            "",
        )
    with Server(files[0]) as first, Server(files[1]) as second:
        ask_commands(cases, known, (first, second), FULL, folder)
        kept = [
            it.post("/submit", "alice", "path=PC/10ec&name=Realtek", "-H", "X-Key: k1")
            for it in (first, second)
        ]
        cases.equal("full: a reply that is kept", kept, [(200, JSON, b'{"num":1,"ok":true}')] * 2)
        for server in (first, second):
            cases.equal(
                "full: nothing was done",
                server.curl("/pending?format=text"),
                (200, TEXT, b"1 alice name PC/8086 Intel\n"),
            )
            cases.equal(
                "full: no item",
                server.curl("/changes"),
                (200, JSON, b'{"items":[],"revision":9000000000000000000}'),
            )


def test_confirmations(cases, folder):
    with Server(os.path.join(folder, "json")) as first, Server(
        os.path.join(folder, "text")
    ) as second:
        ask_commands(cases, refusals.shown(), (first, second), CONFIRMATIONS, folder)
        cases.equal(
            "what was confirmed",
            first.curl("/pci.ids")[2],
            b"# PCI ID registry\n1af4  Red Hat\n8086  Intel\n",
        )


def pages_of(server, target):
    """The numbers of each page, as one goes on from page to page."""
    pages, before = [], 0
    while not pages or before:
        told = json.loads(server.curl(f"{target}before={before}")[2])
        pages.append([it["num"] for it in told["submissions"]])
        before = told["before"]
    return pages


def test_pages(cases, folder):
    """Pages of submissions show each one once, the latest first."""
    path = os.path.join(folder, "pages")
    authors = ["alice" if number % 3 else "bob" for number in range(1, 331)]
    rows = [f"submit {author} path=PC/8086/{number:04x}&name=a"
            for number, author in enumerate(authors, 1)]
    script(path, "account root who=alice&rank=0", "account root who=bob&rank=0", *rows)
    with Server(path) as server:
        all_of = list(range(330, 0, -1))
        cases.equal("all", pages_of(server, "/submissions?"),
                    [all_of[:100], all_of[100:200], all_of[200:300], all_of[300:]])
        of_alice = [number for number in all_of if number % 3]
        cases.equal("of one author", pages_of(server, "/submissions?author=alice&"),
                    [of_alice[:100], of_alice[100:200], of_alice[200:]])
        cases.equal("for one path", pages_of(server, "/submissions?path=PC/8086/0007&"), [[7]])
        of_another = "/submissions?path=PC/8086/0007&author=bob&"
        cases.equal("for one path of another author", pages_of(server, of_another), [[]])


def test_routes(cases, folder):
    known = refusals.shown()
    cases.equal(
        "docs/REFUSALS.md: the numbers",
        sorted(known),
        [*range(1, 6), *range(7, 19), *range(20, 31)],
    )
    with Server(os.path.join(folder, "json")) as first, Server(
        os.path.join(folder, "text")
    ) as second:
        ask_commands(cases, known, (first, second), COMMANDS, folder)
        many = os.path.join(folder, "many")
        with open(many, "wb") as file:
            file.write(MANY)
        words = ("-H", "X-Account: mona", "--data-binary", f"@{many}")
        told = b'{"kind":0,"line":0,"ok":false,"refused":14,"word":"FileFault"}'
        cases.equal("too many entries", first.curl("/import", *words), (422, JSON, told))
        for target, refusal in QUESTIONS:
            asked_alike(cases, known, (first, second), f"GET {target[:60]}", target, refusal)
        for target in BAD_QUERIES:
            cases.equal(
                f"GET {target[:60]}",
                first.curl(target + ("&" if "?" in target else "?") + "format=text"),
                (400, JSON, b'{"ok":false,"refused":3,"word":"BadText"}'),
            )
        for target, body in ANSWERS:
            kind = TEXT if "format=text" in target else JSON
            cases.equal(f"GET {target}", first.curl(target), (200, kind, body))
            # Nobody's rank is that of the account that asks.
            asked_by = first.curl(target, "-H", "X-Account: mona", "-H", "X-Account: No account")
            cases.equal(f"GET {target}, whoever asks", asked_by, (200, kind, body))
        cases.equal(
            "both registries hold the same", first.curl("/pci.ids"), second.curl("/pci.ids")
        )
        remarks = [len(it["text"]) for it in json.loads(first.curl("/submission/6")[2])["remarks"]]
        cases.equal("a submission with three remarks", remarks, [4_000, 4_000, 6])


@pytest.mark.parametrize("name", http_rows.ROWS)
def test_rows(cases, folder, name):
    with Server(os.path.join(folder, "rows")) as server:
        for line, request, answer in http_rows.pairs_of(http_rows.ROWS[name]):
            cases.equal(line[:90], server.raw(request), answer)


@pytest.mark.parametrize("size", (1_000_000, 7, 1))
def test_ends(cases, folder, size):
    """How streams end, and what is refused of them, in chunks of any size; nothing comes of it."""
    pause = 0.0005 if size < 100 else 0
    with Server(os.path.join(folder, "ends")) as server:
        server.post("/account", "root", "who=alice&rank=0")
        for line, request, answer in http_rows.pairs_of("\n".join(http_rows.ENDS)):
            # A long one is sent in longer pieces.
            step = max(size, len(request) // 200)
            pieces = [request[at : at + step] for at in range(0, len(request), step)]
            cases.equal(line[:90], server.raw(*pieces, pause=pause), answer)
        for silent in (b"", b"\r\n", b"\n\r\n\r"):
            cases.equal(f"no request: {silent}", server.raw(silent), b"")
        told = server.curl("/status?format=text")[2]
        wanted = b"accounts 2\nitems 0\npending 0\nrevision 2\nsubmissions 0\n"
        cases.equal("nothing came of them", told, wanted)


@pytest.mark.parametrize("size", (1_000_000, 4_096, 7))
def test_rows_in_one_stream(cases, folder, size):
    """All requests in one connection, at once and in many pieces."""
    _, requests, answers = zip(*http_rows.pairs_of(http_rows.EACH_ROUTE))
    sent = b"".join(requests)
    pieces = [sent[at : at + size] for at in range(0, len(sent), size)]
    with Server(os.path.join(folder, "rows")) as server:
        cases.equal("all replies", server.raw(*pieces), b"".join(answers))


def test_bodies_of_any_bytes(cases, folder):
    """Of a form that is not UTF-8 nothing is read; of such a file the line is reported."""
    of_a_form = b'{"ok":false,"refused":3,"word":"BadText"}'
    of_a_file = b'{"kind":1,"line":2,"ok":false,"refused":14,"word":"FileFault"}'
    with Server(os.path.join(folder, "bytes")) as server:
        form, file = posted("/submit", "root", b"a\xff"), posted("/import", "root", b"#\n#\xff")
        wanted = reply("400 Bad Request", JSON, of_a_form)
        wanted += reply("422 Unprocessable Entity", JSON, of_a_file)
        cases.equal("bytes", server.raw(form, file), wanted)


def test_files_are_passed_over(cases, folder):
    """The next request of a connection comes after the whole file, whatever the import came to."""
    comment = b"\n#" + b"x" * 9_000
    texts = (b"8086  Intel" + comment, b"8086  I\n8086  I" + comment + b"\n1237  I",
             b"\xff" + comment)
    with Server(os.path.join(folder, "files")) as server:
        script = [posted("/account?format=text", "root", b"who=bob&rank=1")]
        script += [posted("/import?format=text", who, text, "X-Key: k1")
                   for text in texts for who in ("carol", "bob", "root")]
        script.append(b"GET /pci.ids HTTP/1.1\r\n\r\n")
        lines = ["ok", *["refused 4 NoAccount", "refused 5 RankTooLow",
                         "ok added=1 renamed=0 same=0"] * 3]
        statuses = {"ok": "200 OK", "refused": "403 Forbidden"}
        wanted = [reply(statuses[line.split()[0]], TEXT, line.encode() + b"\n") for line in lines]
        wanted.append(reply("200 OK", TEXT, b"# PCI ID registry\n8086  Intel\n"))
        cases.equal("replies", server.raw(b"".join(script)), b"".join(wanted))
