"""The lists that cost the registry most, through the nginx of deploy/nginx: kept for a moment and
asked for once, asked anew for whoever sends a password, and the others within a bound of all."""
import os
import tempfile
import threading
import time

from front_room import Front, Recorder, needed

# A bound that is used up before more comes, however slow the machine is.
BOUNDS = {
    "pciids_limits": (
        ("zone=pciids_rest:32k rate=5r/s", "zone=pciids_rest:32k rate=1r/m"),
        ("zone=pciids_lookers:1m rate=2r/s", "zone=pciids_lookers:1m rate=1r/m"),
    ),
    "pciids_site": (("burst=20 delay=1", "burst=20 nodelay"),),
}
# For how long a list is kept, in seconds, and longer for tests that must not wait for that.
KEPT, LONG = 2, 600
LONGER = {
    "pciids_site": ((f"200 {KEPT}s", f"200 {LONG}s"),),
    "pciids_limits": (("inactive=3s", f"inactive={LONG}s"),),
}

LISTS = ("/children", "/children?of=PC/8086", "/status", "/status?format=text",
         "/children?format=json", "/children?of=PC/8086&format=text", "/submission/7")
# The same questions in other words, and what is no list of these.
OTHERS = ("/children?of=PC%2F8086", "/children?of=PC/8086&", "/children?&of=PC/8086",
          "/children?format=text&of=PC/8086", "/%63hildren", "//children", "/status?",
          "/submission/07", "/submission/8", "/remarks?num=7", "/changes?since=3", "/pending",
          "/queue", "/submissions?path=PC/8086", "/read/PC/8086", "/account?who=alice")
ALICE, LIVE = ("-u", "alice:pw-alice"), ("-H", "Cache-Control: no-cache")


def asked(front, recorder, path, *words):
    """How often the registry is asked, if a visitor asks twice."""
    recorder.seen.clear()
    told = [front.curl(path, "--path-as-is", *words)[0] for _ in range(2)]
    return told, len(recorder.seen)


def kept(cases, front, recorder):
    """A list is asked for once, HEAD or GET, and each spelling has its own answer."""
    for number, path in enumerate(LISTS):
        body = b"%07d" % number * 20_000
        recorder.answers[path] = (200, body)
        cases.equal(f"lists: {path}", asked(front, recorder, path), ([200, 200], 1))
        cases.equal(f"lists: {path} as it is", front.curl(path)[2], body)
        told = front.curl(path, "-I")
        length = b"content-length: %d\r\n" % len(body) in told[2]
        cases.equal(f"lists: the head of {path}", (told[0], length), (200, True))
        cases.equal(f"lists: {path} was asked for once", len(recorder.seen), 1)
    for path in OTHERS:
        cases.equal(f"lists: {path}", asked(front, recorder, path), ([200, 200], 2))
    # What is no answer is kept for nobody.
    recorder.answers["/children?of=PC/1234"] = (404, b"{}")
    told = asked(front, recorder, "/children?of=PC/1234")
    cases.equal("lists: a refusal", told, ([404, 404], 2))


def anew(cases, front, recorder):
    """Whoever sends a password, because he has just commanded, sees what is there now; a wrong one
    is refused. Nothing that he is answered is kept for others."""
    recorder.answers["/children"] = (200, b"new")
    recorder.seen.clear()
    told = front.curl("/children", *ALICE)
    cases.equal("lists: anew", (told[0], told[2], len(recorder.seen)), (200, b"new", 1))
    fields = recorder.seen[0].values(b"authorization") + recorder.seen[0].values(b"x-account")
    cases.equal("lists: who asks does not come through", fields, [])
    told = front.curl("/children")[2]
    cases.equal("lists: others have what was kept", told == b"new", False)
    recorder.seen.clear()
    told = [front.curl(it, "-u", "alice:no")[0] for it in LISTS]
    cases.equal("lists: a wrong password", (set(told), len(recorder.seen)), ({401}, 0))
    told = front.curl("/children", "-H", "Authorization: Bearer x")[0]
    cases.equal("lists: another scheme", told, 401)
    told = front.curl("/read/PC/8086", "-u", "alice:no")[0]
    cases.equal("lists: what is never kept asks nobody for a password", told, 200)


def ends(cases, front, recorder):
    """A list is asked for again when its time is over."""
    first = front.curl("/children")[2]
    recorder.answers["/children"] = (200, b"later")
    time.sleep(KEPT + 1)
    cases.equal("lists: after its time", (first, front.curl("/children")[2]),
                (b'{"ok":true}', b"later"))
    # While one asks for the next answer, which takes long, others have the one before.
    time.sleep(KEPT + 0.2)
    recorder.seconds, recorder.seen[:] = 2, []
    told = many(front, "/children")
    recorder.seconds = 0
    # On a slow machine some may come after that answer's time, too.
    got = told, len(recorder.seen) <= 3
    cases.equal(f"lists: twelve after its time, {len(recorder.seen)}", got, ([200] * 12, True))


def many(front, path):
    """What twelve visitors are answered who ask at the same time."""
    told = []
    clients = [threading.Thread(target=lambda at=it: told.append(front.curl(
        path, "--interface", f"127.0.8.{at}")[0])) for it in range(1, 13)]
    for it in clients:
        it.start()
    for it in clients:
        it.join()
    return told


def at_once(cases, front, recorder):
    """Of many who ask at the same time one is passed on, while the others wait."""
    recorder.answers["/children?of=PC/10de"] = (200, b"n" * 9)
    recorder.seen.clear()
    told = many(front, "/children?of=PC/10de")
    cases.equal("lists: twelve at once", (told, len(recorder.seen)), ([200] * 12, 1))


def bounds(cases, front):
    """Lists that are not kept have one bound for all visitors together; nothing else has it."""
    told = [front.curl(f"/changes?since={it}", "--interface", f"127.0.9.{it}")[0]
            for it in range(1, 26)]
    cases.equal("lists: changes, for 25 visitors", told, [200] * 21 + [429] * 4)
    for path in ("/children?&", "/status?", "/submission/7?"):
        told = front.curl(path, "--interface", "127.0.9.40")[0]
        cases.equal(f"lists: {path} then", told, 429)
    for path in (*LISTS, "/pending", "/queue", "/submissions", "/read/PC/8086"):
        told = front.curl(path, "--interface", "127.0.9.41")[0]
        cases.equal(f"lists: {path} then", told, 200)
    told = [front.curl("/status", *ALICE, "--interface", f"127.0.9.{it}")[0] for it in range(23)]
    cases.equal("lists: those of one account, anew", told, [200] * 21 + [429] * 2)
    told = front.curl("/status", "-u", "bob:pw-bob", "--interface", "127.0.9.1")[0]
    cases.equal("lists: those of another one", told, 200)


def unread(cases, front, recorder):
    """Whoever asks for long answers and does not read them takes no share of others."""
    recorder.answers["/pci.ids"] = recorder.answers["/changes"] = (200, b"n" * 8_000_000)
    text = b"GET /pci.ids HTTP/1.1\r\nHost: a\r\nCache-Control: no-cache\r\n\r\n"
    clients = [front.connect(f"127.0.13.{it}") for it in range(1, 5)]
    for at, it in enumerate(clients):
        it.sendall(text if at % 2 else b"GET /changes HTTP/1.1\r\nHost: a\r\n\r\n")
        # Its first bytes are there.
        it.recv(1)
    told = [front.curl("/changes?since=3", "--interface", f"127.0.13.{it}")[0] for it in (9, 10)]
    told.append(front.curl("/pci.ids", "--interface", "127.0.13.9", *LIVE)[0])
    cases.equal("lists: beside answers that are not read", told, [200] * 3)
    for it in clients:
        it.close()


def test_front_lists(cases):
    needed()
    for name, tests, more in (
        ("long", (kept, anew, at_once), LONGER), ("short", (ends,), {}),
        ("bounds", (lambda cases, front, _: bounds(cases, front),), BOUNDS),
        ("unread", (unread,), {}),
    ):
        recorder = Recorder()
        with tempfile.TemporaryDirectory() as folder:
            os.chmod(folder, 0o755)
            front = Front(os.path.join(folder, name), recorder.port, **more)
            try:
                for it in tests:
                    it(cases, front, recorder)
            finally:
                front.close()
