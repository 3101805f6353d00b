"""The installed service at work, on a machine of its own: restarts while several people send
commands and ask, a list that does not fit into the unit's memory, a visitor who takes all he can
get of a registry of 100,000 items, and how long a backup stops its server."""
import json
import os
import re
import time

import program
from test_machine import ASK, ASK_SITE, HOST, KILL, machine_for, put_packages
from program import SUPPORT

PEOPLE = ("anna", "bert", "cora", "dora")
FOLDER = "/srv/visitors"

# How often the server is started anew, and killed.
TIMES = 4

# How many commands people have sent by then, and for how long this is waited for, in seconds.
COMMANDS, LONGEST = 80, 90

# Visitors find the registry away for as long as it is, and so much longer at most, in seconds.
LATE = 5.0

# The items of a registry that is full: they fit into the 4,194,304 bytes of an import.
VENDORS, DEVICES = 50_000, 1
ITEMS = VENDORS * (DEVICES + 1)

# For how many requests of one greedy visitor another one waits at most: nginx lets four lists of
# his through at once, and now and then the whole text. He sends 32 at once.
AHEAD = 8

# The remarks of a list that is not to fit, and what the server may take for it beside what it has,
# in bytes.
REMARKS, MORE = 1_000, 1 << 20


def installed(story):
    """The service with its web server and people, as docs/OPERATE.md has it."""
    put_packages(story)
    story.works("installation", "cd /srv; apt install ./pciids_*.deb ./pciids-registry_*.deb 2>&1")
    story.is_up("a new registry answers")
    for name in PEOPLE:
        told = story.works(f"an account for {name}", f"pciids-adduser {name} contributor")
        story.passwords[name] = re.search(r"password of \w+: (\w+)", told)[1]
    story.works(
        "a certificate",
        f"openssl req -x509 -newkey ec -pkeyopt ec_paramgen_curve:P-256 -nodes -days 1"
        f" -subj /CN={HOST} -addext subjectAltName=DNS:{HOST} -keyout /etc/pciids/key.pem"
        " -out /etc/pciids/certificate.pem 2> /dev/null; chgrp pciids-web /etc/pciids/key.pem;"
        " chmod 640 /etc/pciids/key.pem;"
        " sed -i '/listen \\[::\\]/d' /etc/pciids/nginx/pciids-site.conf;"
        " systemctl start pciids-web",
    )
    up = story.machine.until(f"{ASK_SITE} -f -o /dev/null https://{HOST}/")
    story.cases.equal("machine: the web server answers", up, True)


class Visitors:
    """Several people at work at once, from the start to the end of a `with`."""

    def __init__(self, story):
        self.story, self.told = story, None
        people = "".join(f"{it}:{story.passwords[it]}\n" for it in PEOPLE)
        story.machine.put(os.path.join(SUPPORT, "visitors.py"), f"{FOLDER}/visitors.py")
        story.machine.run(f"cat > {FOLDER}/people", text=people.encode())
        story.machine.run(f"cp /etc/pciids/certificate.pem {FOLDER}; rm -f {FOLDER}/stop")

    def __enter__(self):
        run = f"/usr/bin/python3 -B {FOLDER}/visitors.py {FOLDER} > {FOLDER}/errors 2>&1"
        self.story.machine.run(f"rm -f {FOLDER}/told.json; {run} < /dev/null &")
        time.sleep(1.5)
        return self

    def __exit__(self, *_):
        time.sleep(0.5)
        self.story.machine.run(f"touch {FOLDER}/stop")
        self.story.machine.until(f"test -e {FOLDER}/told.json")
        told = self.story.machine.run(f"cat {FOLDER}/told.json")[1]
        self.story.same("the visitors", f"cat {FOLDER}/errors", "")
        self.told = json.loads(told)


def stands(story):
    """All submissions of the registry: number, author, path and name."""
    found, more = [], ""
    while True:
        told = story.machine.run(f"{ASK}/pending?format=text{more}")[1]
        rows = [it.split(" ", 4) for it in told.splitlines()]
        found += [(int(num), author, path, name) for num, author, _, path, name in rows]
        if len(rows) < 100:
            return found
        more = f"\\&after={rows[-1][0]}"


def restarts(story):
    """Restarts by hand and deaths of the server, beneath people at work: what was acknowledged
    stands, once each, and nobody hears anything else than that the registry is away."""
    story.machine.run("systemctl stop pciids-publish.timer")
    longest, number, end = 0.0, 0, time.monotonic() + LONGEST
    with Visitors(story) as visitors:
        while number < TIMES or len(stands(story)) < COMMANDS and time.monotonic() < end:
            start = time.monotonic()
            if number % 2:
                story.works("the server killed", KILL)
            else:
                story.works("the server started anew", "systemctl restart pciids")
            story.is_up("the server is back beneath visitors")
            longest, number = max(longest, time.monotonic() - start), number + 1
            time.sleep(0.7)
    told = visitors.told
    rows = told["commands"]
    told_twice = [it for it in rows if len(it[3]) > 1]
    counts = f"{len(rows)} commands, {told['unanswered']} tries without an answer"
    away = f"away for {told['gap']:.1f} s, the server for {longest:.1f} s"
    print(f"machine_load: {counts}; {away} at most")
    is_enough = len(rows) > 20 and told["unanswered"] > 4 and len(told_twice) > 4
    story.cases.equal(f"restarts: {counts}", is_enough, True)
    story.cases.equal("restarts: odd answers", told["odd"], [])
    changed = [it for it in rows if len(set(it[3])) != 1]
    story.cases.equal("restarts: a key has one number", changed, [])
    want = sorted((it[3][0], it[0], it[1], it[2]) for it in rows)
    story.cases.equal("restarts: what was acknowledged stands, once each", stands(story), want)
    story.cases.equal(f"restarts: {away}", told["gap"] < 2 * longest + LATE, True)


def full(folder):
    """The file of a registry that has as many items as one may have."""
    path = os.path.join(folder, "full.ids")
    with open(path, "w", encoding="ascii") as file:
        for vendor in range(VENDORS):
            file.write(f"{vendor:04x}  Vendor {vendor}\n")
            for device in range(DEVICES):
                file.write(f"\t{device:04x}  Device {vendor}\n")
    return path


def filled(story, folder):
    story.machine.put(full(folder), "/srv/full.ids")
    send = f"{ASK}/import?format=text -H 'X-Account: root' --data-binary @/srv/full.ids"
    told = story.machine.run(send, within=600)[1].strip()
    story.cases.equal("machine: a full registry", told, f"ok added={ITEMS} renamed=0 same=0")


def backup(story):
    """How long people find the registry away while it is copied: not much longer than a restart
    with its copy takes."""
    start = time.monotonic()
    story.works("a restart of a full one", "systemctl restart pciids")
    story.works("a copy of a full one", "cp -r /var/lib/pciids /srv/copy; sync /srv/copy/*")
    story.is_up("the full registry is back")
    restart = time.monotonic() - start
    with Visitors(story) as visitors:
        start = time.monotonic()
        story.works("a backup beneath visitors", "systemctl start pciids-backup")
        took = time.monotonic() - start
    told = visitors.told
    size = story.machine.run("du -m /var/lib/pciids | cut -f 1")[1].strip()
    gap = f"{told['gap']:.1f} s, {size} MB, beside {restart:.1f} s of a restart"
    print(f"machine_load: a backup of {ITEMS} items, {took:.1f} s: away for {gap}")
    story.cases.equal("backup: visitors met the stop", told["unanswered"] > 0, True)
    story.cases.equal("backup: odd answers", told["odd"], [])
    story.cases.equal(f"backup: away for {gap}", told["gap"] < 3 * restart + LATE, True)
    copied = "zcat /var/backups/pciids/2*/pci.ids.gz | grep -vc '^#'"
    story.same("the copy has all items", copied, str(ITEMS))


def greedy(story):
    """A visitor who asks for all that takes the registry long, 32 at once, and another one: nobody
    waits for more than a few of his requests, however long the registry takes for one here."""
    for name in ("greedy.py", "visitors.py"):
        story.machine.put(os.path.join(SUPPORT, name), f"{FOLDER}/{name}")
    run = f"cp /etc/pciids/certificate.pem {FOLDER};"
    run += f" /usr/bin/python3 -B {FOLDER}/greedy.py {FOLDER} 2>&1"
    status, said = story.machine.run(run, within=600)
    story.cases.equal("greedy: the visitors", (status, said), (0, ""))
    told = json.loads(story.machine.run(f"cat {FOLDER}/greedy.json")[1])
    ahead, seconds = sorted(told["ahead"]), sorted(told["seconds"])
    half = len(ahead) // 2
    waits = f"{ahead[half]} of his, at most {ahead[-1]}, {seconds[half]:.3f} s"
    print(f"machine_load: beside a greedy visitor a question waits for {waits}: {told['codes']}")
    story.cases.equal("greedy: others are answered", {*told["told"]}, {200})
    story.cases.equal(f"greedy: they wait for {ahead}", ahead[half] <= AHEAD, True)
    story.cases.equal("greedy: he was answered, and refused", {*told["codes"]}, {"200", "429"})


def too_long(story):
    """A list that does not fit into the memory of LimitDATA= is refused; the server goes on. The
    limit is what the unit says; it is lowered for a proposal with a thousand of the longest
    remarks."""
    send = f"{ASK}/comment#[1-{REMARKS}] -H 'X-Account: root' --data-binary @/srv/remark"
    told = story.works(
        "a thousand remarks",
        f"(printf num=1\\&text=; head -c 4000 /dev/zero | tr '\\0' x) > /srv/remark; {send}",
    )
    story.cases.equal("too long: the remarks", told, '{"ok":true}' * REMARKS)
    story.works("a server that was asked for nothing", "systemctl restart pciids")
    story.is_up("it is there before a long list")
    show = "systemctl show -p MainPID --value pciids"
    pid = story.machine.run(show)[1].strip()
    limit = f"prlimit --pid {pid} --data"
    limits = f"awk '/^Max data size/ {{ print $4, $5 }}' /proc/{pid}/limits"
    story.same("too long: the unit's limit", limits, f"{768 << 20} {768 << 20}")
    size = story.machine.run(f"awk '/^VmData/ {{ print $2 }}' /proc/{pid}/status")[1]
    story.works("a lower limit", f"{limit}={(int(size) << 10) + MORE}:{768 << 20}")
    told = story.machine.run(f"{ASK}/submission/1 -w ' %{{http_code}}' | tail -c 80")[1].strip()
    is_refused = told == "000" or '"refused":16' in told
    story.cases.equal(f"too long: a list is refused: {told}", is_refused, True)
    story.same("too long: the server goes on", f"{ASK}/pending -o /dev/null -w %{{http_code}}",
               "200")
    story.same("too long: it is the same one", show, pid)
    story.works("the unit's limit again", f"{limit}={768 << 20}")
    rows = f"{ASK}/submission/1 | grep -o xxxx | wc -l"
    story.same("too long: it is enough for that list", rows, str(REMARKS * 1_000))


def test_machine_load(cases):
    program.need("curl", "nginx-light", "openssl", "sqlite3", "systemd-container")
    with machine_for(cases) as (story, folder):
        installed(story)
        restarts(story)
        too_long(story)
        filled(story, folder)
        greedy(story)
        backup(story)
