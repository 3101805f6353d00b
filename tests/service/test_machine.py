"""The packages on a machine of their own: from `apt install` to a moderated name in the published
file, then stops, backup, restore, upgrade, removal and purge. Each example of docs/OPERATE.md and
docs/FAILURES.md is run on the way."""
import contextlib
import os
import re
import tempfile
import time

import built_packages
import program
from joining_unit import password, verifier
from machine_room import Machine
from program import SUPPORT, TOP

HOST = "pciids.example.org"
UNITS = "http join publish sign announce backup restore@x standby web failed@x"
UNITS = ["pciids"] + [f"pciids-{it}" for it in UNITS.split()]
# The most that `systemd-analyze security` may say of a unit.
EXPOSURE = 1.5
ASK = "curl -s --max-time 60 --unix-socket /run/pciids/http.sock http://localhost"
ASK_SITE = (
    f"curl -s --max-time 60 --cacert /etc/pciids/certificate.pem"
    f" --resolve {HOST}:443:127.0.0.1 --resolve {HOST}:80:127.0.0.1"
)
IS_UP = f"{ASK}/pending"
MARK = "/run/pciids/stopped"
HOLD = "/usr/lib/pciids-registry/hold"
CERTIFICATE = "/usr/lib/pciids-registry/certificate"
KILL = "systemctl kill --kill-whom=main -s KILL pciids"
# A publishing that is under way may have asked the registry before.
PUBLISH = "systemctl stop pciids-publish; systemctl start pciids-publish"
# The options of a text that root imports.
SEND = " -f -H 'X-Account: root' --data-binary @-"
MIRROR = ("mkdir -p /srv/signed && HOME=/srv /usr/lib/pciids-registry/mirror --key"
          f" /var/lib/pciids-public/key.gpg --history https://{HOST} /srv/signed > /dev/null")
# Forty connections to the socket of the registry that are closed at some point of a request.
LEFT = r"""
import socket
command = b"POST /submit HTTP/1.1\r\nContent-Length: 9\r\n\r\na=b"
for sent in (b"", b"\r\n\r\n", b"GET /pen", command):
    for _ in range(10):
        with socket.socket(socket.AF_UNIX) as client:
            client.connect("/run/pciids/http.sock")
            client.sendall(sent)
"""

PAGES = ("docs/OPERATE.md", "docs/FAILURES.md")


def examples():
    """The blocks of shell commands of the pages, each with the heading above it."""
    text = ""
    for name in PAGES:
        with open(os.path.join(TOP, name), encoding="utf-8") as page:
            text += page.read()
    for section in re.split(r"^##+ ", text, flags=re.M)[1:]:
        for block in re.findall(r"^```sh\n(.*?)^```$", section, re.S | re.M):
            yield section.partition("\n")[0], block


class Story:
    """What the cases share: the machine, the passwords that were printed, and what is compared."""

    def __init__(self, cases, machine):
        self.cases, self.machine, self.passwords = cases, machine, {}
        self.examples = list(examples())

    def example(self, heading, folder="/srv", **named):
        """Runs the next block of a section of the document. Returns what it prints."""
        found = next((it for it in self.examples if it[0] == heading), None)
        self.cases.equal(f"machine: an example of '{heading}'", found is not None, True)
        if not found:
            return ""
        self.examples.remove(found)
        block = found[1]
        for old, new in named.items():
            block = block.replace(old, new)
        return self.works(f"the example of '{heading}'", f"set -e; cd {folder}\n{block}")

    def same(self, name, command, want, status=0):
        """A command of the machine prints this and ends so."""
        got = self.machine.run(command)
        self.cases.equal(f"machine: {name}", (got[0], got[1].strip()), (status, want))

    def works(self, name, command):
        """A command of the machine ends with status 0. Returns what it prints."""
        status, told = self.machine.run(command)
        self.cases.equal(f"machine: {name}", (status, told if status else ""), (0, ""))
        return told

    def fails(self, name, command):
        status, told = self.machine.run(command)
        got = (status != 0, told if not status else "")
        self.cases.equal(f"machine: {name} is refused", got, (True, ""))

    def is_up(self, name):
        """The server answers."""
        self.cases.equal(f"machine: {name}", self.machine.until(IS_UP), True)

    def post(self, account, path, form):
        words = f"{ASK_SITE} -u {account}:{self.passwords[account]} -d '{form}'"
        return self.machine.run(f"{words} 'https://{HOST}{path}?format=text'")[1].strip()


def put_packages(story):
    for name in ("pciids", "pciids-registry"):
        path = built_packages.package(name)
        story.machine.put(path, f"/srv/{os.path.basename(path)}")


def install(story):
    put_packages(story)
    story.example("Install")
    story.is_up("a new registry answers")
    story.same("the way to its port is up", "systemctl is-active pciids-http", "active")
    units = "pciids.service pciids-http.socket pciids-publish.timer pciids-backup.timer"
    story.same("what is enabled", f"systemctl is-enabled {units}", "\n".join(["enabled"] * 4))
    enabled = "systemctl is-enabled pciids-web"
    story.same("the web server waits for a certificate", enabled, "disabled", 1)
    story.same("no unit failed", "systemctl --failed --plain --no-legend", "")
    story.same(
        "who owns what",
        "stat -c '%A %U:%G %n' /run/pciids/http.sock /run/pciids/join.sock /etc/pciids/accounts"
        " /etc/pciids/accounts/passwords /var/lib/pciids"
        " /var/lib/pciids/registry.db /var/backups/pciids",
        "srw-rw---- root:pciids-web /run/pciids/http.sock\n"
        "srw-rw---- root:pciids-web /run/pciids/join.sock\n"
        "drwxr-s--- pciids-join:pciids-web /etc/pciids/accounts\n"
        "-rw-r----- pciids-join:pciids-web /etc/pciids/accounts/passwords\n"
        "drwxr-x--- pciids:pciids /var/lib/pciids\n"
        "-rw-r----- pciids:pciids /var/lib/pciids/registry.db\n"
        "drwxr-x--- pciids:pciids /var/backups/pciids",
    )


def by(user):
    """What stands before a command that another user runs."""
    return f"setpriv --reuid={user} --regid=$(id -g {user}) --clear-groups"


def sandbox(story):
    for unit in UNITS:
        told = story.machine.run(f"systemd-analyze security --no-pager {unit}.service | tail -1")[1]
        found = re.search(r": ([0-9.]+) ", told)
        exposed = float(found[1]) if found else 10.0
        story.cases.equal(f"machine: {unit} is exposed at {exposed}", exposed <= EXPOSURE, True)
    units = "dpkg -L pciids-registry | grep -E 'system/[^/]*\\.(service|socket|timer)$'"
    faults = f"systemd-analyze verify --man=no $({units}) 2>&1 | grep -i pciids"
    story.same("the units have no fault", faults, "", 1)
    ask = ASK + "/account -H 'X-Account: root' -d 'who=eve&rank=3'"
    story.fails("the port, from the host", "curl -s --max-time 5 http://127.0.0.1:8086/pending")
    for user in ("www-data", "nobody", "pciids"):
        story.works(f"something, by {user}", f"{by(user)} true")
        story.fails(f"the socket, by {user}", f"{by(user)} {ask}")
    story.works("the socket, by the web server", f"{by('pciids-web')} {IS_UP}")
    as_root = "ps -eo user:20,args | grep -c '^root .*[/ ]pciids '"
    story.same("nothing of the service runs as root", as_root, "0", 1)


def mailed(story):
    """The program of docs/OPERATE.md that sends a letter, in the sandbox of its unit. Lines of a
    letter end with CR LF: many servers refuse others."""
    with open(os.path.join(TOP, "docs", "OPERATE.md"), encoding="utf-8") as page:
        example = re.search(r"^```\n(#!/bin/sh\n# /etc/pciids/on-failure.*?)^```$", page.read(),
                            re.S | re.M)[1]
    story.machine.run("cat > /etc/pciids/on-failure; chmod 755 /etc/pciids/on-failure",
                      text=example.replace("@NAME", f"@{HOST}").encode())
    story.machine.put(os.path.join(SUPPORT, "mail_server.py"), "/srv/mail_server.py")
    story.machine.run("echo 127.0.0.1 mail.example.org >> /etc/hosts;"
                      " python3 -B /srv/mail_server.py /srv/letter > /dev/null 2>&1 < /dev/null &")
    listens = story.machine.until("ss -ltn | grep -q '127.0.0.1:25 '")
    story.cases.equal("machine: a mail server", listens, True)
    story.works("a report", "systemctl start pciids-failed@pciids-backup")
    letter = story.machine.run("sed -n '/^DATA/,/^\\./p' /srv/letter | cat -A")[1].split("\n")
    want = ["DATA", f"From: pciids@{HOST}", "To: you@example.org", "Subject: pciids-backup failed",
            "", "See journalctl -u pciids-backup", "."]
    story.cases.equal("machine: the letter", letter, [it + "^M$" for it in want] + [""])
    story.works("no more letters", "rm /etc/pciids/on-failure; sed -i '/mail.example/d' /etc/hosts")


def accounts(story):
    told = story.example("Accounts")
    for name, rank in (("anna", "administrator"), ("carl", "contributor")):
        found = re.search(
            rf"^account {name}: is {rank} now\npassword of {name}: ([0-9a-f]{{32}})\n"
            rf"It is shown this once. Log in as {name}; nothing has to be reloaded.\n",
            told,
            re.M,
        )
        story.cases.equal(f"machine: an account for {name}", found is not None, True)
        story.passwords[name] = found[1] if found else "none"
    told = story.example("Accounts")
    want = "anna 3 open\ncarl 0 open\ncarl: is locked now\ncarl: is open now\n"
    story.cases.equal("machine: the list, a lock and its end", told, want)
    again = "account carl: was contributor before\npassword of carl: is as before"
    story.same("the same account again", "pciids-adduser carl 0", again)
    told = story.works("a new password", "pciids-adduser --new-password carl contributor")
    story.passwords["carl"] = re.search(r"password of carl: ([0-9a-f]+)", told)[1]
    story.same("a line for each", "cut -d: -f1 /etc/pciids/accounts/passwords", "anna\ncarl")
    mode = "stat -c '%A %U:%G' /etc/pciids/accounts/passwords"
    story.same("the passwords stay whose they are", mode, "-rw-r----- pciids-join:pciids-web")
    for words in ("root 3", "Anna 1", "x 4", "-x", "anna", f"{'a' * 33} 0"):
        story.same(f"pciids-adduser {words}", f"pciids-adduser {words} > /dev/null 2>&1", "", 2)


def web(story):
    """The web server, with a certificate that the test makes."""
    story.works(
        "a certificate",
        f"cd /srv; openssl req -x509 -newkey ec -pkeyopt ec_paramgen_curve:P-256 -nodes -days 1"
        f" -subj /CN={HOST} -addext subjectAltName=DNS:{HOST} -keyout privkey.pem"
        " -out fullchain.pem 2> /dev/null",
    )
    # The machine has no IPv6, and no nginx of its own that runs.
    edit = "sed -i '/listen \\[::\\]/d' /etc/pciids/nginx/pciids-site.conf"
    story.works("a site without IPv6", edit)
    story.example("The web server")
    up = story.machine.until(f"{ASK_SITE} -f -o /dev/null https://{HOST}/")
    story.cases.equal("machine: the web server answers", up, True)
    story.fails("another temporary certificate", f"{CERTIFICATE} --temporary {HOST} 2> /dev/null")
    story.example("The web server")
    has = f"{ASK_SITE.replace('/etc/pciids/certificate', '/srv/fullchain')} -f -o /dev/null"
    up = story.machine.until(f"{has} https://{HOST}/")
    story.cases.equal("machine: it has taken the other certificate", up, True)
    story.works("as certbot has it taken", f"RENEWED_LINEAGE=/srv {CERTIFICATE}")
    story.same(
        "who may read the key",
        "stat -c '%A %U:%G %n' /etc/pciids/*",
        "drwxr-s--- pciids-join:pciids-web /etc/pciids/accounts\n"
        "-rw-r--r-- root:root /etc/pciids/certificate.pem\n"
        "-rw-r--r-- root:root /etc/pciids/host.conf\n"
        "-rw-r--r-- root:root /etc/pciids/join.conf\n"
        "-rw-r----- root:pciids-web /etc/pciids/key.pem\n"
        "drwxr-xr-x root:root /etc/pciids/nginx",
    )


def joined(story):
    """A stranger joins by himself, and an administrator of the host keeps up with that."""
    ask = f"{ASK_SITE} -o /dev/null -w '%{{http_code}}' -H 'Origin: https://{HOST}'"
    sent = f"-d name=dora --data-urlencode 'verifier={verifier('dora')}' https://{HOST}/join"
    story.same("a stranger joins", f"{ask} {sent}", "200")
    mode = "stat -c '%A %U:%G' /etc/pciids/accounts/passwords"
    story.same("and the passwords stay closed", mode, "-rw-r----- pciids-join:pciids-web")
    login = f"-u dora:{password()} -d stays=yes https://{HOST}/session"
    story.same("logs in", f"{ask} -c /srv/cookies {login}", "200")
    # The registry knows the account, and no submission of this number.
    command = f"-d num=9 https://{HOST}/withdraw"
    by_session, by_password = "-b /srv/cookies -H 'X-As: dora'", f"-u dora:{password()}"
    story.same("sends a command by a session", f"{ask} {by_session} {command}", "404")
    logged = "grep -q '^127.0.0.1 - dora \\[.*\"POST /withdraw' /var/log/pciids-web/access.log"
    story.cases.equal("machine: which the log says of", story.machine.until(logged), True)
    story.same("and by a password", f"{ask} {by_password} {command}", "404")
    story.same("a name that is there", f"{ask} {sent.replace('dora', 'anna')}", "409")
    since = time.strftime("%Y-%m-%d", time.gmtime())
    want = f"anna 3 open\ncarl 0 open\ndora 0 open joined {since}"
    story.same("the list of accounts", "pciids-adduser --list", want)
    story.fails("a rank for whom nobody knows", "pciids-adduser dora moderator 2>&1")
    story.same("a lock", "pciids-adduser --lock dora", "dora: is locked now")
    ways = f"{by_session} {command}", f"{by_password} {command}", login
    got = [story.machine.run(f"{ask} {it}")[1] for it in ways]
    story.cases.equal("machine: a locked account", got, ["401"] * 3)
    story.same("and open again", "pciids-adduser --unlock dora", "dora: is open now")
    story.same("it is", f"{ask} {login}", "200")
    told = story.works("an invitation", "pciids-invite")
    is_link = re.fullmatch(rf"https://{HOST}/join#invite=[0-9a-f]{{32}}\n", told) is not None
    story.cases.equal("machine: the link of an invitation", is_link, True)
    sent = f"-d name=fred -d invite={told.strip()[-32:]}"
    sent += f" --data-urlencode 'verifier={verifier('fred')}' https://{HOST}/join"
    story.works("by invitation alone", "sed -i 's/^door = .*/door = invitation/'"
                " /etc/pciids/join.conf")
    story.same("who has one joins", f"{ask} {sent}", "200")
    story.same("once", f"{ask} {sent.replace('fred', 'gina')}", "403")
    story.same("it is used", "pciids-invite --list", "good: 0, used: 1")
    as_web = f"{by('pciids-join')} cat /etc/pciids/key.pem"
    story.fails("the key, by who joins people", f"{as_web} 2>&1")


def moderated(story):
    """From a submission to a name in the published file."""
    page = f"{ASK_SITE} -H 'Accept: text/html' -o /dev/null -w '%{{http_code}} %{{redirect_url}}'"
    address = f"{HOST}/vendors"
    story.same("http leads to https", f"{page} http://{address}", f"301 https://{address}")
    told = story.post("carl", "/submit", "path=PC/8086&name=Intel")
    story.cases.equal("machine: a submission", told, "ok 1")
    told = story.post("carl", "/approve", "num=1")
    story.cases.equal("machine: a contributor does not decide", told, "refused 5 RankTooLow")
    story.cases.equal("machine: an approval", story.post("anna", "/approve", "num=1"), "ok")
    story.works("publishing", PUBLISH)
    text = f"{ASK_SITE} https://{HOST}/pci.ids"
    lines = "sed -e 's/[0-9.]\\{10\\}$/DAY/' -e 's/    20.*/ TIME/'"
    want = "# PCI ID registry\n#\n#\tVersion: DAY\n#\tDate: TIME\n#\n8086  Intel"
    story.same("the published file", f"{text} | {lines}", want)
    story.same("the page of the vendor", f"{page} https://{HOST}/item/PC/8086", "200")
    story.same("the page of no vendor", f"{page} https://{HOST}/item/PC/8087", "404")
    story.same("a page of nothing", f"{page} https://{HOST}/nothing", "404")
    where = f"{ASK_SITE} https://{HOST}/item/PC/8086 | grep -c '<bdi>Intel</bdi></h1>'"
    story.same("the vendor's name is in it", where, "1")
    row = "PC/8086.><code>8086</code> <bdi>Intel"
    where = f"{ASK_SITE} --compressed https://{HOST}/vendors | grep -c '{row}'"
    story.same("the list of vendors has it", where, "1")


def linked(story):
    """What nginx may read and the user pciids may not is shown to nobody by a link of that user.
    And no user of the host takes the locks of publishing."""
    path = "pci.ids.bz2.asc"
    for target in ("/etc/pciids/key.pem", "/etc/pciids/accounts/passwords"):
        link = f"{by('pciids')} ln -sfT {target} /var/lib/pciids-public/{path}"
        story.works(f"a link to {target}", link)
        shown = f"{ASK_SITE} -o /dev/null -w '%{{http_code}}' https://{HOST}/{path}"
        story.same(f"the link to {target} is not shown", shown, "403")
    story.machine.run(f"rm /var/lib/pciids-public/{path}")
    for it in ("public", "mirror"):
        lock = f"flock -n /var/lib/pciids-{it} true 2> /dev/null"
        story.works(f"the lock of {it} is free", f"{by('pciids')} {lock}")
        story.fails(f"the lock of {it}, by another user", f"{by('nobody')} {lock}")


def stops(story):
    """A stop is a stop, and whatever is killed, the server comes back."""
    hold = "systemctl is-active pciids"
    story.works("a stop by hand", "systemctl stop pciids")
    story.machine.run(IS_UP)
    story.works("publishing has no fault to report then", "systemctl start pciids-publish")
    story.same("neither a request nor publishing starts it", hold, "inactive", 3)
    story.works("a start by hand ends when it answers", f"systemctl start pciids && {IS_UP} -f")
    at_once = f"systemctl restart pciids && {IS_UP} -f"
    for number in range(3):
        story.works(f"so does a restart, {number}", at_once)
    place = hang(story, "pciids-publish")
    under_way = story.machine.until("pgrep -x sleep")
    story.cases.equal("machine: a publishing is under way", under_way, True)
    story.works("a job takes hold", f"{HOLD} take test")
    failed = "systemctl is-failed pciids-publish"
    story.same("the publishing ends without a fault", failed, "inactive", 1)
    story.machine.run(f"rm -r {place}; systemctl daemon-reload")
    story.machine.run(f"{IS_UP}; systemctl start pciids")
    story.works("nor has it while a job has it stopped", "systemctl start pciids-publish")
    story.same("nothing starts the server while a job has it stopped", hold, "inactive", 3)
    story.same("another job does not begin", "systemctl start pciids-backup 2> /dev/null", "", 1)
    story.same("nor does it end the hold of the first", f"readlink {MARK}", "test running")
    story.works("the job lets go", f"{HOLD} release test")
    story.is_up("the server is back")
    kill_backup(story)
    story.works("the server killed", KILL)
    story.is_up("it was started again")


def left(story):
    """Requests that nginx drops before they are whole, as of visitors who leave, hold nobody up:
    the server serves one connection at a time, and learns that it was closed."""
    story.machine.run("cat > /srv/left.py", text=LEFT.encode())
    story.works("requests that are left", "/usr/bin/python3 /srv/left.py")
    story.works("a question after them", f"{ASK}/pending -f")


def hang(story, unit):
    """Starts a unit that hangs before its work. Returns the folder that makes it hang."""
    place = f"/run/systemd/system/{unit}.service.d"
    story.machine.run(
        f"mkdir -p {place};"
        f" printf '[Service]\\nExecStartPre=/bin/sleep 600\\n' > {place}/hang.conf;"
        f" systemctl daemon-reload; systemctl start --no-block {unit}"
    )
    return place


def kill_backup(story):
    """A backup that hangs in its copy, with the server stopped, is killed."""
    place = hang(story, "pciids-backup")
    held = story.machine.until(f"test -L {MARK} && pgrep -x sleep")
    story.cases.equal("machine: a backup has the server stopped", held, True)
    story.same("it does not run as root", "ps -o user= -C sleep", "pciids")
    story.works("the backup killed", "systemctl kill -s KILL pciids-backup")
    story.is_up("the server is back after the backup was killed")
    story.same("no mark is left", f"ls {MARK} 2> /dev/null", "", 2)
    story.machine.run(f"rm -r {place}; systemctl daemon-reload; systemctl reset-failed")


def kept(story):
    """A backup of a running service, and back."""
    revision = story.machine.run(f"{ASK}/status?format=text | sed -n 's/^revision //p'")[1]
    story.works("a backup", "systemctl start pciids-backup")
    story.is_up("the server is back after a backup")
    copy = story.machine.run("ls /var/backups/pciids")[1].strip()
    files = "history.tar.gz\npci.ids.gz\nregistry.db-wal.gz\nregistry.db.gz"
    story.same("what a copy is", f"ls /var/backups/pciids/{copy}", files)
    told = story.post("carl", "/submit", "path=PC/10ec&name=Realtek")
    story.cases.equal("machine: a later name", told, "ok 2")
    story.cases.equal("machine: it is approved", story.post("anna", "/approve", "num=2"), "ok")
    story.works("it is published", PUBLISH)
    names = f"{ASK_SITE} https://{HOST}/pci.ids | grep -v '^#'"
    story.same("both names", names, "10ec  Realtek\n8086  Intel")

    story.machine.run("mkdir /var/backups/pciids/2000-01-01T000000Z; cd /var/backups/pciids/2000*;"
                      " echo nothing | gzip > registry.db.gz; chmod -R a+rX .")
    hook = "/etc/pciids/on-failure"
    story.machine.run(f"printf '#!/bin/sh\\necho told of $1\\n' > {hook}; chmod 755 {hook}")
    story.fails("a copy that does not open", "pciids-restore 2000-01-01T000000Z 2> /dev/null")
    name = "$(systemd-escape --template=pciids-restore@.service 2000-01-01T000000Z)"
    said = story.machine.until(f"journalctl -q | grep -qF \"told of {name}\"")
    story.cases.equal("machine: the operator's program was told of it", said, True)
    story.machine.run(f"rm {hook}")
    story.is_up("the server goes on after it")
    story.same("nothing of it is left", "ls /var/lib/pciids | grep -c restored", "0", 1)
    text = "# PCI ID registry\n10ec  Realtek\n8086  Intel"
    story.same("the registry is as before", f"{ASK}/pci.ids", text)
    story.fails("a copy that is none", "pciids-restore ../../etc 2> /dev/null")

    story.example("Backup and restore")
    told = story.example("Backup and restore", **{"2026-11-25T031700Z": copy})
    story.cases.equal("machine: what a copy has", told, f"ok 1\n{revision}")
    odd = '"/var/lib/pciids/replaced.2999\';odd;\'Z"'
    story.works("a name that no restore gives", f"{by('pciids')} mkdir {odd}")
    told = story.example("Backup and restore", **{"2026-11-25T031700Z": copy})
    story.cases.equal("machine: it is not printed for root", "odd" in told, False)
    story.machine.run(f"rmdir {odd}")
    story.cases.equal("machine: the copies are listed", copy in told.split(), True)
    story.is_up("the server is back after a restore")
    story.same("the registry is as it was", f"{ASK}/pci.ids", "# PCI ID registry\n8086  Intel")
    story.works("publishing after a restore", PUBLISH)
    story.same("the later name is not published any more", names, "8086  Intel")
    back = told.partition("come back with\n")[2].partition("Numbers")[0]
    told = story.works("what was approved since the copy comes back", f"set -e\n{back}")
    story.cases.equal("machine: one name", "ok added=1 renamed=0 same=1" in told, True)
    story.same("the registry has it again", f"{ASK}/pci.ids", text)
    stopped = f"systemctl stop pciids; pciids-restore {copy}; systemctl start pciids; {IS_UP} -f"
    said = "The server is stopped, as it was before: systemctl start pciids"
    told = story.works("a restore while the server is stopped", stopped)
    story.cases.equal("machine: it says how to start it", said in told.split("\n"), True)
    story.is_up("the server is back after that")
    story.works("publishing after that", PUBLISH)
    story.machine.run("rm -r $(ls -d /var/lib/pciids/replaced.* | tail -1)")
    story.same("the published file follows", names, "8086  Intel")
    former = "ls /var/lib/pciids/replaced.*"
    files = "published.ids\nregistry.db\nregistry.db-wal"
    story.same("the former registry is kept", former, files)
    story.machine.run("systemctl reset-failed; rm -r /var/backups/pciids/2000*")


def upgraded(story, folder):
    """Another version: the registry, the passwords and edited files stay."""
    for name in ("pciids", "pciids-registry"):
        newer = built_packages.repacked(name, "0.1.0+next", folder)
        story.machine.put(newer, f"/srv/next/{name}_next.deb")
    was = story.machine.run("systemctl show -p MainPID --value pciids")[1]
    story.example("Upgrade", "/srv/next")
    story.is_up("the server answers after an upgrade")
    now = story.machine.run("systemctl show -p MainPID --value pciids")[1]
    story.cases.equal("machine: it was started again", was != now, True)
    story.same("the registry stays", f"{ASK}/pci.ids", "# PCI ID registry\n8086  Intel")
    edited = "grep -c 'listen \\[::\\]' /etc/pciids/nginx/pciids-site.conf"
    story.same("an edited file stays", edited, "0", 1)
    unedited = "tail -1 /etc/pciids/nginx/pciids-limits.conf"
    story.same("an unedited one is the new one", unedited, "# Another version.")
    active = "systemctl is-active pciids-http pciids-web"
    story.same("the web server goes on after an upgrade", active, "active\nactive")
    up = story.machine.until(f"{ASK_SITE} -f -o /dev/null https://{HOST}/pending")
    story.cases.equal("machine: the site answers after an upgrade", up, True)
    told = story.post("carl", "/submit", "path=PC/10de&name=NVIDIA")
    story.cases.equal("machine: passwords stay", told, "ok 2")
    story.example("Upgrade")
    story.is_up("the server answers after the way back")
    story.same("of which nothing is lost", f"{ASK}/status?format=text | tail -1", "submissions 2")
    story.same("the file is the former one", f"{unedited} | grep -c Another", "0", 1)


def imported(story):
    """The names of Debian's file, by the other example of the installation."""
    told = story.example("Install")
    found = re.search(r"ok added=(\d+) renamed=1 same=0\n", told)
    added = int(found[1]) if found else 0
    story.cases.equal(f"machine: an import says {told!r}", added > 30_000, True)
    intel = f"{ASK}/read/PC/8086?format=text"
    story.same("a name of it", intel, "Intel Corporation")


def distributed(story):
    """What others fetch from the site: update-pciids of pciutils."""
    story.works("publishing the import", PUBLISH)
    story.machine.run(
        f"echo 127.0.0.1 {HOST} >> /etc/hosts; mkdir -p /srv/copy;"
        " echo cacert=/etc/pciids/certificate.pem > /srv/.curlrc;"
        f" sed -e 's|^SRC=.*|SRC=https://{HOST}/pci.ids|' -e 's|^DEST=.*|DEST=/srv/pci.ids|'"
        " /usr/sbin/update-pciids > /srv/update"
    )
    story.works("update-pciids", "HOME=/srv sh /srv/update -q 2>&1")
    public = "/var/lib/pciids-public/pci.ids"
    story.works("it has the published file", f"cmp /srv/pci.ids {public} 2>&1")
    story.same("lspci takes it", "lspci -i /srv/pci.ids 2>&1 > /dev/null", "")


def signed(story):
    """The operator's key and program: what is published is signed, and passed on."""
    hook, public = "/etc/pciids/on-publish", "/var/lib/pciids-public"
    story.machine.run(f"printf '#!/bin/sh\\nid -un; sed s/^/heard:/\\n' > {hook}; chmod 755 {hook}")
    story.example("Signatures")
    revocation = "stat -c %a /root/signing-key.rev; grep -c '^:-----BEGIN' /root/signing-key.rev"
    story.same("its revocation is kept, for root alone", revocation, "600\n1")
    is_signed = f"cd {public} && gpgv -q --keyring ./key.gpg pci.ids.asc pci.ids 2> /dev/null"
    story.cases.equal("machine: the published file is signed", story.machine.until(is_signed), True)
    story.fails("the key, by publishing", f"{by('pciids')} cat /etc/pciids/signing-key 2>&1")
    story.works("a mirror that verifies", f"{MIRROR} 2>&1")
    same = f"cmp {public}/pci.ids /srv/signed/pci.ids"
    story.works("it has the published file, signed", same)
    told = story.post("carl", "/submit", "path=PC/8086/7d8a&name=Imaginary+Controller")
    number = told.split()[-1]
    story.cases.equal("machine: a name", story.post("anna", "/approve", f"num={number}"), "ok")
    story.works("it is published", PUBLISH)
    heard = "journalctl -q -u pciids-announce | grep -q 'heard:.*\"now\":\"Imaginary Controller\"'"
    story.cases.equal("machine: it is passed on", story.machine.until(heard), True)
    who = "journalctl -q -u pciids-announce -o cat | head -1"
    story.same("by a user without rights", who, "pciids-announce")
    story.machine.run(f"rm {hook}")


def replaced(story):
    """The files of the registry are moved away while it runs: what the operator sees, and does. And
    who stops publishing is heard of: a server that ends at each start."""
    hook, files = "/etc/pciids/on-failure", "/var/lib/pciids/registry.db*"
    story.machine.run(f"printf '#!/bin/sh\\necho told of $1\\n' > {hook}; chmod 755 {hook}")
    heard = "journalctl -q -o cat -u 'pciids-failed@*' --since '{}' | grep -q 'told of pciids-pub'"
    begun = story.machine.run("date '+%F %T'")[1].strip()
    text = story.machine.run(f"{ASK}/pci.ids | sha256sum")[1]
    alone(story)
    story.works("the files are moved away", f"mkdir /srv/away; mv {files} /srv/away")
    told = story.post("carl", "/submit", "path=PC/8086/7d8b&name=Lost")
    story.cases.equal("machine: a command without the file", told, "refused 17 Store")
    empty = f"{ASK}/status?format=text | grep -q 'items 0'"
    story.cases.equal("machine: a new registry", story.machine.until(empty), True)
    story.fails("publishing that", "systemctl start pciids-publish 2> /dev/null")
    said = "journalctl -q -o cat -u pciids-publish | grep -q 'the registry went back from revision'"
    story.cases.equal("machine: it says why", story.machine.until(said), True)
    told = story.machine.until(heard.format(begun))
    story.cases.equal("machine: the operator's program is told of it", told, True)
    story.works("a copy of what is there", "systemctl start pciids-backup")
    copies = "journalctl -q -o cat -u pciids-backup | grep -o 'ok [0-9]*' | tail -1"
    story.same("how many items that has", copies, "ok 0")
    told = story.example("A file that was removed or replaced")
    story.cases.equal("machine: the files of now", told.count("registry.db"), 2)
    story.example("A file that was removed or replaced")
    story.is_up("the server answers over the former files")
    story.same("nothing is lost", f"{ASK}/pci.ids | sha256sum", text.strip())
    story.machine.run("sleep 1; systemctl reset-failed")
    begun = story.machine.run("date '+%F %T'")[1].strip()
    story.works("a file that is none",
                f"systemctl stop pciids; cp -a {files} /srv/away; rm {files};"
                f" yes | head -c 9000 > {files[:-1]};"
                " systemctl start --no-block pciids pciids-publish")
    told = story.machine.until(heard.format(begun))
    story.cases.equal("machine: it is told of a server that ends at each start", told, True)
    story.works("the former file", f"systemctl stop pciids; cp -a /srv/away/* /var/lib/pciids;"
                f" rm {hook}; systemctl reset-failed; systemctl start pciids")
    story.works("publishing as before", PUBLISH)


def alone(story):
    """registry.db alone is moved away: what its log has is there when it comes back."""
    file = "/var/lib/pciids/registry.db"
    told = story.post("carl", "/submit", "path=PC/8086/7d8d&name=In+the+log")
    number = told.split()[-1]
    story.works("the file alone is moved away", f"mv {file} /srv/alone.db")
    told = story.post("carl", "/submit", "path=PC/8086/7d8b&name=Lost")
    story.cases.equal("machine: a command without the file alone", told, "refused 17 Store")
    said = "journalctl -q -o cat -u pciids | grep -q 'registry.db is gone, and its log is there'"
    story.cases.equal("machine: nothing begins over its log", story.machine.until(said), True)
    story.works("the file is put back", f"mv /srv/alone.db {file}")
    story.is_up("the server comes back by itself")
    read = f"{ASK}/submission/{number}?format=text | sed -n 's/^name //p'"
    story.same("what the log had alone is there", read, "In the log")


def mended(story):
    """A name, and an import, that was approved wrongly."""
    read = f"{ASK}/read/PC/8086/7d8a?format=text"
    told = story.post("carl", "/submit", "path=PC/8086/7d8a&name=Imaginery")
    told = story.post("anna", "/approve", f"num={told.split()[-1]}")
    story.cases.equal("machine: a wrong name", told, "ok")
    story.same("it is there", read, "Imaginery")
    pending = f"{ASK}/status?format=text | sed -n 's/^pending //p'"
    before = story.machine.run(pending)[1]
    block = next(it for heading, it in story.examples if heading == "A wrong name")
    for good, bad, refusal in (("7d8a ", "7D8A ", "1 BadPath"), ("name=", "name= ", "2 BadName")):
        told = story.machine.run(block.replace(good, bad))[1]
        got = told.splitlines()[-1], story.machine.run(pending)[1]
        story.cases.equal("machine: nothing is approved", got, (f"refused {refusal}", before))
    told = story.example("A wrong name", Controller="& Controller")
    got = told.count('"now":"Imaginary Controller"'), told.endswith("ok\n")
    story.cases.equal("machine: what it was, and its end", got, (1, True))
    story.same("the right one", read, "Imaginary & Controller")
    copy = story.machine.run("ls /var/backups/pciids | head -1")[1].strip()
    block = next(it for heading, it in story.examples if heading == "A wrong name")
    story.example("A wrong name", **{"2026-11-25T031700Z": copy})
    intel = f"{ASK}/read/PC/8086?format=text"
    story.same("a name from before an import", intel, "Intel")
    wrong = f"{ASK.replace(' http', SEND + ' http')}/import"
    story.works("another wrong import", f"echo '8086  Wrong' | {wrong}")
    story.works("the same repair", "sleep 1\n" + block.replace("2026-11-25T031700Z", copy))
    story.same("acts once more", intel, "Intel")


def flooded(story):
    """An account that proposes too much."""
    story.works("an account", "pciids-adduser mallory contributor")
    pending = "{}'/submissions?format=text&author={}' | grep -c '^[0-9]* pending '"
    submit = "-d \"path=PC/8086/7e$it&name=Flood\""
    story.works("a flood", "for it in $(seq 10 99) $(seq 10 60); do"
                f" {ASK}/submit -f -H 'X-Account: mallory' {submit} || exit; done")
    before = story.machine.run(pending.format(ASK, "carl"))[1].strip()
    story.same("its last page", pending.format(ASK, "mallory"), "100")
    story.example("A flood")
    told = story.example("A flood")
    story.cases.equal("machine: each is rejected", told.split(), ["ok"] * 141)
    story.same("none is left", pending.format(ASK, "mallory"), "0", 1)
    story.same("those of others stay", pending.format(ASK, "carl"), before)


def larger(story):
    """More memory for the server and what opens its copies."""
    story.example("Memory runs short")
    story.is_up("the server with more memory")
    show = "systemctl show --value -p LimitDATA -p MemoryMax pciids pciids-restore@x"
    story.same("it has it", show, "2147483648\n1610612736\n\n2147483648\ninfinity")
    show = "systemctl show --value -p Environment -p MemoryMax pciids-backup | sort"
    told = story.machine.run(show)[1]
    got = "2147483648" in told, "WARN=768" in told, "WARN=384" in told
    story.cases.equal("machine: so has the backup", got, (True, True, False))


def saved(story):
    """What the operator keeps of a machine elsewhere, before that is gone."""
    story.example("Another machine, or another name")
    story.same("the server stays stopped", "systemctl is-active pciids", "inactive", 3)
    story.works("a copy of it elsewhere", "mkdir -p /srv/next/saved/system; cd /srv/next/saved;"
                " cp -r /var/backups/pciids/$(ls /var/backups/pciids | tail -1) .;"
                " cp -r /etc/systemd/system/pciids*.d system;"
                " cp -r /etc/pciids etc; chown -R nobody: .")
    # What came after it a mirror has.
    later = f"{ASK.replace(' http', SEND + ' http')}/import"
    story.works("a later name", f"systemctl start pciids && echo '8086  Later' | {later}")
    story.works("is published", PUBLISH)
    story.works("and mirrored", f"{MIRROR} 2>&1; cp -r /srv/signed /srv/next/saved/mirror")
    return story.machine.run(f"{ASK}/pci.ids | sha256sum")[1].strip()


def on_another(story, text):
    """On a new machine, with what was kept."""
    copy = story.machine.run("ls -d /srv/next/saved/2*Z")[1].strip().rpartition("/")[2]
    story.works("nothing is left of the first", "rm -r /etc/pciids /var/lib/pciids*"
                " /etc/systemd/system/pciids*.d /var/backups/pciids; systemctl daemon-reload;"
                " for it in -join -web ''; do userdel pciids$it; done")
    # As apt leaves it.
    story.works("the host's nginx", "rm -f /etc/nginx/sites-enabled/pciids"
                " /etc/nginx/conf.d/pciids.conf; systemctl enable --now nginx 2>&1")
    story.example("A machine that is gone", "/srv/next", **{"2026-11-25T031700Z": copy})
    show = "systemctl show --value -p LimitDATA pciids"
    story.same("the memory of before", show, "1610612736")
    told = story.example("A machine that is gone", "/srv/next")
    story.cases.equal("machine: what a mirror had more", "added=0 renamed=1 " in told, True)
    story.example("A machine that is gone", "/srv/next")
    story.is_up("the server of another machine")
    story.same("all names", f"{ASK}/pci.ids | sha256sum", text)
    page = f"{ASK_SITE} -o /dev/null -w '%{{http_code}}' https://{HOST}/item/PC/8086"
    story.same("the pages", page, "200")
    told = story.post("carl", "/submit", "path=PC/8086/7d8c&name=Next")
    story.cases.equal("machine: passwords are those of before", told[:3], "ok ")
    days = "cat /var/lib/pciids-public/history/????-??.jsonl | wc -l"
    lines = story.machine.run(days)[1].strip()
    story.cases.equal(f"machine: a history of {lines} lines", int(lines) > 30_000, True)
    last = "tail -1 $(ls /var/lib/pciids-public/history/????-??.jsonl | tail -1)"
    story.same("which nothing took back", f"{last} | grep -c '\"now\":\"Later\"'", "1")
    signed = story.machine.until(f"{MIRROR} 2> /dev/null")
    story.cases.equal("machine: the mirror goes on from its own", signed, True)
    story.same("who owns what", "stat -c '%a %U:%G %n' /etc/pciids/accounts/* /etc/pciids/key.pem",
               "750 pciids-join:pciids-web /etc/pciids/accounts/invites\n"
               "640 pciids-join:pciids-web /etc/pciids/accounts/passwords\n"
               "640 root:pciids-web /etc/pciids/key.pem")


def began_anew(story):
    """Without a backup, from the published file; of somebody who left there is a line alone."""
    names = "grep -v '^#' /var/lib/pciids-public/pci.ids | sha256sum"
    before = story.machine.run(names)[1].strip()
    passwords = "/etc/pciids/accounts/passwords"
    story.works("somebody who left", f"echo gone:- >> {passwords}; cp {passwords} /srv/passwords")
    number = int(story.machine.run("grep -c '' /var/lib/pciids-public/pci.ids")[1]) - 5
    told = story.example("Begin anew")
    want = f"ok added={number} renamed=0 same=0\n"
    story.cases.equal(f"machine: all names: {told!r}", told.endswith(want), True)
    story.example("Begin anew")
    want = "anna 3 open\ncarl 0 open\ndora 0 open\nfred 0 open\ngone none left\nmallory 0 locked"
    story.same("the accounts", "pciids-adduser --list | sed 's/ joined .*//'", want)
    same = f"cmp {passwords} /srv/passwords"
    story.works("passwords are as before", same)
    story.works("publishing after that", PUBLISH)
    story.same("the published names are as before", names, before)


def cached(story):
    """The cache among the examples is an nginx of Debian as it is, but for IPv6."""
    place = "/etc/nginx/conf.d/cache.conf"
    example = "/usr/share/doc/pciids-registry/examples/cache.conf"
    story.works(
        "the host's nginx takes the cache",
        f"sed '/listen \\[::\\]/d' {example} > {place}; nginx -t 2>&1; status=$?; rm -r {place}"
        " /var/cache/pciids-cache; exit $status",
    )


def removed(story):
    """What goes and what stays; an nginx of the host that was given the files is sound."""
    story.machine.run(
        "ln -s /etc/pciids/nginx/pciids-limits.conf /etc/nginx/conf.d/pciids.conf;"
        " ln -s /etc/pciids/nginx/pciids-site.conf /etc/nginx/sites-enabled/pciids"
    )
    story.works("the host's nginx takes the site", "nginx -t 2>&1")
    story.works("removal", "dpkg -r pciids-registry pciids")
    story.works("the host's nginx is sound after removal", "nginx -t 2>&1")
    story.same("no process is left", "ps -eo user:20,args | grep -c '^pciids'", "0", 1)
    story.works("purge", "dpkg -P pciids-registry pciids")
    story.works("the host's nginx is sound after purge", "nginx -t 2>&1")
    story.same(
        "what stays: the registry, its copies and the passwords",
        "find /etc /usr /run /var/lib /var/log /var/cache /var/backups -maxdepth 3"
        " ! -path /run/pciids \\( -name 'pciids*' -o -path '*/pciids/*' \\)"
        " ! -path '*/dpkg/*' ! -path '/etc/systemd/*' ! -name '*.pem' ! -path '*/replaced.*'"
        " ! -path '/var/backups/pciids/*' ! -path '*/journal/*' | sort",
        "/etc/pciids\n/etc/pciids/accounts\n/etc/pciids/accounts/invites\n"
        "/etc/pciids/accounts/passwords\n/etc/pciids/signing-key\n/var/backups/pciids\n"
        "/var/lib/pciids\n/var/lib/pciids-journal\n/var/lib/pciids-public\n"
        "/var/lib/pciids/epoch\n/var/lib/pciids/registry.db\n/var/lib/pciids/registry.db-wal",
    )
    left = "ls /var/lib/pciids-public"
    story.same("and the history", left, "feeds\nhistory")
    story.same("all backups stay", "ls /var/backups/pciids | wc -l", "4")
    left = "find /etc/systemd/system /var/lib/systemd -name '*pciids*' ! -name 'stamp-*'"
    left += " ! -name '*.d'"
    story.same("no link of a unit stays", left, "")


@contextlib.contextmanager
def machine_for(cases):
    """A machine of its own for a story, with the packages at hand, and a folder."""
    built_packages.packages()
    with tempfile.TemporaryDirectory() as folder, Machine() as machine:
        yield Story(cases, machine), folder


def test_machine(cases):
    program.need("curl", "gnupg", "gunicorn", "nginx-light", "openssl", "pciutils",
                 "sqlite3", "systemd-container")
    with machine_for(cases) as (story, folder):
        install(story)
        sandbox(story)
        mailed(story)
        accounts(story)
        web(story)
        joined(story)
        moderated(story)
        linked(story)
        stops(story)
        left(story)
        kept(story)
        upgraded(story, folder)
        imported(story)
        distributed(story)
        signed(story)
        replaced(story)
        mended(story)
        flooded(story)
        larger(story)
        cached(story)
        text = saved(story)
        removed(story)
        on_another(story, text)
        began_anew(story)
        # test_machine_journal.py has these.
        others = [it for it in story.examples if it[0] != "A journal and a standby"]
        cases.equal("machine: examples of the pages that were not run", others, [])
