"""A journal and a standby on a machine of their own, by the examples of docs/OPERATE.md: switched
on, restored to a moment, followed over ssh, promoted."""
import subprocess

import program
from machine_room import WAIT
from program import WHOLE
from test_machine import ASK, EXPOSURE, machine_for, put_packages

HEADING = "A journal and a standby"
SEGMENTS = "/var/lib/pciids-journal/segments"
LATER = "/usr/bin/pciids script --db /srv/main/registry.db --journal /srv/main/segments"


def submit(story, name):
    form = f"path=PC/8086&name={name}"
    told = story.machine.run(f"{ASK}/submit?format=text -H 'X-Account: root' -d '{form}'")[1]
    return told.strip()


def epoch(story):
    return story.machine.run("cat /run/pciids-epoch/epoch")[1].strip()


def switched_on(story):
    put_packages(story)
    story.works("install", "cd /srv; apt install ./pciids_*.deb ./pciids-registry_*.deb")
    story.is_up("a new registry")
    story.same("no journal yet", f"ls -A {SEGMENTS}", "")
    told = submit(story, "Before")
    story.cases.equal("machine: before there is a journal", told, "ok 1")
    story.example(HEADING)
    story.is_up("the server with its journal")
    first, second = (f"{number:020}.script" for number in (1, 2))
    story.same("a segment", f"cd {SEGMENTS}; ls *.script; ls epoch.* | wc -l", f"{first}\n1")
    owned = "pciids:pciids-follow"
    story.same("who may read it", f"stat -c '%A %U:%G' {SEGMENTS} {SEGMENTS}/{first}",
               f"drwxr-s--- {owned}\n-rw-r----- {owned}")
    told = submit(story, "Journaled")
    story.cases.equal("machine: with a journal", told, "ok 2")
    lines = f"grep -c '^submit root .*Journaled' {SEGMENTS}/{first}"
    story.same("its line", lines, "1")
    story.works("a backup", "systemctl start pciids-backup")
    story.is_up("the server after a backup")
    segment = "cat $(ls -d /var/backups/pciids/2*Z | tail -1)/segment"
    story.same("the copy needs the segment that it began", segment, second)
    read = f"stat -c '%A %U:%G' {SEGMENTS}/{second}"
    story.same("who may read that one", read, f"-rw-r----- {owned}")


def restored(story):
    """All of it, and up to a moment."""
    story.machine.run("sleep 2")
    moment = story.machine.run("date -u '+%F %T UTC'")[1].strip()
    story.machine.run("sleep 2")
    was = epoch(story)
    told = submit(story, "Too+late"), story.machine.run(
        f"{ASK}/approve?format=text -H 'X-Account: root' -d num=1")[1].strip()
    story.cases.equal("machine: later commands", told[0], "ok 3")
    told = story.example(HEADING)
    story.cases.equal("machine: who approved", "approve root num=1" in told, True)
    copy = story.machine.run("ls /var/backups/pciids | tail -1")[1].strip()
    story.works("a restore with the whole journal", f"pciids-restore {copy}")
    story.is_up("the server after it")
    number = f"{ASK}/status?format=text | sed -n 's/^submissions //p'"
    story.same("nothing is lost", number, "3")
    story.cases.equal("machine: another epoch", epoch(story) not in ("", was), True)
    was = epoch(story)
    told = story.example(HEADING, **{"2026-11-25 18:00 UTC": moment})
    story.is_up("the server after a restore to a moment")
    story.same("as it was then", number, "2")
    story.cases.equal("machine: another epoch again", epoch(story) not in ("", was), True)
    later = "grep -h Too /var/lib/pciids-journal/segments.replaced.*/*.script | wc -l"
    story.same("what came later is kept", later, "1")
    story.same("and no line of the journal", f"cat {SEGMENTS}/*.script | grep -c Too", "0", 1)
    told = submit(story, "Anew")
    story.cases.equal("machine: it goes on", told, "ok 3")
    story.fails("a moment that is yet to come", "pciids-restore --until tomorrow 2> /dev/null")
    story.fails("one before all copies", "pciids-restore --until 2001-01-01 2> /dev/null")
    story.works("a journal of another registry", "systemctl stop pciids;"
                " cd /var/lib/pciids-journal; mv segments mine; mkdir segments;"
                " for it in 1 2 3 4 5 6; do echo \"account root who=x$it&rank=1\"; done |"
                " pciids script --db /srv/other.db --journal segments > /dev/null;"
                " chown -R pciids: segments")
    story.fails("is refused", f"pciids-restore {copy} 2> /dev/null")
    said = "journalctl -q -o cat -u 'pciids-restore@*' | grep -c 'do not fit together'"
    story.same("it says so", said, "1")
    story.works("the former one", "cd /var/lib/pciids-journal; rm -r segments; mv mine segments;"
                " systemctl reset-failed; systemctl start pciids")
    story.is_up("the server as before")


def followed(story):
    """The machine is the standby of itself: what its journal was until now is in another folder,
    where it goes on as the main one's would."""
    copy = story.machine.run("ls /var/backups/pciids | tail -1")[1].strip()
    story.works("a last backup", "sleep 1; systemctl start pciids-backup")
    copy = story.machine.run("ls /var/backups/pciids | tail -1")[1].strip()
    there = {"192.0.2.10": "127.0.0.1", "2026-11-25T031700Z": copy,
             "rrsync -ro /var/lib/pciids-journal/segments": "rrsync -ro /srv/main/segments"}
    story.works("the main machine", "systemctl stop pciids; mkdir -p /srv/main;"
                f" cp -a {SEGMENTS} /srv/main/; cp -a /var/lib/pciids/registry.db* /srv/main/;"
                # The machine never ends its boot.
                " chmod -R a+rX /srv; systemctl start ssh; rm -f /run/nologin")
    story.example(HEADING, **there)
    story.works("the key at hand", "cp /etc/pciids/standby-key.pub /srv/")
    story.example(HEADING, **there)
    story.example(HEADING, **there)
    follows = "journalctl -q -o cat -u pciids-standby | grep -q '^follows 127.0.0.1'"
    story.cases.equal("machine: it follows", story.machine.until(follows, WAIT), True)
    exposed = "systemd-analyze security --no-pager pciids-standby.service | tail -1"
    told = story.machine.run(exposed)[1]
    level = float(told.partition(": ")[2].split()[0])
    story.cases.equal(f"machine: it is exposed at {level}", level <= EXPOSURE, True)
    story.same("it does not run as root", "ps -o user= -C follow | sort -u", "pciids")
    line = "submit root path=PC/8086&name=Followed"
    story.same("a later command", f"echo '{line}' | {LATER}; chmod -R a+rX /srv", "ok 4")
    came = f"grep -q Followed {SEGMENTS}/*.script"
    story.cases.equal("machine: its line comes", story.machine.until(came, WAIT), True)
    ssh = "ssh -F none -i /etc/pciids/standby-key -l pciids-follow -o StrictHostKeyChecking=no"
    story.fails("the key, for anything else", f"{ssh} 127.0.0.1 cat /etc/passwd 2> /dev/null")
    story.fails("a backup of a standby", "systemctl start pciids-backup 2> /dev/null")
    story.same("it goes on", "systemctl is-active pciids-standby", "active")


def promoted(story):
    was = story.machine.run("cat /var/lib/pciids/epoch")[1]
    told = story.example(HEADING)
    story.cases.equal("machine: what has come", "The last command that came: 2" in told, True)
    story.is_up("the promoted server")
    number = f"{ASK}/status?format=text | sed -n 's/^submissions //p'"
    story.same("it has what came", number, "4")
    story.same("no longer a standby", "systemctl is-active pciids-standby", "inactive", 3)
    units = "systemctl is-enabled pciids pciids-publish.timer pciids-backup.timer"
    story.same("it is there after a boot", units, "enabled\nenabled\nenabled")
    story.cases.equal("machine: another epoch of its own", epoch(story) + "\n" != was, True)
    told = submit(story, "Promoted")
    story.cases.equal("machine: it takes commands", told, "ok 5")
    story.works("and makes backups", "systemctl start pciids-backup")


def test_machine_journal(cases):
    program.need("curl", "openssh-client", "openssh-server", "rsync", "systemd-container")
    told = subprocess.run([WHOLE, "serve", "--help"], capture_output=True, timeout=60).stdout
    if b"--journal" not in told:
        raise program.Skip("the program has no --journal")
    with machine_for(cases) as (story, _):
        switched_on(story)
        restored(story)
        followed(story)
        promoted(story)
        left = [it for it in story.examples if it[0] == HEADING]
        cases.equal("machine: examples of the journal that were not run", left, [])
