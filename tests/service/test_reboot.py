"""The service survives a reboot of its machine: the registry, its names, the accounts, the timers
and the site are back, with nothing done by hand."""
import contextlib
import os
import re
import signal
import subprocess
import time

import pytest

import built_packages
import machine_room

HOST = "pciids.example.org"
# Ends with the machine, but starts it again where that was asked for.
AGAIN = "while :; do {command} && break || [ $? = 133 ] || break; done\n"
ASK = "curl -s --max-time 60 --unix-socket /run/pciids/http.sock http://localhost"
ASK_SITE = (
    f"curl -s --max-time 60 --cacert /etc/pciids/certificate.pem --resolve {HOST}:443:127.0.0.1"
)
UNITS = "pciids pciids-http.socket pciids-web pciids-publish.timer pciids-backup.timer"
CERTIFICATE = (
    f"cd /srv; openssl req -x509 -newkey ec -pkeyopt ec_paramgen_curve:P-256 -nodes -days 1"
    f" -subj /CN={HOST} -addext subjectAltName=DNS:{HOST} -keyout privkey.pem -out fullchain.pem"
    " 2> /dev/null; install -m 644 fullchain.pem /etc/pciids/certificate.pem;"
    " install -m 640 -g pciids-web privkey.pem /etc/pciids/key.pem;"
    # The machine has no IPv6.
    " sed -i '/listen \\[::\\]/d' /etc/pciids/nginx/pciids-site.conf;"
    " systemctl enable --now pciids-web"
)


def rebooting():
    """How the machine is made, if it starts all that is enabled, and again after its end."""
    before, _, command = machine_room.PREPARE.partition("exec systemd-nspawn")
    command = command.replace("systemd.unit=basic.target", "systemd.unit=multi-user.target")
    command = "systemd-nspawn" + command.replace("\\\n", "").rstrip()
    return before + AGAIN.format(command=command)


def children(pid):
    try:
        with open(f"/proc/{pid}/task/{pid}/children", encoding="ascii") as file:
            return file.read().split()
    except OSError:
        return []


class Machine(machine_room.Machine):
    def find_leader(self):
        return next((it for pid in children(self.process.pid) for it in children(pid)), None)

    def __exit__(self, *_):
        # The shell would leave the machine running.
        for pid in children(self.process.pid):
            os.kill(int(pid), signal.SIGTERM)
        with contextlib.suppress(subprocess.TimeoutExpired):
            self.process.wait(timeout=60)
        super().__exit__()

    def reboot(self):
        """Returns whether the machine is up again."""
        old, end = self.leader, time.monotonic() + 180
        self.run("systemctl reboot")
        while time.monotonic() < end:
            time.sleep(0.5)
            found = self.find_leader()
            if found and found != old:
                self.leader = found
                if self.run("systemctl is-system-running")[1].strip() in ("running", "degraded"):
                    return True
        return False


def works(cases, machine, name, command):
    status, told = machine.run(command)
    cases.equal(name, (status, told if status else ""), (0, ""))
    return told


@pytest.mark.needs("curl", "nginx-light", "openssl", "systemd-container")
def test_reboot(cases, monkeypatch):
    monkeypatch.setattr(machine_room, "PREPARE", rebooting())
    built_packages.packages()
    with Machine() as machine:
        for name in ("pciids", "pciids-registry"):
            path = built_packages.package(name)
            machine.put(path, f"/srv/{os.path.basename(path)}")
        works(cases, machine, "the packages", "cd /srv; apt install ./*.deb > log 2>&1 || cat log")
        works(cases, machine, "the web server", CERTIFICATE)
        machine.until(f"{ASK}/pending")
        told = works(cases, machine, "an account", "pciids-adduser anna administrator")
        password = re.search(r"password of anna: ([0-9a-f]+)", told)[1]
        post = f"{ASK_SITE} -u anna:{password}"
        fields = "-d 'path=PC/8086&name=Intel'"
        told = machine.run(f"{post} {fields} 'https://{HOST}/submit?format=text'")[1]
        cases.equal("a submission", told, "ok 1\n")
        cases.equal("the machine comes back", machine.reboot(), True)
        is_up = machine.until(f"{ASK_SITE} -f https://{HOST}/pending")
        cases.equal("the site answers", is_up, True)
        told = machine.run(f"systemctl is-active {UNITS}")[1].split()
        cases.equal("what is active", told, ["active"] * len(UNITS.split()))
        cases.equal("no unit failed", machine.run("systemctl --failed --no-legend")[1], "")
        told = machine.run(f"{ASK_SITE} 'https://{HOST}/pending?format=text'")[1]
        cases.equal("the submission is there", told, "1 anna name PC/8086 Intel\n")
        fields = "-d num=1"
        told = machine.run(f"{post} {fields} 'https://{HOST}/withdraw?format=text'")[1]
        cases.equal("the password is the same", told, "ok\n")
