"""A machine for a test: this one's programs with systemd as the first process, in namespaces of its
own. Its files are layers over /usr and /etc that go with it; this one itself does not change."""
import fcntl
import os
import shutil
import subprocess
import tempfile
import time

import program

# What the machine is made of: its root is a new folder.
PREPARE = """set -eu
mount --make-rprivate /
cd "$1"
mkdir -p root upper-usr work-usr upper-etc work-etc
cd root
mkdir -p usr etc var/lib var/log/nginx var/lib/nginx var/cache var/backups run tmp proc sys dev root
mkdir -p var/lib/apt/lists/partial var/cache/apt/archives/partial var/log/apt
for it in bin sbin lib lib64; do ln -s "usr/$it" "$it"; done
mount -t overlay overlay -o "lowerdir=/usr,upperdir=$1/upper-usr,workdir=$1/work-usr" usr
mount -t overlay overlay -o "lowerdir=/etc,upperdir=$1/upper-etc,workdir=$1/work-etc" etc
rm -rf etc/systemd/system/* etc/pciids usr/sbin/policy-rc.d
: > etc/machine-id
: > etc/fstab
cp -a /var/lib/dpkg var/lib/
shift
exec systemd-nspawn -D . --register=no --keep-unit -q --private-network --hostname=registry "$@" \
    -b systemd.unit=basic.target systemd.show_status=no
"""

LOCK = "/run/lock/pciids-test-machine"

# The longest that a start of the machine, a command in it and a wait for one take, in seconds. A
# busy machine of this one takes many times as long as an idle one.
BOOT, COMMAND, WAIT = 180, 300, 120

# Folders that the program needs beside /usr, such as that of its libraries; colons between them.
NEEDS = [it for it in os.environ.get("PCIIDS_NEEDS", "").split(":") if it]


def is_merged():
    return all(os.path.islink(it) for it in ("/bin", "/sbin", "/lib"))


def why_not():
    """Why there can't be such a machine here, or None."""
    tools = ("systemd-nspawn", "unshare", "nsenter", "dpkg")
    missing = [it for it in tools if not shutil.which(it)]
    if missing:
        return f"{', '.join(missing)} not installed"
    if os.geteuid() != 0:
        return "only root can start one"
    with open("/proc/filesystems", encoding="utf-8") as file:
        if "overlay" not in file.read():
            return "the kernel has no overlay"
    return None if is_merged() else "/bin is no link to /usr/bin"


class Machine:
    def __init__(self):
        why = why_not()
        if why:
            raise program.Skip(f"no machine to try it on: {why}")
        # Two machines at once would have the same control groups, and kill each other's processes.
        self.lock = open(LOCK, "w", encoding="utf-8")
        fcntl.flock(self.lock, fcntl.LOCK_EX)
        self.folder = tempfile.mkdtemp()
        os.chmod(self.folder, 0o755)
        binds = [f"--bind-ro={it}" for it in NEEDS]
        words = ["unshare", "--mount", "sh", "-c", PREPARE, "machine", self.folder, *binds]
        self.log = open(os.path.join(self.folder, "log"), "wb")
        self.process = subprocess.Popen(
            words, stdin=subprocess.DEVNULL, stdout=self.log, stderr=self.log
        )
        self.leader = None

    def __enter__(self):
        end = time.monotonic() + BOOT
        while time.monotonic() < end and self.process.poll() is None:
            time.sleep(0.2)
            self.leader = self.find_leader()
            if self.leader and self.run("systemctl is-system-running")[1].strip() in (
                "running",
                "degraded",
            ):
                return self
        told = self.said()
        self.__exit__()
        raise program.Skip(f"no machine to try it on: it does not start: {told[-300:]}")

    def __exit__(self, *_):
        self.process.terminate()
        try:
            self.process.wait(timeout=60)
        except subprocess.TimeoutExpired:
            self.process.kill()
            self.process.wait()
        self.log.close()
        self.lock.close()
        shutil.rmtree(self.folder, ignore_errors=True)

    def said(self):
        with open(os.path.join(self.folder, "log"), encoding="utf-8", errors="replace") as file:
            return file.read()

    def find_leader(self):
        """The first process of the machine as this one numbers it."""
        path = f"/proc/{self.process.pid}/task/{self.process.pid}/children"
        try:
            with open(path, encoding="ascii") as file:
                found = file.read().split()
        except FileNotFoundError:
            return None
        return found[0] if found else None

    def run(self, command, text=None, within=COMMAND):
        """The status of a command of the shell in the machine, and what it printed."""
        enter = ["nsenter", "-t", self.leader, "-m", "-u", "-i", "-n", "-p", "-r", "-w"]
        path = "/usr/local/sbin:/usr/local/bin:/usr/sbin:/usr/bin:/sbin:/bin"
        ran = subprocess.run(
            [*enter, "env", "-i", f"PATH={path}", "LC_ALL=C.UTF-8", "sh", "-c", command],
            input=text,
            stdin=subprocess.DEVNULL if text is None else None,
            stdout=subprocess.PIPE,
            stderr=subprocess.STDOUT,
            timeout=within,
        )
        return ran.returncode, ran.stdout.decode(errors="replace")

    def put(self, path, place):
        """Copies a file into the machine."""
        with open(path, "rb") as file:
            status, told = self.run(f"mkdir -p $(dirname {place}); cat > {place}", text=file.read())
        if status != 0:
            raise RuntimeError(told)

    def until(self, command, within=WAIT):
        """Waits until a command of the machine succeeds. False if it does not in that time."""
        end = time.monotonic() + within
        while self.run(command)[0] != 0:
            if time.monotonic() > end:
                return False
            time.sleep(0.1)
        return True
