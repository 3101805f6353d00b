"""Debian's packages that the tests need: which are missing, and how they are installed."""
import ast
import glob
import os
import re
import shutil
import subprocess
import sys

# What shows that a package is there: a command, or a pattern of a file. What a test needs and is
# not named here is no package, but a command of that name, such as `rt`.
SHOWN_BY = {
    "apache2-utils": "htpasswd",
    "bzip2": "bzip2",
    "chromium": "chromium",
    "chromium-driver": "chromedriver",
    "curl": "curl",
    "debhelper": "dh",
    "dpkg-dev": "dpkg-buildpackage",
    "fail2ban": "fail2ban-regex",
    "firefox-esr": "firefox-esr",
    "gcc": "gcc",
    "gnupg": "gpg",
    "gpgv": "gpgv",
    "gunicorn": "gunicorn",
    "iproute2": "ip",
    "jing": "jing",
    "libc6-dev": "/usr/include/stdio.h",
    "libpci-dev": "/usr/include/**/pci/pci.h",
    "libsqlite3-dev": "/usr/include/sqlite3.h",
    "lintian": "lintian",
    "man-db": "man",
    "nftables": "nft",
    "nginx-light": "nginx",
    "openssh-client": "ssh",
    "openssh-server": "sshd",
    "openssl": "openssl",
    "pci.ids": "/usr/share/misc/pci.ids",
    "pciutils": "lspci",
    "python3-pytest": "/usr/lib/python3/dist-packages/pytest",
    "python3-pytest-timeout": "/usr/lib/python3/dist-packages/pytest_timeout.py",
    "python3-pytest-xdist": "/usr/lib/python3/dist-packages/xdist",
    "python3-selenium": "/usr/lib/python3/dist-packages/selenium/webdriver",
    "rsync": "rsync",
    "shellcheck": "shellcheck",
    "sqlite3": "sqlite3",
    "systemd-container": "systemd-nspawn",
    "valgrind": "valgrind",
}
TESTS = os.path.dirname(os.path.dirname(os.path.abspath(__file__)))
FOLDERS = ("", "support", "service", "site")
PYTEST = {"python3-pytest", "python3-pytest-timeout", "python3-pytest-xdist"}
INSTALL = ["apt-get", "install", "-y", "--no-install-recommends"]
# What more than this many bytes have to be fetched for is asked about at a terminal.
LARGE = 50_000_000
# apt-get is stopped after so many seconds, for instance if a server does not answer.
LONGEST = 1_800


def is_here(name):
    shown_by = SHOWN_BY.get(name, name)
    if shown_by.startswith("/"):
        return bool(glob.glob(shown_by, recursive=True))
    return shutil.which(shown_by) is not None


def tree_of(path):
    """The syntax tree of a file, which is not run: what it imports may be missing, as pytest."""
    with open(path, encoding="utf-8") as file:
        try:
            return ast.parse(file.read())
        except SyntaxError:
            return ast.Module([], [])


def named_in(tree):
    """What a file says that its tests need, by the mark `needs` or a call of `need`."""
    calls = [it for it in ast.walk(tree) if isinstance(it, ast.Call)]
    needs = [it for it in calls if ast.unparse(it.func) in ("pytest.mark.needs", "program.need")]
    return {word.value for it in needs for word in it.args if isinstance(word, ast.Constant)}


def imported_by(tree):
    """The tests' own files that a file imports."""
    lines = [it for it in ast.walk(tree) if isinstance(it, (ast.Import, ast.ImportFrom))]
    names = {getattr(it, "module", None) or word.name for it in lines for word in it.names}
    paths = [os.path.join(TESTS, folder, f"{name}.py") for folder in FOLDERS for name in names]
    return {it for it in paths if os.path.exists(it)}


def needed_by(paths):
    """The packages and commands that these files need, and those that they import."""
    found, read, left = set(PYTEST), set(), set(paths)
    while left:
        path = left.pop()
        read.add(path)
        tree = tree_of(path)
        found |= named_in(tree)
        left |= imported_by(tree) - read
    return found


def missing_in(paths):
    """The packages that the tests of these files need, and that are missing."""
    return sorted(it for it in needed_by(paths) if it in SHOWN_BY and not is_here(it))


def what_apt_says(names):
    """How many packages apt would install, the bytes to fetch, and the two sizes as it says them;
    None if it would not install them."""
    words = [*INSTALL, "--print-uris", *names]
    environment = {**os.environ, "LC_ALL": "C"}
    ran = subprocess.run(words, capture_output=True, text=True, env=environment, timeout=60)
    count = re.search(r"(\d+) newly installed", ran.stdout)
    if ran.returncode != 0 or not count:
        return None
    sizes = re.findall(r"^'\S+' \S+ (\d+) ", ran.stdout, re.M)
    fetched = re.search(r"^Need to get (?:[^/\n]*/)?(.*?) of archives", ran.stdout, re.M)
    used = re.search(r"^After this operation, (.*?) of additional", ran.stdout, re.M)
    said = [it and it[1] for it in (fetched, used)]
    return int(count[1]), sum(map(int, sizes)), *said


def is_wanted(names):
    """Says what apt would install for these packages. Returns whether to do it, which is asked at a
    terminal if much has to be fetched."""
    said = what_apt_says(names)
    if said is None:
        print("tests/run: apt-get does not say how much it would install")
        return True
    count, size, fetched, used = said
    print(f"tests/run: {count} packages, {fetched} to fetch, {used or 'nothing'} on disk")
    if size <= LARGE or not (sys.stdin.isatty() and sys.stdout.isatty()):
        return True
    print("tests/run: install them? Otherwise the tests that need them are skipped. [Y/n] ", end="")
    sys.stdout.flush()
    return sys.stdin.readline().lower() in ("\n", "y\n", "yes\n")


def called(*words):
    """Runs apt-get, and shows what it prints. Returns whether it succeeded."""
    environment = {**os.environ, "DEBIAN_FRONTEND": "noninteractive"}
    how = {"env": environment, "stdin": subprocess.DEVNULL, "timeout": LONGEST}
    try:
        return subprocess.run(words, **how).returncode == 0
    except (OSError, subprocess.TimeoutExpired) as fault:
        print(f"tests/run: {fault}")
        return False


def install(names):
    """Installs packages if this user can: all at once, or else those of them that can be had."""
    print("tests/run: missing packages:", *names)
    if shutil.which("apt-get") is None:
        return
    if os.geteuid() != 0:
        print("tests/run: to install them, run this as root:")
        print(" ", *INSTALL, *names)
        return
    called("apt-get", "update")
    if is_wanted(names) and not called(*INSTALL, *names):
        for it in names:
            called(*INSTALL, it)


def make_ready(paths, may_install):
    """Installs the packages that the tests of these files need, and says which stay missing."""
    missing = missing_in(paths)
    if missing and may_install:
        install(missing)
        missing = missing_in(paths)
    if missing:
        print(f"tests/run: without {', '.join(missing)}: the tests that need them are skipped")
