"""The Debian packages: what is in them, lintian, the same bytes again, completions."""
import os
import re
import shutil
import subprocess
import tempfile

import built_packages
import program
from program import TOP


def contents(name):
    told = subprocess.check_output(["dpkg-deb", "-c", built_packages.package(name)], text=True)
    return [line.split()[5].lstrip(".") for line in told.splitlines() if line[0] == "-"]


def files(cases):
    have = contents("pciids")
    for path in (
        "/usr/bin/pciids",
        "/usr/share/man/man1/pciids.1.gz",
        "/usr/share/bash-completion/completions/pciids",
        "/usr/share/zsh/vendor-completions/_pciids",
        "/usr/share/doc/pciids/NOTICE",
    ):
        cases.equal(f"packages: {path}", path in have, True)
    have = contents("pciids-registry")
    for folder in ("systemd", "nginx", "lib", "bin"):
        for name in os.listdir(os.path.join(TOP, "deploy", folder)):
            found = [it for it in have if f"/{name}" in it]
            cases.equal(f"packages: {folder}/{name}", found != [], True)
    owners = subprocess.check_output(
        ["dpkg-deb", "-I", built_packages.package("pciids-registry"), "conffiles"], text=True
    )
    listed = {it for it in have if it.startswith("/etc/")}
    cases.equal("packages: conffiles", set(owners.split()), listed)


def again(cases):
    """The same program and sources give the same packages."""
    sums = []
    with tempfile.TemporaryDirectory() as folder:
        for number in ("1", "2"):
            when = {"SOURCE_DATE_EPOCH": "1700000000"}
            told, status = built_packages.build(f"{folder}/{number}", **when)
            cases.equal("packages: built", (status, told if status else ""), (0, ""))
            run = subprocess.run(
                "sha256sum *.deb", shell=True, cwd=f"{folder}/{number}", capture_output=True
            )
            sums.append(run.stdout)
    cases.equal("packages: the same bytes", sums[0], sums[1])


def versions(cases):
    """Between releases each later commit makes a later version, and an edit one later than that."""
    with tempfile.TemporaryDirectory() as folder:
        for name in ("deploy/version", "debian/changelog"):
            os.makedirs(os.path.dirname(f"{folder}/{name}"))
            shutil.copy(os.path.join(TOP, name), f"{folder}/{name}")

        def told(*words, when=0, **more):
            at = f"{1_790_000_000 + when} +0000"
            them = {"GIT_AUTHOR_DATE": at, "GIT_COMMITTER_DATE": at, **more}
            who = ["-c", "user.name=a", "-c", "user.email=a@example.org"]
            ran = subprocess.run(["git", *who, *words] if words else ["deploy/version"],
                                 cwd=folder, env={**os.environ, **them}, capture_output=True)
            return ran.stdout.decode().strip()

        cases.equal("packages: without a commit", told(), "0.1.0")
        told("init", "-q")
        told("add", ".")
        told("commit", "-qm", "One")
        told("tag", "v0.1.0")
        found = [told()]
        cases.equal("packages: the version of a release", found, ["0.1.0"])
        for when in (1, 60, 86_400, 40 * 86_400):
            told("commit", "-qm", "Next", "--allow-empty", when=when)
            found.append(told())
        want = f"0.1.0+git20261031.141320.{told('rev-parse', '--short=7', 'HEAD')}"
        cases.equal("packages: the version of a commit", found[-1], want)
        with open(f"{folder}/debian/changelog", "a", encoding="utf-8") as file:
            file.write(" ")
        found.append(told(SOURCE_DATE_EPOCH="1800000000"))
        cases.equal("packages: that of an edit", found[-1].endswith(".edited"), True)
        for one, other in zip(found, found[1:]):
            is_later = subprocess.run(["dpkg", "--compare-versions", other, "gt", one]).returncode
            cases.equal(f"packages: {other} is later than {one}", is_later, 0)


def from_the_page(cases):
    """The command of docs/OPERATE.md, as it is printed, from a clean clone."""
    with open(os.path.join(TOP, "docs", "OPERATE.md"), encoding="utf-8") as page:
        command = re.search(r"`(deploy/build-deb [^`]+)`", page.read())[1]
    with tempfile.TemporaryDirectory() as folder:
        clone = os.path.join(folder, "pciids")
        if subprocess.run(["git", "clone", "-q", TOP, clone]).returncode != 0:
            raise program.Skip("the tree is no clone")
        os.makedirs(f"{clone}/crates/pid_cli/out")
        shutil.copy(program.WHOLE, f"{clone}/crates/pid_cli/out/pid_cli")
        ran = subprocess.run(["sh", "-c", command], cwd=clone, capture_output=True, text=True,
                             timeout=300)
        cases.equal("packages: the page's command", (ran.returncode, ran.stderr), (0, ""))
        found = sorted(it for it in os.listdir(f"{folder}/packages") if it.endswith(".deb"))
        version = subprocess.check_output([f"{clone}/deploy/version"], text=True).strip()
        want = [f"pciids-registry_{version}_all.deb", f"pciids_{version}_amd64.deb"]
        cases.equal("packages: where the page says", found, want)
        tar = f"dpkg-deb --fsys-tarfile {folder}/packages/{want[1]}"
        told = subprocess.check_output(f"{tar} | tar -xO ./usr/share/doc/pciids/commit", shell=True)
        head = subprocess.check_output(["git", "-C", clone, "rev-parse", "HEAD"])
        cases.equal("packages: the commit that they are of", told, head)


def linted(cases):
    program.need("lintian")
    folder = built_packages.packages()
    changes = [it for it in os.listdir(folder) if it.endswith(".changes")]
    words = ["lintian", "-I", "--fail-on", "none", "--tag-display-limit", "0", *changes]
    ran = subprocess.run(words, cwd=folder, capture_output=True, text=True, timeout=120)
    # Of the program lintian knows what C compilers do, and it was built by another one. And some of
    # its bytes happen to read as a misspelt word.
    about_bytes = ("I: pciids: hardening-", "I: pciids: spelling-error-in-binary")
    found = [it for it in re.findall(r"^[EWI]: .*", ran.stdout, re.M)
             if not it.startswith(about_bytes)]
    cases.equal("packages: lintian", (found, ran.returncode), ([], 0))


def completed(cases):
    """Every command of the program's help is offered."""
    wanted = re.findall(r"^  ([a-z]+) ", program.run(b"", "--help").out.decode(), re.M)
    wanted = [it for it in wanted if it != "help"]
    with tempfile.TemporaryDirectory() as folder:
        os.symlink(program.PROGRAM, os.path.join(folder, "pciids"))
        script = (
            f'source {TOP}/deploy/completions/pciids.bash; COMP_WORDS=(pciids "$1" "$2"); '
            'COMP_CWORD=$3; _pciids; printf "%s\\n" "${COMPREPLY[@]}"'
        )
        environment = dict(os.environ, PATH=folder + os.pathsep + os.environ["PATH"])

        def offered(*words):
            words = ["bash", "-c", script, "bash", *words]
            told = subprocess.run(words, env=environment, capture_output=True, timeout=60).stdout
            return told.decode().split()

        have = offered("", "", "1")
        cases.equal("packages: bash offers the commands", set(wanted) <= set(have), True)
        cases.equal("packages: bash offers options", "--db" in offered("export", "--", "2"), True)


def test_packages(cases):
    built_packages.packages()
    files(cases)
    completed(cases)
    again(cases)
    linted(cases)
    versions(cases)
    from_the_page(cases)
