"""A registry's file, made by the program, as the real sqlite3 sees it."""
import os
import re
import shutil
import subprocess
import tempfile

from program import TOP, WHOLE


def work(text, *words, **how):
    """What the program with these words prints, says and ends with."""
    ran = subprocess.run(
        [WHOLE, *words],
        input=text,
        stdout=subprocess.PIPE,
        stderr=subprocess.PIPE,
        timeout=120,
        **how,
    )
    return ran.stdout, ran.stderr, ran.returncode


def script(path, *lines):
    return work(b"".join(line.encode() + b"\n" for line in lines), "script", "--db", path)


def obeys(cases, name, path, lines):
    """A script of these lines over the file, each beside its reply, is answered so."""
    replies = "".join(reply + "\n" for _, reply in lines).encode()
    cases.equal(name, script(path, *(line for line, _ in lines)), (replies, b"", 0))


def moderated(vendors):
    """A moderator's vendors, each submitted and approved."""
    lines = ["account root who=bob&rank=1"]
    for number in range(vendors):
        lines += [f"submit bob path=PC/{number:04x}&name=renamed", f"approve root num={number + 1}"]
    return lines


def bring_in(path, text):
    """The text imported by the word for it."""
    with tempfile.NamedTemporaryFile() as file:
        file.write(text)
        file.flush()
        return work(b"", "import", "--db", path, "--account", "root", file.name)


def asked(path, sql):
    return subprocess.run(
        ["sqlite3", path, sql], stdout=subprocess.PIPE, stderr=subprocess.STDOUT, timeout=120
    ).stdout.decode()


def copied(path, copy):
    """Copies a registry's file with its log: sqlite3 writes to a file that it recovers. Takes away
    what an earlier copy has left; returns whether there is a file."""
    for end in ("", "-wal", "-shm"):
        if os.path.exists(copy + end):
            os.remove(copy + end)
    for end in ("", "-wal"):
        if os.path.exists(path + end):
            shutil.copy(path + end, copy + end)
    return os.path.exists(copy)


def texts_of_schema():
    """The texts that docs/STORAGE.md promises, each on one line."""
    with open(os.path.join(TOP, "docs", "STORAGE.md")) as file:
        block = re.search(r"```sql\n(.*?)```", file.read(), re.S).group(1)
    return sorted(re.sub(r"\s+", " ", text).strip() for text in block.split(";") if text.strip())
