"""The examples of docs/HTTP.md, in turn: each line '$ curl ..' is run and must print what follows,
and to the bytes of the first of two blocks that show CR and LF the server answers those of the
second. A backslash at the end of a line continues a command."""
import os
import subprocess

from program import TOP

PLACE = "127.0.0.1:8086"


def blocks():
    """The blocks of the page: what follows the three marks, and the lines."""
    kind = lines = None
    with open(os.path.join(TOP, "docs", "HTTP.md"), encoding="utf-8", newline="") as page:
        for line in page:
            if not line.startswith("```"):
                if lines is not None:
                    lines.append(line)
            elif lines is None:
                kind, lines = line.strip("`\n"), []
            else:
                yield kind, lines
                lines = None


def commands(lines):
    """The commands of a block, and the text that each is to print."""
    found = []
    for line in lines:
        if found and found[-1][0].endswith("\\") and not found[-1][1]:
            found[-1][0] += "\n" + line.rstrip("\n")
        elif line.startswith("$ "):
            found.append([line[2:].rstrip("\n"), ""])
        else:
            found[-1][1] += line
    return [(command, text) for command, text in found if command.startswith("curl ")]


def shown_bytes(lines):
    """The bytes of lines that show CR and LF, and end where that is easier to read."""
    return (
        "".join(line.rstrip("\n") for line in lines)
        .replace("\\r", "\r")
        .replace("\\n", "\n")
        .encode()
    )


def try_examples(cases, server):
    """The server must hold a new registry."""
    sent = None
    for kind, lines in blocks():
        if kind == "":
            for command, text in commands(lines):
                ran = subprocess.run(
                    ["bash", "-c", command.replace(PLACE, f"127.0.0.1:{server.port}")],
                    stdout=subprocess.PIPE,
                    timeout=60,
                )
                cases.equal(command, ran.stdout, text.encode())
        elif kind == "http" and sent is None:
            sent = shown_bytes(lines)
        elif kind == "http":
            cases.equal("docs/HTTP.md: requests sent at once", server.raw(sent), shown_bytes(lines))
            sent = None
    cases.equal("docs/HTTP.md: each request has its reply", sent, None)
