"""The segments of a journal: files of a folder, named by the revision at which they begin.

Each is a script. An entry is a comment with its time and with what the registry held before it, and
the line of a command; below it comes a mark once the command has ended, a comment with what the
registry held then and an empty line. What is above an empty line stays as it is for ever; below the
last one a line may be cut off again. So all of a segment stays once another one has begun, and of
the last segment what is above its last empty line.
"""
import gzip
import os
import re

from files import sync_folder, write_file

NAME = re.compile(r"[0-9]{20}\.script(\.gz)?")
COUNTS = rb"revision=([0-9]+)&accounts=[0-9]+&items=[0-9]+&submissions=[0-9]+\n"
COMMENT = re.compile(rb"# time=([0-9]+)&" + COUNTS)
# The mark at the end of a text.
MARK = re.compile(rb"\n# ended&" + COUNTS + rb"\n\Z")
LONGEST_MARK = 200


def names_in(folder):
    """The names of all segments, in their order. Those that are packed end with .gz."""
    found = {it[:20]: it for it in sorted(os.listdir(folder), reverse=True) if NAME.fullmatch(it)}
    return [found[it] for it in sorted(found)]


def name_of(revision):
    """The name of the segment that begins at a revision."""
    return f"{revision:020}.script"


def plain(name):
    return name.removesuffix(".gz")


def text_of(folder, name, start=0):
    """The text of a segment from a byte on."""
    is_packed = name.endswith(".gz")
    with (gzip.open if is_packed else open)(os.path.join(folder, name), "rb") as file:
        file.seek(start)
        return file.read()


def size_of_ended(text, is_last):
    """How many bytes of a segment's text stay."""
    end = b"\n\n" if is_last else b"\n"
    found = text.rfind(end)
    return found + len(end) if found >= 0 else 0


def revision_at_end(text):
    """The revision after the last command of a segment, if it has ended."""
    found = MARK.search(text[-LONGEST_MARK:])
    return found and int(found[1])


def comments_of(text):
    """Of each entry where it begins, its time and the revision before it. No line of a command
    begins with a number sign."""
    for found in COMMENT.finditer(text):
        if found.start() == 0 or text[found.start() - 1:found.start()] == b"\n":
            yield found.start(), int(found[1]), int(found[2])


def copy_ended(folder, to, first="", seconds=None):
    """Makes another folder with what has ended, up to the first entry that is later than some
    seconds since 1970. What comes before the segment that is named is linked, and the rest copied
    without being packed."""
    os.mkdir(to)
    names = names_in(folder)
    for name in names:
        if plain(name) < first:
            os.link(os.path.join(folder, name), os.path.join(to, name))
            continue
        text = text_of(folder, name)
        text = text[:size_of_ended(text, name == names[-1])]
        late = seconds and [at for at, when, _ in comments_of(text) if when > int(seconds)]
        write_file(os.path.join(to, plain(name)), text[:late[0]] if late else text, is_synced=True)
        if late:
            break
    sync_folder(to)
