"""Files of the published folder: read, and put in place whole."""
import gzip
import json
import os

# How long a file is that nginx has a packed copy of, in bytes.
PACKED_FROM = 16_384


def read_file(path):
    """What a file holds, or None where there is none."""
    try:
        with open(path, "rb") as file:
            return file.read()
    except FileNotFoundError:
        return None


def write_file(path, data, when=None, is_synced=False):
    """Puts a file in place whole, unless it is there already as wanted. 1 if it was written."""
    if read_file(path) == data:
        return 0
    os.makedirs(os.path.dirname(path), exist_ok=True)
    beside = path + ".new"
    with open(beside, "wb") as file:
        file.write(data)
        if is_synced:
            file.flush()
            os.fsync(file.fileno())
    if when is not None:
        os.utime(beside, (when, when))
    os.replace(beside, path)
    if is_synced:
        sync_folder(os.path.dirname(path))
    return 1


def sync_folder(folder):
    """What was made or moved in a folder is there after a power failure too."""
    opened = os.open(folder, os.O_RDONLY)
    try:
        os.fsync(opened)
    finally:
        os.close(opened)


def write_packed(path, data):
    """Puts a file in place, with a packed copy if it is long; one that it no longer needs goes."""
    if len(data) >= PACKED_FROM:
        write_file(path + ".gz", gzip.compress(data, mtime=0))
    elif os.path.exists(path + ".gz"):
        os.remove(path + ".gz")
    return write_file(path, data)


def read_json(path, default):
    """What a file of JSON holds."""
    data = read_file(path)
    return default if data is None else json.loads(data)


def as_json(value):
    """A value as a line of JSON."""
    return (json.dumps(value, ensure_ascii=False, separators=(",", ":")) + "\n").encode()


def as_lines(rows):
    """Rows as lines of JSON."""
    return b"".join(map(as_json, rows))


def rows_of(data):
    """The rows of lines of JSON."""
    return [json.loads(line) for line in (data or b"").splitlines() if line]
