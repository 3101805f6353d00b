"""Which names a new account may have: nothing here acts as anybody, or reads more than a table."""
import pathlib
import re

RESERVED = pathlib.Path(__file__).with_name("reserved").read_text("ascii").split()


def readings(name):
    """How a name may be read: those of two names have one in common if one passes for the other."""
    for old, new in (("0", "o"), ("rn", "m"), ("vv", "w"), ("-", "")):
        name = name.replace(old, new)
    return {name.replace("1", "l"), name.replace("1", "i")}


def fault_of(name, others):
    """Why a new account may not have this name beside these others, or None."""
    if len(name) > 32 or not re.fullmatch("[a-z][a-z0-9]*(-[a-z0-9]+)*", name):
        return ("A name is 1 to 32 of a to z, 0 to 9 and -. It begins with a letter, ends with a"
                " letter or a digit, and has no two hyphens together.")
    if any(readings(name) & readings(it) for it in RESERVED):
        return f"{name} is reserved, or reads like a reserved name."
    like = next((it for it in others if readings(name) & readings(it)), None)
    return like and f"{name} reads like {like}, which is there."
