"""Files of names, of any size and in any order."""
import random


def subsystems(count):
    """One device with so many subsystems less two: so many entries."""
    lines = ["8086  a", "\t1237  a"] + [
        f"\t\t{n >> 16:04x} {n & 0xffff:04x}  a" for n in range(count - 2)
    ]
    return "\n".join(lines) + "\n"


def entries(count):
    """So many entries: vendors, and after the last of them its devices."""
    vendors = min(count, 65536)
    lines = [f"{v:04x}  a" for v in range(vendors)] + [
        f"\t{d:04x}  a" for d in range(count - vendors)
    ]
    return "\n".join(lines) + "\n"


def vendors_with_a_device(count):
    return "".join(f"{v:04x}  a\n\t0001  a\n" for v in range(count))


def shuffled(text):
    """The same entries, in no order at any level."""
    order = random.Random(1)
    top = []
    for line in text.splitlines():
        depth = len(line) - len(line.lstrip("\t"))
        if line.strip() and not line.lstrip().startswith("#"):
            below = top
            for _ in range(depth):
                below = below[-1][1]
            below.append((line, []))

    def lines(level):
        order.shuffle(level)
        for line, below in level:
            yield line
            yield from lines(below)

    return "\n".join(lines(top)) + "\n"
