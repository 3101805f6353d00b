"""Look-ups of a script beside those of the real libpci, over the real file: all requests, flags,
fallbacks and sizes."""
import os
import random
import re
import subprocess

import pytest

from program import PROGRAM, REAL_FILE, SUPPORT

REQUESTS = (0x1, 0x2, 0x3, 0x9, 0xA, 0xB, 0x4, 0x10)
# Without NUMERIC beside NO_NUMBERS, which libpci takes and pciids refuses.
LAYOUTS = (0, 0x10000, 0x20000, 0x40000, 0x50000, 0x60000, 0x70000)
SIZES = (1024, 1024, 1024, 1024, 40, 20, 8, 4, 3, 1)
COUNT = 20_000


def numbers_of(text):
    """Devices with their vendors, subsystems with both, and the classes down to their
    interfaces."""
    devices, subsystems, classes = [], [], []
    vendor = device = kind = below = None
    for line in text.split(b"\n"):
        if match := re.match(rb"C ([0-9a-f]{2})  ", line):
            vendor, kind = None, int(match[1], 16)
            classes.append((kind << 8, 0))
        elif match := re.match(rb"([0-9a-f]{4})  ", line):
            vendor, kind = int(match[1], 16), None
            devices.append((vendor, 0))
        elif vendor is not None and (match := re.match(rb"\t([0-9a-f]{4})  ", line)):
            device = int(match[1], 16)
            devices.append((vendor, device))
        elif vendor is not None and (
            match := re.match(rb"\t\t([0-9a-f]{4}) ([0-9a-f]{4})  ", line)
        ):
            subsystems.append((vendor, device, int(match[1], 16), int(match[2], 16)))
        elif kind is not None and (match := re.match(rb"\t([0-9a-f]{2})  ", line)):
            below = kind << 8 | int(match[1], 16)
            classes.append((below, 0))
        elif kind is not None and (match := re.match(rb"\t\t([0-9a-f]{2})  ", line)):
            classes.append((below, int(match[1], 16)))
    return devices, subsystems, classes


def looked_up(chance, known):
    """One look-up: numbers of the file, numbers near them, the device as its own subsystem, and any
    numbers."""
    devices, subsystems, classes = known
    vendor, device = chance.choice(devices)
    subvendor, subdevice = chance.choice(devices)
    if chance.random() < 0.5:
        vendor, device, subvendor, subdevice = chance.choice(subsystems)
    kind, interface = chance.choice(classes)
    if chance.random() < 0.2:
        subvendor, subdevice = vendor, device
    if chance.random() < 0.2:
        device, subdevice, interface = (chance.randrange(0x10000) for _ in range(3))
    if chance.random() < 0.1:
        vendor, kind = chance.randrange(0x10000), chance.randrange(0x10000)
    if chance.random() < 0.1:
        kind = 0x0101
    if chance.random() < 0.05:
        vendor, device = chance.choice(((0, device), (vendor, 0)))
    flags = chance.choice(
        REQUESTS if chance.random() < 0.98 else (0, 5, 0x20, 0x1F)
    ) | chance.choice(LAYOUTS)
    return flags, vendor, device, subvendor, subdevice, kind, interface & 0xFF, chance.choice(SIZES)


NAMES = ("flags", "vendor", "device", "subvendor", "subdevice", "class", "progif")
WIDTHS = (1, 4, 4, 4, 4, 4, 2)


def line_of(asked):
    fields = [f"{name}={value:0{width}x}" for name, width, value in zip(NAMES, WIDTHS, asked)]
    return "lookup " + "&".join([*fields, f"size={asked[7]}"])


def answers_of_libpci(peer, asked):
    lines = "".join(" ".join(f"{value:x}" for value in it[:7]) + f" {it[7]}\n" for it in asked)
    return subprocess.run(
        [peer, REAL_FILE], input=lines.encode(), stdout=subprocess.PIPE, check=True, timeout=60
    ).stdout


def answers_of_script(database, asked):
    lines = "".join(line_of(it) + "\n" for it in asked)
    ran = subprocess.run(
        [PROGRAM, "script", "--db", database],
        input=lines.encode(),
        stdout=subprocess.PIPE,
        stderr=subprocess.PIPE,
        timeout=120,
    )
    return ran.stdout, ran.stderr, ran.returncode


def one_by_word(cases, asked, wanted):
    """The same by the word `lookup`, which reads the file itself."""
    words = [f"--{name}={value:0{width}x}" for name, width, value in zip(NAMES, WIDTHS, asked)]
    ran = subprocess.run(
        [PROGRAM, "lookup", "--ids", REAL_FILE, *words, f"--size={asked[7]}"],
        stdout=subprocess.PIPE,
        stderr=subprocess.PIPE,
        timeout=60,
    )
    cases.equal(
        f"look-ups: the word lookup, {line_of(asked)}",
        (ran.stdout, ran.stderr, ran.returncode),
        (wanted + b"\n", b"", int(wanted == b"none")),
    )


@pytest.mark.needs("gcc", "libc6-dev", "libpci-dev", "pci.ids")
def test_as_libpci_answers(cases, folder):
    with open(REAL_FILE, "rb") as file:
        known = numbers_of(file.read())
    chance = random.Random(1)
    asked = [looked_up(chance, known) for _ in range(COUNT)]
    peer, database = os.path.join(folder, "libpci_lookups"), os.path.join(folder, "registry.db")
    source = os.path.join(SUPPORT, "libpci_lookups.c")
    if subprocess.run(["gcc", "-O1", source, "-lpci", "-o", peer]).returncode != 0:
        pytest.skip("libpci-dev is not installed")
    imported = subprocess.run(
        [PROGRAM, "import", "--db", database, "--account", "root", REAL_FILE],
        stdout=subprocess.PIPE,
        stderr=subprocess.PIPE,
        timeout=60,
    )
    cases.equal(
        "look-ups: the real file is imported",
        (imported.stdout[:9], imported.stderr, imported.returncode),
        (b"ok added=", b"", 0),
    )
    told, faults, status = answers_of_script(database, asked)
    wanted = answers_of_libpci(peer, asked).split(b"\n")
    cases.equal("look-ups: the script", (faults, status, told.count(b"\n")), (b"", 0, COUNT))
    cases.equal(
        "look-ups: libpci found names and none",
        (wanted.count(b"none") > 1000, len(set(wanted)) > 3000),
        (True, True),
    )
    wrong = [
        (line_of(it), ours, theirs)
        for it, ours, theirs in zip(asked, told.split(b"\n"), wanted)
        if ours != theirs
    ]
    cases.equal("look-ups: as libpci answers", wrong[:3], [])
    for it in asked[:: COUNT // 20]:
        one_by_word(cases, it, wanted[asked.index(it)])
