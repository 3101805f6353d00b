"""The real lspci reads the canonical file as it reads the original."""
import os
import subprocess

import pytest

from lspci import dump, sampled_devices
from program import REAL_FILE, tidy


@pytest.mark.needs("pci.ids", "pciutils")
@pytest.mark.usefixtures("either")
def test_lspci(cases, folder):
    with open(REAL_FILE, "rb") as file:
        text = file.read()
    devices = sampled_devices(text)
    # Unknown vendors, devices and subsystems too, and a subsystem that is the device itself.
    devices += [
        (0xFFF0, 0x0001, 0, 0),
        (0x8086, 0xFFFE, 0x8086, 0xFFFE),
        (0x8086, 0x1237, 0x1AF4, 0x1100),
        (0x8086, 0x1237, 0xABCD, 0x0001),
        (0x8086, 0x1237, 0x8086, 0x1237),
    ]
    canonical = os.path.join(folder, "canonical.ids")
    machine = os.path.join(folder, "machine")
    with open(canonical, "wb") as file:
        file.write(tidy(text).out)
    with open(machine, "w") as file:
        file.write(dump(devices))
    for flags in (["-nn"], ["-vmm"], ["-v"], ["-vmmnn"]):
        shown = [
            subprocess.run(
                ["lspci", "-F", machine, "-i", ids] + flags,
                stdout=subprocess.PIPE,
                stderr=subprocess.PIPE,
            )
            for ids in (REAL_FILE, canonical)
        ]
        name = "lspci " + " ".join(flags)
        cases.equal(
            name + ": it reads the dump",
            (shown[0].returncode, shown[0].stdout.count(b"\n") >= len(devices)),
            (0, True),
        )
        cases.equal(name, shown[1].stdout, shown[0].stdout)
