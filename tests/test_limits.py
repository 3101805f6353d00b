"""The limits of a text: 100,000 entries, 4,194,304 bytes."""
import pytest

from program import HEADER, tidy

pytestmark = pytest.mark.usefixtures("either")


def vendors_and_devices(devices):
    lines = [b"%04x  a" % vendor for vendor in range(65536)]
    return b"\n".join(lines + [b"\t%04x  a" % device for device in range(devices)]) + b"\n"


def test_limits(cases):
    most = vendors_and_devices(34464)
    cases.printed("100,000 entries", most, HEADER + most)
    cases.refused("one entry more", vendors_and_devices(34465), b"too many entries")
    cases.refused("one entry more is a repeat", most + b"\t0000  a\n", b"line 100001: 7 Duplicate")
    cases.printed("a block is no entry", most + b"S 0001\n", HEADER + most)
    cases.refused("a fault behind the last entry", most + b"\txyz\n", b"line 100001: 4 BadId")
    cases.printed("4,194,304 bytes", b"#" * 4194304, HEADER)
    cases.refused("one byte more", b"#" * 4194304 + b"x", b"too large")
    cases.refused("too large comes before any line", b"\xff\n" + b"#" * 4194304, b"too large")
    ran = tidy(b"#" * 64_000_000)
    cases.equal("an endless line", (ran.out, ran.err, ran.status), (b"", b"too large\n", 1))
