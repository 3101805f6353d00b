"""One faulty line of each kind as the first, a middle and the last line, with and without the last
LF, with LF and CR LF."""

import pytest

pytestmark = pytest.mark.usefixtures("either")

GOOD = [
    b"8086  Intel",
    b"\t1237  440FX",
    b"\t\t1af4 1100  Qemu",
    b"C 01  Mass storage",
    b"\t01  IDE",
    b"1af4  Red Hat",
    b"S 1af4",
    b"\t0001  Net",
]

# The faulty line of each fault, after the head that it needs, so that it has its fault wherever it
# is put.
FAULTY = {
    "1 NotUtf8": [b"# \xe9"],
    "2 TooDeep": [b"0000  a", b"\t\t\t0001  b"],
    "3 NoParent": [b"0000  a", b"\t\t0001 0002  b"],
    "4 BadId": [b"0000  a", b"\t000g  b"],
    "5 NoName": [b"0000  a", b"\t0001 \t "],
    "6 BadName": [b"0000  a", b"\t0001  b\x01"],
    "7 Duplicate": [b"0000  a", b"\t0001  b", b"\t0001  c"],
    "8 VendorMissing": [b"S ffff"],
}


@pytest.mark.parametrize("fault, lines", FAULTY.items(), ids=FAULTY)
def test_fault(cases, fault, lines):
    # A top-level line may stand between whole blocks: before the first line, before the class,
    # after all.
    for place, at in (("first", 0), ("middle", 3), ("last", len(GOOD))):
        number = at + len(lines)
        for ending_name, ending in (("LF", b"\n"), ("CR LF", b"\r\n")):
            for last in (True, False):
                text = ending.join(GOOD[:at] + lines + GOOD[at:]) + (ending if last else b"")
                name = (
                    f"{fault}, {place}, {ending_name}, {'with' if last else 'without'} the last"
                    f" {ending_name}"
                )
                cases.refused(name, text, b"line %d: %s" % (number, fault.encode()))
