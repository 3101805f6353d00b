"""Small files are printed, or refused, as the rules of docs/FILE_FORMAT.md say."""
import pytest

from program import HEADER
from worked_rows import PRINTED, REFUSED

pytestmark = pytest.mark.usefixtures("either")


@pytest.mark.parametrize("name", PRINTED)
def test_printed(cases, name):
    text, want = PRINTED[name]
    cases.printed(name, text, HEADER + want)


def test_the_longest_name(cases):
    line = b"8086  " + b"a" * 1000
    cases.printed("the longest name", line, HEADER + line + b"\n")


@pytest.mark.parametrize("name", REFUSED)
def test_refused(cases, name):
    cases.refused(name, *REFUSED[name])
