"""How pytest runs these tests: their fixtures, and what skips a test or fails it."""
import os
import tempfile

import pytest

import program
from cases import Cases
from shims import ROOM, build_shims


def pytest_addoption(parser):
    parser.addoption("--all", action="store_true", help="try all, where a sample is tried")


def pytest_unconfigure(config):
    while program.AT_END:
        program.AT_END.pop()()


def pytest_runtest_setup(item):
    for mark in item.iter_markers("needs"):
        program.need(*mark.args)
        if "root" in mark.kwargs and os.geteuid() != 0:
            pytest.skip(mark.kwargs["root"])


@pytest.hookimpl(trylast=True)
def pytest_runtest_call(item):
    """A test fails at its end if one of its cases did."""
    failed = item.funcargs["cases"].counts[1] if "cases" in item.funcargs else 0
    if failed:
        pytest.fail(f"{failed} cases failed", pytrace=False)


@pytest.fixture
def cases(request):
    """Compares, and goes on after a difference."""
    found = Cases()
    request.node.user_properties.append(("cases", found.counts))
    return found


@pytest.fixture
def folder():
    """The path of a new folder."""
    with tempfile.TemporaryDirectory() as path:
        yield path


@pytest.fixture
def room():
    """The path of a new folder in memory, if there can be one."""
    with tempfile.TemporaryDirectory(dir=ROOM) as path:
        yield path


@pytest.fixture(scope="session")
def shims():
    """The libraries that refuse memory and the disk, by their names."""
    with tempfile.TemporaryDirectory() as path:
        yield build_shims(path)


EITHER = ["script", pytest.param("first", marks=pytest.mark.first)]
if program.INSTALLED is not None:
    EITHER = [pytest.param("installed", marks=pytest.mark.first)]


@pytest.fixture(params=EITHER)
def either(request, monkeypatch):
    """`program.run` runs the whole program, in another test the first; or the one of PCIIDS."""
    if request.param == "first":
        monkeypatch.setattr(program, "PROGRAM", program.FIRST)
