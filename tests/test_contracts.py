"""The form of contracts and definitions: how many crates there are, how long and how many the
clauses are, where definitions are, how laws are called."""
import re

import contracts
import named_calls
import pytest
import reading_list

CRATES = 30
# A public function has at most so many clauses, but for these; none is to be added.
CLAUSES = 5
LONGER = ("pid_tables::import_file",)
# Any function has fewer than so many, but for these.
TOO_MANY = 8
LONGEST = ("pid_http_stream::read_more", "pid_http_stream::read_head")
# What a clause of these crates has on average, in characters.
CHARACTERS = 91
ABOVE = ("pid_service", "pid_http", "pid_http_stream", "pid_script", "pid_cli",
         "pid_cli_jobs", "pid_cli_args")
# Of each crate so many definitions, but those in Steps, are reached by no call that the lists of
# PROMISES.md name: those of a double of tests. None is to be added.
UNNAMED = {"pid_tests_registry": 2}
# One notion, of a connection as of a registry over it, and of a fault as of its refusal.
SHARED = ["HasCleanDisk", "IsMemoryOrStore", "OnlyReads", "Shows"]
# Different ones, of a file and of tables.
OF_FILES = ["Counts", "GoesOn", "IsShown", "IsSound", "Reads", "items_of", "name_at", "tree_of"]


@pytest.fixture(scope="module")
def functions():
    return contracts.functions()


@pytest.fixture(scope="module")
def specs():
    return reading_list.Specs()


def test_crates(cases):
    cases.equal("there are few crates", len(reading_list.crates()) <= CRATES, True)


def test_clauses(cases, functions):
    longer = [str(it) for it in functions if it.is_public and len(it.clauses) > CLAUSES
              and it.path not in LONGER]
    cases.equal("public functions with too many clauses", longer, [])
    longest = [str(it) for it in functions if len(it.clauses) >= TOO_MANY
               and it.path not in LONGEST]
    cases.equal("functions with far too many clauses", longest, [])
    sizes = [len(it) for function in functions if function.crate in ABOVE
             for it in function.clauses]
    cases.equal("clauses are short", sum(sizes) / len(sizes) <= CHARACTERS, True)


def test_definitions(cases, specs):
    cases.equal("definitions that no promise cites", contracts.not_promised(specs), [])
    cases.equal("names that two crates define", contracts.in_two_crates(specs),
                sorted(SHARED + OF_FILES))


def test_named_calls(cases, specs):
    more = [f"{crate}: {count}" for crate, count in named_calls.unnamed(specs).items()
            if count > UNNAMED.get(crate, 0)]
    cases.equal("crates with more definitions that no named call reaches", more, [])


def test_calls_of_laws(cases):
    """A call for its clause alone is marked, and names the module of its law."""
    other = []
    for path in contracts.sources():
        with open(path, encoding="utf-8") as file:
            for number, line in enumerate(file, 1):
                is_law = re.match(r"\s*(?:\w+::)*?(?:laws|pid_service_laws)::", line)
                is_marked = line.rstrip().endswith("; // proof only")
                if is_marked != bool(is_law) and not line.strip().startswith("let _"):
                    other.append(f"{path}:{number}: {line.strip()}")
    cases.equal("calls of laws", other, [])
