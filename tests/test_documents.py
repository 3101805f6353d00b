"""The documents at the top and in docs/: their links lead somewhere, the calls that they promise
exist, the pages that are meant to be read whole keep their width, and versions agree."""
import glob
import os
import re
import shutil
import subprocess

import pytest

import contracts
import edit_list
import promise
import reading_list
import refusals
from program import TOP
from words_to_change import found_in

WIDEST, WIDEST_ROW, WIDEST_CELL = 100, 120, 100
README_LINES = 130
# How many wrong bodies the gate tries, and how many are tried on demand.
MOST_EDITS = (80, 200)
# Folders beside crates/.
OUTSIDE = ("tests/", "site/", "deploy/", "docs/")


def text_of(name):
    with open(os.path.join(TOP, name), encoding="utf-8") as page:
        return page.read()


def pages():
    """The pages of the repository, by their paths from the top."""
    for folder in ("", "docs"):
        for name in sorted(os.listdir(os.path.join(TOP, folder))):
            if name.endswith(".md"):
                yield os.path.join(folder, name)


def anchor_of(heading):
    """What a link to a heading has after its `#`."""
    return re.sub(r"[^\w\- ]", "", heading.strip().lower()).replace(" ", "-")


def prose_of(page):
    """A page without its blocks of code."""
    return re.sub(r"^```.*?^```$", "", text_of(page), flags=re.M | re.S)


def broken_links(page):
    """The links of a page that lead to no file of the repository, or to no heading of it."""
    prose = prose_of(page)
    targets = re.findall(r"\]\(([^)\s]+)\)", prose) + re.findall(r"^\[[^]]+\]: (\S+)$", prose, re.M)
    for target in targets:
        if re.match(r"[a-z]+:", target):
            continue
        path, _, anchor = target.partition("#")
        file = os.path.normpath(os.path.join(os.path.dirname(page), path)) if path else page
        if not os.path.exists(os.path.join(TOP, file)):
            yield target
        elif anchor:
            headings = re.findall(r"^#+ (.*)$", prose_of(file), re.M)
            if anchor not in map(anchor_of, headings):
                yield target


def wide_lines(page):
    """The lines of a page that are too wide. What a program prints is shown as it is."""
    kind = None
    for line in text_of(page).splitlines():
        if line.startswith("```"):
            kind = line[3:] if kind is None else None
        elif kind is None or kind in ("sh", "sql") or line.startswith("$ "):
            cells = line.split(" | ") if kind is None and line.startswith("|") else []
            widest = WIDEST_ROW if cells else WIDEST
            if len(line) > widest or any(len(cell) > WIDEST_CELL for cell in cells):
                yield line


def words_to_change(page):
    """The words of a page that are on the list, each with its line and what to say."""
    text = re.sub(r"^```.*?^```$|`[^`]*`|\]\([^)]*\)", lambda it: re.sub(r"[^\n]", " ", it[0]),
                  text_of(page), flags=re.M | re.S)
    return found_in(text)


def defined():
    """The names of the functions and types in the sources, and of the crates."""
    names = set(os.listdir(os.path.join(TOP, "crates")))
    for folder, _, files in os.walk(os.path.join(TOP, "crates")):
        if f"{os.sep}src" in folder[len(TOP):]:
            for file in files:
                with open(os.path.join(folder, file), encoding="utf-8") as source:
                    names.update(re.findall(r"\b(?:fn|struct|enum|trait) (\w+)", source.read()))
    return names


def missing_calls(known):
    """The calls that docs/PROMISES.md and README's table name and no source defines."""
    listed = [line for line in text_of("docs/PROMISES.md").partition("## 1.")[2]
              .partition("## What is only tested")[0].splitlines() if line.startswith(("- ", "  "))]
    listed += [line.rpartition(" | ")[2] for line in text_of("README.md").splitlines()
               if re.match(r"\| \d+ \|", line)]
    calls = re.findall(r"`(?:\w+::)*(\w+)`", "\n".join(listed))
    return len(calls), sorted(set(calls) - known)


def sources_in(crate):
    folder = os.path.join(TOP, "crates", crate, "src")
    return "".join(open(os.path.join(at, it), encoding="utf-8").read()
                   for at, _, files in os.walk(folder) for it in files)


def missing_evidence():
    """How many tests and calls SECURITY.md names, and those that do not exist."""
    text = " ".join(text_of("SECURITY.md").partition("## What is not")[0].split())
    text = text.partition("A client of `serve`:")[2]
    named, missing = 0, []
    for place, first, others in re.findall(r"`(pid_\w+|[\w/]+\.py): (\w+)`((?:, `\w+`)*)", text):
        for name in [first, *re.findall(r"\w+", others)]:
            file = os.path.join("tests", place)
            found = text_of(file) if place.endswith(".py") else sources_in(place)
            named += 1
            if not re.search(rf"\b(def|fn) {name}\b", found):
                missing.append(f"{place}: {name}")
    for crate, path in re.findall(r"`(pid_\w+)::([\w:]+)`", text):
        named += 1
        if not re.search(rf"\bfn {path.rpartition(':')[2]}\b", sources_in(crate)):
            missing.append(f"{crate}::{path}")
    return named, missing


def missing_clauses():
    """How many clauses SECURITY.md names after calls, and those that these calls have not. A name
    after a call is another call of its crate, or a clause of one of them; or a field of the record
    that is its one clause."""
    text = " ".join(text_of("SECURITY.md").split()).partition("A client of `serve`:")[2]
    clauses, missing, count = {}, [], 0
    definitions = reading_list.Specs(), reading_list.Sources()
    for it in contracts.functions():
        found = re.findall(r"^\w+ (\w+) \{", "\n".join(it.clauses), re.M)
        clauses.setdefault(it.path, set()).update(found)
    for call, names in re.findall(r"`(pid_\w+::[\w:]+)`((?:, `[\w:]+`)+)", text):
        crate, calls = call.partition("::")[0], [call.rpartition("::")[2]]
        for name in re.findall(r"[\w:]+", names):
            last = name.rpartition("::")[2]
            if f"{crate}::{last}" in clauses:
                calls.append(last)
                continue
            count += 1
            if any(name in clauses.get(f"{crate}::{it}", ()) for it in calls):
                continue
            if name not in reading_list.says(*definitions, f"{crate}::{calls[0]}"):
                missing.append(f"{call}: {name}")
    return count, missing


def unknown_names(page):
    """How many names of code a page has, and those that no source, definition or test has."""
    known = set(os.listdir(os.path.join(TOP, "crates"))) | {"unsafe"}
    for folder in ("crates", "tests"):
        for at, _, files in os.walk(os.path.join(TOP, folder)):
            for file in (it for it in files if it.endswith((".rt", ".antt", ".py"))):
                with open(os.path.join(at, file), encoding="utf-8") as source:
                    known.update(re.findall(r"\w+", source.read()))
    names = set(re.findall(r"`([A-Za-z_][\w:]*)`", prose_of(page)))
    return len(names), sorted(it for it in names if not known.issuperset(it.split("::")))


def missing_words():
    """How many definitions docs/GLOSSARY.md names, and those that are not in specs or sources."""
    names = re.findall(r"`(\w+)`\)", text_of("docs/GLOSSARY.md"))
    text = "".join(open(os.path.join(at, it), encoding="utf-8").read()
                   for at, _, files in os.walk(os.path.join(TOP, "crates"))
                   if re.search(r"/(specs|src)\b", at[len(TOP):])
                   for it in files)
    return len(names), [it for it in names if not re.search(rf"\b{it}\b", text)]


def missing_paths():
    """The files that CONTRIBUTING.md names under "How to add", and those that do not exist. A path
    that begins with src/ or specs/ is of the crate that was named last."""
    named, missing, crate = 0, [], ""
    text = text_of("CONTRIBUTING.md").partition("`src/` and `specs/`")[2]
    for path in re.findall(r"`([\w/.]+)`", text):
        crate = path.partition("/")[0] if path.startswith("pid_") else crate
        if path.startswith(("pid_", "src/", "specs/", *OUTSIDE)):
            at = path if path.startswith(OUTSIDE) else os.path.join("crates", path)
            if path.startswith(("src/", "specs/")):
                at = os.path.join("crates", crate, path)
            named += 1
            if not os.path.exists(os.path.join(TOP, at)):
                missing.append(at)
    return named, missing


def has_file(crate, name):
    """Whether a crate has a module, a definition's file or a constant of this name."""
    folder = os.path.join(TOP, "crates", crate)
    if name.endswith(".antt"):
        return os.path.exists(os.path.join(folder, "specs", name.removeprefix("specs/")))
    places = (f"src/{name}.rt", f"{name}.rt", name, f"specs/{name}.antt")
    return (any(os.path.exists(os.path.join(folder, it)) for it in places)
            or name.isupper() and f" {name}:" in sources_in(crate))


def missing_rooms():
    """How many places docs/ARCHITECTURE.md names under "Where to change what", and those that do
    not exist. A name without a crate is of the one that was named last."""
    named, missing = 0, []
    table = text_of("docs/ARCHITECTURE.md").partition("## Where to change what")[2]
    for line in (it for it in table.splitlines() if it.startswith("| ")):
        crate, folder = "", ""
        for name in re.findall(r"`([\w/.-]+)`", cells_of(line)[1]):
            named += 1
            if name.startswith("pid_"):
                crate, _, rest = name.partition("/")
                found = os.path.isdir(os.path.join(TOP, "crates", crate)) and has_file(crate, rest)
            elif name.startswith(OUTSIDE) or not crate:
                folder = os.path.dirname(name) if name.startswith(OUTSIDE) else folder
                found = os.path.exists(os.path.join(TOP, folder, os.path.basename(name)))
            else:
                found = has_file(crate, name)
            if not found:
                missing.append(name)
    return named, missing


def misplaced_definitions():
    """How many definitions docs/PROMISES.md lists with files, and those that are not there."""
    count, missing = 0, []
    for names, file in re.findall(r"^\| (`.*`) \| `(pid_\w+/specs/[\w/]+)` \|",
                                  text_of("docs/PROMISES.md"), re.M):
        spec = text_of(os.path.join("crates", file + ".antt"))
        for name in re.findall(r"\w+", names):
            count += 1
            if not re.search(rf"^\s*(?:\w+ )*{name} ", spec, re.M):
                missing.append(f"{file}: {name}")
    return count, missing


def cells_of(line):
    return [it.strip() for it in line.split("|")[1:-1]]


def listed_rows():
    """The rows of bench/run, each with what no run changes: its work, whose it is, bar and aim."""
    words = [os.path.join(TOP, "bench", "run"), "--list"]
    ran = subprocess.run(words, stdout=subprocess.PIPE, text=True, timeout=60, check=True)
    return [cells_of(line) for line in ran.stdout.splitlines()]


def shown_rows():
    """The same of the table in docs/BENCHMARKS.md."""
    table = text_of("docs/BENCHMARKS.md").partition("<!-- table: begins -->")[2]
    lines = table.partition("<!-- table: ends -->")[0].splitlines()
    rows = [cells_of(line) for line in lines if line.startswith("| ")]
    return [[*row[:2], *row[5:7]] for row in rows[1:]]


def has_reader(page):
    """Whether the first sentence of a page says for whom it is."""
    first = text_of(page).split("\n\n")[1]
    return page == "README.md" or first.startswith("For ")


@pytest.mark.parametrize("page", pages())
def test_page(cases, page):
    cases.equal("says for whom it is", has_reader(page), True)
    cases.equal("links that lead nowhere", sorted(broken_links(page)), [])
    cases.equal("lines and cells that are too wide", list(wide_lines(page)), [])
    cases.equal("words to change", list(words_to_change(page)), [])
    unmerged = re.findall(r"^(?:<<<<<<<|=======|>>>>>>>)(?: .*)?$", text_of(page), re.M)
    cases.equal("marks of a merge that did not end", unmerged, [])


def test_readme(cases):
    lines = text_of("README.md").count("\n")
    cases.equal(f"at most {README_LINES} lines", lines <= README_LINES, True)
    count, missing = missing_calls(defined())
    cases.equal("promises: calls that no source defines", missing, [])
    cases.equal("promises: they name calls", count > 40, True)
    kit = re.search(r"`(logic \w+)`", text_of("README.md"))
    cases.equal("names the toolchain's line", kit is not None, True)
    if shutil.which("rt") is None:
        pytest.skip("the toolchain's line: the command rt is missing")
    ran = subprocess.run(["rt", "version"], stdout=subprocess.PIPE, text=True, timeout=60)
    cases.equal("the toolchain's logic", kit.group(1) in ran.stdout, True)


def rows_of_times():
    """The times of the table in docs/INSTALL.md."""
    table = text_of("docs/INSTALL.md").partition("| first use of |")[2].partition("\n\n")[0]
    return set(re.findall(r"\d+(?: to \d+)? minutes?", table))


def test_times(cases):
    """What is said of how long a command takes is in one table."""
    times = rows_of_times()
    cases.equal("the table has times", len(times), 5)
    for page, few in (("README.md", 3), ("CONTRIBUTING.md", 2), ("docs/INSTALL.md", 5)):
        # The fast loop has times of its own.
        text = text_of(page)
        prose = text.partition("## The fast loop")[0] + text.partition("## The gate")[2]
        found = set(re.findall(r"\b\d+(?: to \d+)? minutes?\b", " ".join(prose.split())))
        cases.equal(f"{page}: times that the table has not", found - times, set())
        cases.equal(f"{page}: it says some", len(found) >= few, True)


def test_contributing(cases):
    count, missing = missing_paths()
    cases.equal("files that do not exist", missing, [])
    cases.equal("it names some", count > 50, True)
    cases.equal("names that nothing has", unknown_names("CONTRIBUTING.md")[1], [])


def test_architecture(cases):
    count, missing = missing_rooms()
    cases.equal("places that do not exist", missing, [])
    cases.equal("it names some", count > 100, True)
    named = set(re.findall(r"`(pid_\w+)`", text_of("docs/ARCHITECTURE.md")))
    crates = set(os.listdir(os.path.join(TOP, "crates")))
    cases.equal("crates that do not exist", sorted(named - crates), [])


def test_security(cases):
    count, missing = missing_evidence()
    cases.equal("tests and calls that do not exist", missing, [])
    cases.equal("it names some", count > 30, True)
    count, missing = missing_clauses()
    cases.equal("clauses that do not exist", missing, [])
    cases.equal("it names clauses", count > 4, True)


def test_root(cases):
    """What is meant for root opens no file of the user pciids with a tool that does what the file
    says: an `edit()` in a view of a database runs a command, and `tar` unpacks programs of root."""
    count = 0
    for page in ("docs/OPERATE.md", "docs/FAILURES.md"):
        text = text_of(page)
        blocks = re.findall(r"^```(?:sh)?\n(.*?)^```$", text, re.M | re.S)
        lines = "".join(blocks).replace("\\\n", " ").splitlines()
        in_prose = re.findall(r"`([^`\n]+\n?[^`\n]+)`", prose_of(page))
        for line in [*lines, *(it.replace("\n", " ") for it in in_prose)]:
            if re.search(r"(^|[ /])(sqlite3 .*\.db|tar .*-x)", line):
                count += 1
                cases.equal(line, "runuser -u pciids -- " in line, True)
    cases.equal("they open some", count > 3, True)


def test_refusals(cases):
    cases.equal("as the definitions have them", refusals.shown(), refusals.defined())


def test_reading_list(cases):
    shown, printed = reading_list.shown_part(), reading_list.page_part()
    cases.equal("PROMISES.md: what to read (run tests/reading_list.py)", shown == printed, True)
    count, missing = misplaced_definitions()
    cases.equal("PROMISES.md: definitions that are not in their files", missing, [])
    cases.equal("PROMISES.md: it lists some", count > 30, True)
    steps = set(re.findall(r"`((?:\w+/)?Steps/\w+)`", shown))
    named = set(re.findall(r"`((?:\w+/)?Steps/\w+)`", text_of("docs/ARCHITECTURE.md")))
    cases.equal("ARCHITECTURE.md: the steps that promises rest on", named, steps)


def test_promise(cases):
    """What tests/promise.py prints: all that the page lists, with the types that it names."""
    specs = reading_list.Specs()
    lost = sorted(it for it in promise.others(specs, specs.definitions)
                  if it[0].startswith("Rattle.pid_")
                  and not re.search(r"\.specs\.(declared|contracts)\.", it[0]))
    cases.equal("names in specs that lead to no definition", lost, [])
    rows = re.findall(r"^\| (\d+)\. .*\| ([\d,]+) \| ([\d,]+) \|$", reading_list.shown_part(), re.M)
    for number, count, size in rows:
        parts = list(promise.reading(int(number)))
        cases.equal(f"promise {number}", parts[-1], f"{count} definitions, {size} lines")
    headline = [part.partition("\n")[2] for part in promise.reading(7)]
    for start in ("pub trait Output", "pub enum Reply", "pub struct Registry"):
        cases.equal(f"promise 7: {start}", any(it.startswith(start) for it in headline), True)
    trait = next(it for it in headline if it.startswith("pub trait Output"))
    cases.equal("promise 7: what a trait says of its values", "ghost write_fault" in trait, True)


def test_first_reading(cases):
    """The counts that HEADLINE.md has of what is read first, of what other promises speak of, and
    of all; and no name is shut that the law does not reach."""
    shut, others = reading_list.HANDED_ON, reading_list.OF_OTHERS
    parts = ((shut | others,), (shut, others), ())
    lasts = [list(promise.reading(7, *names))[-1] for names in parts]
    (first, lines), (then, more), (all_of_them, most) = (
        [int(it) for it in re.findall(r"\d+", last.replace(",", ""))] for last in lasts)
    text = " ".join(text_of("docs/HEADLINE.md").split())
    for said in (f"{first} definitions, {lines} lines", f"{then} definitions, {more} lines",
                 f"its {all_of_them} definitions", f"prints all {most:,}"):
        cases.equal(f"HEADLINE.md: {said}", said in text, True)
    specs = reading_list.Specs()
    calls = reading_list.PROMISES[6][1]
    reached = specs.reached(reading_list.cited_first(specs, reading_list.Sources(), calls))
    more = (shut | others) - {name for _, name in reached}
    cases.equal("names that are shut and not reached", more, set())


def test_edits(cases):
    shown, printed = edit_list.shown_part(), edit_list.page_part()
    cases.equal("PROOFS.md: wrong bodies (run tests/edit_list.py)", shown == printed, True)
    for folder, most in zip(edit_list.FOLDERS, MOST_EDITS):
        count = sum(len(edit_list.edits(it, folder)) for it in edit_list.crates())
        cases.equal(f"at most {most} of {folder}", count <= most, True)
    known = re.findall(r"^## (\d+)\. ", text_of("docs/PROMISES.md"), re.M)
    for crate in edit_list.crates():
        cases.equal(f"{crate}: texts that do not stand once", list(edit_list.faults(crate)), [])
        others = [os.path.basename(it) for it in edit_list.edits(crate, "edits-on-demand")
                  if edit_list.promise(it) not in known]
        cases.equal(f"{crate}: edits on demand that name no promise", others, [])


def test_evidence(cases):
    count, missing = unknown_names("docs/PROOFS.md")
    cases.equal("PROOFS.md: names that nothing has", missing, [])
    cases.equal("PROOFS.md: it names some", count > 100, True)
    ran = subprocess.run([os.path.join(TOP, "tests", "evidence.py")], capture_output=True,
                         text=True, timeout=60)
    printed = {line.strip() for line in ran.stdout.splitlines()}
    cases.equal("evidence.py: a public function", "Registry::run" in printed, True)
    body = "is_live: failed_registry_called_live (promise 6)"
    cases.equal("evidence.py: a wrong body", body in printed, True)
    cases.equal("evidence.py: status", ran.returncode, 0)


def test_benchmarks(cases):
    cases.equal("BENCHMARKS.md: the rows of bench/run (run it with --write)", shown_rows(),
                listed_rows())


def test_glossary(cases):
    count, missing = missing_words()
    cases.equal("words that no definition has", missing, [])
    cases.equal("it names some", count > 30, True)


def fields_left_out(quote):
    """The fields of a record that a quote of it lacks."""
    name = re.match(r"\s*pub record (\w+)", quote)
    if not name:
        return []
    quoted = re.findall(r"^\s+pub (\w+) :", quote, re.M)
    records = [reading_list.fields_of(it) for it in reading_list.Specs().definitions.values()
               if it.name == name[1]]
    return next(it[len(quoted):] for it in records if it[:len(quoted)] == quoted)


def test_headline(cases):
    """Each definition that the page quotes is so in a file of specs, to its end; and where a quote
    of a record is cut, the comment before it says so."""
    blocks = text_of("docs/HEADLINE.md").split("```\n")[1::2]
    parts = [it for block in blocks for it in re.split(r"^(?=-- \d+\. )", block, flags=re.M) if it]
    specs = []
    for path in glob.glob(os.path.join(TOP, "crates", "*", "specs", "**", "*.antt"),
                          recursive=True):
        with open(path, encoding="utf-8") as file:
            specs.append(" ".join(file.read().split()))
    cases.equal("HEADLINE.md: it quotes ten definitions", len(parts), 10)
    cases.equal("HEADLINE.md: two sides", text_of("docs/HEADLINE.md").count("\n") <= 120, True)
    whole = [" ".join(" ".join(it.lines).split())
             for it in reading_list.Specs().definitions.values()]
    for part in parts:
        comment, quote = re.fullmatch(r"((?:--[^\n]*\n)+)(.*)", part, re.S).groups()
        words = " ".join(quote.split())
        cases.equal(f"HEADLINE.md: {words[:60]}", any(words in it for it in specs), True)
        cut = bool(fields_left_out(quote))
        ends = cut or any(it.endswith(words) for it in whole)
        cases.equal(f"HEADLINE.md: to its end {words[:60]}", ends, True)
        said = "more field" in comment.replace("\n-- ", " ")
        cases.equal(f"HEADLINE.md: cut {words[:60]}", said, cut)
