"""What to read of crates/*/specs to know what a promise of docs/PROMISES.md says: the definitions
that are reached from the contract of its public calls.

`tests/promise.py 7` prints them for promise 7.

`tests/reading_list.py` writes the table and the lists between the marks of that page; run it after
a change of a definition. A test compares them. The walk goes by the names that `use` lines
bring in, over the clauses of a call and the ghost members of the traits in its signature. The
types of the sources and the definitions of the toolchain's own crates are not counted.
"""
import os
import re
import textwrap

TOP = os.path.dirname(os.path.dirname(os.path.abspath(__file__)))

CRATES = os.path.join(TOP, "crates")
PAGE = os.path.join(TOP, "docs", "PROMISES.md")
BEGINS, ENDS = "<!-- reading list: begins -->\n", "<!-- reading list: ends -->\n"
NAME = r"[^\s(){}\[\].,;:λ→×⊎≡∷]+"
WHOLE = {"break_long_words": False, "break_on_hyphens": False}

# The public calls of each promise, as the table in README.md has them.
PROMISES = (
    ("1. Reading",
     ("pid_reader::read_ids", "pid_reader::Feeder::feed", "pid_reader::Feeder::finish")),
    ("2. Reading back", ("pid_reader::printed_trees_read_back",)),
    ("3. tidy and check", ("pid_file::tidy", "pid_file::check")),
    ("4. Look-ups", ("pid_lookup::lookup",)),
    ("5. Judgement", ("pid_moderation::decide", "pid_moderation::keys_stand_once")),
    ("6. The registry", ("pid_service::Registry::obey",)),
    # The law; the one that begins it; and those that give the premises of both from the clauses of
    # public calls.
    ("7. Crash prefix",
     ("pid_service::openings_tell_prefixes", "pid_service::reopened_registries_show_prefixes",
      "pid_service::clauses_meet_sessions", "pid_service::first_openings_show_what_is_there")),
    ("8. Migration", ("pid_service::migrate", "pid_service::histories_are_kept")),
    ("9. Scripts", ("pid_script::run_script",)),
    ("10. HTTP", ("pid_http::serve_stream",)),
    # Two calls, and the laws of what they leave.
    ("11. The journal",
     ("pid_journal::Journaled::obey", "pid_journal::open_journal",
      "pid_journal::stops_leave_the_way", "pid_journal::entries_are_answered")),
)

# What a first reading of promise 7 may leave shut. A clause or a law gives what another one takes,
# so that what these say need not be known to believe the promise.
HANDED_ON = {
    "Shows", "FailsBetween", "ShowsOrBlank", "IsShown", "IsReached", "ShowsAgain", "Does",
    "OverHistory", "Obeys", "ObeysImport", "Runs", "AnswersFailed", "OpensTo", "MovesTo",
    "IsExported", "IsLookedUp",
    # Whatever they say, the text is of the tree alone, an answer of that and of what was asked:
    # what the format and the flags are is said by promises 1 and 4.
    "Reads", "answer_of",
}
# And these are what promises 2 and 5 speak of.
OF_OTHERS = {"print", "judge", "views_of", "tree_of", "kept_of"}


def lines_of(path):
    with open(path, encoding="utf-8") as file:
        return file.read().split("\n")


def files_in(folder, ending):
    for at, folders, names in os.walk(folder):
        folders.sort()
        yield from (os.path.join(at, it) for it in sorted(names) if it.endswith(ending))


def crates():
    """The crates, in the order in which data flows, as crates.txt has them."""
    return [line.split(":")[0] for line in lines_of(os.path.join(TOP, "crates.txt"))
            if re.match(r"pid_\w+:", line)]


def used_names(text):
    """The names that `use` lines bring in, each with its module and its name there; and the modules
    that they give another name."""
    names, modules = {}, {}
    for module, listed in re.findall(r"\buse ([\w.«»]+)\.\{([^}]*)\}", text):
        for name in filter(None, (it.strip() for it in listed.split(","))):
            there, _, here = name.partition(" as ")
            names[(here or there).strip()] = (module, there.strip())
    for module, here in re.findall(r"\buse ([\w.]+) as (\w+)", text):
        modules[here] = module
    return names, modules


def words_in(text):
    return set(re.findall(r"[^\s(){}\[\].,;]+", text))


class Definition:
    def __init__(self, module, name, kind, indent, start):
        self.module, self.name, self.kind, self.indent = module, name, kind, indent
        self.start = start
        # its lines, the comment before it counted, and those alone that are no comment
        self.lines, self.code = [], ""
        # the place of its first line, and of the line that gives it more arguments
        self.first, self.scope = start, None

    @property
    def size(self):
        return len(self.lines)


def definitions_of(module, lines):
    """The definitions of a file, each with its lines, comments before it counted."""
    found, opened = [], None
    public = re.compile(r"^(\s*)((?:abbrev |unfoldable |total )?pub(?: abbrev| unfoldable)?"
                        r"(?: record| data)?|abbrev|record|data|unfoldable)"
                        r"\s+(" + NAME + r")(\s|$)")
    plain = re.compile(r"^(\s*)(" + NAME + r") : ")
    for at, line in enumerate(lines):
        match = public.match(line)
        if match and not line.strip().startswith(("pub use", "pub mod")):
            indent, kind, name = len(match.group(1)), match.group(2), match.group(3)
            inside = opened and opened.kind in ("record", "data") and indent > opened.indent
            if inside and kind == "pub":
                continue
            kind = "record" if "record" in kind else "data" if "data" in kind else "def"
        else:
            match = plain.match(line)
            if not match or line.strip().startswith("--"):
                continue
            indent, name, kind = len(match.group(1)), match.group(2), "def"
            if opened and indent > opened.indent:
                continue
        opened = Definition(module, name, kind, indent, at)
        found.append(opened)
    # a line that gives all definitions below it the same arguments is of none of them
    scopes = [at for at, line in enumerate(lines) if re.match(r"\s*module _", line)]
    starts = [commented_from(lines, it.start) for it in found]
    for it, start, end in zip(found, starts, [*starts[1:], len(lines)]):
        end = min([end, *(at for at in scopes if at > start)])
        it.scope = max((at for at in scopes if at < start and it.indent), default=None)
        it.first = start
        while lines[end - 1].strip().startswith("--") or not lines[end - 1].strip():
            end -= 1
        it.lines = [line for line in lines[start:end] if line.strip()]
        it.code = "\n".join(line for line in it.lines if not line.strip().startswith("--"))
    return found


def commented_from(lines, at):
    """The place of the first line of the comment that ends before this line."""
    while at and lines[at - 1].strip().startswith("--"):
        at -= 1
    return at


def cases_of(definition):
    """The names of the cases of a type; none of another definition."""
    if definition.kind != "data":
        return []
    return re.findall(rf"^\s+({NAME}) :", definition.code, re.M)


class Specs:
    """All definitions of this repository, and what each of them cites."""

    def __init__(self):
        self.definitions, self.uses, self.local, self.handed_on = {}, {}, {}, {}
        # The names that a file hands on from another, and the cases of its types.
        self.other_names = {}
        for crate in crates():
            folder = os.path.join(CRATES, crate, "specs")
            for path in files_in(folder, ".antt"):
                inner = os.path.relpath(path, folder)[:-len(".antt")].replace(os.sep, ".")
                module = f"Rattle.{crate}.specs.{inner}"
                lines = lines_of(path)
                if inner == "Lib":
                    for there in re.findall(r"^pub use (Rattle\.[\w.]+)", "\n".join(lines), re.M):
                        self.handed_on[f"Rattle.{crate}.specs.{there.split('.')[-1]}"] = there
                    continue
                text = "\n".join(lines)
                self.uses[module] = used_names(text)
                handed = "\n".join(re.findall(r"^\s*pub use .*", text, re.M))
                for name, there in used_names(handed)[0].items():
                    self.other_names[module, name] = there
                found = definitions_of(module, lines)
                for it in found:
                    for case in cases_of(it):
                        self.other_names[module, case] = (module, it.name)
                self.local[module] = {it.name: (module, it.name) for it in found}
                self.definitions |= {(module, it.name): it for it in found}

    def key(self, module, name):
        while module in self.handed_on and self.handed_on[module] != module:
            module = self.handed_on[module]
        if (module, name) in self.definitions:
            return module, name
        there = self.other_names.get((module, name))
        return self.key(*there) if there else None

    def cited(self, text, uses, local=()):
        names, modules = uses
        keys = {local[it] if it in local else self.key(*names[it])
                for it in words_in(text) if it in local or it in names}
        for module, name in re.findall(r"\b(\w+)\.(" + NAME + ")", text):
            if module in modules:
                keys.add(self.key(modules[module], name))
        return keys - {None}

    def cited_by(self, key):
        module = key[0]
        # the name of a field is no name of a definition
        code = re.sub(rf"^(\s+pub ){NAME}( :)", r"\1\2", self.definitions[key].code, flags=re.M)
        return self.cited(code, self.uses[module], self.local[module]) - {key}

    def reached(self, keys, shut=()):
        """The definitions that are reached from these, but through none whose name is shut."""
        seen, left = set(), list(keys)
        while left:
            key = left.pop()
            if key not in seen and key[1] not in shut:
                seen.add(key)
                left += self.cited_by(key)
        return seen

# Promises speak of what a database shows, which is the first member of the trait. That sqlite's
# connection does what tables ask of it is proved in `connection.rt` of `pid_tables`.
SHOWN_ALONE = {"Database", "WritableDatabase"}


class Sources:
    """The contracts of the public calls, and the ghost members of the traits."""

    def __init__(self):
        # The file of each call whose contract was asked for.
        self.places = {}
        self.files = [(path, lines_of(path)) for crate in crates()
                      for path in files_in(os.path.join(CRATES, crate, "src"), ".rt")]
        # The lines of the file of each trait, and its place there.
        self.of_traits = {
            line.split()[2].partition("<")[0].rstrip(":"): (lines, at) for _, lines in self.files
            for at, line in enumerate(lines) if re.match(r"pub trait \w", line)
        }

    @staticmethod
    def block(lines, start):
        """The lines from here to the one that opens or ends the item, at the same indent."""
        indent = re.match(r"\s*", lines[start]).group()
        block = []
        for line in lines[start:]:
            block.append(line)
            if line in (indent + "{", indent + "{}") or (
                    line.startswith(indent) and line.endswith(";")
                    and not line.startswith(indent + " ")):
                break
            is_outer = line[:len(indent) + 1].strip()
            if line.endswith("{") and is_outer and not re.search(r"ensures|requires", line):
                break
        return "\n".join(it for it in block if not it.strip().startswith("//"))

    def contract(self, call):
        """The signature and the clauses of a call, below the first line of its `impl`; with the
        file that has them."""
        crate, *owner, name = call.split("::")
        found = []
        for path, lines in self.files:
            if os.path.relpath(path, CRATES).split(os.sep)[0] != crate:
                continue
            within, head = not owner, ""
            for at, line in enumerate(lines):
                if owner and re.match(r"impl\b", line):
                    within = re.match(rf"impl(?:<.*?>)? (\w+ for )?{owner[0]}\b", line)
                    head = line + "\n"
                if within and re.match(rf"\s*(?:pub )?fn {name}\b", line):
                    found.append((path, lines, head + self.block(lines, at)))
        # of the type itself, or else of a trait that it meets
        chosen = [it for it in found if " for " not in it[2].partition("\n")[0]] or found
        assert len(chosen) == 1, (call, len(found))
        path, lines, contract = chosen[0]
        self.places[call] = os.path.relpath(path, TOP)
        return lines, contract

    def traits(self, text):
        """The traits that a signature names, and those of the types that belong to these, each with
        its file and its members."""
        named = re.findall(r"\w+: ([\w +]+?)[,>]", text.partition("(")[0])
        left, seen = [*re.findall(r"\w+", " ".join(named))], set()
        while left:
            name = left.pop(0)
            if name in seen or name not in self.of_traits:
                continue
            seen.add(name)
            lines, at = self.of_traits[name]
            end = next(i for i in range(at, len(lines)) if lines[i] == "}")
            if name in SHOWN_ALONE:
                end = next(i for i in range(at, end) if lines[i].startswith("    fn "))
            body = "\n".join(it for it in lines[at:end] if not it.strip().startswith("//"))
            left += re.findall(r"\w+", " ".join(re.findall(r"^ +type \w+: (.*);", body, re.M)))
            yield lines, body


def clauses_of(contract):
    """The names of the clauses of a contract."""
    return re.findall(r"^\s*(?:ensures|requires) (\w+) \{", contract, re.M)


def fields_of(definition):
    """The fields of a record; none of another definition."""
    if definition.kind != "record":
        return []
    return re.findall(r"^\s+pub (\w+) :", definition.code, re.M)


def says(specs, sources, call):
    """The names of the clauses of a call, or of the fields of the record that is its one clause;
    none if that is written out."""
    lines, contract = sources.contract(call)
    names = clauses_of(contract)
    if names:
        return names
    clause = contract.partition("ensures {")[2]
    keys = specs.cited(re.search(NAME, clause).group(), used_names("\n".join(lines)))
    return [it for key in keys for it in fields_of(specs.definitions[key])]


def cited_first(specs, sources, calls):
    """What the contracts of calls cite, in the order of the calls."""
    for call in calls:
        lines, contract = sources.contract(call)
        for file, text in ((lines, contract), *sources.traits(contract)):
            yield from sorted(specs.cited(text, used_names("\n".join(file))))


def order(specs, keys, first):
    """The files of definitions: of the highest crate first, and each before those that it cites;
    else those of the first definitions in their order."""
    cites = {}
    for key in keys:
        cites.setdefault(key[0], set()).update(it[0] for it in specs.cited_by(key) if it in keys)
    seen, listed = set(), []

    def visit(module):
        if module not in seen:
            seen.add(module)
            for it in sorted(cites[module]):
                visit(it)
            listed.append(module)

    for module, _ in reversed(first):
        visit(module)
    place = {crate: at for at, crate in enumerate(crates())}
    return sorted(reversed(listed), key=lambda it: -place[it.split(".")[1]])


def lists(specs, keys, first):
    """For each crate its files in order, each with how many of its lines are to be read."""
    sizes, by_crate = {}, {}
    for key in keys:
        sizes[key[0]] = sizes.get(key[0], 0) + specs.definitions[key].size
    for module in order(specs, keys, first):
        _, crate, _, *inner = module.split(".")
        by_crate.setdefault(crate, []).append(f"`{'/'.join(inner)}` {sizes[module]}")
    for crate, files in by_crate.items():
        text = f"{crate}: " + ", ".join(files).replace("` ", "`\0")
        wrapped = textwrap.wrap(text, 98, **WHOLE)
        yield "- " + "\n  ".join(wrapped).replace("\0", " ")


def name_of(call):
    return f"`{call.partition('::')[2]}`"


def page_part():
    """The part of docs/PROMISES.md between its marks."""
    specs, sources = Specs(), Sources()
    rows, parts, read = [], [], set()
    for promise, calls in PROMISES:
        first = list(cited_first(specs, sources, calls))
        keys = specs.reached(first)
        read |= keys
        size = sum(specs.definitions[key].size for key in keys)
        shown = ", ".join(map(name_of, calls if len(calls) < 4 else calls[:1]))
        more = f" and {len(calls) - 1} more" if len(calls) > 3 else ""
        rows.append(f"| {promise} | {shown}{more} | {len(keys)} | {size:,} |\n")
        parts.append(f"\n### To read for {promise}\n\n")
        for call in calls:
            names = ", ".join(f"`{it}`" for it in says(specs, sources, call))
            what = f"clauses {names}" if names else "clause"
            text = f"`{sources.places[call]}`, {name_of(call)}: {what}"
            parts.append("- " + "\n  ".join(textwrap.wrap(text, 98, **WHOLE)) + "\n")
        parts.append("\n".join(lists(specs, keys, first)) + "\n")
    size = sum(specs.definitions[key].size for key in read)
    rows.append(f"| all of them | | {len(read)} | {size:,} |\n")
    head = "\n| promise | public calls | definitions | lines |\n|---|---|---|---|\n"
    return head + "".join(rows) + "".join(parts) + "\n"


def shown_part():
    with open(PAGE, encoding="utf-8") as page:
        return page.read().partition(BEGINS)[2].partition(ENDS)[0]


def write():
    with open(PAGE, encoding="utf-8") as page:
        before, _, rest = page.read().partition(BEGINS)
    with open(PAGE, "w", encoding="utf-8") as page:
        page.write(before + BEGINS + page_part() + ENDS + rest.partition(ENDS)[2])


if __name__ == "__main__":
    write()
