"""The calls that the lists of docs/PROMISES.md name, and the definitions of crates/*/specs that
their contracts reach."""
import os
import re

import reading_list
from program import TOP

CRATES = os.path.join(TOP, "crates")
FIRST, AFTER = "\n## 1. Reading", "\n## What is only tested"
FUNCTION = re.compile(r"\s*(pub )?(?:const )?fn (\w+)")
OWNER = re.compile(r"(?:pub )?(?:impl|trait)\b.*")
GHOST = re.compile(r"\s+ghost \w+ = ")


def type_of(owner):
    """The type of an `impl`, or the name of a trait."""
    rest = re.sub(r"^(?:pub )?(?:impl|trait)\s*(?:<.*?>+)?\s*", "", owner).split(" for ")[-1]
    found = re.match(r"(?:&\s*)?(?:'\w+ )?(?:mut )?(\w+)", rest)
    return found and found[1]


class Call:
    """A function that others may call, with the file that has it and its contract."""

    def __init__(self, crate, path, owner, name, lines, at):
        self.crate, self.name, self.type = crate, name, type_of(owner)
        self.file = os.path.basename(path).removesuffix(".rt")
        self.lines, self.contract = lines, reading_list.Sources.block(lines, at)


class Calls:
    def __init__(self, sources):
        self.sources, self.calls, self.ghosts = sources, [], []
        for path, lines in sources.files:
            self.read(os.path.relpath(path, CRATES).split(os.sep)[0], path, lines)

    def read(self, crate, path, lines):
        owner = ""
        for at, line in enumerate(lines):
            owner = "" if line == "}" else OWNER.match(line) and line.rstrip(" {") or owner
            found = FUNCTION.match(line)
            if found and (found[1] or " for " in owner or "trait " in owner):
                self.calls.append(Call(crate, path, owner, found[2], lines, at))
            if owner and GHOST.match(line):
                end = next(i for i in range(at, len(lines)) if lines[i].endswith("};"))
                text = "\n".join(lines[at:end + 1])
                self.ghosts.append((crate, type_of(owner), lines, text))

    def find(self, crate, word):
        """The calls of a crate that a word names: a call, or all of a type."""
        *path, name = word.split("::")
        return [it for it in self.calls if it.crate == crate and (
            it.name == name and (not path or path[-1] in (it.type, it.file)) or it.type == name)]

    def named(self):
        """The calls that the lists name, and the types."""
        with open(os.path.join(TOP, "docs", "PROMISES.md"), encoding="utf-8") as page:
            text = page.read().partition(FIRST)[2].partition(AFTER)[0]
        found, types, crate = set(), set(), ""
        for word in re.findall(r"`([^`]+)`", "".join(re.findall(r"^- .*(?:\n  .*)*", text, re.M))):
            of_crate = re.match(r"(pid_\w+)(?:::(.*))?$", word)
            if of_crate and os.path.isdir(os.path.join(CRATES, of_crate[1])):
                crate, word = of_crate[1], of_crate[2] or ""
            having = [it for it in reading_list.crates() if self.find(it, word)]
            if crate in having:
                having = [crate]
            # A word that several other crates have names no call of any.
            if len(having) == 1:
                found.update(self.find(having[0], word))
            types.update((it, word) for it in having or reading_list.crates())
        return found, types

    def reached(self, specs):
        """The definitions that the contracts reach, and the ghost members of the types."""
        calls, types = self.named()
        said = [(it.lines, it.contract) for it in calls]
        said += [trait for it in calls for trait in self.sources.traits(it.contract)]
        said += [(lines, text) for crate, owner, lines, text in self.ghosts
                 if (crate, owner) in types]
        keys = set()
        for lines, text in said:
            keys |= specs.cited(text, reading_list.used_names("\n".join(lines)))
        return specs.reached(keys)


def unnamed(specs):
    """How many definitions of each crate, but those in Steps, no named call reaches."""
    reached, count = Calls(reading_list.Sources()).reached(specs), {}
    for key in specs.definitions:
        if key not in reached and ".Steps." not in key[0] + ".":
            crate = key[0].split(".")[1]
            count[crate] = count.get(crate, 0) + 1
    return count
