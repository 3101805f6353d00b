"""The table of docs/REFUSALS.md, and what the definitions in crates/*/specs say of each refusal."""
import os
import re

from program import TOP


def text_of(*path):
    with open(os.path.join(TOP, *path), encoding="utf-8") as file:
        return file.read()


def shown():
    """The word and the status of each refusal, by its number, as docs/REFUSALS.md has them."""
    rows = re.findall(r"^\| (\d+) \| (\w+) \| (\d{3}) \|", text_of("docs", "REFUSALS.md"), re.M)
    return {int(number): (word, int(status)) for number, word, status in rows}


def spec(crate, name):
    return text_of("crates", crate, "specs", f"{name}.antt")


def numbered(text, kind):
    """The word of each number, by two definitions of a file: `kind_number` and `kind_word`."""
    numbers = re.findall(rf"^{kind}_number \(?(\w+).*= (\d+)$", text, re.M)
    words = dict(re.findall(rf'^{kind}_word \(?(\w+).*= codes "(\w+)"$', text, re.M))
    return {variant: (int(number), words[variant]) for variant, number in numbers}


def defined():
    """The same as the definitions have it: of commands, of questions, of requests."""
    found = {}
    outcomes = spec("pid_http", "Api/Outcomes")
    said = re.findall(r"^status_of_refusal \(?refusals\.(\w+).*= (\d+)$", outcomes, re.M)
    statuses = {variant: int(status) for variant, status in said}
    for variant, (number, word) in numbered(spec("pid_moderation", "Refusals"), "refusal").items():
        found[number] = (word, statuses[variant])
    lookups = spec("pid_http", "Api/LookupAnswers")
    said = re.findall(r"unanswered_answer (\d+) whys\.(\w+)", lookups)
    missing = r"^missing_answer format = answer_in format (\d+) \(unanswered_data (\w+)\)"
    said += re.findall(missing, outcomes, re.M)
    statuses = {variant: int(status) for status, variant in said}
    for variant, (number, word) in numbered(spec("pid_lookup", "Unanswered"), "unanswered").items():
        found[number] = (word, statuses[variant])
    said = r"= answer_in format (\d+) \(refusal_data (\d+) \(codes \"(\w+)\"\)\)"
    for status, number, word in re.findall(said, spec("pid_http", "Api/RankAnswers")):
        found[int(number)] = (word, int(status))
    said = r"= refused_answer (\d+) (\d+) \(codes \"(\w+)\"\)"
    for status, number, word in re.findall(said, spec("pid_http", "Api/Outcomes")):
        found[int(number)] = (word, int(status))
    streams = spec("pid_http_stream", "StreamFaults")
    for status, number, word in re.findall(r'= \((\d+), (\d+), codes "(\w+)"\)', streams):
        found[int(number)] = (word, int(status))
    return found
