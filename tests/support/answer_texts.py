"""What the server answers: as JSON, and as text."""
import json


def line_of(it):
    """The line for one of a list."""
    if "num" not in it:
        return f"{it['path']} {it['name']}\n"
    what = f"remove {it['path']}" if it["name"] is None else f"name {it['path']} {it['name']}"
    state = f"{it['state']} " if "state" in it else ""
    return f"{it['num']} {state}{it['author']} {what}\n"


def discussion(told):
    lines = [f"{word} {told[word]}" for word in ("num", "author", "path")]
    lines.append("remove" if told["name"] is None else f"name {told['name']}")
    lines += [f"{word} {told[word]}" for word in ("note", "state", "decider", "reason")]
    if "count" not in told:
        return lines + [f"remark {it['author']} {it['text']}" for it in told["remarks"]]
    lines.append(f"count {told['count']}")
    return lines + [f"remark {it['place']} {it['author']} {it['text']}" for it in told["remarks"]]


# The words of the faults of a file, from 1 on.
KINDS = "NotUtf8 TooDeep NoParent BadId NoName BadName Duplicate VendorMissing".split()


def as_text(told):
    """The text that says what a JSON reply says."""
    if isinstance(told, list):
        return "".join(line_of(it) for it in told)
    if "before" in told:
        return f"before {told['before']}\n" + as_text(told["submissions"])
    if "state" in told:
        lines = discussion(told)
    elif "accounts" in told:
        lines = [f"{key} {count}" for key, count in told.items()]
    elif "revision" in told:
        lines = [f"revision {told['revision']}"] + [
            f"{it['since']} {it['path']} {it['name']}" for it in told["items"]
        ]
    elif "rank" in told:
        lines = [f"{told['who']} {told['rank']}"]
    elif "ok" not in told:
        lines = [told["name"]]
    elif not told["ok"]:
        lines = [f"refused {told['refused']} {told['word']}"]
        if told["refused"] == 14:
            lines[0] += (
                f" line={told['line']} kind={told['kind']} {KINDS[told['kind'] - 1]}"
                if told["line"]
                else " too many entries"
            )
    elif "num" in told:
        lines = [f"ok {told['num']}"]
    else:
        counts = [f" {word}={told[word]}" for word in ("added", "renamed", "same") if word in told]
        lines = ["ok" + "".join(counts)]
    return "".join(line + "\n" for line in lines)


def as_json(told):
    """Compact JSON, keys in order, nothing escaped that need not be."""
    return json.dumps(told, sort_keys=True, separators=(",", ":"), ensure_ascii=False).encode()
