"""The commands of a page, each with what it shows below."""


def commands_in(blocks):
    """The commands of blocks, each with what it prints. A backslash at its end continues a line."""
    commands = []
    for block in blocks:
        for line in block.replace("\\\n", "\\\r").split("\n")[1:-1]:
            if line.startswith("$ "):
                commands.append((line[2:].replace("\r", "\n"), []))
            else:
                commands[-1][1].append(line + "\n")
    return [(command, "".join(printed)) for command, printed in commands]


def example_of(text):
    """The commands between the marks of a page, each with what it prints."""
    example = text.split("<!-- example: begins -->")[1].split("<!-- example: ends -->")[0]
    return commands_in(example.split("```")[1::2])
