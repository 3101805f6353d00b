"""What a process holds in memory, as /proc shows it."""

KIB = 1_024


def told(pid, word):
    """A figure of a process, in KiB: VmHWM is the most that it held."""
    with open(f"/proc/{pid}/status") as file:
        return next((int(line.split()[1]) for line in file if line.startswith(f"{word}:")), 0)
