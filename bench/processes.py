"""What a process takes: processor time, memory, instructions."""
import os
import re
import shutil
import subprocess
import threading
import time

from rows import Fault, Skip


def seconds(command, path=os.devnull, status=0):
    """The processor time of one process that reads the file, and ends with the status."""
    files = [
        (os.POSIX_SPAWN_OPEN, 0, path, os.O_RDONLY, 0),
        (os.POSIX_SPAWN_OPEN, 1, os.devnull, os.O_WRONLY, 0),
    ]
    if status:
        files.append((os.POSIX_SPAWN_OPEN, 2, os.devnull, os.O_WRONLY, 0))
    process = os.posix_spawnp(command[0], command, os.environ, file_actions=files)
    _, ended, used = os.wait4(process, 0)
    check_status(command, os.waitstatus_to_exitcode(ended), status)
    return used.ru_utime + used.ru_stime


def check_status(command, ended, status=0):
    if ended != status:
        raise Fault(f"{' '.join(command)} ended with status {ended}")


def in_turn(commands, path=os.devnull, rounds=25):
    """The least time of each command."""
    times = [[seconds(command, path) for command in commands] for _ in range(rounds)]
    return [min(column) for column in zip(*times)]


def memory_of(process, field="VmHWM"):
    """The greatest resident memory of a process so far, in MB; the present one is VmRSS."""
    with open(f"/proc/{process.pid}/status") as file:
        return next(int(line.split()[1]) for line in file if line.startswith(field)) / 1024


def peak_memory(command, path=os.devnull):
    """The greatest resident memory in MB, as the kernel reports it while the process runs."""
    peak = 0
    with open(path, "rb") as stdin:
        process = subprocess.Popen(
            command, stdin=stdin, stdout=subprocess.DEVNULL, stderr=subprocess.DEVNULL
        )
    while process.poll() is None:
        try:
            with open(f"/proc/{process.pid}/status") as file:
                status = file.read()
        except (FileNotFoundError, ProcessLookupError):
            break
        # Before the program itself is there, the figure is this script's.
        found = re.search(r"^VmHWM:\s+(\d+)", status, re.M)
        if found and not status.startswith("Name:\tpython"):
            peak = max(peak, int(found[1]))
    process.wait()
    return peak / 1024


def thread_time(process):
    """The processor time that a process of one thread has used (clock_getcpuclockid(3))."""
    return time.clock_gettime(~process.pid << 3 | 2)


class Script:
    """A script on the registry of a file, from when it has opened it to the end of its input."""

    def __init__(self, words):
        self.words = words
        self.process = subprocess.Popen(
            words, stdin=subprocess.PIPE, stdout=subprocess.PIPE
        )
        self.write(b"read path=PC/ffff\n")
        self.process.stdout.readline()

    def write(self, lines):
        self.process.stdin.write(lines)
        self.process.stdin.flush()

    def time_of(self, lines):
        """The processor time of lines, each of which has a reply of one line."""
        return self.used_for(lines, lambda: thread_time(self.process))

    def wait_for(self, lines):
        """The same, of wall."""
        return self.used_for(lines, time.monotonic)

    def used_for(self, lines, clock):
        before = clock()
        writer = threading.Thread(target=self.write, args=(lines,))
        writer.start()
        for _ in range(lines.count(b"\n")):
            self.process.stdout.readline()
        used = clock() - before
        writer.join()
        return used

    def time_of_export(self, size):
        """The processor time of one export of so many bytes."""
        before = thread_time(self.process)
        self.write(b"export\n")
        self.process.stdout.read(size)
        return thread_time(self.process) - before

    def __enter__(self):
        return self

    def __exit__(self, *fault):
        self.process.communicate()
        if fault == (None, None, None):
            check_status(self.words, self.process.returncode)


class Profile:
    """The instructions of one run of a program, as callgrind counts them: those of each function
    itself, and those within it and what it calls. What the kernel does is not in them."""

    def __init__(self, folder, words, talk=lambda process: None, status=0):
        if not shutil.which("valgrind"):
            raise Skip("valgrind is missing")
        self.path = os.path.join(folder, "profile")
        command = ["valgrind", "--tool=callgrind", f"--callgrind-out-file={self.path}", *words]
        process = subprocess.Popen(
            command, stdin=subprocess.PIPE, stdout=subprocess.PIPE, stderr=subprocess.DEVNULL
        )
        talk(process)
        process.communicate()
        check_status(command, process.returncode, status)
        self.own = self.functions("no")
        self.total = sum(count for count, _ in self.own)

    def functions(self, inclusive):
        """Each function with its instructions."""
        listed = subprocess.run(
            ["callgrind_annotate", f"--inclusive={inclusive}", "--threshold=100", "--auto=no",
             self.path],
            stdout=subprocess.PIPE, text=True, check=True,
        ).stdout
        found = re.findall(r"^ *([\d,]+) (?:\([^)]*\) +)?[^ :]*:(.*)$", listed, re.M)
        return [(int(count.replace(",", "")), name) for count, name in found]

    def within(self, word):
        """The instructions within the function whose name has the word, and what it calls."""
        found = [count for count, name in self.functions("yes") if word in name]
        if not found:
            raise Fault(f"no function of the program has {word} in its name")
        return max(found)

    def of_ours(self):
        """The instructions in the functions of the program's own crates, and in no other."""
        return sum(count for count, name in self.own if name.startswith("pid_"))
