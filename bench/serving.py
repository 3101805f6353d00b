"""Servers that run, a client of theirs, and the processor time that they use."""
import os
import socket
import subprocess
import time

from processes import check_status, thread_time
from rows import Fault

NGINX = """worker_processes 1; daemon off; master_process off;
pid {folder}/pid; error_log {folder}/errors;
events {{ worker_connections 64; }}
http {{ access_log off; keepalive_requests 100000000; sendfile on; open_file_cache max=100;
server {{ listen 127.0.0.1:{port}; root {folder}/www; }} }}
"""


def free_port():
    with socket.create_server(("127.0.0.1", 0)) as taken:
        return taken.getsockname()[1]


def whole_reply(client):
    """The length of the reply that comes."""
    taken = b""
    while b"\r\n\r\n" not in taken:
        taken += client.recv(1 << 20)
    head, _, body = taken.partition(b"\r\n\r\n")
    length = next(
        int(line.split(b":")[1])
        for line in head.split(b"\r\n")
        if line.lower().startswith(b"content-length:")
    )
    while len(body) < length:
        body += client.recv(1 << 20)
    if not head.startswith(b"HTTP/1.1 200 "):
        raise Fault(f"a server answers {head[:80]!r}")
    return len(head) + 4 + length


def get(target):
    return f"GET {target} HTTP/1.1\r\nHost: localhost\r\n\r\n".encode()


def posted(path, account, body):
    return (
        f"POST {path} HTTP/1.1\r\nHost: localhost\r\nX-Account: {account}\r\n"
        f"Content-Length: {len(body)}\r\n\r\n".encode()
        + body
    )


def connected(port):
    client = socket.create_connection(("127.0.0.1", port), timeout=300)
    client.setsockopt(socket.IPPROTO_TCP, socket.TCP_NODELAY, 1)
    return client


class Serving:
    """A server that listens, until the end of a block."""

    def __init__(self, words, port):
        self.port = port
        self.process = subprocess.Popen(
            words, stdout=subprocess.DEVNULL, stderr=subprocess.DEVNULL
        )
        for _ in range(1_200):
            try:
                connected(port).close()
                return
            except ConnectionRefusedError:
                time.sleep(0.05)
        raise Fault(f"{words[0]} does not listen")

    def __enter__(self):
        return self

    def __exit__(self, *fault):
        self.process.kill()
        self.process.wait()

    def batch(self, client, request, size, times, at_once):
        """The time of a request, of so many on one connection, so many sent at once."""
        before = thread_time(self.process)
        for _ in range(times // at_once):
            client.sendall(request * at_once)
            left = size * at_once
            while left > 0:
                left -= len(client.recv(1 << 20))
        return (thread_time(self.process) - before) / times

    def ask(self, target, most=4_000, at_once=1):
        """The least time of a request in batches of a tenth of a second, or of so many."""
        request = get(target)
        with connected(self.port) as client:
            client.sendall(request)
            size = whole_reply(client)
            # Both sides have done it once before they are measured.
            took = max(self.batch(client, request, size, at_once, at_once), 0.000_001)
            times = min(max(int(0.1 / took), 1), most) // at_once * at_once or at_once
            return min(
                self.batch(client, request, size, times, at_once) for _ in range(7)
            )

    def time_of(self, client, request):
        """The time of one request that is different each time."""
        before = thread_time(self.process)
        client.sendall(request)
        whole_reply(client)
        return thread_time(self.process) - before


def our_server(room, database):
    port = free_port()
    return Serving([room.program, "serve", "--db", database, "--port", str(port)], port)


def nginx(folder):
    """An nginx that serves the files of the folder `www`."""
    port, config = free_port(), os.path.join(folder, "nginx.conf")
    with open(config, "w") as file:
        file.write(NGINX.format(folder=folder, port=port))
    os.chmod(folder, 0o755)
    return Serving(["nginx", "-c", config, "-e", os.path.join(folder, "errors")], port)


def served(words, talk):
    """The processor time of a whole server that serves one client, who talks, and what of it is
    that of the talk."""
    port = free_port()
    words = [*words, "--port", str(port), "--connections", "1"]
    process = subprocess.Popen(words, stdout=subprocess.PIPE)
    process.stdout.readline()
    before = thread_time(process)
    with connected(port) as client:
        talk(client)
        talked = thread_time(process) - before
    process.stdout.read()
    _, status, used = os.wait4(process.pid, 0)
    process.returncode = os.waitstatus_to_exitcode(status)
    check_status(words, process.returncode)
    return used.ru_utime + used.ru_stime, talked
