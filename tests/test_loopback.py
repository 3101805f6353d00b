"""`serve` listens on 127.0.0.1 alone: at no other address of this machine does its port answer.

Connections go to addresses of this machine only, and no address is added to it."""
import errno
import fcntl
import os
import socket
import struct
import sys

from http_server import JSON, Server, reply

REQUEST = b"GET /pending HTTP/1.1\r\n\r\n"
ANSWER = reply("200 OK", JSON, b"[]")

# The ioctl that returns the IPv4 address of an interface (netdevice(7)), and where it is.
SIOCGIFADDR = 0x8915
ADDRESS = slice(20, 24)

# /proc/net/tcp shows an address as a number in the order of the machine's bytes, and this state.
LOOPBACK = f"{int.from_bytes(socket.inet_aton('127.0.0.1'), sys.byteorder):08X}"
LISTENS = "0A"


def is_own(family, address):
    """Whether this machine has the address: a socket can be bound to it."""
    try:
        with socket.socket(family, socket.SOCK_STREAM) as probe:
            probe.bind((address, 0))
    except OSError:
        return False
    return True


def addresses_of_interfaces():
    """The IPv4 addresses of this machine that are not loopback's."""
    found = []
    with socket.socket(socket.AF_INET, socket.SOCK_DGRAM) as asking:
        for _, name in socket.if_nameindex():
            try:
                shown = fcntl.ioctl(asking, SIOCGIFADDR, struct.pack("256s", name.encode()))
            except OSError:
                # The interface has no such address.
                continue
            found.append(socket.inet_ntoa(shown[ADDRESS]))
    others = [it for it in found if not it.startswith("127.")]
    return [it for it in others if is_own(socket.AF_INET, it)]


def listening_at(port):
    """The addresses at which sockets of this machine listen at a port, as the kernel shows them."""
    found = []
    for table in ("/proc/net/tcp", "/proc/net/tcp6"):
        if not os.path.exists(table):
            continue
        with open(table, encoding="ascii") as file:
            rows = [line.split()[1:4] for line in file.readlines()[1:]]
        for place, _, state in rows:
            address, _, at = place.partition(":")
            if state == LISTENS and int(at, 16) == port:
                found.append(address)
    return found


def answer_at(family, address, port):
    """What a request to an address gets, or the error of the connection."""
    with socket.socket(family, socket.SOCK_STREAM) as client:
        client.settimeout(10)
        try:
            client.connect((address, port))
        except OSError as fault:
            return errno.errorcode.get(fault.errno, repr(fault))
        client.sendall(REQUEST)
        return client.recv(65_536)


def test_loopback(cases, folder):
    own = addresses_of_interfaces()
    tried = [(socket.AF_INET, "127.0.0.2"), *((socket.AF_INET, it) for it in own)]
    if not own:
        cases.skipped("serve: not at the network", "this machine has no IPv4 address there")
    tried.append((socket.AF_INET6, "::1"))
    with Server(os.path.join(folder, "r.db")) as server:
        line = f"listening on 127.0.0.1:{server.port}\n".encode()
        cases.equal("serve: where it listens", server.first_line, line)
        answer = answer_at(socket.AF_INET, "127.0.0.1", server.port)
        cases.equal("serve: 127.0.0.1 answers", answer, ANSWER)
        for family, address in tried:
            if not is_own(family, address):
                cases.skipped(f"serve: not at {address}", "this machine has no such address")
                continue
            answer = answer_at(family, address, server.port)
            cases.equal(f"serve: not at {address}", answer, "ECONNREFUSED")
        answer = answer_at(socket.AF_INET, "127.0.0.1", server.port)
        cases.equal("serve: 127.0.0.1 answers after that", answer, ANSWER)
        listening = listening_at(server.port)
        cases.equal("serve: the kernel shows 127.0.0.1 alone", listening, [LOOPBACK])
