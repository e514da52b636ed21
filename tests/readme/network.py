"""A line off the network, without one: multicast over the loopback interface."""

import re
import socket

LOOPBACK = "127.0.0.1"
GROUP = re.compile(r"UDP4-RECV:(\d+),ip-add-membership=([\d.]+):INTERFACE_ADDRESS")


def sender():
    made = socket.socket(socket.AF_INET, socket.SOCK_DGRAM)
    made.setsockopt(socket.IPPROTO_IP, socket.IP_MULTICAST_IF, socket.inet_aton(LOOPBACK))
    made.setsockopt(socket.IPPROTO_IP, socket.IP_MULTICAST_LOOP, 1)
    return made


def has_multicast(group):
    """Whether the kernel hands a datagram for a group over to one who joined it on the loopback interface."""
    with socket.socket(socket.AF_INET, socket.SOCK_DGRAM) as joined, sender() as sending:
        joined.bind(("", 0))
        joined.settimeout(1)
        try:
            membership = socket.inet_aton(group) + socket.inet_aton(LOOPBACK)
            joined.setsockopt(socket.IPPROTO_IP, socket.IP_ADD_MEMBERSHIP, membership)
            sending.sendto(b"a datagram", (group, joined.getsockname()[1]))
            return joined.recv(100) == b"a datagram"
        except OSError:
            return False


def over_loopback(line):
    """README's line for this machine, and where to send to. Where there is no multicast the group is left out."""
    port, group = GROUP.search(line).groups()
    if has_multicast(group):
        return line.replace("INTERFACE_ADDRESS", LOOPBACK), (group, int(port))
    print(f"readme: LEFT OUT, the group {group}: no multicast over the loopback interface; its port is tried without it")
    return GROUP.sub(f"UDP4-RECV:{port}", line), (LOOPBACK, int(port))
