"""Ports for servers of tests. A port that was asked for is free until its server has it: tests that run at the same time never ask for the same one,
and the system gives no such port to a client by itself.

Whoever asks claims a name of the port. The system gives a name to one process at a time, and takes it back if that ends, however it ends."""
import contextlib
import random
import socket

# The ports that the system gives to clients, and those below them with its default settings. apt-cacher-ng takes no port
# above.
CHOICE = "/proc/sys/net/ipv4/ip_local_port_range"
LEAST, MOST = 10_000, 32_768
# The names of this process, by their ports.
CLAIMS = {}


def ports():
    """The ports that servers of tests may have. If the system's own choice leaves few of them, some of that are among these."""
    with open(CHOICE, encoding="ascii") as file:
        first = int(file.read().split()[0])
    return range(LEAST, min(MOST, first) if first >= LEAST + 1000 else MOST)


def is_claimed(port):
    """Claims a port, and answers whether nobody else has."""
    it = socket.socket(socket.AF_UNIX)
    try:
        it.bind(f"\0port {port} of a test")
    except OSError:
        it.close()
        return False
    CLAIMS[port] = it
    return True


def is_free(port):
    """Whether a server may have a port. What is left there of earlier connections does not matter."""
    with socket.socket() as it, contextlib.suppress(OSError):
        it.setsockopt(socket.SOL_SOCKET, socket.SO_REUSEADDR, 1)
        it.bind(("127.0.0.1", port))
        return True
    return False


def free_port():
    """A port that is this process's, until it ends or gives it back."""
    every = ports()
    start = random.SystemRandom().randrange(len(every))
    for port in [*every[start:], *every[:start]]:
        if is_claimed(port):
            if is_free(port):
                return port
            give_back(port)
    raise OSError("no port is free")


def give_back(port):
    """Gives a port back that is not used any more."""
    if port in CLAIMS:
        CLAIMS.pop(port).close()


def free_address():
    """An address at which nothing listens."""
    return "127.0.0.1", free_port()
