"""Sockets: what is read of them, and what waits in them."""
import array
import fcntl
import socket


def connected(path: str, timeout: float | None = None) -> socket.socket:
    """A connection to a Unix socket."""
    connection = socket.socket(socket.AF_UNIX, socket.SOCK_STREAM)
    try:
        connection.settimeout(timeout)
        connection.connect(path)
    except OSError:
        connection.close()
        raise
    return connection


def exactly(connection: socket.socket, count: int) -> bytes:
    """So many bytes; `ConnectionResetError` where there are fewer."""
    read = bytearray()
    while len(read) < count:
        piece = connection.recv(count - len(read))
        if not piece:
            raise ConnectionResetError("the other end closed")
        read += piece
    return bytes(read)


def rest_of(connection: socket.socket) -> bytes:
    """What comes until the end, which is reported as a fault where the other end has closed without having read all."""
    read = b""
    try:
        while piece := connection.recv(100_000):
            read += piece
    except ConnectionError:
        pass
    return read


def count_by(connection: socket.socket, request: int) -> int:
    """How many bytes a connection has, of those that it sent or of those that it is to read."""
    count = array.array("i", [0])
    fcntl.ioctl(connection, request, count)
    return count[0]
