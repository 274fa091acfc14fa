"""The two ends of a tunnel's connections, for one connection: whom it leads to, and who makes it.

ends.py echo         prints the port that it listens at, and sends back what one connection sends
ends.py ask PORT     sends `hello` and the end to that port, and prints what comes back
"""

import socket
import sys
import time

# How long what must come may take: also on a slow machine where others run.
SECONDS = 120


def listen():
    listener = socket.create_server(("127.0.0.1", 0))
    listener.settimeout(SECONDS)
    return listener


def echo():
    with listen() as listener:
        print(listener.getsockname()[1], flush=True)
        connection, _ = listener.accept()
        with connection:
            connection.settimeout(SECONDS)
            while piece := connection.recv(4096):
                connection.sendall(piece)


def connect(port):
    """Connects as soon as somebody listens."""
    for _ in range(10 * SECONDS):
        try:
            return socket.create_connection(("127.0.0.1", port), SECONDS)
        except ConnectionRefusedError:
            time.sleep(0.1)
    sys.exit(f"nobody listens at port {port}")


def ask(port):
    with connect(port) as connection:
        connection.sendall(b"hello")
        connection.shutdown(socket.SHUT_WR)
        while piece := connection.recv(4096):
            sys.stdout.buffer.write(piece)


if sys.argv[1] == "echo":
    echo()
else:
    ask(int(sys.argv[2]))
