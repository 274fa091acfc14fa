#!/usr/bin/env python3
"""Starts a proxy until it reaches its server, has 20 users at once send texts through it, and sees that each gets its own
back, and then the end.

usage: user.py PORT PROXY
"""
import socket
import subprocess
import sys
import time
from concurrent.futures import ThreadPoolExecutor

PORT, PROGRAM = int(sys.argv[1]), sys.argv[2]


def start():
    """The proxy, once it listens."""
    while True:
        proxy = subprocess.Popen([PROGRAM])
        while proxy.poll() is None:
            try:
                socket.create_connection(("127.0.0.1", PORT)).close()
                return proxy
            except ConnectionRefusedError:
                time.sleep(0.1)


def send(text):
    """What comes back."""
    with socket.create_connection(("127.0.0.1", PORT)) as user, ThreadPoolExecutor() as sender:
        user.settimeout(60)
        sent = sender.submit(lambda: (user.sendall(text), user.shutdown(socket.SHUT_WR)))
        back = b"".join(iter(lambda: user.recv(65536), b""))
        sent.result()
        return back


proxy = start()
try:
    texts = [bytes([number]) * (number * 50_000) for number in range(20)]
    with ThreadPoolExecutor(len(texts)) as users:
        if list(users.map(send, texts)) != texts:
            sys.exit("another text came back")
finally:
    proxy.kill()
    proxy.wait()
