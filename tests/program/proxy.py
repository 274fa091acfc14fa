"""Looks whether `ymx local --proxy-protocol` begins each stream with the line of PROXY protocol, version 1, that says who its
user is, and nothing else before his bytes; and whether nginx and haproxy behind `ymx remote` read it, where they stand.

It says which tests failed, what was left out, and nothing else. No test follows one that hangs.

usage: proxy.py YMX
"""

import os
import shutil
import socket
import subprocess
import sys
import tempfile
import time

import raw
from raw import ANY, Program, accept, call, free_places, listen, take

NGINX = """daemon off; master_process off; pid {folder}/pid; error_log {folder}/errors;
events {{ }}
http {{
    access_log off; client_body_temp_path {folder}; proxy_temp_path {folder}; fastcgi_temp_path {folder};
    uwsgi_temp_path {folder}; scgi_temp_path {folder};
    server {{ listen {place} proxy_protocol; location / {{ return 200 "$proxy_protocol_addr:$proxy_protocol_port\\n"; }} }}
}}
"""
HAPROXY = """defaults
    mode http
    timeout client 60s
    timeout server 60s
    timeout connect 60s
listen web
    bind {place} accept-proxy
    http-request return status 200 content-type text/plain lf-string "%[src]:%[src_port]\\n"
"""


def tunnel(target, *words):
    """Where users of a tunnel to this target connect."""
    remote = Program("remote", "-v", "--bind", ANY, "--target", target)
    local = Program("local", "-v", "--listen", ANY, "--peer", remote.place(), "--proxy-protocol", *words)
    return local.place()


def line_of(user):
    """The line of this user's connection."""
    (source, from_port), (place, port) = user.getsockname(), user.getpeername()
    return f"PROXY TCP4 {source} {place} {from_port} {port}\r\n".encode()


def begins_with_the_line(words):
    """It comes before the first byte of the user, who may send none, and once."""
    service, address = listen()
    place = tunnel(address, *words)
    for sent in (b"hello", b"", bytes(100_000)):
        user = call(place)
        user.sendall(sent)
        user.shutdown(socket.SHUT_WR)
        other = accept(service)
        line = line_of(user)
        assert take(other, len(line) + len(sent) + 1) == line + sent, line
        other.sendall(b"bye")
        other.close()
        assert take(user, 4) == b"bye"
        user.close()


def comes_before_he_speaks():
    """A service that speaks first has it before."""
    service, address = listen()
    user = call(tunnel(address))
    other = accept(service)
    line = line_of(user)
    assert take(other, len(line)) == line
    other.sendall(b"220 ready\r\n")
    assert take(user, 11) == b"220 ready\r\n"


def read_by(name, text):
    """This program reads it."""
    path = shutil.which(name, path=os.environ.get("PATH", "") + ":/usr/sbin:/usr/local/sbin")
    if path is None:
        print(f"--    PROXY protocol and {name}: left out: no {name} (apt-get install {name})", flush=True)
        return
    place = free_places(1)[0]
    with tempfile.TemporaryDirectory() as folder:
        settings = os.path.join(folder, "settings")
        with open(settings, "w") as file:
            file.write(text.format(folder=folder, place=place))
        words = [path, "-c", settings] if name == "nginx" else [path, "-f", settings]
        with subprocess.Popen(words, stdout=subprocess.DEVNULL, stderr=subprocess.DEVNULL) as server:
            Program.running.append(server)
            users = tunnel(place)
            answer = ask(users)
            while answer is None and server.poll() is None:
                time.sleep(0.05)
                answer = ask(users)
            server.kill()
            Program.running.remove(server)
    assert answer is not None and answer[0] == answer[1], answer


def ask(place):
    """The body of the answer to a request, and the one that is wanted. None where the service isn't there yet."""
    try:
        user = call(place)
        wanted = "{}:{}\n".format(*user.getsockname())
        user.sendall(b"GET / HTTP/1.0\r\n\r\n")
        said = b""
        while piece := user.recv(65_536):
            said += piece
        return said.split(b"\r\n\r\n", 1)[1].decode(), wanted
    except ConnectionError:
        return None


TESTS = (
    ("begins with the line", begins_with_the_line, ((),)),
    ("begins with the line, with --keep", begins_with_the_line, (("--keep",),)),
    ("comes before he speaks", comes_before_he_speaks, ()),
    ("nginx reads it", read_by, ("nginx", NGINX)),
    ("haproxy reads it", read_by, ("haproxy", HAPROXY)),
)


if __name__ == "__main__":
    sys.exit(raw.main(TESTS))
