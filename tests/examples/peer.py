"""Takes one connection at this port, as the guide's server, and says how many bytes came before its end.

usage: peer.py PORT
"""
import socket
import sys

with socket.create_server(("127.0.0.1", int(sys.argv[1]))) as listener:
    listener.settimeout(60)
    print("listening", flush=True)
    connection, _ = listener.accept()
    connection.settimeout(60)
    count = 0
    with connection:
        while came := connection.recv(65536):
            count += len(came)
print("bytes:", count)
