"""Which signal ends the program, and how, also where it is the first process of a container; how many descriptors it may
have; and how many bytes of its wire may be unsent.

It says which tests failed, and ends with 'N passed, M failed'.

usage: parts.py YMX
"""

import ctypes
import os
import resource
import signal
import socket
import subprocess
import sys

sys.path.append(os.path.join(os.path.dirname(os.path.abspath(__file__)), "..", "program"))
import raw

# Of pidfd_getfd(2), with which a process sees the sockets of another.
PIDFD_GETFD = 438
AS_FIRST = ("unshare", "--pid", "--fork", "--kill-child")
ENDS = {
    "local": ("local", "-v", "--keep", "--listen", raw.ANY, "--peer", "127.0.0.1:1"),
    "remote": ("remote", "-v", "--keep", "--bind", raw.ANY, "--target", "127.0.0.1:1"),
}


def begin(words, ahead=(), ignored=()):
    """The program with these words, which runs once it has said where it listens. These signals are ignored, and no others."""
    def signals():
        for number in signal.SIGINT, signal.SIGTERM, signal.SIGUSR1:
            signal.signal(number, signal.SIG_IGN if number in ignored else signal.SIG_DFL)

    process = subprocess.Popen([*ahead, sys.argv[1], *words], stdin=subprocess.PIPE, stdout=subprocess.PIPE,
                               stderr=subprocess.STDOUT, preexec_fn=signals, bufsize=0)
    raw.Program.running.append(process)
    if "-v" in words:
        line = process.stdout.readline()
        assert line.startswith(b"ymx: listening at "), line
        process.place = line.split()[-1].decode()
    return process


def child(process):
    with open(f"/proc/{process.pid}/task/{process.pid}/children", encoding="ascii") as children:
        return int(children.read())


def ends_by(end, number):
    """Its status is the signal's."""
    process = begin(ENDS[end])
    process.send_signal(number)
    assert process.wait() == -number


def ends_as_first(end, number):
    """By default no signal ends such a process."""
    process = begin(ENDS[end], AS_FIRST)
    os.kill(child(process), number)
    assert process.wait() == 128 + number


def ignores(ahead, status):
    """SIGINT that was ignored stays so: else it came first."""
    process = begin(ENDS["remote"], ahead, (signal.SIGINT,))
    number = child(process) if ahead else process.pid
    os.kill(number, signal.SIGINT)
    os.kill(number, signal.SIGTERM)
    assert process.wait() == status


def raises_the_limit():
    """Its soft limit of descriptors becomes the hard one."""
    limit = resource.RLIMIT_NOFILE
    was = resource.getrlimit(limit)
    resource.setrlimit(limit, (min(64, was[1]), was[1]))
    process = begin(ENDS["remote"])
    resource.setrlimit(limit, was)
    assert resource.prlimit(process.pid, limit) == (was[1], was[1])


def sockets_of(process):
    """Its sockets, where the system lets another process have them."""
    call = ctypes.CDLL(None, use_errno=True).syscall
    number = os.pidfd_open(process.pid)
    found = []
    for name in os.listdir(f"/proc/{process.pid}/fd"):
        if os.readlink(f"/proc/{process.pid}/fd/{name}").startswith("socket:"):
            copy = call(PIDFD_GETFD, number, int(name), 0)
            if copy < 0:
                raise OSError(ctypes.get_errno(), "pidfd_getfd")
            found.append(socket.socket(fileno=copy))
    os.close(number)
    return found


def marks(end):
    """Each end has the mark on its wire, and on no other of its sockets."""
    if end == "remote":
        process = begin(ENDS[end])
        peer = raw.call(process.place)
    else:
        listener, address = raw.listen()
        process = begin((*ENDS[end][:-1], address))
        user = raw.call(process.place)
        peer = raw.accept(listener)
    peer.sendall(raw.frame(raw.PING, raw.SYN, 0, 1))
    # (a user's SYN may come first)
    while raw.next_frame(peer)[:2] != (raw.PING, raw.ACK):
        pass
    try:
        sockets = sockets_of(process)
    except OSError as fault:
        print(f"--    the mark of {end}: left out: {fault}")
        return
    wires = []
    for each in sockets:
        is_wire = each.getsockname() == peer.getpeername() and not each.getsockopt(socket.SOL_SOCKET, socket.SO_ACCEPTCONN)
        wires.append(is_wire)
        mark = each.getsockopt(socket.IPPROTO_TCP, socket.TCP_NOTSENT_LOWAT)
        assert mark == (65_536 if is_wire else 0), (is_wire, mark)
    assert wires.count(True) == 1 and False in wires, wires


def drains(end, ahead):
    """SIGUSR1 asks it to end with its last connection: at once where there is none."""
    process = begin(ENDS[end], ahead)
    os.kill(child(process) if ahead else process.pid, signal.SIGUSR1)
    assert process.wait() == 0


def drains_twice():
    """A second SIGUSR1 changes nothing: a stream that came before is served to its end."""
    target, address = raw.listen()
    process = begin((*ENDS["remote"][:-1], address))
    peer = raw.call(process.place)
    peer.sendall(raw.frame(raw.WINDOW, raw.SYN, 1, 0))
    service = raw.accept(target)
    for _ in range(2):
        process.send_signal(signal.SIGUSR1)
    while raw.next_frame(peer)[0] != raw.AWAY:
        pass
    process.send_signal(signal.SIGUSR1)
    service.sendall(b"all of it")
    service.close()
    assert raw.next_frame(peer) == (raw.DATA, 0, 1)
    peer.sendall(raw.frame(raw.WINDOW, raw.FIN, 1, 0))
    assert process.wait() == 0


def asks_no_poll():
    """SIGUSR1 ends what has no poll that tells of it."""
    process = begin(("script",))
    process.send_signal(signal.SIGUSR1)
    assert process.wait() == -signal.SIGUSR1


BOTH = [(end, number) for end in ENDS for number in (signal.SIGTERM, signal.SIGINT)]
TESTS = [(f"{end}, {number.name}", ends_by, (end, number)) for end, number in BOTH]
TESTS += [("SIGINT in the background", ignores, ((), -signal.SIGTERM)), ("SIGUSR1 and no poll", asks_no_poll, ())]
TESTS += [("the limit of descriptors", raises_the_limit, ())]
TESTS += [(f"the mark of {end}", marks, (end,)) for end in ENDS]
TESTS += [(f"SIGUSR1 of {end}", drains, (end, ())) for end in ENDS] + [("SIGUSR1 three times", drains_twice, ())]
FIRST = [(f"{end} as process 1, {number.name}", ends_as_first, (end, number)) for end, number in BOTH]
FIRST += [(f"SIGUSR1 of {end} as process 1", drains, (end, AS_FIRST)) for end in ENDS]
FIRST += [("SIGINT in the background as process 1", ignores, (AS_FIRST, 128 + signal.SIGTERM))]


def main():
    tests = TESTS
    if subprocess.run([*AS_FIRST, "true"], stderr=subprocess.DEVNULL, check=False).returncode == 0:
        tests = TESTS + FIRST
    else:
        print("--    as process 1: can't be tried here: no namespace of processes can be made")
    passed = []

    def count(test, *words):
        test(*words)
        passed.append(test)

    failed = raw.main([(name, count, (test, *words)) for name, test, words in tests])
    print(f"{len(passed)} passed, {len(tests) - len(passed)} failed")
    return failed


if __name__ == "__main__":
    sys.exit(main())
