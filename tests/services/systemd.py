"""What systemd does with the units `ymx-local@` and `ymx-remote@`, whose options stand in /etc/ymx as TUNNEL says.

Process PID is the systemd; this runs in its network. It says which tests failed, and ends with 'N passed, M failed'.

usage: systemd.py PID
"""

import os
import socket
import subprocess
import sys
import threading
import time

sys.path.append(os.path.join(os.path.dirname(os.path.abspath(__file__)), "..", "program"))
import raw
from raw import accept, call, leave, listen, take
from status import get

PID = sys.argv[1]
PEER, USERS = "127.0.0.1:4000", "127.0.0.1:8080"
STATUS = {"remote": "127.0.0.1:9101", "local": "127.0.0.1:9102"}
AT_ONCE = 200
# As systemd says how a process ended.
EXITED, KILLED = "1", "2"


# ---- systemd


def there(*words):
    """Begins a command beside the systemd, as it sees its machine."""
    return subprocess.Popen(["nsenter", "-t", PID, "-m", "-u", "-i", "-n", "-p", "--", *words], stdout=subprocess.PIPE,
                            stderr=subprocess.STDOUT, text=True)


def ended(process):
    """That command's status, and what it has said."""
    said, _ = process.communicate()
    return process.returncode, said


def systemctl(*words):
    status, said = ended(there("systemctl", *words))
    assert status == 0, (words, status, said)
    return said


def unit(end):
    return f"ymx-{end}@web"


def facts(end, *names):
    """Of this unit what systemd knows by these names."""
    said = systemctl("show", unit(end), *(f"--property={name}" for name in names))
    known = dict(line.split("=", 1) for line in said.splitlines())
    return tuple(known[name] for name in names)


def write(path, text):
    """A file of the machine that systemd sees."""
    path = f"/proc/{PID}/root{path}"
    os.makedirs(os.path.dirname(path), exist_ok=True)
    with open(path, "w") as file:
        file.write(text)


def options(end, words):
    """The file of options of this unit."""
    write(f"/etc/ymx/{end}-web.conf", f"OPTIONS=-v --keep {words} --status {STATUS[end]}\n")


def journal(end, since):
    """What systemd and the program have said of this unit since then, line by line."""
    status, said = ended(there("journalctl", "--no-pager", "-o", "cat", "-u", f"{unit(end)}.service", "--since", f"@{since}"))
    assert status == 0, said
    return said.splitlines()


def health(end):
    """What it says of itself, or nothing where nobody is there."""
    try:
        return get(STATUS[end], "/health")[2]
    except (ConnectionError, ValueError):
        return ""


def wait_for(wanted):
    """Waits until this holds."""
    while not wanted():
        time.sleep(0.05)


class Units:
    """Both units, enabled and begun, and a target."""

    def __init__(self):
        self.target, self.address = listen()
        options("remote", f"--bind {PEER} --target {self.address}")
        options("local", f"--listen {USERS} --peer {PEER}")
        systemctl("daemon-reload")
        systemctl("enable", "--now", unit("remote"))
        wait_for(lambda: health("remote") == "serving\n")
        systemctl("enable", "--now", unit("local"))
        wait_for(lambda: health("local") == "serving\n")

    def begin(self):
        """A user's connection, and that at the target, through which bytes have come."""
        user = self.call()
        user.sendall(b"hello")
        service = accept(self.target)
        assert take(service, 5) == b"hello"
        return user, service

    def call(self):
        while True:
            try:
                return call(USERS)
            except ConnectionRefusedError:
                time.sleep(0.05)

    def end(self):
        for end in "local", "remote":
            systemctl("disable", "--now", unit(end))
            # (a unit that has failed is one no more)
            ended(there("systemctl", "reset-failed", unit(end)))


def send(connection, payload):
    """Sends it beside what this thread does."""
    thread = threading.Thread(target=connection.sendall, args=(payload,))
    thread.start()
    return thread


def finish(pairs):
    """Each of these transfers goes on to its end, and all of it comes, each way."""
    for user, service in pairs:
        for giver, taker in (user, service), (service, user):
            payload = os.urandom(400_000)
            thread = send(giver, payload)
            assert take(taker, len(payload)) == payload
            thread.join()
        leave_both(user, service)


def leave_both(user, service):
    thread = threading.Thread(target=leave, args=(service,))
    thread.start()
    leave(user)
    thread.join()


# ---- tests


def starts():
    """They start as TUNNEL says, as a user of their own, and carry bytes. A stop that has nobody to wait for is no failure."""
    units = Units()
    finish([units.begin()])
    for end in "local", "remote":
        assert facts(end, "ActiveState", "SubState", "NRestarts") == ("active", "running", "0")
        process, = facts(end, "MainPID")
        status = ended(there("sh", "-c", f"cat /proc/{process}/status"))[1]
        user = next(line.split()[1] for line in status.splitlines() if line.startswith("Uid:"))
        assert int(user) >= 61_184, status
    for end in "local", "remote":
        systemctl("stop", unit(end))
        assert facts(end, "ActiveState", "Result", "ExecMainCode", "ExecMainStatus") == ("inactive", "success", EXITED, "0")
    units.end()


def restarts(end):
    """A restart waits for the transfers that have begun, and cuts none. Users who come meanwhile are served by the next one."""
    units = Units()
    before, = facts(end, "MainPID")
    began = [units.begin() for _ in range(AT_ONCE)]
    since = int(time.time())
    restart = there("systemctl", "restart", unit(end))
    wait_for(lambda: health(end) == "draining\n" or restart.poll() is not None)
    # `local` takes no more itself; `remote` is waited for by the `local` that stays
    waiting = []
    if end == "remote":
        waiting = [units.call() for _ in range(20)]
        for user in waiting:
            user.sendall(b"later")
    assert restart.poll() is None, "it has not waited"
    finish(began)
    assert ended(restart) == (0, "")
    served = []
    for _ in waiting:
        service = accept(units.target)
        assert take(service, 5) == b"later"
        service.sendall(b"served")
        service.shutdown(socket.SHUT_WR)
        served.append(service)
    for user in waiting:
        assert take(user, 6) == b"served"
        leave(user)
    finish([units.begin()])
    after, = facts(end, "MainPID")
    assert before != after and facts(end, "ActiveState", "NRestarts") == ("active", "0")
    said = journal(end, since)
    assert f"{unit(end)}.service: Deactivated successfully." in said, said
    assert not [line for line in said if "Failed" in line or "timed out" in line or "Main process exited" in line], said
    units.end()


def is_ended_at_once():
    """`systemctl kill` ends it by SIGTERM, which is no failure, and cuts who is there."""
    units = Units()
    user, service = units.begin()
    systemctl("kill", unit("local"))
    wait_for(lambda: facts("local", "ActiveState") == ("inactive",))
    assert facts("local", "ActiveState", "Result", "ExecMainCode", "ExecMainStatus") == ("inactive", "success", KILLED, "15")
    assert is_over(user) and is_over(service)
    units.end()


def is_over(connection):
    try:
        return connection.recv(1) == b""
    except ConnectionResetError:
        return True


def waits_no_longer_than_its_limit():
    """A user who never ends is waited for as long as TimeoutStopSec says, and cut then."""
    write(f"/run/systemd/system/{unit('local')}.service.d/limit.conf", "[Service]\nTimeoutStopSec=3\n")
    units = Units()
    user, _service = units.begin()
    began = time.monotonic()
    stop = there("systemctl", "stop", unit("local"))
    wait_for(lambda: health("local") == "draining\n" or stop.poll() is not None)
    ended(stop)
    assert time.monotonic() - began >= 3
    assert facts("local", "ActiveState")[0] in ("inactive", "failed") and is_over(user)
    os.remove(f"/proc/{PID}/root/run/systemd/system/{unit('local')}.service.d/limit.conf")
    units.end()


def comes_back():
    """One that was killed is begun again."""
    units = Units()
    for end in "local", "remote":
        before, = facts(end, "MainPID")
        systemctl("kill", "--signal=KILL", unit(end))
        wait_for(lambda: facts(end, "ActiveState", "NRestarts") == ("active", "1") and facts(end, "MainPID") != (before,))
        wait_for(lambda: health(end) == "serving\n")
    finish([units.begin()])
    units.end()


def stays_down():
    """One whose command line is bad is not begun again, and says why."""
    options("local", f"--listen {USERS}")
    systemctl("daemon-reload")
    since = int(time.time())
    systemctl("start", unit("local"))
    wait_for(lambda: facts("local", "ActiveState") == ("failed",))
    assert facts("local", "Result", "ExecMainCode", "ExecMainStatus", "NRestarts") == ("exit-code", EXITED, "2", "0")
    assert any(line.startswith("error: the following required arguments") for line in journal("local", since))
    systemctl("reset-failed", unit("local"))


TESTS = (
    ("the units start, and stop", starts, ()),
    ("a restart of remote", restarts, ("remote",)),
    ("a restart of local", restarts, ("local",)),
    ("an end at once", is_ended_at_once, ()),
    ("a stop that waits in vain", waits_no_longer_than_its_limit, ()),
    ("one that was killed", comes_back, ()),
    ("a bad command line", stays_down, ()),
)


def main():
    passed = []

    def count(test, *words):
        test(*words)
        passed.append(test)

    failed = raw.main([(name, count, (test, *words)) for name, test, words in TESTS])
    print(f"{len(passed)} passed, {len(TESTS) - len(passed)} failed")
    return failed


if __name__ == "__main__":
    sys.exit(main())
