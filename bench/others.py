"""The words that begin the programs with which bench/tunnel.sh and bench/latency.sh compare the tunnel."""

import getpass
import os
import shutil
import subprocess


def has_ssh():
    return all(map(shutil.which, ("ssh", "sshd", "ssh-keygen")))


def key(folder, name):
    """A key of this name in the folder."""
    file = os.path.join(folder, name)
    if not os.path.exists(file):
        subprocess.run(["ssh-keygen", "-q", "-t", "ed25519", "-N", "", "-f", file], check=True)
    return file


def sshd(folder, address):
    """An sshd of its own at this address, to which the key `user` in the folder is known."""
    if os.getuid() == 0:
        os.makedirs("/run/sshd", exist_ok=True)
    options = [f"ListenAddress={address}", f"HostKey={key(folder, 'host')}", f"AuthorizedKeysFile={key(folder, 'user')}.pub"]
    options += ["PidFile=none", "StrictModes=no", "UsePAM=no", "PermitRootLogin=yes", "PasswordAuthentication=no"]
    return [shutil.which("sshd"), "-D", "-q", "-f", "/dev/null", *(f"-o{one}" for one in options)]


def ssh(folder, address, place, target):
    """`ssh -L` from this place to the target, by the sshd that is called at this address."""
    host, port = address.split(":")
    options = ["BatchMode=yes", "StrictHostKeyChecking=no", f"UserKnownHostsFile={folder}/known", "ExitOnForwardFailure=yes"]
    words = ["ssh", "-q", "-F", "none", "-N", "-i", key(folder, "user"), "-p", port, *(f"-o{one}" for one in options)]
    return [*words, "-L", f"{place}:{target}", f"{getpass.getuser()}@{host}"]


def haproxy(folder, place, target):
    """A haproxy at this place, which leads to the target."""
    file = f"{folder}/haproxy.{place}"
    with open(file, "w", encoding="utf-8") as made:
        made.write("global\n maxconn 4096\ndefaults\n mode tcp\n timeout connect 10s\n timeout client 1h\n timeout server 1h\n")
        made.write(f"listen all\n bind {place}\n server one {target}\n")
    return ["haproxy", "-db", "-f", file]
