"""Two ssh hosts on this machine: network namespaces, each with its own address, sshd, home folder and /tmp.

Linux, as root, with ip (Debian iproute2), sshd and ssh (openssh-server, openssh-client), rsync and unshare
(util-linux). Names of its own are used, so that nothing else on the machine is touched, and what was started is ended
by its process."""
import contextlib
import os
import pathlib
import shutil
import socket
import subprocess
import tempfile
import time

NET = "10.213.35"
BRIDGE = "sweepbridge"
HOSTS = ("sweephost1", "sweephost2")
NEEDED = ("ip", "ssh", "ssh-keygen", "unshare", "rsync", "parallel")

SERVER = """Port 22
ListenAddress {address}
HostKey {folder}/host_key
AuthorizedKeysFile {folder}/key.pub
PidFile none
StrictModes no
UsePAM no
PasswordAuthentication no
PermitRootLogin prohibit-password
"""
CLIENT = """Host {name}
HostName {address}
User root
IdentityFile {folder}/key
IdentitiesOnly yes
UserKnownHostsFile {folder}/known_hosts
StrictHostKeyChecking yes
LogLevel ERROR
"""


def do(*words):
    """Runs a command, which must succeed."""
    subprocess.run(words, check=True, stdout=subprocess.DEVNULL)


def address_of(index):
    """The address of a host."""
    return f"{NET}.{11 + index}"


def what_is_missing():
    """Why the hosts can't be had here, or None."""
    if os.geteuid() != 0:
        return "only root makes network namespaces"
    missing = [name for name in NEEDED if shutil.which(name) is None]
    missing += [] if os.path.exists("/usr/sbin/sshd") else ["sshd"]
    return f"not there: {', '.join(missing)}" if missing else None


def make_net():
    """Makes the network of the hosts."""
    do("ip", "link", "add", BRIDGE, "type", "bridge")
    do("ip", "address", "add", f"{NET}.1/24", "dev", BRIDGE)
    do("ip", "link", "set", BRIDGE, "up")
    for index, name in enumerate(HOSTS):
        here, there = f"sweepveth{index}", f"sweepeth{index}"
        do("ip", "netns", "add", name)
        do("ip", "link", "add", here, "type", "veth", "peer", "name", there, "netns", name)
        do("ip", "link", "set", here, "master", BRIDGE, "up")
        for words in (("address", "add", f"{address_of(index)}/24", "dev", there), ("link", "set", there, "up"),
                      ("link", "set", "lo", "up")):
            do("ip", "-n", name, *words)


def drop_net():
    """Takes the network of the hosts away."""
    for name in HOSTS:
        subprocess.run(["ip", "netns", "delete", name], stderr=subprocess.DEVNULL)
    subprocess.run(["ip", "link", "delete", BRIDGE], stderr=subprocess.DEVNULL)


def write_keys(folder):
    """Writes the keys of the hosts and of who calls them."""
    for name in ("host_key", "key"):
        do("ssh-keygen", "-q", "-t", "ed25519", "-N", "", "-f", str(folder / name))
    public = " ".join((folder / "host_key.pub").read_text().split()[:2])
    known = "".join(f"{address_of(index)} {public}\n" for index in range(len(HOSTS)))
    (folder / "known_hosts").write_text(known)
    client = "".join(CLIENT.format(name=name, address=address_of(index), folder=folder)
                     for index, name in enumerate(HOSTS))
    (folder / "ssh_config").write_text(client)
    (folder / "hosts").write_text("".join(f"1/ssh -F {folder}/ssh_config {name}\n" for name in HOSTS))


def serve(folder, index):
    """Starts the sshd of a host, in a home and a /tmp that are empty and its own."""
    server = folder / f"sshd_config{index}"
    server.write_text(SERVER.format(address=address_of(index), folder=folder))
    hide = f"mount -t tmpfs none {pathlib.Path.home()} && mount -t tmpfs none /tmp"
    hide += f" && exec /usr/sbin/sshd -D -f {server}"
    begun = subprocess.Popen(["ip", "netns", "exec", HOSTS[index], "unshare", "-m", "sh", "-c", hide], cwd="/")
    for _ in range(200):
        with contextlib.suppress(OSError), socket.create_connection((address_of(index), 22), timeout=1):
            return begun
        time.sleep(0.1)
    raise RuntimeError(f"the sshd of {HOSTS[index]} does not answer")


def stop(begun):
    """Ends a process, and waits for its end."""
    begun.terminate()
    begun.wait()


@contextlib.contextmanager
def two_hosts():
    """Gives the sshloginfile of both hosts and the processes of their sshds, for as long as it is used."""
    folder = pathlib.Path(tempfile.mkdtemp(prefix="sweep-hosts-", dir="/var/tmp"))
    servers = []
    try:
        os.makedirs("/run/sshd", exist_ok=True)
        write_keys(folder)
        make_net()
        for index in range(len(HOSTS)):
            servers.append(serve(folder, index))
        yield folder / "hosts", servers
    finally:
        for begun in servers:
            stop(begun)
        drop_net()
        shutil.rmtree(folder, ignore_errors=True)
