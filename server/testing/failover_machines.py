"""The machines of `server/test failover`: each is a network namespace of its own, and all hang on one switch.

A machine falls silent, or doesn't hear another one, while all that runs on it goes on. server/test runs this in
namespaces of its own, which are gone with it. Where these are forbidden each machine is an address of loopback, and the
network drops nothing.
"""

import os
import signal
import subprocess

HERE = "switch"
PREFIX = "10.77.0."
BLOCKED, FORWARDING = "0", "3"


def is_real() -> bool:
    """Whether there are namespaces."""
    return bool(os.environ.get("FAILOVER_NETWORK"))


def told(*words: str) -> None:
    subprocess.run(words, check=True, stdout=subprocess.DEVNULL)


class Network:
    def __init__(self) -> None:
        self.is_real = is_real()
        self.machines: dict[str, Machine] = {}
        if self.is_real:
            os.makedirs("/run/netns", exist_ok=True)
            if not os.path.ismount("/run/netns"):
                told("mount", "-t", "tmpfs", "tmpfs", "/run/netns")
            told("ip", "link", "set", "lo", "up")
            told("ip", "link", "add", HERE, "type", "bridge")
            told("ip", "address", "add", PREFIX + "1/24", "dev", HERE)
            told("ip", "link", "set", HERE, "up")

    def end(self) -> None:
        """Once nothing runs on the machines any more."""
        if self.is_real and self.machines:
            for name, machine in self.machines.items():
                told("ip", "link", "delete", machine.plug)
                told("ip", "netns", "delete", name)
            told("ip", "link", "delete", HERE)
            self.machines.clear()

    def machine(self, name: str) -> "Machine":
        number = len(self.machines) + 11
        address = PREFIX + str(number) if self.is_real else "127.77.0.%d" % number
        self.machines[name] = Machine(self, name, address)
        return self.machines[name]


class Machine:
    def __init__(self, network: Network, name: str, address: str):
        self.network, self.name, self.address, self.plug = network, name, address, "to-" + name
        self.inside: list[str] = []
        if network.is_real:
            told("ip", "netns", "add", name)
            self.inside = ["nsenter", "--net=/run/netns/" + name, "--"]
            told("ip", "link", "add", self.plug, "type", "veth", "peer", "name", "eth0", "netns", name)
            told("ip", "link", "set", self.plug, "master", HERE, "up")
            told(*self.inside, "ip", "address", "add", address + "/24", "dev", "eth0")
            for device in ("lo", "eth0"):
                told(*self.inside, "ip", "link", "set", device, "up")

    def fall_silent(self) -> None:
        """What it sends is lost, and so is what is sent to it. Nobody is told."""
        told("bridge", "link", "set", "dev", self.plug, "state", BLOCKED)

    def speak(self) -> None:
        if self.network.is_real:
            told("bridge", "link", "set", "dev", self.plug, "state", FORWARDING)
            told(*self.inside, "iptables", "-w", "-F", "INPUT")

    def part_from(self, other: "Machine") -> None:
        """The two don't hear each other, and all others hear both."""
        for one, away in ((self, other), (other, self)):
            told(*one.inside, "iptables", "-w", "-A", "INPUT", "-s", away.address, "-j", "DROP")


def tree_of(pid: int) -> list[int]:
    """A process, and those below it."""
    found = [pid]
    for one in found:
        try:
            for task in os.listdir("/proc/%d/task" % one):
                with open("/proc/%d/task/%s/children" % (one, task)) as children:
                    found += map(int, children.read().split())
        except OSError:
            pass
    return found


def signal_all(pids: list[int], number: int) -> None:
    for pid in pids:
        try:
            os.kill(pid, number)
        except ProcessLookupError:
            pass


class Part:
    """What a fault kills or freezes. `start` is for what nobody starts again by itself."""

    machine: Machine

    def pids(self) -> list[int]:
        raise NotImplementedError

    def start(self) -> None:
        pass

    def kill(self) -> None:
        # None of them gets to say good-bye because another one has gone.
        self.freeze()
        signal_all(self.pids(), signal.SIGKILL)

    def freeze(self) -> None:
        signal_all(self.pids(), signal.SIGSTOP)

    def thaw(self) -> None:
        signal_all(self.pids(), signal.SIGCONT)
