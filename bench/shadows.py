#!/usr/bin/env python3
"""Makes one list of a real shape, with hosts, networks and ports, and prints it as the startup that `asa shadow` reads.

    bench/shadows.py [LINES] [SEED]

1,000 lines where nothing is said. Most lines permit a port of a host or a network to hosts and networks, some deny a
network, and the last one denies everything. Time it by `time ./asa shadow < FILE`. Standard library alone; Python 3.8.
"""
import random
import sys

PORTS = ["www", "https", "ssh", "smtp", "domain", "5432", "8080", "3389"]


def address(value):
    return ".".join(str(value >> shift & 255) for shift in (24, 16, 8, 0))


def network(pick, base, least, most):
    """A network in 10.BASE.0.0/16 with so many ones."""
    ones = pick.randint(least, most)
    mask = (1 << 32) - (1 << (32 - ones))
    value = ((10 << 24) + (base << 16) + pick.randrange(1 << 16)) & mask
    return f"{address(value)} {address(mask)}"


def host(pick, base):
    return f"host {address((10 << 24) + (base << 16) + pick.randrange(1 << 16))}"


def place(pick, base):
    kind = pick.random()
    if kind < 0.1:
        return "any"
    return host(pick, base) if kind < 0.6 else network(pick, base, 20, 28)


def line(pick):
    if pick.random() < 0.05:
        return f"deny ip {network(pick, 1, 22, 26)} any"
    protocol = "udp" if pick.random() < 0.15 else "tcp"
    if pick.random() < 0.1:
        first = pick.randrange(1024, 60000)
        ports = f"range {first} {first + pick.randrange(1, 2000)}"
    else:
        ports = f"eq {pick.choice(PORTS)}"
    return f"permit {protocol} {place(pick, 1)} {place(pick, 2)} {ports}"


def main():
    count = int(sys.argv[1]) if len(sys.argv) > 1 else 1000
    pick = random.Random(int(sys.argv[2]) if len(sys.argv) > 2 else 1)
    for _ in range(count - 1):
        print(f"access-list INSIDE-IN extended {line(pick)}")
    print("access-list INSIDE-IN extended deny ip any any")
    print(": end")


if __name__ == "__main__":
    main()
