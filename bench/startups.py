#!/usr/bin/env python3
"""Makes the workloads of docs/BENCHMARKS.md, runs the program on each, and prints the rows of the table there.

    bench/startups.py [--runs N] [--only WORDS] [--program FILE] [--keep FOLDER]

Each workload is a session with one packet, unless it says otherwise. It is run N times (5 where nothing is said) at its
full size and at half of it. A row has the medians of the processor time (user and system) in seconds, and the peak of
memory at full size. The program is crates/asa/out/asa, as `./asa run` builds it. Standard library alone; Python 3.8.
"""
import argparse
import os
import statistics
import subprocess
import sys
import tempfile

TOP = os.path.dirname(os.path.dirname(os.path.abspath(__file__)))


def address(base, number):
    """The address `number` places after 10.BASE.0.0 (as far as three octets go)."""
    value = (10 << 24) + (base << 16) + number
    return ".".join(str(value >> shift & 255) for shift in (24, 16, 8, 0))


def interfaces(count):
    """So many interfaces, each with a level of its own, and a default route by the last one."""
    for i in range(count):
        yield f"interface GigabitEthernet0/{i}"
        yield f" nameif if{i}"
        yield f" security-level {i}"
        yield f" ip address 192.168.{i}.1 255.255.255.0"
    yield f"route if{count - 1} 0.0.0.0 0.0.0.0 192.168.{count - 1}.2 1"


def bound(name):
    return f"access-group {name} in interface if0"


def script(packets=1):
    yield ": end"
    for i in range(packets):
        yield f"packet if0 tcp 10.1.0.1 {1024 + i} 10.200.0.1 443 S"


def line(name, source, dest, place=""):
    return f"access-list {name} {place}extended permit tcp {source} {dest} eq 443"


def plain(name, number, place=""):
    return line(name, f"host {address(1, number)}", "host 10.200.0.1", place)


def network_object(number):
    yield f"object network O{number}"
    yield f" host {address(1, number)}"


def group(name, *members):
    yield f"object-group network {name}"
    for member in members:
        yield f" {member}"


def host(number):
    return f"network-object host {address(2, number)}"


def printed(size):
    """Ten lists on ten interfaces, over objects, and groups in chains of ten of which the lowest has four objects."""
    names, lines = 16_384 * size // 2, 60_000 * size // 2
    chains = names // 20
    objects = names - 10 * chains
    yield from interfaces(10)
    for i in range(objects):
        yield from network_object(i)
    for c in range(chains):
        yield from group(f"G{c}-1", *(f"network-object object O{4 * c + k}" for k in range(4)))
        for depth in range(2, 11):
            yield from group(f"G{c}-{depth}", f"group-object G{c}-{depth - 1}")
    each = lines // 10
    for k in range(10):
        for i in range(each):
            number = k * each + i
            source = f"object-group G{number % chains}-{number // chains % 10 + 1}"
            yield line(f"L{k}", source, f"object O{number % objects}")
    for k in range(10):
        yield f"access-group L{k} in interface if{k}"
    yield from script()


def under_groups(size, blocks):
    """Groups above one group that list lines name, then `blocks` further blocks of that group."""
    yield from interfaces(2)
    yield from group("BASE", host(0))
    for i in range(500 * size):
        yield from group(f"G{i}", "group-object BASE")
    for i in range(30_000 * size):
        yield line("L", "object-group BASE", f"host {address(1, i)}")
    yield bound("L")
    for i in range(blocks):
        yield from group("BASE", host(1 + i))
    yield from script()


def one_list(size):
    yield from interfaces(2)
    for i in range(32_768 * size):
        yield plain("L", i)
    yield bound("L")
    yield from script()


def many_lists(size):
    yield from interfaces(2)
    for k in range(512 * size):
        for i in range(60):
            yield plain(f"L{k}", 60 * k + i)
    yield bound("L0")
    yield from script()


def many_packets(size):
    yield from interfaces(2)
    for i in range(500 * size):
        yield plain("L", i)
    yield bound("L")
    yield from script(4_000 * size)


def comments(size):
    for _ in range((16_777_216 * size // 2 - len(": end\n")) // len("!\n")):
        yield "!"
    yield ": end"


def blocks_of_one_group(size):
    yield from interfaces(2)
    yield from group("BASE", host(0))
    for i in range(1_000 * size):
        yield from group(f"G{i}", "group-object BASE")
    for i in range(1_000 * size):
        yield from group("BASE", host(1 + i))
    yield from script()


def removals(size):
    yield from interfaces(2)
    lines, gone = 30_000 * size, 10_000 * size
    for i in range(lines):
        yield plain("L", i)
    yield bound("L")
    for i in range(lines - gone, lines):
        yield "no " + plain("L", i)
    yield from script()


def inserted_in_front(size):
    yield from interfaces(2)
    for i in range(30_000 * size):
        yield plain("L", i, "line 1 ")
    yield bound("L")
    yield from script()


def objects_in_lines(size):
    yield from interfaces(2)
    objects = 4_000 * size
    for i in range(objects):
        yield from network_object(i)
    for i in range(30_000 * size):
        yield line("L", f"object O{i % objects}", f"object O{(7 * i + 1) % objects}")
    yield bound("L")
    yield from script()


def extended_group(size):
    yield from interfaces(2)
    for i in range(32_768 * size):
        yield from group("BASE", host(i))
    yield from script()


def removed_objects(size):
    yield from interfaces(2)
    objects = 4_000 * size
    for i in range(objects):
        yield from network_object(i)
    for i in range(30_000 * size):
        yield plain("L", i)
    yield bound("L")
    for i in range(objects):
        yield f"no object network O{i}"
    yield from script()


# The text of a row, the session by its size (2 is whole, 1 is half), and one whose time is taken off, if any.
WORKLOADS = [
    ("a printed configuration at the limits: 60,000 list lines over 16,384 objects and groups, ten deep", printed, None),
    (
        "1,000 groups above one group that 60,000 list lines use: one further block of that group",
        lambda size: under_groups(size, 1),
        lambda size: under_groups(size, 0),
    ),
    ("65,536 lines of one list", one_list, None),
    ("61,440 lines of 1,024 lists", many_lists, None),
    ("8,000 objects, and 60,000 list lines that name two of them each", objects_in_lines, None),
    ("1,000 list lines and 8,000 packets", many_packets, None),
    ("16 MiB of comment lines", comments, None),
    ("one group extended by 65,536 blocks of one host each", extended_group, None),
    ("2,000 groups above one group, and 2,000 blocks of that group", blocks_of_one_group, None),
    ("8,000 objects and 60,000 list lines, then 8,000 removals of objects", removed_objects, None),
    ("60,000 list lines inserted at line 1", inserted_in_front, None),
    ("60,000 list lines, then the removal of the last 20,000, one by one", removals, None),
]


def run_once(program, path):
    """The processor time in seconds and the peak of memory in MB of one run; the report must be whole."""
    with open(path, "rb") as session, tempfile.TemporaryFile() as report:
        child = subprocess.Popen([program, "run"], stdin=session, stdout=report, stderr=subprocess.PIPE)
        told = child.stderr.read().decode()
        _, status, usage = os.wait4(child.pid, 0)
        child.returncode = status
        child.stderr.close()
        report.seek(0)
        lines = report.read().decode().splitlines()
    if status != 0 or not lines or not lines[-1].startswith("done "):
        sys.exit(f"{path}: wait status {status}: {told.strip()}")
    return usage.ru_utime + usage.ru_stime, usage.ru_maxrss / 1024


def measure(program, path, runs):
    results = [run_once(program, path) for _ in range(runs)]
    return statistics.median(r[0] for r in results), max(r[1] for r in results)


def write(folder, name, lines):
    path = os.path.join(folder, name)
    with open(path, "w", encoding="ascii") as out:
        out.writelines(text + "\n" for text in lines)
    return path


def row(options, folder, number, workload):
    text, whole, less = workload
    cells, peak = [], 0.0
    for size in (2, 1):
        path = write(folder, f"{number:02}-{size}.session", whole(size))
        seconds, memory = measure(options.program, path, options.runs)
        if less is not None:
            without = write(folder, f"{number:02}-{size}-without.session", less(size))
            seconds -= measure(options.program, without, options.runs)[0]
        cells.append(f"{seconds:.3f}" if seconds < 0.1 else f"{seconds:.2f}")
        peak = max(peak, memory)
    return f"| {text} | {cells[0]} | {cells[1]} | {peak:.0f} |"


def main():
    parser = argparse.ArgumentParser(description="Times the program on large sessions.")
    parser.add_argument("--runs", type=int, default=5)
    parser.add_argument("--only", default="", help="the rows whose text has these words")
    parser.add_argument("--program", default=os.path.join(TOP, "crates/asa/out/asa"))
    parser.add_argument("--keep", help="the folder in which the sessions stay")
    options = parser.parse_args()
    if not os.access(options.program, os.X_OK):
        sys.exit(f"{options.program} isn't there: ./asa run < examples/three-packets.session builds it")
    print("| Session | Time | Half | Memory |\n|---|---|---|---|", flush=True)
    with tempfile.TemporaryDirectory() as scratch:
        if options.keep:
            os.makedirs(options.keep, exist_ok=True)
        for number, workload in enumerate(WORKLOADS, 1):
            if options.only in workload[0]:
                print(row(options, options.keep or scratch, number, workload), flush=True)


if __name__ == "__main__":
    main()
