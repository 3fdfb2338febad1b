"""What the measurements share: a program that makes listed calls and hashes with the same library, and functions that measure a run."""

import json
import os
import re
import shutil
import subprocess
import tempfile
import time

TOP = os.path.dirname(os.path.dirname(os.path.abspath(__file__)))
KINDS = {"pull": 0, "read": 1, "read and hash": 2, "write": 3, "sync": 4, "store": 5, "pull and hash": 6}
CALL = re.compile(r"(pread64|pwrite64|read|write|fsync)\((\d+)(?:, .*?, (\d+)(?:, (\d+))?)?\) += (\d+)")
TOLD = ("image", "suit.flash", "boot-0.img")


def by_hand(folder):
    """The program that makes the listed calls: the one that BY_HAND names, or one that is built now."""
    named = os.environ.get("BY_HAND")
    return os.path.abspath(named) if named else build(folder, "by_hand", ["sha2"], {"src/main.rt": text_of("by_hand_main.txt")})


def write(name, content):
    with open(name, "wb") as file:
        file.write(content)


def write_json(name, value):
    write(name, json.dumps(value, separators=(",", ":")).encode())


def run(*words):
    ran = subprocess.run(words, capture_output=True, text=True, errors="replace")
    if ran.returncode:
        raise SystemExit("%s: status %d: %s" % (" ".join(words), ran.returncode, (ran.stdout + ran.stderr)[-2000:]))


def listed(calls):
    """The calls in the form in which the program reads them."""
    return b"".join(bytes([KINDS[kind]]) + count.to_bytes(3, "big") + place.to_bytes(4, "big") for kind, count, place in calls)


def traced(*words):
    """The calls that a run makes on the image, on the flash and on the file that is launched."""
    run("strace", "-o", "trace", "-e", "trace=openat,read,pread64,write,pwrite64,fsync", *words)
    names, found = {}, []
    with open("trace") as lines:
        for line in lines:
            opened = re.search(r'openat\(.*?, "([^"]*)".*= (\d+)$', line)
            if opened:
                names[opened.group(2)] = opened.group(1)
            call = CALL.match(line)
            if call and names.get(call.group(2)) in TOLD:
                found.append((call.group(1), int(call.group(3) or 0), int(call.group(4) or 0)))
    return found


def cost(*words):
    """The seconds that one run takes, and its seconds of a processor."""
    begin = time.perf_counter()
    with open(os.devnull, "wb") as out:
        ran = subprocess.Popen(words, stdout=out)
        _, status, used = os.wait4(ran.pid, 0)
    seconds = time.perf_counter() - begin
    ran.returncode = os.waitstatus_to_exitcode(status)
    if ran.returncode:
        raise SystemExit("%s: status %d" % (" ".join(words), ran.returncode))
    return seconds, used.ru_utime + used.ru_stime


def held(*words):
    """The most bytes that a run has in memory at any time."""
    run("/usr/bin/time", "-f", "%M", "-o", "held", *words)
    with open("held") as file:
        return int(file.read().split()[-1]) * 1024


def instructions(*words):
    """The instructions of a run, and those of the functions that take most of them."""
    run("valgrind", "--tool=callgrind", "--callgrind-out-file=callgrind.out", *words)
    told = subprocess.run(["callgrind_annotate", "callgrind.out"], capture_output=True, text=True).stdout
    found = re.findall(r"^ *([\d,]+) (?:\( ?[\d.]+%\) )?(.*)$", told, re.M)
    counted = [(int(count.replace(",", "")), name.strip()) for count, name in found]
    totals = [count for count, name in counted if "PROGRAM TOTALS" in name]
    return totals[0], [row for row in counted if "PROGRAM TOTALS" not in row[1]][:6]


def uses_of(names):
    """These crates of the repository and all that they depend on, each with its line in crates.txt."""
    with open(os.path.join(TOP, "crates.txt")) as lines:
        uses = {line.split(":")[0].split()[0]: line.split(":")[1].split() for line in lines if ":" in line}
    found, left = {}, list(names)
    while left:
        name = left.pop()
        if name in uses and name not in found:
            found[name] = "%s: %s\n" % (name, " ".join(uses[name]))
            left += uses[name]
    return found


def link(one, other):
    """Gives a file a second name, or copies it. rt does not write to it."""
    try:
        os.link(one, other)
    except OSError:
        shutil.copyfile(one, other)


def build(folder, name, uses, files):
    """Proves and builds a program next to copies of the crates that it uses, with the libraries of those that ./suit has built."""
    lines = uses_of(uses)
    for crate in lines:
        for part in ("src", "specs", "proofs", "out/rlib"):
            one = os.path.join(TOP, "crates", crate, part)
            if os.path.isdir(one):
                shutil.copytree(one, os.path.join(folder, "crates", crate, part), copy_function=link)
    shutil.copy(os.path.join(TOP, "HANDLES"), folder)
    lines[name] = "%s: %s\n" % (name, " ".join(uses))
    write(os.path.join(folder, "crates.txt"), "".join(lines.values()).encode())
    made = os.path.join(folder, "crates", name)
    for file, text in files.items():
        os.makedirs(os.path.dirname(os.path.join(made, file)), exist_ok=True)
        write(os.path.join(made, file), text.encode())
    ran = subprocess.run(["rt", "run"], cwd=made, capture_output=True, text=True)
    program = os.path.join(made, "out", name)
    if not os.path.exists(program):
        raise SystemExit("%s was not built:\n%s%s" % (name, ran.stdout[-2000:], ran.stderr[-2000:]))
    return program


def text_of(name):
    with open(os.path.join(TOP, "bench", name), encoding="utf-8") as file:
        return file.read()


def told_rounds(program, place, count, image=b""):
    """The numbers that the program prints for each round. It runs in a folder of its own, which contains the image."""
    with tempfile.TemporaryDirectory(dir=place) as folder:
        write(os.path.join(folder, "image"), image)
        ran = subprocess.run([program], cwd=folder, capture_output=True, text=True)
    found = [[int(word) for word in line.split()] for line in ran.stdout.splitlines()]
    if not found or any(len(row) != count or not all(row) for row in found):
        raise SystemExit("a round was not done:\n" + ran.stdout[-2000:] + ran.stderr[-2000:])
    return found
