#!/usr/bin/env python3
"""served.py [MIB [ROUNDS]]: what servers cost that processes serve at Unix sockets of this machine.

Puts and gets a file over ten folders, and over ten folders that `grid serve` serves, by turns. Each
line has the processor time of a put and of a get over folders, then that of both sides together
where the folders are served, and then the times by the clock of all four; the last two lines have
the ratios of the best of both.
"""

import os
import shutil
import subprocess
import sys
import tempfile
import time

HERE = os.path.dirname(os.path.abspath(__file__))
TOP = f"{HERE}/../.."
PATH = subprocess.check_output([f"{TOP}/grid", "--program"], text=True).strip()
GRID = os.path.join(TOP, PATH)
TICKS = os.sysconf("SC_CLK_TCK")


def ran(words, out=subprocess.PIPE):
    """Returns the processor time of a command, that by the clock, and the first line it printed."""
    begun = time.time()
    with subprocess.Popen(words, stdout=out, stderr=subprocess.DEVNULL) as made:
        text = made.stdout.read() if made.stdout else b""
        _, _, usage = os.wait4(made.pid, 0)
    return usage.ru_utime + usage.ru_stime, time.time() - begun, text.decode().split("\n")[0]


def time_of(servers):
    """Returns the processor time of processes so far."""
    total = 0
    for server in servers:
        with open(f"/proc/{server.pid}/stat", encoding="ascii") as it:
            words = it.read().rsplit(")", 1)[1].split()
        total += int(words[11]) + int(words[12])
    return total / TICKS


def serving(room):
    """Serves ten new folders, each at a socket in the grid's folder."""
    shutil.rmtree("served", ignore_errors=True)
    shutil.rmtree("shares", ignore_errors=True)
    os.mkdir("served")
    found = []
    for number in range(10):
        os.makedirs(f"shares/{number}")
        at = f"unix:{room}/served/server-{number:03}"
        words = [GRID, "serve", f"shares/{number}", "--listen", at, "--no-sync"]
        found.append(subprocess.Popen(words, stderr=subprocess.DEVNULL))
    time.sleep(1)
    return found


def turn(room):
    """Returns the times of a put and a get over folders, and of both where they are served: four of
    the processor, and four by the clock."""
    shutil.rmtree("folders", ignore_errors=True)
    put, put_wall, cap = ran([GRID, "put", "file", "--grid", "folders", "--no-sync"])
    with open("got", "wb") as got:
        get, get_wall, _ = ran([GRID, "get", cap, "--grid", "folders"], got)
    servers = serving(room)
    before = time_of(servers)
    far_put, far_put_wall, cap = ran([GRID, "put", "file", "--grid", "served", "--no-sync"])
    between = time_of(servers)
    with open("got", "wb") as got:
        far_get, far_get_wall, _ = ran([GRID, "get", cap, "--grid", "served"], got)
    after = time_of(servers)
    for server in servers:
        server.kill()
        server.wait()
    far_put += between - before
    far_get += after - between
    return put, get, far_put, far_get, put_wall, get_wall, far_put_wall, far_get_wall


def main():
    """Makes the turns, and prints them."""
    mib, rounds = (int(it) for it in (sys.argv[1:] + ["16", "6"][len(sys.argv) - 1:]))
    with tempfile.TemporaryDirectory() as room:
        os.chdir(room)
        with open("file", "wb") as it:
            it.write(os.urandom(mib << 20))
        best = [9e9] * 8
        for _ in range(rounds):
            times = turn(room)
            best = [min(pair) for pair in zip(best, times)]
            print("put {:.3f} get {:.3f} served {:.3f} {:.3f} clock {:.3f} {:.3f} {:.3f} {:.3f}"
                  .format(*times))
        print(f"processor put {best[2] / best[0]:.2f} get {best[3] / best[1]:.2f}")
        print(f"clock put {best[6] / best[4]:.2f} get {best[7] / best[5]:.2f}")


main()
