#!/usr/bin/env python3
"""Tries gco_proved.tiles on two hosts by Dask: two network namespaces of this machine, joined by a
pair of network devices, with a scheduler on the first and a worker on each.

    PYTHONPATH=bindings/dist/python python3 tools/trials/two_hosts.py

It wants root, ip (Debian: iproute2) and python3-distributed. The labels are to be those of a run in
turn, and each host is to have run some tiles.
"""
import os
import shutil
import subprocess
import sys

HOSTS = {"gco_first": "10.77.0.1", "gco_second": "10.77.0.2"}
FIRST, SECOND = HOSTS
AT = f"tcp://{HOSTS[FIRST]}:8799"
PROGRAM = f"""
import numpy as np
from distributed import Client

import gco_proved as gco
from gco_proved.tiles import label_tiles


def costs(box):
    rows, columns = np.ogrid[box]
    grey = (rows // 40 + columns // 60 + (rows * 7919 + columns * 104729) % 11 // 10) % 4
    return abs(grey[..., None] - np.arange(4))


with Client("{AT}", timeout=60) as client:
    client.wait_for_workers(2, timeout=60)
    words = dict(shape=(600, 800), tile=100)
    found = label_tiles(costs, gco.potts(4), 1, executor=client, **words)
    alone = label_tiles(costs, gco.potts(4), 1, **words)
    made = client.run(lambda dask_worker: dask_worker.state.executed_count)
    assert found.energies == alone.energies, (found.energies, alone.energies)
    assert found.labels.tobytes() == alone.labels.tobytes()
    assert len(made) == 2 and all(made.values()), made
    print(f"two hosts: energies {{found.energies}}, the labels of a run in turn;",
          "tiles by host:", *made.values())
    client.shutdown()
"""


def ip(*words):
    subprocess.run(["ip", *words], check=True)


def join_hosts():
    """Two namespaces with an address each."""
    for name in HOSTS:
        ip("netns", "add", name)
    ip("link", "add", FIRST, "netns", FIRST, "type", "veth", "peer", "name", SECOND, "netns", SECOND)
    for name, address in HOSTS.items():
        ip("-n", name, "address", "add", f"{address}/24", "dev", name)
        ip("-n", name, "link", "set", name, "up")
        ip("-n", name, "link", "set", "lo", "up")


def command(host, *words):
    return ["ip", "netns", "exec", host, *words]


def started(host, *words):
    """A process on a host, which says nothing."""
    return subprocess.Popen(command(host, *words), stdout=subprocess.DEVNULL,
                            stderr=subprocess.DEVNULL)


def main():
    wanted = [name for name in ("ip", "dask-scheduler", "dask-worker") if not shutil.which(name)]
    if wanted or os.geteuid():
        sys.exit(f"two_hosts: {', '.join(wanted) or 'root'} is wanted"
                 " (Debian: apt-get install iproute2 python3-distributed)")
    running = []
    try:
        join_hosts()
        running.append(started(FIRST, "dask-scheduler", "--host", HOSTS[FIRST], "--port", "8799",
                               "--no-dashboard"))
        for name, address in HOSTS.items():
            running.append(started(name, "dask-worker", AT, "--host", address, "--nthreads", "1",
                                   "--no-dashboard", "--no-nanny"))
        subprocess.run(command(FIRST, sys.executable, "-c", PROGRAM), check=True, timeout=300)
    finally:
        for process in running:
            process.terminate()
            process.wait(30)
        for name in HOSTS:
            subprocess.run(["ip", "netns", "del", name], stderr=subprocess.DEVNULL, check=False)


if __name__ == "__main__":
    main()
