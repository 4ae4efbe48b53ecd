#!/usr/bin/env python3
"""worker.py NAME PORTS STORAGE: a worker of the ring at PORTS, as 7101-7103, of whose copies one at a time writes jobs
to the storage at 127.0.0.1:STORAGE, that of fencing/storage.py, until it is killed."""
import pathlib
import sys
import time

HERE = pathlib.Path(__file__).resolve().parent
sys.path[:0] = [str(HERE / "fencing"), str(HERE.parent / "clients" / "python")]
from cinoweta import Lock, Ring
from storage import Refused, StorageClient

name, ports, port = sys.argv[1:]
storage, ring = StorageClient(int(port)), Ring.parse(ports)
lock = Lock(ring, "jobs", patience=1.0, text=name)
print(f"{name} starts, and knows of {ring.latest('jobs')}", flush=True)
while True:
    with lock as held:
        print(f"{name} leads in term {held.term}", flush=True)
        while not held.is_lost():
            try:
                print(f"{name} wrote line {storage.write(held.term, f'job of {name}')}", flush=True)
                time.sleep(0.1)
            except Refused as refused:
                held.resign(above=refused.held)
    print(f"{name} leads no more", flush=True)
