"""Measures the CPU time of one insertion and of one lookup, and the memory of a pair of integers,
in a dict with a lock."""
import random
import threading
import time

PAIRS, LOOKUPS = 100_000, 300_000
lock, pairs = threading.Lock(), {}


def resident():
    with open("/proc/self/statm", encoding="ascii") as file:
        return int(file.read().split()[1]) * 4096


keys = [random.randrange(PAIRS) for _ in range(LOOKUPS)]
before, began = resident(), time.process_time_ns()
for key in range(PAIRS):
    with lock:
        pairs[key] = key + 1000
filled, after = time.process_time_ns(), resident()
for key in keys:
    with lock:
        pairs[key]
found = time.process_time_ns()
print(
    f"dict: insert {(filled - began) / PAIRS:.0f} ns, lookup {(found - filled) / LOOKUPS:.0f} ns, "
    f"{(after - before) / PAIRS:.0f} bytes a pair"
)
