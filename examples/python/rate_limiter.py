"""A limit of 100 requests for each client in a window of time. Four threads count at once, each by a process of the store:
update_counter adds 1 and returns the new count in one step, so no two requests get the same count.

    python3 examples/python/rate_limiter.py"""

from concurrent.futures import ThreadPoolExecutor

from yoyoash import Process, Store

COUNTS, CLIENT = "counts", b"10.0.0.7"
THREADS, REQUESTS, MOST = 4, 50, 100


def count(process: Process, client: bytes, window: int) -> int:
    """Counts a request of a client in a window. Returns the count, which is 1 for the first request."""
    key = (client, window)
    counted: int = process.update_counter(COUNTS, key, 1, default=(key, 0))
    return counted


def allowed(process: Process) -> int:
    """Sends the requests of one thread in window 1. Returns how many the limit allows."""
    return sum(count(process, CLIENT, 1) <= MOST for _ in range(REQUESTS))


def main() -> None:
    with Store() as store:
        processes = [store.spawn(f"thread{number}") for number in range(THREADS)]
        processes[0].new(COUNTS, named=True, protection="public")
        with ThreadPoolExecutor(THREADS) as threads:
            passed = sum(threads.map(allowed, processes))
        sent = THREADS * REQUESTS
        print(f"{THREADS} threads sent {sent} requests: {passed} allowed, {sent - passed} refused")
        print(f"the next window begins with count {count(processes[0], CLIENT, 2)}")


if __name__ == "__main__":
    main()
