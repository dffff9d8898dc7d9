"""A cache of sessions (name, user, end): a match specification deletes those that have ended. Times are seconds, which the
program gives itself.

    python3 examples/python/session_cache.py"""

from yoyoash import ANY, Clause, Process, Store, Variable

SESSIONS = "sessions"


def begin(web: Process, name: str, user: str, end: int) -> None:
    """Begins a session. Whatever `name` and `user` hold, they stay binaries."""
    web.insert(SESSIONS, (name.encode(), user.encode(), end))


def show(web: Process, name: str) -> None:
    """Prints the user and the end of a session, if it exists."""
    found = web.lookup(SESSIONS, name.encode())
    if not found:
        print(f"{name}: no session")
    for _, user, end in found:
        print(f"{name}: user {user.decode()}, ends at {end}")


def expire(web: Process, now: int) -> int:
    """Deletes the sessions that ended before `now`. Returns their number."""
    end = Variable(1)
    return web.select_delete(SESSIONS, Clause((ANY, ANY, end), end < now))


def main() -> None:
    with Store() as store:
        web = store.spawn("web")
        web.new(SESSIONS, named=True)
        begin(web, "s1", "anna", 160)
        begin(web, "s2", "ben", 170)
        begin(web, "s3", "}),exit(", 300)
        show(web, "s1")
        show(web, "s3")
        print(f"expired at 165: {expire(web, 165)}")
        show(web, "s1")
        show(web, "s2")


if __name__ == "__main__":
    main()
