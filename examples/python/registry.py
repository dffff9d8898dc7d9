"""A registry (name, pid, port) of services. Its owner ends, and the heir gets the table and a message; the entries stay.

    python3 examples/python/registry.py"""

from yoyoash import Atom, BadArg, Process, Reason, Store

SERVICES, NONE = "services", Atom("none")


def enter(process: Process, name: str, port: int) -> None:
    """Registers a process under a name. A name is taken once."""
    is_new = process.insert_new(SERVICES, (name.encode(), process.pid, port))
    print(f"{name} by process {process.pid.number}: {'registered' if is_new else 'the name is taken'}")


def show_port(process: Process, name: str) -> None:
    """Prints the port of a service."""
    try:
        port = process.lookup_element(SERVICES, name.encode(), 3, default=NONE)
    except BadArg as refused:
        if refused.code is not Reason.NO_TABLE:
            raise
        print(f"port of {name}: the registry is gone")
        return
    print(f"port of {name}: {'not registered' if port == NONE else port}")


def show_messages(process: Process) -> None:
    """Prints the messages of a process: ('ETS-TRANSFER', table, from, data) for each table that it got."""
    for _, table, sender, data in process.receive():
        print(f"process {process.pid.number} got {table.text} from process {sender.number}: {data.text}")


def main() -> None:
    with Store() as store:
        keeper, standby, mail, web = [store.spawn(name) for name in ("keeper", "standby", "mail", "web")]
        keeper.new(SERVICES, named=True, protection="public", heir=(standby.pid, Atom("take_over")))
        enter(mail, "mail", 25)
        enter(web, "web", 80)
        enter(web, "mail", 2525)
        keeper.exit()
        show_messages(standby)
        show_port(web, "mail")
        show_port(web, "ftp")
        standby.exit()
        show_port(web, "mail")


if __name__ == "__main__":
    main()
