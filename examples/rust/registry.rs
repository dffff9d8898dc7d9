//! A registry {Name,Pid,Port} of services. Its owner ends, and the heir gets the table and a message; the entries stay.
use yoyoash::{Error, Options, Process, Reason, Store};

/// The name of the table, which calls of all processes use.
const SERVICES: &str = "services";

/// Registers a process under a name. A name is taken once.
fn enter(process: &Process, name: &str, port: u16) -> Result<(), Error> {
    let is_new = process.table(SERVICES).insert_new((name, process.pid(), port))?;
    println!("{name} by {}: {}", process.pid(), if is_new { "registered" } else { "the name is taken" });
    Ok(())
}

/// Prints the port of a service.
fn show_port(process: &Process, name: &str) -> Result<(), Error> {
    match process.table(SERVICES).lookup_element(name, 3) {
        Ok(Some(port)) => println!("port of {name}: {port}"),
        Ok(None) => println!("port of {name}: not registered"),
        Err(error) if error.reason() == Reason::NoTable => println!("port of {name}: the registry is gone"),
        Err(error) => return Err(error),
    }
    Ok(())
}

fn main() -> Result<(), Error> {
    let store = Store::new()?;
    let (keeper, standby) = (store.spawn()?, store.spawn()?);
    let (mail, web) = (store.spawn()?, store.spawn()?);
    keeper.new_table(SERVICES, Options::new().named().public().heir(&standby, "take over"))?;
    enter(&mail, "mail", 25)?;
    enter(&web, "web", 80)?;
    enter(&web, "mail", 2525)?;
    keeper.exit()?;
    for message in standby.receive()? {
        let gift = message.gift.as_str().unwrap_or("nothing");
        println!("{} got {} from {}: {gift}", standby.pid(), message.table, message.from);
    }
    show_port(&web, "mail")?;
    show_port(&web, "ftp")?;
    standby.exit()?;
    show_port(&web, "mail")
}
