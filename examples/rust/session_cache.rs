//! A cache of sessions {Name,User,End}: a match specification deletes those that have ended. Times are seconds, which
//! the program gives itself.
use std::error::Error;
use yoyoash::spec::{any, var, Clause};
use yoyoash::{Options, Store, Table};

struct Cache {
    sessions: Table,
}

impl Cache {
    fn new() -> Result<Cache, yoyoash::Error> {
        let sessions = Store::new()?.spawn()?.new_table("sessions", Options::new())?;
        Ok(Cache { sessions })
    }

    /// Begins a session. Whatever `name` and `user` hold, they stay binaries.
    fn begin(&self, name: &str, user: &str, end: i64) -> Result<(), yoyoash::Error> {
        self.sessions.insert((name, user, end))
    }

    /// Returns the user and the end of a session, if it exists.
    fn find(&self, name: &str) -> Result<Option<(String, i64)>, Box<dyn Error>> {
        match self.sessions.lookup(name)?.pop() {
            Some(session) => {
                let (_name, user, end): (String, String, i64) = session.try_into()?;
                Ok(Some((user, end)))
            }
            None => Ok(None),
        }
    }

    /// Deletes the sessions that ended before `now`. Returns their number.
    fn expire(&self, now: i64) -> Result<u64, yoyoash::Error> {
        self.sessions.select_delete(Clause::new((any(), any(), var(1))).when(var(1).lt(now)))
    }

    fn show(&self, name: &str) -> Result<(), Box<dyn Error>> {
        match self.find(name)? {
            Some((user, end)) => println!("{name}: user {user}, ends at {end}"),
            None => println!("{name}: no session"),
        }
        Ok(())
    }
}

fn main() -> Result<(), Box<dyn Error>> {
    let cache = Cache::new()?;
    cache.begin("s1", "anna", 160)?;
    cache.begin("s2", "ben", 170)?;
    cache.begin("s3", "}),exit(", 300)?;
    cache.show("s1")?;
    cache.show("s3")?;
    println!("expired at 165: {}", cache.expire(165)?);
    cache.show("s1")?;
    cache.show("s2")
}
