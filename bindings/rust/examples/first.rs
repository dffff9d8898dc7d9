//! Makes a table of prices, reads it, changes it, and shows how a refused call and a missing key differ.
use yoyoash::{Options, Store};

fn main() -> Result<(), Box<dyn std::error::Error>> {
    let store = Store::new()?;
    let process = store.spawn()?;
    let prices = process.new_table("prices", Options::new())?;
    prices.insert_all([("apple", 30), ("pear", 40)])?;

    for object in prices.lookup("apple")? {
        let (name, price): (String, i64) = object.try_into()?;
        println!("{name}: {price}");
    }
    println!("after a rise by 5: {:?}", prices.update_counter("apple", 5)?);
    println!("price of a plum: {:?}", prices.lookup_element("plum", 2)?);
    println!("element 9 of an apple: {}", prices.lookup_element("apple", 9).unwrap_err());
    println!("{} objects", prices.size()?.unwrap_or(0));

    process.exit()?;
    println!("after the exit of the owner: {}", prices.lookup("apple").unwrap_err());
    Ok(())
}
