//! Reads standard input as it arrives, and writes the changes of its HTML: what a page appends, and what it replaces.
use pulldown_cmark::{Change, Options, Stream};
use std::io::Read;

fn main() -> Result<(), Box<dyn std::error::Error>> {
    let (mut stream, mut input) = (Stream::new(Options::GITHUB), std::io::stdin());
    let mut chunk = [0; 150];
    loop {
        let size = input.read(&mut chunk)?;
        if size == 0 {
            break;
        }
        stream.push_bytes(&chunk[..size])?;
        match stream.refresh()? {
            Change::Grown => {}
            Change::Anew => println!("drop all"),
        }
        println!("append {:?}", stream.added());
        println!("end with {:?}", stream.tail());
    }
    if stream.ends_inside_character() {
        return Err("the input ends inside a character".into());
    }
    Ok(())
}
