//! Reads a Blob and prints its record source, and each control with its type, its name and what it is bound to.
//!
//!     cargo run --example bindings -- examples/form-2000.blob
//!     cargo run --example bindings -- examples/form-2000.blob TABLE       with another code table

use oskuramos::{Blob, Property, ACCESS_2000_CODES};
use std::error::Error;

fn main() -> Result<(), Box<dyn Error>> {
    let mut words = std::env::args().skip(1);
    let stream = std::fs::read(words.next().ok_or("usage: bindings BLOB [TABLE]")?)?;
    let table = words.next().map_or(Ok(ACCESS_2000_CODES.to_vec()), std::fs::read)?;
    let blob = Blob::read(&table, &stream)?;
    println!("RecordSource: {}", shown(blob.property("RecordSource")));
    for control in &blob.controls {
        println!("{control}: {}", shown(control.property("ControlSource")));
    }
    Ok(())
}

fn shown(property: Option<&Property>) -> String {
    property.map_or("-".into(), |p| p.value.to_string())
}
