//! Prints the controls of a Blob as a tree: each one below the section, option group or page that it stands in.
//!
//!     cargo run --example tree -- examples/panel-2000.blob
//!     cargo run --example tree -- examples/panel-2000.blob TABLE       with another code table

use oskuramos::{Blob, Control, ACCESS_2000_CODES};
use std::error::Error;

fn main() -> Result<(), Box<dyn Error>> {
    let mut words = std::env::args().skip(1);
    let stream = std::fs::read(words.next().ok_or("usage: tree BLOB [TABLE]")?)?;
    let table = words.next().map_or(Ok(ACCESS_2000_CODES.to_vec()), std::fs::read)?;
    let blob = Blob::read(&table, &stream)?;
    for (n, control) in blob.controls.iter().enumerate() {
        let place = place(control).map_or(String::new(), |[left, top]| format!(" at {left}, {top}"));
        let inside = blob.children_of(n).count();
        let holds = if inside > 0 { format!(", holds {inside}") } else { String::new() };
        println!("{:indent$}{control}{place}{holds}", "", indent = 4 * control.level);
    }
    Ok(())
}

/// Where a picture of the panel draws it: in twips, from the corner of the section, whatever group or page it stands in.
fn place(control: &Control) -> Option<[String; 2]> {
    let shown = |name| Some(control.property(name)?.value.to_string());
    Some([shown("Left")?, shown("Top")?])
}
