//! What gridtext must print, by the judge: `cargo run --example gridtext < INPUT`.

#[allow(dead_code)]
#[path = "../src/owners.rs"]
mod owners;

use std::io::{Read, Write};

fn main() -> std::io::Result<()> {
    let mut input = Vec::new();
    std::io::stdin().read_to_end(&mut input)?;
    match owners::text(&input) {
        Ok(text) => std::io::stdout().write_all(text.as_bytes()),
        Err(refusal) => {
            eprintln!("refused {refusal}");
            Ok(())
        }
    }
}
