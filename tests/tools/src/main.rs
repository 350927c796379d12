//! The tools compared with the judge, program by program: `tools BIN`, where BIN is the folder of the built programs. Exit status 1 at a difference.

mod explain;
mod grids;
mod owners;

use std::path::Path;
use std::process::exit;

fn main() {
    let Some(bin) = std::env::args().nth(1) else {
        eprintln!("usage: tools FOLDER-OF-PROGRAMS");
        exit(2);
    };
    let bin = Path::new(&bin);
    let differences = grids::compare(bin) + owners::compare(bin) + explain::compare(bin);
    if differences != 0 {
        eprintln!("tools: {differences} differences");
        exit(1);
    }
}
