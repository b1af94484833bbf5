//! Writes the three packs of a seed to files in a folder.

use bench::packs::{write, KINDS};
use std::path::PathBuf;
use std::{env, fs, io};

fn main() -> io::Result<()> {
    let mut arguments = env::args().skip(1);
    let (folder, seed) = (arguments.next(), arguments.next());
    let (Some(folder), Some(Ok(seed))) = (folder, seed.map(|seed| seed.parse())) else {
        eprintln!("packs FOLDER SEED");
        std::process::exit(2);
    };
    let folder = PathBuf::from(folder);
    fs::create_dir_all(&folder)?;
    for kind in KINDS {
        println!("{}", write(&folder, kind, seed)?.display());
    }
    Ok(())
}
