//! answers DIR: answers every scene text NAME.in of a folder, and writes the answer to NAME.made.
use std::path::PathBuf;

fn main() -> std::io::Result<()> {
    let folder = match std::env::args().nth(1) {
        Some(folder) => PathBuf::from(folder),
        None => {
            eprintln!("answers DIR: answers every scene text NAME.in of a folder, and writes the answer to NAME.made");
            std::process::exit(2);
        }
    };
    let mut n = 0;
    for entry in std::fs::read_dir(&folder)? {
        let path = entry?.path();
        if path.extension().is_some_and(|e| e == "in") {
            std::fs::write(path.with_extension("made"), nonseq::stray_map(&std::fs::read(&path)?))?;
            n += 1;
        }
    }
    println!("{n} scene texts answered");
    Ok(())
}
