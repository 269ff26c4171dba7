//! `seeds FOLDER WORDS`: writes the inputs to begin with into a folder, and the words to a libFuzzer dictionary.

use halimpung_fuzz as fuzz;
use std::fs;
use std::path::Path;

fn main() -> std::io::Result<()> {
    let arguments: Vec<String> = std::env::args().skip(1).collect();
    let [folder, words] = &arguments[..] else {
        eprintln!("seeds FOLDER WORDS");
        std::process::exit(2);
    };
    fs::create_dir_all(folder)?;
    let seeds = [fuzz::seeds(), fuzz::spelled_seeds(), fuzz::profiled_seeds(), fuzz::unit_seeds()].concat();
    for (number, seed) in seeds.iter().enumerate() {
        fs::write(Path::new(folder).join(format!("seed-{number:03}")), seed)?;
    }
    fs::write(words, fuzz::words().iter().map(|word| entry(word)).collect::<String>())
}

/// A dictionary's line: the bytes in hex, so that none needs another escape.
fn entry(word: &[u8]) -> String {
    let bytes: String = word.iter().map(|byte| format!("\\x{byte:02X}")).collect();
    format!("\"{bytes}\"\n")
}
