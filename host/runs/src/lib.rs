//! What the runs `compare`, `hostile` and `bench` have in common: the script language, random scripts, and the original to compare with.

#![warn(missing_docs)]

pub mod generate;
pub mod original;
pub mod script;

/// The numbers that a run was called with, at most so many; where the words are others, says how it is called and ends.
pub fn numbers(usage: &str, most: usize) -> Vec<u64> {
    let words: Vec<String> = std::env::args().skip(1).collect();
    match words.first().map(String::as_str) {
        Some("--help" | "-h") => {
            println!("{usage}");
            std::process::exit(0);
        }
        Some("--version") => {
            println!("imbolaverk {}", env!("CARGO_PKG_VERSION"));
            std::process::exit(0);
        }
        _ => {}
    }
    let read: Option<Vec<u64>> = words.iter().map(|word| word.parse().ok()).collect();
    match read {
        Some(numbers) if numbers.len() <= most => numbers,
        _ => {
            eprintln!("{usage}");
            std::process::exit(2);
        }
    }
}
