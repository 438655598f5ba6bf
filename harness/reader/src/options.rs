//! What the comparing programs are told: `--count N --seed S`.

pub struct Options {
    pub count: u64,
    pub seed: u64,
}

pub fn options() -> Result<Options, String> {
    options_or(20_000)
}

/// With another count where none is told.
pub fn options_or(count: u64) -> Result<Options, String> {
    let mut options = Options { count, seed: 1 };
    let mut words = std::env::args().skip(1);
    while let Some(word) = words.next() {
        let value = words.next().unwrap_or_default();
        let number = value
            .parse()
            .map_err(|_| format!("{word} needs a number"))?;
        match word.as_str() {
            "--count" => options.count = number,
            "--seed" => options.seed = number,
            _ => return Err(format!("unknown option {word}")),
        }
    }
    Ok(options)
}
