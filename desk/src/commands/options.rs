//! The options `--seed` and `--count`.

use super::Trouble;

pub struct Options {
    pub seed: u64,
    pub count: u64,
}

impl Options {
    /// Both must be given, in any order.
    pub fn read(arguments: &[String]) -> Result<Options, Trouble> {
        let (mut seed, mut count) = (None, None);
        for pair in arguments.chunks(2) {
            let [name, value] = pair else {
                return Err(Trouble::Usage(format!("{} needs a number", pair[0])));
            };
            let place = match name.as_str() {
                "--seed" => &mut seed,
                "--count" => &mut count,
                _ => return Err(Trouble::Usage(format!("unknown option {name}"))),
            };
            let number = value
                .parse()
                .map_err(|_| Trouble::Usage(format!("{name} {value}: not a number")))?;
            *place = Some(number);
        }
        match (seed, count) {
            (Some(seed), Some(count)) => Ok(Options { seed, count }),
            _ => Err(Trouble::Usage("give --seed and --count".to_string())),
        }
    }
}

/// For commands that take no arguments.
pub fn none(arguments: &[String]) -> Result<(), Trouble> {
    match arguments.first() {
        None => Ok(()),
        Some(extra) => Err(Trouble::Usage(format!("{extra}: not expected"))),
    }
}
