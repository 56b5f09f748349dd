//! The command `compare`.

use std::process::ExitCode;

use super::options::Options;
use super::Trouble;
use crate::compare::{compare, Difference, Outcome, Peer};
use crate::show;

pub fn run(rest: &[String]) -> Result<ExitCode, Trouble> {
    let Some(dashes) = rest.iter().position(|word| word == "--") else {
        return Err(Trouble::Usage("give -- and the program".to_string()));
    };
    let options = Options::read(&rest[..dashes])?;
    let [program, arguments @ ..] = &rest[dashes + 1..] else {
        return Err(Trouble::Usage("no program after --".to_string()));
    };
    let peer = Peer {
        program: program.clone(),
        arguments: arguments.to_vec(),
    };
    match compare(options.seed, options.count, &peer)? {
        Outcome::NoDifference => {
            println!("{} requests, no difference", options.count);
            return Ok(ExitCode::SUCCESS);
        }
        Outcome::Odd(what) => println!("{program}: {what}"),
        Outcome::Differs(finding) => {
            let (index, seed) = (finding.index, options.seed);
            println!("difference at request {index} of seed {seed}");
            print!("{}", in_words(&finding.first));
            println!("\nthe smallest found:");
            print!("{}", in_words(&finding.smallest));
            println!("  in hex: {}", in_hex(&finding.smallest));
        }
    }
    Ok(ExitCode::from(1))
}

fn in_words(difference: &Difference) -> String {
    let found = difference.found.as_deref().unwrap_or("(no line)");
    format!(
        "{}  reference: {}\n  program:   {found}\n",
        show::request(&difference.request),
        difference.expected
    )
}

fn in_hex(difference: &Difference) -> String {
    let mut bytes = Vec::new();
    difference
        .request
        .write(&mut bytes)
        .expect("a vector takes all");
    show::hex(&bytes)
}
