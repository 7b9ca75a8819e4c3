//! How the generated lines fare: `histogram [SEED [COUNT]]`.

use compare::generate::Generator;
use compare::masses::{bracket_mass, missing, Mass};
use compare::positions::{all_placements, floaters};
use compare::reader::read;

/// Placements are counted up to here.
const CAP: usize = 1000;

fn main() {
    let mut arguments = std::env::args().skip(1).map(|one| one.parse());
    let mut argument = |otherwise: u64| arguments.next().and_then(Result::ok).unwrap_or(otherwise);
    let seed = argument(1);
    let count = argument(100_000) as usize;

    let mut outcomes = [0_usize; 22];
    let mut floating = [0_usize; 9];
    let mut unplaceable = 0;
    let (mut copied, mut placeable) = (0, 0);
    let (mut lacking, mut measured) = (0, 0);
    for line in Generator::new(seed).take(count) {
        match read(&line) {
            Ok(read) => {
                outcomes[0] += 1;
                let floaters = floaters(&read);
                floating[floaters.len()] += 1;
                let placements = all_placements(&floaters, CAP).0.len();
                unplaceable += usize::from(placements == 0);
                if floaters.windows(2).any(|pair| pair[0].bracket == pair[1].bracket) {
                    copied += 1;
                    placeable += usize::from(placements > 1);
                }
                lacking += usize::from(missing(&read) > 0);
                let only_measured = |mass: Mass| matches!(mass, Mass::Measured(_));
                measured += usize::from(read.brackets.iter().any(|one| only_measured(bracket_mass(read.parts_of(one)))));
            }
            Err(refusal) => outcomes[usize::from(refusal.number)] += 1,
        }
    }

    let percent = |part: usize| part as f64 * 100.0 / count as f64;
    println!("accepted {:8} {:6.2}%", outcomes[0], percent(outcomes[0]));
    for (number, &lines) in outcomes.iter().enumerate().skip(1) {
        if (13..19).contains(&number) {
            continue; // no refusal of a line
        }
        println!("no {number:5} {lines:8} {:6.2}%", percent(lines));
    }
    for (floaters, &lines) in floating.iter().enumerate() {
        println!("floaters {floaters} {lines:6} {:6.2}%", percent(lines));
    }
    println!("accepted, no placement {unplaceable}");
    println!("accepted, copies of one bracket {copied}, of these more than one placement {placeable}");
    println!("accepted, a mass lacking {lacking}; a bracket with only a measured mass {measured}");
}
