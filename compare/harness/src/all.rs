//! Many sections in one call: runs of a collector whose pushes are gathered into lists, the port beside the second implementation, which pushes them one by one. The original has no such call.
use crate::beside;
use crate::logs::{bad_list, listed};
use crate::make::{self, Dice, Domain};
use crate::second::{Reading, Second};
use player::answer::Answer;
use player::command::{Command, Part};
use std::path::Path;

/// The longest section of a list.
const LONGEST: usize = 4098;

/// Runs on several inputs. What of a list was not taken is given again, as a host does.
pub fn script(seed: u64, commands: usize) -> Vec<Command> {
    let mut dice = Dice::new(seed ^ 0xA11);
    let mut second = Second::new(Reading::default());
    let mut script = Vec::new();
    while script.len() < commands {
        let part = dice.of(&[Part::Sets, Part::Eit]);
        let domain = dice.of(&[Domain::Inside, Domain::Damaged, Domain::CellBound]);
        let inputs: &[u8] = dice.of(&[&[0], &[0, 0, 1], &[0, 3, 15]]);
        let most = dice.of(&[1, 3, 8, 64, 300]);
        let mut gathered: Vec<Vec<u8>> = Vec::new();
        for command in make::collector_run(&mut dice, 400, domain, part) {
            match command {
                Command::Push { pid: Some(pid), section, .. } if section.len() <= LONGEST && !dice.once_in(50) => {
                    let input = if dice.once_in(200) { dice.of(&[16, 255]) } else { dice.of(inputs) };
                    gathered.push(listed(input, pid, &section));
                    if gathered.len() >= most {
                        give(&mut dice, &mut second, part, std::mem::take(&mut gathered), &mut script);
                    }
                }
                other => {
                    give(&mut dice, &mut second, part, std::mem::take(&mut gathered), &mut script);
                    second.answer(&other);
                    script.push(other);
                }
            }
        }
        give(&mut dice, &mut second, part, gathered, &mut script);
    }
    script
}

/// A list, and behind what was taken of it the rest; now and then one that is refused.
fn give(dice: &mut Dice, second: &mut Second, part: Part, sections: Vec<Vec<u8>>, script: &mut Vec<Command>) {
    if dice.once_in(20) && !sections.is_empty() {
        script.push(Command::PushAll { part, list: bad_list(dice, &sections) });
        second.answer(script.last().expect("a command"));
    }
    let mut list = sections.concat();
    loop {
        script.push(Command::PushAll { part, list: list.clone() });
        let Answer::Taken(taken, _) = second.answer(script.last().expect("a command")) else { panic!("how much was taken") };
        list.drain(..taken as usize);
        if list.is_empty() || taken == 0 {
            return;
        }
    }
}

pub fn compare(root: &Path, seeds: usize, commands: usize) -> bool {
    beside::as_said(root, "all") && beside::seeds_alike("many sections in one call", seeds, |seed| script(seed, commands))
}
