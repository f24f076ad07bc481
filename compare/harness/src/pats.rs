//! PATs in several sections: scripts of them made from a seed, and the port beside the second implementation where complete PATs are followed. The original follows each changed
//! section: it is run on the same scripts in that manner.
use crate::beside;
use crate::make::{Dice, Head, another_input, damaged, gate_opening, long, mend, same_crc, short};
use crate::pairs::{Side, differing};
use crate::report::Report;
use crate::watch_pats;
use player::answer::Answer;
use player::command::{By, Command};
use std::path::Path;

/// The PAT of a multiplex, as it is sent: section after section of one version.
pub struct Multiplex {
    stream: u16,
    version: u8,
    last: u8,
    /// Makes the bytes of this version.
    salt: u64,
    /// The next section of the carousel.
    next: u8,
}

impl Multiplex {
    pub fn new(dice: &mut Dice, stream: u16, lasts: &[u8]) -> Multiplex {
        let mut multiplex = Multiplex { stream, version: dice.below(32) as u8, last: 0, salt: 0, next: 0 };
        multiplex.renew(dice, lasts);
        multiplex
    }

    /// Another version, mostly, and mostly of another number of sections.
    pub fn renew(&mut self, dice: &mut Dice, lasts: &[u8]) {
        if !dice.once_in(6) {
            self.version = (self.version + 1) % 32;
        }
        self.last = dice.of(lasts);
        self.salt = dice.next();
        self.next = 0;
    }

    /// The same number gives the same bytes, but where the sender is caught at a change of them (`variant`).
    fn section(&self, number: u8, variant: u64) -> Vec<u8> {
        let mut dice = Dice::new(self.salt ^ u64::from(number) << 8 ^ variant << 20);
        let count = match dice.below(if self.last < 64 { 60 } else { 6000 }) {
            // 1,020, 1,024 and 1,028 bytes; a PAT with one of 1,028 is never complete.
            0 => dice.of(&[252, 253, 254]),
            _ => dice.below(4),
        };
        let head = Head { table_id: 0, extension: self.stream, version: self.version, current_next: true, number, last: self.last };
        long(head, &(0..count).flat_map(|_| program(&mut dice)).collect::<Vec<u8>>())
    }

    /// The next section of the carousel, or, more rarely, any other.
    pub fn send(&mut self, dice: &mut Dice) -> Vec<u8> {
        let variant = if dice.once_in(25) { 1 } else { 0 };
        if dice.once_in(8) {
            return self.section(dice.below(usize::from(self.last) + 1) as u8, variant);
        }
        let number = self.next;
        self.next = if number == self.last { 0 } else { number + 1 };
        self.section(number, variant)
    }
}

const PROGRAM_PIDS: [u16; 9] = [0x0010, 0x0012, 0x0050, 0x0100, 0x0101, 0x0102, 0x0103, 0x0104, 0x1FFF];

/// A group of four bytes of a PAT.
fn program(dice: &mut Dice) -> [u8; 4] {
    let [high, low] = dice.of(&[0u16, 1, 2, 3, 0xFFFF]).to_be_bytes();
    let [pid_high, pid_low] = dice.of(&PROGRAM_PIDS).to_be_bytes();
    [high, low, 0xE0 | pid_high, pid_low]
}

/// Makes of a PAT section one that does not enter the PAT store, in most cases: marked next, a number above the last, a remainder, a short form, a wrong CRC, or damaged in
/// any way.
fn no_entry(dice: &mut Dice, mut section: Vec<u8>) -> Vec<u8> {
    match dice.below(7) {
        0 | 1 => {
            section[5] ^= 1;
            if dice.once_in(2) {
                section[5] ^= 2;
            }
            mend(&mut section);
        }
        2 if section[7] < 255 => {
            section[6] = section[7] + 1;
            mend(&mut section);
        }
        3 => {
            section.push(0);
            mend(&mut section);
        }
        4 => section[1] &= 0x7F,
        5 => {
            let at = dice.below(section.len());
            section[at] ^= 1 << dice.below(8);
        }
        _ => section = damaged(dice, section),
    }
    section
}

fn pats_opening(dice: &mut Dice, pats: bool) -> Command {
    match gate_opening(dice, false) {
        Command::GateOpen { capacity, repeats, well_known, rule, extra, .. } => {
            let capacity = if dice.once_in(3) { capacity } else { 512 };
            Command::GateOpen { capacity, repeats, follow: !dice.once_in(12), well_known, rule, pats, extra }
        }
        other => panic!("no opening: {other}"),
    }
}

/// A script of PATs in several sections, of which most are followed by complete tables: of a few multiplexes that take turns, on some inputs, which change versions, are sent out of order,
/// conflict, and come on other PIDs; and sections on the PIDs that they name.
pub fn script(seed: u64, commands: usize) -> Vec<Command> {
    let mut dice = Dice::new(seed ^ 0x3A << 48);
    let mut script = Vec::new();
    while script.len() < commands {
        pats_run(&mut dice, &mut script);
    }
    script
}

fn pats_run(dice: &mut Dice, script: &mut Vec<Command>) {
    // How many times rarer than usual anything changes: PATs of many sections are completed in calm runs only.
    let (calm, least, lasts): (usize, usize, &[u8]) =
        if dice.once_in(8) { (40, 1000, &[0, 1, 20, 255]) } else { (1, 40, &[0, 0, 1, 1, 1, 2, 3, 5, 255]) };
    let length = least + dice.below(600);
    let inputs: &[u8] = dice.of(&[&[0][..], &[0], &[3], &[0, 1], &[2, 7, 15]]);
    let wrong = dice.once_in(4);
    let pats = !dice.once_in(6);
    // Most inputs are opened; one that is not has what the run before left it.
    for &input in inputs {
        if !dice.once_in(5) {
            script.extend([Command::Input(input), pats_opening(dice, pats)]);
        }
    }
    let mut multiplexes: Vec<Multiplex> = (0..1 + dice.below(3)).map(|at| Multiplex::new(dice, at as u16 + 1, lasts)).collect();
    let mut now = 0;
    let end = script.len() + length;
    while script.len() < end {
        if dice.once_in(15 * calm) {
            script.push(another_input(dice, inputs, wrong));
        }
        if dice.once_in(20 * calm) {
            now = dice.below(multiplexes.len());
        }
        if dice.once_in(25 * calm) {
            multiplexes[now].renew(dice, lasts);
        }
        let pid = if dice.once_in(20 * calm) { dice.of(&[0x0011, 0x0100, 0x2000]) } else { 0 };
        let mut section = multiplexes[now].send(dice);
        if dice.once_in(8 * calm) {
            section = no_entry(dice, section);
        } else if dice.once_in(40) {
            section = same_crc(dice, &section).unwrap_or(section);
        }
        script.push(Command::Gate { by: dice.of(&[By::Packets, By::Offer]), pid, section });
        match dice.below(10) {
            0..=2 => script.push(Command::Watched),
            3 => script.push(Command::Pats),
            4 => script.push(Command::Ask { pid: dice.of(&PROGRAM_PIDS) }),
            5 => {
                let body = [dice.below(2) as u8; 5];
                script.push(Command::Gate { by: By::Packets, pid: dice.of(&PROGRAM_PIDS), section: short(0x70, &body) });
            }
            _ => {}
        }
        if dice.once_in(150 * calm) {
            let pats = !dice.once_in(3);
            script.push(pats_opening(dice, pats));
        }
    }
    script.extend([Command::Watched, Command::Pats, Command::Counters]);
}

/// The same script on one input where each changed PAT section is followed, as the original has it.
pub fn by_sections(mut script: Vec<Command>) -> Vec<Command> {
    script.retain(|command| !matches!(command, Command::Input(_)));
    for command in &mut script {
        if let Command::GateOpen { pats, .. } = command {
            *pats = false;
        }
    }
    script
}

/// The same script in one manner of following, with every section offered whether its PID is watched or not, and without questions for the watch and the PAT store.
pub fn offered_by(script: &[Command], manner: (bool, bool)) -> Vec<Command> {
    let mut script: Vec<Command> =
        script.iter().filter(|command| !matches!(command, Command::Watched | Command::Ask { .. } | Command::Pats)).cloned().collect();
    for command in &mut script {
        match command {
            Command::GateOpen { follow, pats, .. } => (*follow, *pats) = manner,
            Command::Gate { by, .. } => *by = By::Offer,
            _ => {}
        }
    }
    script
}

// ---- the comparison

/// The scripts of pats/; seeds by complete PATs, the port beside the second implementation; the same where each changed section is followed, beside the original; and that the manner
/// decides the watch alone.
pub fn compare(root: &Path, seeds: usize, commands: usize) -> bool {
    let written = beside::as_said(root, "pats");
    let [mut tables, mut sections] = [Report::default(), Report::default()];
    for seed in 0..seeds as u64 {
        let script = script(seed, commands);
        if !beside::alike(&format!("seed {seed}"), &script, &mut tables) {
            return false;
        }
        if let Some(found) = differing(&by_sections(script.clone()), &mut sections) {
            return beside::differs(&format!("each changed section, seed {seed}"), found);
        }
        if let Some(line) = manner_shows(&script) {
            println!("seed {seed}: another answer in another manner at command {}", line + 1);
            return false;
        }
    }
    println!("complete PATs: {seeds} seeds, 0 differences\n{tables}");
    println!("each changed section, on one input: {seeds} seeds, 0 differences that are not named\n{sections}");
    written && watch_pats::compare(root)
}

/// The first command of the script with all its sections offered that the port answers otherwise where PATs are followed otherwise: by tables, by sections, not at all.
fn manner_shows(script: &[Command]) -> Option<usize> {
    let answers = |manner| -> Vec<Answer> { Side::Port.answers(&offered_by(script, manner)) };
    let tables = answers((true, true));
    [(true, false), (false, true)].into_iter().find_map(|manner| tables.iter().zip(&answers(manner)).position(|(one, other)| one != other))
}
