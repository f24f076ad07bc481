//! What was compared.
use crate::make::Domain;
use crate::second::{Difference, Seen};
use player::answer::Answer;
use player::command::Command;
use std::collections::BTreeMap;
use std::fmt::{self, Display};

#[derive(Default)]
pub struct Report {
    commands: usize,
    kinds: BTreeMap<&'static str, usize>,
    /// By part and number of docs/RULES.md, "Answers".
    answers: BTreeMap<(&'static str, u8), usize>,
    met: [u64; Difference::ALL.len()],
    /// Answers of the original from a branch that no section takes, by `DEAD`.
    dead: [u64; 2],
    seen: Seen,
}

const DEAD: [&str; 2] = ["table_id below the first of its kind", "schedules at their limit and none held"];

impl Report {
    /// Counts a command that all sides answered alike, by what the rules say of it.
    pub fn count(&mut self, command: &Command, answer: &Answer) {
        self.commands += 1;
        *self.kinds.entry(command.kind()).or_default() += 1;
        if let Some((part, number)) = answer.number() {
            *self.answers.entry((part.name(), number)).or_default() += 1;
        }
    }

    /// Counts how often named differences decided an answer.
    pub fn met(&mut self, met: [u64; Difference::ALL.len()]) {
        self.met.iter_mut().zip(met).for_each(|(all, met)| *all += met);
    }

    /// Counts what packets had.
    pub fn seen(&mut self, seen: Seen) {
        let all = &mut self.seen;
        *all = Seen {
            finished: all.finished + seen.finished,
            gathered: all.gathered + seen.gathered,
            most: all.most.max(seen.most),
            copies: all.copies + seen.copies,
            jumps: all.jumps + seen.jumps,
            left: all.left + seen.left,
            own_left: all.own_left + seen.own_left,
            changed_twice: all.changed_twice + seen.changed_twice,
            returned: all.returned + seen.returned,
        };
    }

    /// Counts answers of the original from branches that no section takes.
    pub fn dead(&mut self, dead: [u64; 2]) {
        self.dead.iter_mut().zip(dead).for_each(|(all, dead)| *all += dead);
    }

    pub fn none_dead(&self) -> bool {
        self.dead == [0; 2]
    }

    pub fn commands(&self) -> usize {
        self.commands
    }

    /// How often a number was answered, by whatever part.
    fn answered(&self, number: u8) -> usize {
        self.answers.iter().filter(|((_, n), _)| *n == number).map(|(_, count)| count).sum()
    }

    /// Inside the domain only D2 can be met.
    pub fn named_as_expected(&self, domain: Domain) -> bool {
        domain != Domain::Inside || self.met_alone(&[Difference::ShortAndNoEit])
    }

    /// Whether no named difference was met but these.
    pub fn met_alone(&self, these: &[Difference]) -> bool {
        Difference::ALL.iter().all(|difference| these.contains(difference) || self.met[*difference as usize] == 0)
    }
}

impl Display for Report {
    fn fmt(&self, f: &mut fmt::Formatter<'_>) -> fmt::Result {
        writeln!(f, "  commands: {}", self.commands)?;
        let kinds: Vec<String> = self.kinds.iter().map(|(kind, count)| format!("{kind} {count}")).collect();
        writeln!(f, "  kinds: {}", kinds.join(", "))?;
        let answers: Vec<String> = self.answers.iter().map(|((part, n), count)| format!("{part} {n}: {count}")).collect();
        writeln!(f, "  answers: {}", answers.join(", "))?;
        let met: Vec<String> =
            Difference::ALL.iter().map(|&difference| format!("{} {}", difference.name(), self.met[difference as usize])).collect();
        writeln!(f, "  named differences from the original met: {}", met.join(", "))?;
        let dead: Vec<String> = DEAD.iter().zip(self.dead).map(|(branch, count)| format!("{branch} {count}")).collect();
        writeln!(f, "  answers from branches of the original that no section takes: {}", dead.join(", "))?;
        if self.kinds.contains_key("demux packet") { writeln!(f, "  {}", self.seen) } else { Ok(()) }
    }
}

impl Display for Seen {
    fn fmt(&self, f: &mut fmt::Formatter<'_>) -> fmt::Result {
        let Seen { finished, gathered, most, copies, jumps, left, own_left, changed_twice, returned } = self;
        write!(
            f,
            "sections finished {finished}, out of several packets {gathered}, most in a packet {most}; copies {copies}, jumps {jumps}; "
        )?;
        write!(
            f,
            "buffers given back {left}; packets whose own PID left {own_left}, that changed the watch more than once {changed_twice}, "
        )?;
        write!(f, "PIDs that left and came back in a packet {returned}")
    }
}

/// How often each number of docs/RULES.md, "Answers", was answered.
pub struct Answered([usize; 44]);

impl Default for Answered {
    fn default() -> Answered {
        Answered([0; 44])
    }
}

impl Answered {
    pub fn add(&mut self, report: &Report) {
        for (number, count) in self.0.iter_mut().enumerate() {
            *count += report.answered(number as u8);
        }
    }
}

impl Display for Answered {
    fn fmt(&self, f: &mut fmt::Formatter<'_>) -> fmt::Result {
        let given = |(number, _): &(usize, &usize)| *number < 24 || matches!(number, 29..=34 | 37 | 41 | 43);
        self.0.iter().enumerate().skip(1).filter(given).try_for_each(|(number, count)| writeln!(f, "  answer {number}: {count}"))
    }
}
