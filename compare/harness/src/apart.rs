//! An original of its own for each input. Where nothing is evicted, a card answers on each input as an original does that is given this input's sections alone; what is
//! counted is the sum.
use crate::lent::INPUTS;
use crate::original::Original;
use crate::second::{Reading, Second};
use player::answer::{Answer, Held};
use player::command::{Command, Part};
use std::collections::{BTreeMap, BTreeSet};

pub struct Apart {
    input: u8,
    originals: Vec<Original>,
}

impl Apart {
    pub fn new() -> Apart {
        Apart { input: 0, originals: (0..INPUTS as u8).map(Original::new).collect() }
    }

    /// As of one original.
    pub fn below(&self) -> u64 {
        self.originals.iter().map(|original| original.below).sum()
    }

    pub fn answer(&mut self, command: &Command) -> Answer {
        if let Command::Input(input) = command {
            self.input = *input;
        }
        let on_all = match command {
            Command::Open { .. } | Command::Clear { .. } => true,
            Command::Drop(filter) => !filter.this_input,
            _ => false,
        };
        if on_all {
            self.originals.iter_mut().for_each(|original| drop(original.answer(command)));
        }
        // On the input that is current once more, which changes nothing: what was opened is open, what was emptied is empty.
        match self.originals[usize::from(self.input)].answer(command) {
            Answer::Judged(judgement, _) => {
                let [completed, emitted, suppressed, crc, _, _, evicted] = self.counters();
                Answer::Judged(judgement, [completed, emitted, suppressed, crc, evicted])
            }
            Answer::Counters(_) => Answer::Counters(self.counters()),
            Answer::Collected(number, Held::Sets { .. }, out) => Answer::Collected(number, self.sets_held(), out),
            Answer::Collected(number, Held::Eit { .. }, out) => Answer::Collected(number, self.eit_held(), out),
            answer => answer,
        }
    }

    fn counters(&self) -> [u64; 7] {
        let each: Vec<[u64; 7]> = self.originals.iter().map(Original::counters).collect();
        std::array::from_fn(|at| each.iter().map(|counters| counters[at]).sum())
    }

    fn sets_held(&self) -> Held {
        let (mut all, mut count) = (0, 0);
        for original in &self.originals {
            let Held::Sets { evicted, rows } = original.sets_held() else { panic!("of the set collector") };
            all += evicted;
            count += rows;
        }
        Held::Sets { evicted: all, rows: count }
    }

    fn eit_held(&self) -> Held {
        let (mut all, mut count) = ([0; 2], [0; 2]);
        for original in &self.originals {
            let Held::Eit { evicted, rows } = original.eit_held() else { panic!("of the EIT collector") };
            all = std::array::from_fn(|at| all[at] + evicted[at]);
            count = std::array::from_fn(|at| count[at] + rows[at]);
        }
        Held::Eit { evicted: all, rows: count }
    }
}

/// What a gate is opened with and all inputs share.
type Shared = (u32, bool, bool, u64);

/// Whether originals, one for each input, are the measure of a script: nothing is evicted and every section finds its cell; and since an opening of the gate is an opening
/// for all inputs but opens the watch of one, the inputs that the gate is used on are opened one directly after the other, alike in what they share; nowhere are
/// complete PATs followed.
pub fn is_apart(script: &[Command]) -> bool {
    !follows_tables(script) && nothing_leaves(script) && opened_together(script)
}

/// Whether entries are asked for somewhere, which the original does not list.
pub fn asks_for_entries(script: &[Command]) -> bool {
    script.iter().any(|command| {
        matches!(
            command,
            Command::Events { .. } | Command::Read { .. } | Command::Date(_) | Command::Entries { .. } | Command::ReadTable { .. }
        )
    })
}

/// Whether complete PATs are followed somewhere, which the original does not.
pub fn follows_tables(script: &[Command]) -> bool {
    script.iter().filter_map(Command::opening).any(|opening| opening.follow && opening.pats)
}

fn nothing_leaves(script: &[Command]) -> bool {
    let mut second = Second::new(Reading::default());
    script.iter().all(|command| match second.answer(command) {
        Answer::Judged(_, [.., evicted]) => evicted == 0,
        Answer::Collected(20 | 21, ..) => false,
        Answer::Collected(_, Held::Sets { evicted, .. }, _) => evicted == 0,
        Answer::Collected(_, Held::Eit { evicted, .. }, _) => evicted == [0; 2],
        answer => !matches!(answer.number(), Some((_, 13 | 37))),
    })
}

fn opened_together(script: &[Command]) -> bool {
    let mut input = 0;
    let mut opening = false;
    let mut opened: Option<BTreeMap<u8, Shared>> = None;
    let mut used = BTreeSet::new();
    for command in script {
        match command {
            Command::Input(now) => input = *now,
            Command::GateOpen { capacity, repeats, follow, rule, .. } => {
                let block = opened.get_or_insert_default();
                if !opening {
                    block.clear();
                }
                block.insert(input, (*capacity, *repeats, *follow, *rule));
                opening = true;
            }
            other if other.part() == Some(Part::Gate) => {
                used.insert(input);
                if let Some(block) = &opened {
                    let alike = block.values().all(|shared| Some(shared) == block.values().next());
                    if !alike || !used.iter().all(|input| block.contains_key(input)) {
                        return false;
                    }
                }
                opening = false;
            }
            _ => opening = false,
        }
    }
    true
}
