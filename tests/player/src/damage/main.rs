//! `damage gate`, `damage sets`, `damage eit`, `damage packets`, `damage events`, `damage tables`, `damage guides`, `damage logs`: what a tape cannot reach. Lent memory is written over, less of it is lent or a count is preset, one
//! thing at a time, and each call is made on it: a line says what it answers, and whether every word, lent or kept by value, is as it was. 10, 11, 12,
//! 13, 37 and 41 leave all as before.
use petrizolu::{Answer, Entry, Listed, Place};
use std::io::{self, BufWriter, Write};
use std::process::ExitCode;

mod eit;
mod events;
mod gate;
mod guides;
mod logs;
mod packets;
mod sets;
mod tables;

/// What is damaged: a store, and what the calls are given. Two are equal where every word is.
trait Store: Clone + PartialEq {
    type Call: Copy;

    /// A whole store with something in it.
    fn filled() -> Self;

    /// What a line calls it.
    fn name(call: Self::Call) -> &'static str;

    fn call(&mut self, call: Self::Call) -> Answer;

    /// What is left, against what was there before.
    fn left(&self, before: &Self) -> String {
        if self == before { "as before".into() } else { "CHANGED".into() }
    }

    /// What else there is to say after a call.
    fn says(&self) -> String {
        String::new()
    }
}

/// A store with its counts kept by value that is opened: what its openings share.
trait Opens {
    type State: Copy + PartialEq;

    fn state(&mut self) -> &mut Self::State;

    /// The opening itself, with these settings.
    fn opened(&mut self, asked: Self::State) -> Answer;

    /// An opening with the settings that the case has. Whether a refusal left what is kept by value counts; what an opening makes of it does not.
    fn open(&mut self, asked: Self::State) -> Answer {
        let before = *self.state();
        let answer = self.opened(asked);
        if answer == Answer::DONE {
            *self.state() = before;
        }
        answer
    }

    /// A refused opening and then another call, with this kept by value instead.
    fn refused(&mut self, state: Self::State, call: impl FnOnce(&mut Self) -> Answer) -> Answer {
        let asked = std::mem::replace(self.state(), state);
        assert_ne!(self.open(asked), Answer::DONE);
        let answer = call(self);
        if *self.state() == state {
            *self.state() = asked;
        }
        answer
    }
}

/// A damage, and the calls that are made after it, each on a store of its own.
struct Case<S: Store + 'static> {
    name: &'static str,
    calls: &'static [S::Call],
    damage: fn(&mut S),
}

const fn case<S: Store>(name: &'static str, calls: &'static [S::Call], damage: fn(&mut S)) -> Case<S> {
    Case { name, calls, damage }
}

/// What a question for a section answers; only a yes writes the section's words.
fn told(question: impl FnOnce(&mut Place) -> Answer) -> Answer {
    let before = Place { number: u64::MAX, start: u64::MAX, length: u64::MAX };
    let mut place = before;
    let answer = question(&mut place);
    assert_eq!(place != before, answer == Answer::YES, "the words of a section after {answer}");
    answer
}

/// A word that no entry has, which fills a list before a page is asked for, and what is told before it.
const BEFORE: u32 = 0xA5A5_A5A5;
const UNTOLD: Listed = Listed { count: u64::MAX, section: u64::MAX, place: u64::MAX };

/// What a page tells where it tells something, and of the entries that are listed their kind, section, place and number.
fn page(listed: Listed, list: &[u32]) -> String {
    if listed == UNTOLD {
        return String::new();
    }
    let Listed { count, section, place } = listed;
    let (entries, _) = list.as_chunks();
    let shown = entries.iter().map(Entry::of).take_while(|entry| entry.kind != BEFORE);
    let shown = shown.map(|Entry { kind, section, at, id, .. }| format!(" [{kind} {section} {at} {id}]"));
    format!(" count={count} section={section} place={place}{}", shown.collect::<String>())
}

fn run<S: Store>(cases: &[Case<S>], out: &mut impl Write) -> io::Result<()> {
    for case in cases {
        for &call in case.calls {
            let mut store = S::filled();
            (case.damage)(&mut store);
            let before = store.clone();
            let answer = store.call(call);
            writeln!(out, "{}: {} {answer} {}{}", case.name, S::name(call), store.left(&before), store.says())?;
        }
    }
    Ok(())
}

fn main() -> io::Result<ExitCode> {
    let part = std::env::args().nth(1).unwrap_or_default();
    let mut out = BufWriter::new(io::stdout().lock());
    match part.as_str() {
        "gate" => run(gate::CASES, &mut out)?,
        "sets" => run(sets::CASES, &mut out)?,
        "eit" => run(eit::CASES, &mut out)?,
        "packets" => {
            run(packets::CASES, &mut out)?;
            run(&packets::counters(), &mut out)?;
        }
        "events" => run(events::CASES, &mut out)?,
        "tables" => run(tables::CASES, &mut out)?,
        "guides" => run(guides::CASES, &mut out)?,
        "logs" => run(logs::CASES, &mut out)?,
        _ => {
            eprintln!("usage: damage gate|sets|eit|packets|events|tables|guides|logs");
            return Ok(ExitCode::from(2));
        }
    }
    out.flush()?;
    Ok(ExitCode::SUCCESS)
}
