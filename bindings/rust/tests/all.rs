//! Many sections in one call: what one by one gives, what ends the call, and what is refused as a whole.
use petrizolu::{Answer, Refused, Sets, crc, listed_section};

/// A section of a table of two.
fn half(extension: u8, number: u8) -> Vec<u8> {
    let bytes = [0x42, 0xB0, 0x0D, 0x00, extension, 0xC1, number, 0x01, extension, number, 0, 0];
    [&bytes[..], &crc(&bytes).to_be_bytes()].concat()
}

fn list(sections: &[(u8, u16, &[u8])]) -> Vec<u8> {
    sections.iter().flat_map(|&(input, pid, section)| listed_section(input, pid, section).expect("short enough")).collect()
}

fn open() -> Sets {
    Sets::open(4, 64, 8).expect("the collector opens")
}

#[test]
fn one_after_another() {
    let halves = [half(1, 0), half(2, 0), half(1, 1), half(2, 1)];
    let given = list(&halves.each_ref().map(|section| (0, 0x11, &section[..])));
    let (mut many, mut single) = (open(), open());
    let (told, taken) = many.push_all(&given);
    let row = told.expect("no refusal").expect("the first set");
    assert_eq!((taken, many.name(&row).extension), (given.len() / 4 * 3, 1));
    assert_eq!(many.sections(&row).iter().map(|section| section.bytes).collect::<Vec<_>>(), [&halves[0][..], &halves[2]]);
    let (told, rest) = many.push_all(&given[taken..]);
    assert_eq!((many.name(&told.expect("no refusal").expect("the second set")).extension, taken + rest), (2, given.len()));
    for section in &halves {
        single.push(0, Some(0x11), section).expect("no refusal");
    }
    assert_eq!(many.state(), single.state());
    assert!(matches!(many.push_all(&given), (Ok(None), taken) if taken == given.len()), "repeats");
    assert!(matches!(many.push_all(&[]), (Ok(None), 0)));
}

#[test]
fn a_refusal_ends_the_call() {
    let (first, second) = (half(1, 0), half(1, 1));
    let given = list(&[(0, 0x11, &first), (0, 0x2000, &first), (0, 0x11, &second)]);
    let mut sets = open();
    let (told, taken) = sets.push_all(&given);
    assert_eq!((told.err(), taken), (Some(Refused(Answer::BAD_PID)), 2 * (5 + first.len())));
    assert!(matches!(sets.push_all(&given[taken..]), (Ok(Some(_)), _)), "what was before it is kept");
    let (told, taken) = sets.push_all(&list(&[(16, 0x11, &first)]));
    assert_eq!((told.err(), taken), (Some(Refused(Answer::BAD_INPUT)), 5 + first.len()));
}

#[test]
fn refused_as_a_whole() {
    let mut sets = open();
    let good = list(&[(0, 0x11, &half(1, 0))]);
    for (behind, answer) in [(&[0x00][..], Answer::NOT_WHOLE), (&[0, 0, 0x11, 0x10, 0x03], Answer::OVERLONG_SECTION)] {
        let (told, taken) = sets.push_all(&[&good, behind].concat());
        assert_eq!((told.err(), taken, sets.state().used), (Some(Refused(answer)), 0, 0));
    }
}
