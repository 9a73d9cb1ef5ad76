//! Damaged texts make every number that a call can give.

use second::generate::{damaged, netlist, sequence_for, text_of, Random};
use second::printed_refusal;

/// How often each number was given; 0 stands for an answer.
#[derive(Default)]
struct Seen([usize; 18]);

impl Seen {
    fn note<T>(&mut self, answer: Result<T, u8>) {
        self.0[usize::from(answer.err().unwrap_or(0))] += 1;
    }

    fn exactly(&self, call: &str, numbers: &[usize]) {
        for (number, times) in self.0.iter().enumerate() {
            let due = numbers.contains(&number);
            assert!(
                if due { *times >= 20 } else { *times == 0 },
                "{call}: {number}: {times}"
            );
        }
    }
}

#[test]
fn netlist_calls() {
    let r = &mut Random::new(10);
    let (mut map, mut evaluate) = (Seen::default(), Seen::default());
    for _ in 0..50_000 {
        let netlist = netlist(r, 24);
        let mut text = text_of(&netlist);
        if !r.once_in(4) {
            text = damaged(r, &text);
        }
        let row = match r.once_in(20) {
            true => r.pick(&[0, 1, 257, 1 << 40]).unwrap_or(0),
            false => (netlist.inputs + r.below(20)) as u64,
        };
        let mut out = vec![3; r.pick(&[0, 40, 2000]).unwrap_or(0)];
        let answer = second::map(row, &text, &mut out);
        assert!(answer.is_ok() || out.iter().all(|byte| *byte == 3));
        map.note(answer);
        let too_many = usize::from(r.once_in(10));
        let mut inputs = r.bits(netlist.inputs + too_many);
        if r.once_in(10) {
            inputs[0] = 2;
        }
        let mut out = vec![3; r.pick(&[0, 1, 64]).unwrap_or(0)];
        let answer = second::evaluate(&text, &inputs, &mut out);
        assert!(answer.is_ok() || out.iter().all(|byte| *byte == 3));
        evaluate.note(answer);
    }
    map.exactly("map", &[0, 1, 2, 3, 4, 5, 6, 7, 8, 9, 10]);
    evaluate.exactly("evaluate", &[0, 1, 2, 3, 4, 5, 6, 7, 10, 17]);
}

#[test]
fn sequence_calls() {
    let r = &mut Random::new(11);
    let (mut check, mut simulate) = (Seen::default(), Seen::default());
    for _ in 0..50_000 {
        let netlist = netlist(r, 24);
        let (mut text, mut sequence) = (text_of(&netlist), sequence_for(r, &netlist));
        match r.below(8) {
            0 => text = damaged(r, &text),
            1 => {}
            _ => sequence = damaged(r, &sequence),
        }
        check.note(second::check(&text, &sequence));
        let head = sequence
            .get(2..4)
            .and_then(|digits| std::str::from_utf8(digits).ok());
        let row = head
            .and_then(|digits| usize::from_str_radix(digits, 16).ok())
            .unwrap_or(4)
            + 1;
        let too_many = usize::from(r.once_in(20));
        let before = r.bits(row + too_many);
        let mut after = before.clone();
        let answer = second::simulate(&sequence, &mut after, r.below(40) as u64);
        assert!(answer.is_ok() || after == before);
        simulate.note(answer);
    }
    check.exactly("check", &[0, 1, 2, 3, 4, 5, 6, 7, 11, 12, 13, 14, 15, 16]);
    simulate.exactly("simulate", &[0, 1, 2, 3, 5, 12, 17]);
}

#[test]
fn programs() {
    let r = &mut Random::new(12);
    let (mut map, mut check) = (Seen::default(), Seen::default());
    let printed = |text: Vec<u8>| printed_refusal(&text).map_or(Ok(()), Err);
    for _ in 0..20_000 {
        let netlist = netlist(r, 16);
        let mut job = format!("0F{:02X}\n", r.below(40)).into_bytes();
        job.extend(text_of(&netlist));
        map.note(printed(second::rowmap(&damaged(r, &job))));
        let mut both = text_of(&netlist);
        both.extend(sequence_for(r, &netlist));
        check.note(printed(second::rowcheck(&damaged(r, &both))));
    }
    map.exactly("rowmap", &[0, 1, 2, 3, 4, 5, 6, 7, 8, 9]);
    check.exactly(
        "rowcheck",
        &[0, 1, 2, 3, 4, 5, 6, 7, 11, 12, 13, 14, 15, 16],
    );
}

#[test]
fn frames_and_tails_of_anything() {
    let r = &mut Random::new(13);
    for _ in 0..20_000 {
        let text = text_of(&netlist(r, 8));
        let text = damaged(r, &text);
        let tail = second::tail(&text);
        assert!(tail <= text.len());
        if second::read(&text).is_ok() {
            assert_eq!(tail, text.len());
        }
        // Frame by frame to the end or to a bad line, where the reader stays.
        let mut at = 0;
        loop {
            let (start, end, next) = second::frame(&text, at);
            if next == at {
                assert_eq!((start, end), (text.len(), text.len()));
                break;
            }
            assert!(start == at && end + 1 == next && (end - start) % 2 == 0 && text[end] == b'\n');
            at = next;
        }
    }
}
