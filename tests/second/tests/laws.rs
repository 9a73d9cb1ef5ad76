//! Laws over generated netlists.

use second::generate::{foreign, least_row, netlist, text_of, Random, SHAPES};
use second::{Instruction, Netlist, Sequence};

/// A row in which the netlist has room, often the least one; none where no row has it.
fn row_for(r: &mut Random, text: &[u8]) -> Option<u64> {
    let least = least_row(text)?;
    Some(match r.below(3) {
        0 => least,
        1 => r.between(least as usize, 256) as u64,
        _ => (least + r.below(8) as u64).min(256),
    })
}

/// What map writes for a good netlist, read again.
fn mapped(row: u64, text: &[u8]) -> Option<(Vec<u8>, Sequence)> {
    let mut out = vec![0; 65_536];
    match second::map(row, text, &mut out) {
        Ok(length) => out.truncate(length),
        Err(number) => {
            assert_eq!(number, 9);
            return None;
        }
    }
    let sequence = second::read_sequence(&out).unwrap();
    Some((out, sequence))
}

/// A whole run from any row: inputs and unnamed cells stay, places hold what evaluate says.
fn runs_well(r: &mut Random, netlist: &Netlist, text: &[u8], sequence: &Sequence) {
    let before = r.bits(sequence.row);
    let mut row = before.clone();
    let count = sequence.instructions.len();
    assert_eq!(
        second::simulate(&sequence.text(), &mut row, u64::MAX),
        Ok(count)
    );
    let mut values = vec![0; netlist.outputs.len()];
    let inputs = &before[..netlist.inputs];
    assert_eq!(
        second::evaluate(text, inputs, &mut values),
        Ok(values.len())
    );
    for (place, value) in sequence.places.iter().zip(values) {
        assert_eq!(row[usize::from(*place)], value);
    }
    for (cell, named) in sequence.named().into_iter().enumerate() {
        assert!(named || row[cell] == before[cell]);
        assert!(cell >= netlist.inputs || !named);
    }
}

/// Each budget runs one instruction more than the one below it.
fn steps_well(r: &mut Random, sequence: &Sequence) {
    let text = sequence.text();
    let before = r.bits(sequence.row);
    let mut stepped = before.clone();
    let count = sequence.instructions.len();
    for budget in 0..=count + 2 {
        let mut row = before.clone();
        assert_eq!(
            second::simulate(&text, &mut row, budget as u64),
            Ok(budget.min(count))
        );
        assert_eq!(row, stepped);
        if let Some(instruction) = sequence.instructions.get(budget) {
            second::step(&mut stepped, instruction);
        }
    }
}

#[test]
fn generated_netlists_are_well_formed() {
    for (seed, shape) in (0..100).flat_map(|seed| SHAPES.map(|shape| (seed, shape))) {
        for most in [1, 2, 5, 40, 512] {
            let netlist = shape(&mut Random::new(seed), most);
            assert!((1..=most).contains(&netlist.gates.len()));
            assert_eq!(second::read(&text_of(&netlist)), Ok(netlist));
        }
    }
}

#[test]
fn mapped_sequences_pass_and_run() {
    let r = &mut Random::new(1);
    let mut mapped_ones = 0;
    for _ in 0..700 {
        let netlist = netlist(r, 512);
        let text = text_of(&netlist);
        let Some((out, sequence)) = row_for(r, &text).and_then(|row| mapped(row, &text)) else {
            continue;
        };
        mapped_ones += 1;
        let count = sequence.instructions.len();
        assert_eq!(second::check(&text, &out), Ok(count));
        assert!(count > netlist.gates.len() && count <= 2 * netlist.gates.len());
        assert_eq!(sequence.text(), out);
        for _ in 0..4 {
            runs_well(r, &netlist, &text, &sequence);
        }
    }
    assert!(mapped_ones > 600, "{mapped_ones}");
}

#[test]
fn every_row_maps_or_has_no_room() {
    let r = &mut Random::new(2);
    for _ in 0..40 {
        let netlist = netlist(r, 60);
        let text = text_of(&netlist);
        for row in 2..=256 {
            if let Some((out, sequence)) = mapped(row, &text) {
                assert_eq!(second::check(&text, &out), Ok(sequence.instructions.len()));
            }
        }
    }
}

#[test]
fn budgets_step_one_by_one() {
    let r = &mut Random::new(3);
    for _ in 0..60 {
        let netlist = netlist(r, 40);
        let text = text_of(&netlist);
        let row = row_for(r, &text).unwrap_or(256);
        if let Some((_, sequence)) = mapped(row, &text) {
            steps_well(r, &sequence);
        }
        let row = r.between(netlist.inputs + 4, 256);
        if let Some(sequence) = foreign(r, &netlist, row) {
            steps_well(r, &sequence);
        }
    }
}

#[test]
fn foreign_sequences_pass_and_run() {
    let r = &mut Random::new(4);
    let (mut produced, mut again) = (0, 0);
    for _ in 0..400 {
        let netlist = netlist(r, 512);
        let text = text_of(&netlist);
        let row = r.between(netlist.inputs + 1, 256);
        let Some(sequence) = foreign(r, &netlist, row) else {
            continue;
        };
        produced += 1;
        let count = sequence.instructions.len();
        assert_eq!(second::check(&text, &sequence.text()), Ok(count));
        let is_nor = |instruction: &&Instruction| matches!(instruction, Instruction::Nor(_));
        let nors = sequence.instructions.iter().filter(is_nor).count();
        again += usize::from(nors > netlist.gates.len());
        runs_well(r, &netlist, &text, &sequence);
    }
    assert!(produced > 200 && again > 100, "{produced} {again}");
}

#[test]
fn short_buffers_and_exact_ones() {
    let r = &mut Random::new(5);
    for _ in 0..100 {
        let text = text_of(&netlist(r, 30));
        let Some((out, _)) = row_for(r, &text).and_then(|row| mapped(row, &text)) else {
            continue;
        };
        let row = u64::from_str_radix(std::str::from_utf8(&out[2..4]).unwrap(), 16).unwrap() + 1;
        let mut short = vec![9; r.below(out.len())];
        assert_eq!(second::map(row, &text, &mut short), Err(10));
        assert!(short.iter().all(|byte| *byte == 9));
        let mut exact = vec![9; out.len()];
        assert_eq!(second::map(row, &text, &mut exact), Ok(out.len()));
        assert_eq!(exact, out);
    }
}

#[test]
fn programs_agree_with_the_calls() {
    let r = &mut Random::new(6);
    for _ in 0..300 {
        let text = text_of(&netlist(r, 100));
        let row = r.between(2, 256);
        let mut input = format!("0F{:02X}\n", row - 1).into_bytes();
        input.extend(&text);
        let printed = second::rowmap(&input);
        let Some((out, sequence)) = mapped(row as u64, &text) else {
            assert_eq!(printed, b"1F09\n");
            continue;
        };
        assert_eq!(printed, out);
        let mut both = text.clone();
        both.extend(&out);
        assert_eq!(second::tail(&both), text.len());
        let passed = format!("1E{:04X}\n", sequence.instructions.len());
        assert_eq!(second::rowcheck(&both), passed.as_bytes());
    }
}
