//! Which cases are printed.

use second::generate::{
    damaged, decoder, foreign, least_row, multiplexer, netlist, text_of, Random,
};

use super::*;

/// The most characters of a text in a case.
const MOST: usize = 300;

const XOR: &str = "0102000501\n0200000001\n0200000002\n0200010002\n0200030004\n020005\n030006\n";
const NOT: &str = "0101000101\n020000\n030001\n";
const UNREAD: &str = "0102000201\n0200000001\n020000\n030003\n";
const TWINS: &str = "0102000202\n020000\n020000\n030002\n030003\n";

/// Prints every case, kind by kind.
pub fn print_all() {
    let small = netlists();
    maps(&small);
    reads();
    evaluations(&small);
    checks(&small);
    simulations(&small);
    programs(&small);
    tails_and_frames();
}

/// Small netlists besides the whole case: two circuits and some generated ones.
fn netlists() -> Vec<Vec<u8>> {
    let mut small = vec![text_of(&decoder(2)), text_of(&multiplexer(1))];
    let mut r = Random::new(100);
    while small.len() < 6 {
        let netlist = netlist(&mut r, 8);
        let text = text_of(&netlist);
        if netlist.gates.len() >= 3
            && netlist.inputs <= 6
            && least_row(&text).is_some_and(|row| row < 12)
        {
            small.push(text);
        }
    }
    small
}

/// What map writes in the least row and some more, or in a row where it has room.
fn mapped(text: &[u8], more: u64) -> Vec<u8> {
    let mut out = vec![0; 4096];
    let row = least_row(text).unwrap_or(256) + more;
    let length = second::map(row, text, &mut out).unwrap_or(0);
    out.truncate(length);
    out
}

/// The first damaged text, by seed, that gives a number and can be printed.
fn damaged_to(text: &[u8], number: u8, call: impl Fn(&[u8]) -> Result<usize, u8>) -> Vec<u8> {
    let plain = |c: &u8| *c == b'\n' || c.is_ascii_graphic() && *c != b'"' && *c != b'\\';
    let fits = |text: &Vec<u8>| text.len() < MOST && !text.is_empty() && text.iter().all(plain);
    let mut tries = (0..100_000).map(|seed| damaged(&mut Random::new(seed), text));
    let found = tries.find(|text| fits(text) && call(text) == Err(number));
    found.unwrap_or_default()
}

fn maps(small: &[Vec<u8>]) {
    let kind = &mut { MAP };
    for row in [5, 4, 6, 7, 1, 257, 2] {
        map_case(kind, row, XOR.as_bytes(), 120);
    }
    let length = mapped(XOR.as_bytes(), 0).len();
    map_case(kind, 5, XOR.as_bytes(), length - 1);
    map_case(kind, 5, XOR.as_bytes(), length);
    map_case(kind, 2, NOT.as_bytes(), 40);
    for text in small {
        let row = least_row(text).unwrap_or(256);
        map_case(kind, row, text, MOST);
        map_case(kind, row - 1, text, MOST);
        map_case(kind, row + 2, text, MOST);
    }
    for number in 1..=7 {
        let text = damaged_to(XOR.as_bytes(), number, |text| {
            second::map(6, text, &mut [0; 200])
        });
        map_case(kind, 6, &text, 200);
    }
    kind.print();
}

fn reads() {
    let kind = &mut { READ };
    let after = |line: &str| format!("{UNREAD}{line}");
    for text in [
        "",
        "FF\n01",
        XOR,
        UNREAD,
        TWINS,
        &after("FF\n"),
        &after("F\n"),
        &after("\n"),
    ] {
        read_case(kind, text.as_bytes());
    }
    read_case(kind, b"0141000101\n");
    read_case(kind, b"0102000301\n020000\n020000\n0200030002\n030004\n");
    read_case(kind, b"0102000102\n0200000001\n030002\n030002\n");
    kind.print();
}

fn evaluations(small: &[Vec<u8>]) {
    let kind = &mut { EVALUATE };
    for inputs in [[0, 0], [0, 1], [1, 0], [1, 1], [0, 2]] {
        evaluate_case(kind, XOR.as_bytes(), &inputs, 3);
    }
    evaluate_case(kind, XOR.as_bytes(), &[0], 0);
    evaluate_case(kind, XOR.as_bytes(), &[0, 1], 0);
    let mut r = Random::new(101);
    for text in small {
        let inputs = second::read(text).map_or(1, |netlist| netlist.inputs);
        evaluate_case(kind, text, &r.bits(inputs), 8);
    }
    kind.print();
}

fn checks(small: &[Vec<u8>]) {
    let kind = &mut { CHECK };
    let sequence = mapped(XOR.as_bytes(), 0);
    check_case(kind, XOR.as_bytes(), &sequence);
    for number in [1, 2, 3, 5, 11, 12, 13, 14, 15, 16] {
        let call = |text: &[u8]| second::check(XOR.as_bytes(), text);
        check_case(kind, XOR.as_bytes(), &damaged_to(&sequence, number, call));
    }
    let mut r = Random::new(102);
    for text in small {
        check_case(kind, text, &mapped(text, 1));
        let Ok(netlist) = second::read(text) else {
            continue;
        };
        let others = (0..100).filter_map(|_| foreign(&mut r, &netlist, netlist.inputs + 6));
        if let Some(other) = others
            .map(|other| other.text())
            .find(|other| other.len() < MOST)
        {
            check_case(kind, text, &other);
        }
    }
    kind.print();
}

fn simulations(small: &[Vec<u8>]) {
    let kind = &mut { SIMULATE };
    let sequence = mapped(XOR.as_bytes(), 0);
    for budget in [9, 8, 4, 1, 0] {
        simulate_case(kind, &sequence, &[1, 0, 0, 0, 0], budget);
    }
    simulate_case(kind, &sequence, &[1, 0, 0, 0, 2], 0);
    simulate_case(kind, &sequence, &[1, 0, 0, 0], 3);
    let no_set = String::from_utf8_lossy(&sequence)
        .replace("1202\n", "")
        .replace("0008\n", "0007\n");
    simulate_case(kind, no_set.as_bytes(), &[1, 1, 0, 0, 0], 9);
    simulate_case(
        kind,
        b"110402010002\n120103\n13000304\n1403\n",
        &[1, 0, 0, 0, 1],
        9,
    );
    let mut r = Random::new(103);
    for text in small {
        let sequence = mapped(text, 0);
        let row = second::read_sequence(&sequence).map_or(2, |sequence| sequence.row);
        simulate_case(kind, &sequence, &r.bits(row), 5);
    }
    kind.print();
}

fn programs(small: &[Vec<u8>]) {
    let kind = &mut { ROWMAP };
    for job in [
        "0F04\n", "0F03\n", "0F00\n", "0F\n", "0F04", "0f04\n", "0F04\n\n",
    ] {
        program_case(
            kind,
            "rowmap_output",
            second::rowmap,
            format!("{job}{XOR}").as_bytes(),
        );
    }
    for netlist in ["", UNREAD, TWINS] {
        program_case(
            kind,
            "rowmap_output",
            second::rowmap,
            format!("0F07\n{netlist}").as_bytes(),
        );
    }
    kind.print();
    let kind = &mut { ROWCHECK };
    let sequence = mapped(XOR.as_bytes(), 0);
    let wrong = damaged_to(&sequence, 16, |text| second::check(XOR.as_bytes(), text));
    for (netlist, tail) in [
        (XOR, &sequence[..]),
        (XOR, b""),
        (XOR, b"zz"),
        (XOR, &wrong),
    ] {
        program_case(
            kind,
            "rowcheck_output",
            second::rowcheck,
            &[netlist.as_bytes(), tail].concat(),
        );
    }
    program_case(
        kind,
        "rowcheck_output",
        second::rowcheck,
        format!("{UNREAD}zz").as_bytes(),
    );
    program_case(
        kind,
        "rowcheck_output",
        second::rowcheck,
        format!("{TWINS}FF\n").as_bytes(),
    );
    let text = &small[0];
    program_case(
        kind,
        "rowcheck_output",
        second::rowcheck,
        &[&text[..], &mapped(text, 1)].concat(),
    );
    kind.print();
}

fn tails_and_frames() {
    let kind = &mut { TAIL };
    for text in [
        format!("{NOT}110101010002\n"),
        format!("{UNREAD}zz"),
        "0102000501\nFF\n".into(),
    ] {
        tail_case(kind, text.as_bytes());
    }
    kind.print();
    let kind = &mut { FRAME };
    for at in [0, 3, 8, 12, 13] {
        frame_case(kind, b"FF\n0102\n\nAB\n", at);
    }
    kind.print();
}
