//! The numbers that calls and programs give, their order, and the readings about them.

mod common;
use common::*;

#[test]
fn tails() {
    let tail = |text: &str| second::tail(text.as_bytes());
    assert_eq!(tail(XOR), XOR.len());
    assert_eq!(tail(&format!("{XOR}1F\n")), XOR.len());
    assert_eq!(tail(&format!("{XOR}no line")), XOR.len());
    // Reading 12: on 1 to 5 it is the text's end, and so where a frame is missing.
    for bad in [
        "",
        "01\n",
        "FF\nFF",
        "0100000501\n",
        "0102000501\n0200000001\n",
    ] {
        assert_eq!(tail(bad), bad.len());
    }
    for (old, new) in [
        ("030006", "030001"),
        ("0200030004", "0200040003"),
        ("020005", "02005"),
    ] {
        let text = with_line(XOR, old, new) + "12\n";
        assert_eq!(tail(&text), text.len());
    }
    // 6 and 7 don't touch it.
    let unread = "0102000201\n0200000001\n020000\n030003\n";
    assert_eq!(tail(&format!("{unread}zz")), unread.len());
    let twins = "0102000202\n020000\n020000\n030002\n030003\n";
    assert_eq!(tail(&format!("{twins}{twins}")), twins.len());
}

#[test]
fn eight_before_all_and_nine_before_ten() {
    let mut none = [];
    for row in [0, 1, 257, u64::MAX] {
        assert_eq!(second::map(row, b"zz", &mut none), Err(8));
    }
    assert_eq!(second::map(2, b"zz", &mut none), Err(1));
    assert_eq!(second::map(4, XOR.as_bytes(), &mut none), Err(9));
    assert_eq!(second::map(2, XOR.as_bytes(), &mut none), Err(9));
    assert_eq!(second::map(5, XOR.as_bytes(), &mut none), Err(10));
    assert_eq!(
        second::map(2, format!("{XOR}{XOR}").as_bytes(), &mut none),
        Err(2)
    );
    // No work cell at all, and one that is enough.
    assert_eq!(map(64, &wide(64)), Err(9));
    assert_eq!(
        map(65, &wide(64)).unwrap(),
        "114040010002\n1240\n13403F\n1440\n"
    );
}

#[test]
fn seventeen_before_ten() {
    let bad: [&[u8]; 5] = [&[], &[0], &[0, 1, 0], &[0, 2], &[255, 0]];
    for inputs in bad {
        assert_eq!(second::evaluate(XOR.as_bytes(), inputs, &mut []), Err(17));
        assert_eq!(evaluate(XOR, inputs), Err(17));
    }
    assert_eq!(second::evaluate(XOR.as_bytes(), &[0, 1], &mut []), Err(10));
    assert_eq!(evaluate(&with_line(XOR, "030006", "030007"), &[]), Err(4));
    // Reading 18: the simulator gives 17 with budget 0 too.
    for budget in [0, 1, u64::MAX] {
        assert_eq!(simulate(XOR_ROW_5, &[0; 4], budget), Err(17));
        assert_eq!(simulate(XOR_ROW_5, &[0; 6], budget), Err(17));
        assert_eq!(simulate(XOR_ROW_5, &[0, 0, 0, 0, 2], budget), Err(17));
        assert_eq!(simulate("zz", &[2], budget), Err(1));
    }
    assert_eq!(
        simulate(XOR_ROW_5, &[0, 1, 0, 0, 0], 0),
        Ok((0, vec![0, 1, 0, 0, 0]))
    );
    assert_eq!(
        simulate(XOR_ROW_5, &[0, 1, 0, 0, 0], u64::MAX).unwrap().0,
        8
    );
}

#[test]
fn eleven_before_thirteen() {
    let writes_input = "11040201 0001\n1200\n1403\n".replace(' ', "");
    assert_eq!(check(XOR, &writes_input), Err(13));
    assert_eq!(
        check(XOR, &writes_input.replace("110402", "110401")),
        Err(11)
    );
    let two = writes_input.replace("11040201", "11040202") + "1403\n";
    assert_eq!(check(XOR, &two), Err(11));
    // The sequence's text goes before 11, to its end.
    assert_eq!(check(XOR, &(two + "14")), Err(1));
}

#[test]
fn thirteen_to_sixteen() {
    // Reading 10: set and NOR on input cells read well and simulate.
    let on_inputs = sequence(&["120103", "13000304"]);
    assert_eq!(sequence_number(&on_inputs), 0);
    assert_eq!(
        simulate(&on_inputs, &[1, 0, 0, 0, 1], 9),
        Ok((2, vec![0, 1, 0, 1, 1]))
    );
    // 13 before 14 before 15, on one line.
    assert_eq!(check(XOR, &on_inputs), Err(13));
    assert_eq!(check(XOR, &sequence(&["130003"])), Err(13));
    assert_eq!(check(XOR, &sequence(&["130304"])), Err(14));
    assert_eq!(check(XOR, &sequence(&["1203", "130304"])), Err(15));
    // The first bad instruction wins over a lower number further down.
    assert_eq!(check(XOR, &sequence(&["1203", "130304", "1200"])), Err(15));
    assert_eq!(check(XOR, &sequence(&["130304", "1200"])), Err(14));
    // A ready operand cell, no gate of that list, and an operand too many.
    assert_eq!(check(XOR, &sequence(&["120304", "130304"])), Err(15));
    assert_eq!(check(XOR, &sequence(&["1203", "130300"])), Err(15));
    // 15 before 16; a place that was never set, an input, a ready cell, another gate: 16.
    assert_eq!(check(XOR, &sequence(&["1204"])), Err(16));
    assert_eq!(check(XOR, &sequence(&["1203"])), Err(16));
    assert_eq!(check(XOR, &sequence(&["1203", "13030001"])), Err(16));
    assert_eq!(check(XOR, &sequence(&["1203", "13030100"])), Err(16));
    // A cell that holds its gate must be set before it is written again.
    assert_eq!(
        check(XOR, &sequence(&["1203", "13030001", "13030001"])),
        Err(14)
    );
    assert_eq!(
        check(NOT, "110101010003\n1201\n130100\n1201\n1401\n"),
        Err(16)
    );
}

#[test]
fn places_read_well() {
    // Reading 9: places may repeat and may name inputs or cells never set.
    let two = "0101000202\n020000\n020001\n030001\n030002\n";
    let places = |a: &str, b: &str| format!("110301020003\n120102\n130100\n130201\n14{a}\n14{b}\n");
    assert_eq!(check(two, &places("01", "02")), Ok(3));
    for (a, b) in [
        ("01", "01"),
        ("02", "02"),
        ("02", "01"),
        ("00", "02"),
        ("01", "03"),
    ] {
        assert_eq!(sequence_number(&places(a, b)), 0);
        assert_eq!(check(two, &places(a, b)), Err(16));
    }
}

#[test]
fn the_same_gate_twice() {
    // Reading 18: two operand cells that hold the same gate match no gate's list.
    let netlist = "0101000201\n020000\n020001\n030002\n";
    let twice = "110401010004\n12010203\n130100\n130200\n13030102\n1403\n";
    assert_eq!(check(netlist, twice), Err(15));
    // A gate may be worked out more than once.
    let again = twice.replace("13030102", "130302");
    assert_eq!(check(netlist, &again), Ok(4));
}

#[test]
fn the_checking_program() {
    let unread = "0102000201\n0200000001\n020000\n030003\n";
    let twins = "0102000202\n020000\n020000\n030002\n030003\n";
    // Reading 14: 6 and 7 come before anything in the tail.
    for tail in ["", "zz", "FF\n", XOR_ROW_5] {
        assert_eq!(rowcheck(&format!("{unread}{tail}")), "1F06\n");
        assert_eq!(rowcheck(&format!("{twins}{tail}")), "1F07\n");
    }
    assert_eq!(rowcheck(XOR), "1F02\n");
    assert_eq!(rowcheck(&format!("{XOR}zz")), "1F01\n");
    assert_eq!(rowcheck(&format!("{XOR}{XOR}")), "1F02\n");
    assert_eq!(rowcheck(&format!("{XOR}{XOR_ROW_5}\n")), "1F01\n");
    assert_eq!(
        rowcheck(&format!(
            "{}{XOR_ROW_5}",
            with_line(XOR, "030006", "030007")
        )),
        "1F04\n"
    );
    let wrong = with_line(XOR_ROW_5, "1403", "1402");
    assert_eq!(rowcheck(&format!("{XOR}{wrong}")), "1F10\n");
}

#[test]
fn the_mapping_program() {
    // Reading 15: the job line's own 1 or 2, then 8, then the netlist's.
    assert_eq!(rowmap(""), "1F02\n");
    for job in ["0F", "0F0405", "0E04", "0102000501"] {
        assert_eq!(rowmap(&format!("{job}\nzz")), "1F02\n");
    }
    for job in ["0F04\r", "0f04", "F04", ""] {
        assert_eq!(rowmap(&format!("{job}\n{XOR}")), "1F01\n");
    }
    assert_eq!(rowmap("0F04"), "1F01\n");
    assert_eq!(rowmap("0F00\nzz"), "1F08\n");
    assert_eq!(rowmap("0F04\n"), "1F02\n");
    assert_eq!(rowmap("0F04\nzz"), "1F01\n");
    assert_eq!(rowmap(&format!("0F01\n{XOR}1F\n")), "1F02\n");
    assert!(rowmap(&format!("0FFF\n{XOR}")).starts_with("11FF02010006\n"));
}

#[test]
fn programs_hold_65536_bytes() {
    // Reading 16: one byte more prints 1F01 before anything else. Reading 17: it is a line.
    let long = |start: &str, length: usize| {
        let mut input = start.as_bytes().to_vec();
        input.resize(length, b'F');
        input
    };
    let map_at = |start: &str, length: usize| second::rowmap(&long(start, length));
    assert_eq!(map_at("0F00\n", 65_536), b"1F08\n");
    assert_eq!(map_at("0F00\n", 65_537), b"1F01\n");
    let check_at = |length: usize| second::rowcheck(&long("FF\n", length));
    assert_eq!(check_at(65_536), b"1F02\n");
    assert_eq!(check_at(65_537), b"1F01\n");
}

#[test]
fn frames() {
    // Reading 19: the part has no line feed; at a bad line or the end it stays.
    let text = b"FF\n0102\n\nAB\n";
    assert_eq!(second::frame(text, 0), (0, 2, 3));
    assert_eq!(second::frame(text, 3), (3, 7, 8));
    assert_eq!(second::frame(text, 5), (5, 7, 8));
    assert_eq!(second::frame(text, 8), (12, 12, 8));
    assert_eq!(second::frame(text, 4), (12, 12, 4));
    assert_eq!(second::frame(text, 9), (9, 11, 12));
    assert_eq!(second::frame(text, 12), (12, 12, 12));
    assert_eq!(second::frame(text, 13), (12, 12, 13));
    assert_eq!(second::frame(text, usize::MAX), (12, 12, usize::MAX));
    assert_eq!(second::frame(b"", 0), (0, 0, 0));
    assert_eq!(second::frame(b"AB", 0), (2, 2, 0));
    let long = |digits: usize| second::frame(format!("{}\n", "A".repeat(digits)).as_bytes(), 0);
    assert_eq!(long(514), (0, 514, 515));
    assert_eq!(long(515), (516, 516, 0));
    assert_eq!(long(516), (517, 517, 0));
}
