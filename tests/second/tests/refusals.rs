//! The numbers that texts give, and the easily misread places of document 01 about them.

mod common;
use common::*;

/// The whole case's netlist with one line replaced.
fn netlist_with(old: &str, new: &str) -> u8 {
    number(&with_line(XOR, old, new))
}

/// The number of a sequence whose one instruction is this line.
fn line_number(line: &str) -> u8 {
    sequence_number(&sequence(&[line]))
}

#[test]
fn one_lines() {
    // Reading 1: 257 bytes at most; a line of 257 bytes is good and judged by its kind.
    let digits = |count: usize| "0".repeat(count);
    assert_eq!(number(&format!("{}\n", digits(514))), 2);
    assert_eq!(number(&format!("{}\n", digits(515))), 1);
    assert_eq!(number(&format!("{}\n", digits(516))), 1);
    assert_eq!(number(&format!("01{}\n", digits(514))), 1);
    assert_eq!(line_number(&format!("13{}", digits(512))), 2);
    assert_eq!(line_number(&format!("12{}", digits(512))), 5);
    assert_eq!(line_number(&format!("12{}", digits(514))), 1);
    // Reading 2: nothing is skipped.
    assert_eq!(number(&format!("{XOR}\n")), 1);
    assert_eq!(number(&format!("\n{XOR}")), 1);
    for bad in ["\r", " ", "\t", "\0", "f", "G", ":", "/", "@", "\u{e9}"] {
        assert_eq!(netlist_with("020005", &format!("020005{bad}")), 1);
        assert_eq!(netlist_with("020005", &format!("{bad}020005")), 1);
        assert_eq!(netlist_with("020005", &format!("02000{bad}")), 1);
    }
    assert_eq!(netlist_with("020005", "02005"), 1);
    assert_eq!(netlist_with("020005", "0"), 1);
}

#[test]
fn one_no_line_feed() {
    // Reading 3: the last line lacks its line feed.
    assert_eq!(number(XOR.trim_end()), 1);
    assert_eq!(sequence_number(XOR_ROW_5.trim_end()), 1);
    assert_eq!(number("FF\n01"), 2);
    assert_eq!(number("01\nFF"), 2);
    assert_eq!(number("FF"), 1);
    // Reading 4: the text ends where a frame is due, or characters stand there.
    assert_eq!(number("0102000501\n"), 2);
    assert_eq!(number("0102000501\n02"), 1);
    assert_eq!(number("0102000501\n02000"), 1);
    assert_eq!(sequence_number("110402010008\n"), 2);
    assert_eq!(sequence_number("110402010008\n1"), 1);
}

#[test]
fn two_kinds_and_lengths() {
    for line in [
        "02",
        "0200",
        "02000100",
        "0200000001000200030004",
        "030005",
        "01",
        "FF",
    ] {
        assert_eq!(netlist_with("020005", line), 2);
    }
    for line in ["03", "0300", "03000600", "020006"] {
        assert_eq!(netlist_with("030006", line), 2);
    }
    for line in ["12", "13", "1302", "13020001030405", "1400", "02", "11"] {
        assert_eq!(line_number(line), 2);
    }
    for place in ["14", "140300", "1203", "130300"] {
        assert_eq!(sequence_number(&with_line(XOR_ROW_5, "1403", place)), 2);
    }
    assert_eq!(sequence_number(&format!("{XOR_ROW_5}1403\n")), 2);
    assert_eq!(sequence_number(&format!("{XOR_ROW_5}14\r\n")), 1);
    assert_eq!(sequence_number(XOR_ROW_5.trim_end_matches("1403\n")), 2);
}

#[test]
fn three_netlist_heads() {
    // Reading 5: a head of the wrong length is 2 even where its bytes are out of range.
    assert_eq!(netlist_with("0102000501", "01000000"), 2);
    assert_eq!(netlist_with("0102000501", "010000000000"), 2);
    assert_eq!(netlist_with("0102000501", "0000000000"), 2);
    for head in [
        "0100000501",
        "0141000501",
        "01FF000501",
        "0102000001",
        "0102020101",
    ] {
        assert_eq!(netlist_with("0102000501", head), 3);
    }
    for head in ["010201FF00", "0102000541", "0102000500", "0102FFFF01"] {
        assert_eq!(netlist_with("0102000501", head), 3);
    }
    // Reading 6: more outputs than gates is no 3.
    assert_eq!(number("0101000102\n020000\n030001\n"), 2);
    assert_eq!(number("0101000102\n020000\n030001\n030001\n"), 7);
    assert_eq!(number("0101000102\n020000\n030001\n030002\n"), 4);
}

#[test]
fn three_sequence_heads() {
    // Reading 11: a row of 1, or inputs not fewer than the row, is 3 before 11.
    for head in [
        "110002010008",
        "110102010008",
        "110100010008",
        "11FF41010008",
        "110402000008",
    ] {
        assert_eq!(
            check(XOR, &with_line(XOR_ROW_5, "110402010008", head)),
            Err(3)
        );
    }
    for head in [
        "110402410008",
        "110402010000",
        "110402010401",
        "11040201FFFF",
    ] {
        assert_eq!(
            check(XOR, &with_line(XOR_ROW_5, "110402010008", head)),
            Err(3)
        );
    }
    assert_eq!(
        sequence_number(&with_line(XOR_ROW_5, "110402010008", "1104000100")),
        2
    );
    assert_eq!(rowmap(&format!("0F00\n{XOR}")), "1F08\n");
    assert_eq!(rowmap("0F00\n"), "1F08\n");
}

#[test]
fn three_at_the_limits() {
    let sets = "1201\n".repeat(1023);
    let longest = |count: usize| format!("11010101{count:04X}\n{sets}130100\n1401\n");
    assert_eq!(check(NOT, &longest(1024)), Ok(1024));
    assert_eq!(sequence_number(&longest(1025)), 3);
    let places = |count: usize| format!("114001{count:02X}0001\n1201\n{}", "1401\n".repeat(count));
    assert_eq!(sequence_number(&places(64)), 0);
    assert_eq!(sequence_number(&places(65)), 3);
    assert_eq!(sequence_number("114040010001\n1240\n1440\n"), 0);
    assert_eq!(sequence_number("113F40010001\n1240\n1440\n"), 3);
}

#[test]
fn four_and_five() {
    assert_eq!(netlist_with("020005", "020006"), 4);
    assert_eq!(netlist_with("020005", "020007"), 4);
    assert_eq!(netlist_with("020005", "02FFFF"), 4);
    assert_eq!(netlist_with("030006", "030001"), 4);
    assert_eq!(netlist_with("030006", "030007"), 4);
    assert_eq!(netlist_with("0200030004", "0200040003"), 5);
    assert_eq!(netlist_with("0200030004", "0200040004"), 5);
    // Two faults on one line: 4 before 5, whichever stands first.
    assert_eq!(netlist_with("0200030004", "0200050003"), 4);
    assert_eq!(netlist_with("0200030004", "020003000300030005"), 4);
    // 2 before 4 and 5.
    assert_eq!(netlist_with("0200030004", "020005000300"), 2);
}

#[test]
fn five_and_twelve() {
    assert_eq!(line_number("120403"), 5);
    assert_eq!(line_number("120404"), 5);
    assert_eq!(line_number("1205"), 12);
    assert_eq!(line_number("120502"), 5);
    assert_eq!(line_number("13050001"), 12);
    assert_eq!(line_number("13040005"), 12);
    assert_eq!(line_number("13050505"), 5);
    assert_eq!(line_number("130401020500"), 12);
    assert_eq!(line_number("13040201"), 0);
    assert_eq!(line_number("1304000100"), 5);
    // Reading 8: the written cell among its own operands is 5, not 13 or 14.
    assert_eq!(check(XOR, &sequence(&["130000"])), Err(5));
    assert_eq!(check(XOR, &sequence(&["13030003"])), Err(5));
    assert_eq!(sequence_number(&with_line(XOR_ROW_5, "1403", "1405")), 12);
    // 2 before 5 and 12.
    assert_eq!(line_number("130505050505FF"), 2);
    assert_eq!(sequence_number(&with_line(XOR_ROW_5, "1403", "14FFFF")), 2);
}

#[test]
fn the_first_bad_line_wins() {
    assert_eq!(number("0102000501\n02000000FF\n0200020001\n02zz\n"), 4);
    assert_eq!(number("0102000501\n0200010000\n02FFFF\n02zz\n"), 5);
    assert_eq!(number("0102000501\n02zz\n0200010000\n02FFFF\n"), 1);
    assert_eq!(number("0102000501\n03\n0200010000\n02FFFF\n"), 2);
    assert_eq!(sequence_number(&sequence(&["1205", "120403", "12zz"])), 12);
    assert_eq!(sequence_number(&sequence(&["120403", "1205"])), 5);
    // A netlist's fault goes before any fault of the sequence.
    assert_eq!(check(&with_line(XOR, "030006", "030007"), ""), Err(4));
}

#[test]
fn six_and_seven() {
    let unread = "0102000201\n0200000001\n020000\n030003\n";
    assert_eq!(number(unread), 6);
    assert_eq!(number("0102000202\n020000\n020000\n030002\n030003\n"), 7);
    assert_eq!(
        number("0102000202\n0200000001\n020002\n030003\n030003\n"),
        7
    );
    // An output that another gate reads is well formed.
    assert_eq!(
        number("0102000202\n0200000001\n020002\n030003\n030002\n"),
        0
    );
    // 6 before 7: the unread gate is a twin, and outputs are twins too.
    assert_eq!(number("0102000201\n020000\n020000\n030003\n"), 6);
    assert_eq!(number("0102000202\n020000\n020001\n030003\n030003\n"), 6);
    // Reading 7: a twin does not stop the reading at its line.
    assert_eq!(
        number("0102000301\n020000\n020000\n0200030002\n030004\n"),
        5
    );
    assert_eq!(
        number("0102000301\n020000\n020000\n0200020004\n030004\n"),
        4
    );
    assert_eq!(number("0102000202\n020000\n020000\n030002\n03000\n"), 1);
    // Reading 13: a line too many goes before 6 and 7.
    assert_eq!(number(&format!("{unread}030003\n")), 2);
    assert_eq!(number(&format!("{unread}0300030\n")), 1);
    assert_eq!(number(&format!("{unread}03")), 1);
    assert_eq!(number(&format!("{XOR}FF\n")), 2);
    assert_eq!(number(&format!("{XOR}FF\nzz")), 2);
    assert_eq!(number(&format!("{XOR}zz\nFF\n")), 1);
}
