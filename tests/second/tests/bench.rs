//! The bench sheet of document 01.

mod common;
use common::*;

#[test]
fn p1_values() {
    for (inputs, value) in [([0, 0], 0), ([0, 1], 1), ([1, 0], 1), ([1, 1], 0)] {
        assert_eq!(evaluate(XOR, &inputs), Ok(vec![value]));
    }
}

#[test]
fn p2_weights() {
    let netlist = second::read(XOR.as_bytes()).unwrap();
    assert_eq!(second::weights(&netlist), [1, 1, 1, 2, 2]);
}

#[test]
fn p3_order() {
    let netlist = second::read(XOR.as_bytes()).unwrap();
    assert_eq!(second::order(&netlist), [2, 3, 4, 5, 6]);
}

#[test]
fn p4_text() {
    assert_eq!(map(5, XOR).unwrap(), XOR_ROW_5);
    assert_eq!(rowmap(&format!("0F04\n{XOR}")), XOR_ROW_5);
    assert_eq!(check(XOR, XOR_ROW_5), Ok(8));
    assert_eq!(rowcheck(&format!("{XOR}{XOR_ROW_5}")), "1E0008\n");
}

#[test]
fn p5_row_4() {
    assert_eq!(map(4, XOR), Err(9));
    assert_eq!(rowmap(&format!("0F03\n{XOR}")), "1F09\n");
}

#[test]
fn p6_rows_6_and_7() {
    assert!(map(6, XOR).unwrap().starts_with("110502010007\n"));
    assert!(map(7, XOR).unwrap().starts_with("110602010006\n"));
}

#[test]
fn p7_simulated() {
    assert_eq!(
        simulate(XOR_ROW_5, &[1, 0, 0, 0, 0], 9),
        Ok((8, vec![1, 0, 0, 1, 1]))
    );
}

#[test]
fn p8_budget_4() {
    assert_eq!(
        simulate(XOR_ROW_5, &[1, 0, 0, 0, 0], 4),
        Ok((4, vec![1, 0, 0, 0, 1]))
    );
}

#[test]
fn p9_a_set_is_missing() {
    let sequence = XOR_ROW_5.replace("1202\n", "").replace("0008\n", "0007\n");
    assert_eq!(check(XOR, &sequence), Err(14));
    let (cycles, row) = simulate(&sequence, &[1, 1, 0, 0, 0], 9).unwrap();
    assert_eq!((cycles, row[3]), (7, 1));
    assert_eq!(evaluate(XOR, &[1, 1]), Ok(vec![0]));
}

#[test]
fn p10_wrong_place() {
    let sequence = XOR_ROW_5.replace("1403", "1402");
    assert_eq!(check(XOR, &sequence), Err(16));
}

#[test]
fn p11_one_not() {
    assert_eq!(map(2, NOT).unwrap(), "110101010002\n1201\n130100\n1401\n");
}

#[test]
fn p12_empty_text() {
    assert_eq!(map(5, ""), Err(2));
    assert_eq!(evaluate("", &[]), Err(2));
    assert_eq!(check("", XOR_ROW_5), Err(2));
    assert_eq!(check(XOR, ""), Err(2));
    assert_eq!(simulate("", &[0, 0], 1), Err(2));
    assert_eq!(rowmap(""), "1F02\n");
    assert_eq!(rowcheck(""), "1F02\n");
}

#[test]
fn run_inputs() {
    assert_eq!(number(&wide(64)), 0);
    assert_eq!(number(&wide(65)), 3);
}

#[test]
fn run_gates() {
    assert_eq!(number(&chain(512)), 0);
    assert_eq!(number(&chain(513)), 3);
}

#[test]
fn run_rows() {
    assert_eq!(map(1, XOR), Err(8));
    assert_eq!(map(257, XOR), Err(8));
    let sequence = map(256, XOR).unwrap();
    assert!(sequence.starts_with("11FF02010006\n"));
    assert_eq!(check(XOR, &sequence), Ok(6));
}

#[test]
fn run_buffer_one_short() {
    let mut out = vec![7; XOR_ROW_5.len() - 1];
    assert_eq!(second::map(5, XOR.as_bytes(), &mut out), Err(10));
    assert!(out.iter().all(|byte| *byte == 7));
    let mut out = vec![7; XOR_ROW_5.len()];
    assert_eq!(
        second::map(5, XOR.as_bytes(), &mut out),
        Ok(XOR_ROW_5.len())
    );
    assert_eq!(out, XOR_ROW_5.as_bytes());
    assert_eq!(second::evaluate(XOR.as_bytes(), &[1, 1], &mut []), Err(10));
}

#[test]
fn run_lower_case() {
    let text = chain(11).replace("0101000B01", "0101000b01");
    assert_eq!(number(&text), 1);
    let lower = map(15, NOT)
        .unwrap()
        .replace("120102030405060708090A", "120102030405060708090a");
    assert_eq!(sequence_number(&lower), 1);
}

#[test]
fn run_256_set_cells() {
    let cells: String = (0..256).map(|cell| format!("{cell:02X}")).collect();
    let sequence = format!("11FF01010002\n12{cells}\n130100\n1401\n");
    assert_eq!(sequence_number(&sequence), 0);
    assert_eq!(check(NOT, &sequence), Err(13));
    assert_eq!(simulate(&sequence, &[0; 256], 1), Ok((1, vec![1; 256])));
}
