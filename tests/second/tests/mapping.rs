//! The mapping rule on netlists worked out by hand.

mod common;
use common::*;

fn weights(text: &str) -> Vec<u16> {
    second::weights(&second::read(text.as_bytes()).unwrap())
}

fn order(text: &str) -> Vec<u16> {
    second::order(&second::read(text.as_bytes()).unwrap())
}

/// The last gate reads a light gate of low number and a heavy one of high number.
const HEAVY_LATER: &str =
    "0102000501\n020000\n020001\n0200000001\n0200030004\n0200020005\n030006\n";

#[test]
fn heavy_operands_go_first() {
    assert_eq!(weights(HEAVY_LATER), [1, 1, 1, 2, 2]);
    assert_eq!(order(HEAVY_LATER), [3, 4, 5, 2, 6]);
    let sequence =
        "110402010007\n12020304\n130201\n13030001\n13040203\n120203\n130200\n13030204\n1403\n";
    assert_eq!(map(5, HEAVY_LATER).unwrap(), sequence);
    assert_eq!(map(4, HEAVY_LATER), Err(9));
}

/// Outputs 4, 3 and 1 of one input; gate 1 is read by gates 2 and 3.
const TWO_ROOTS: &str = "0101000403\n020000\n020001\n0200000001\n020002\n030004\n030003\n030001\n";

#[test]
fn roots_go_lowest_first_and_outputs_keep_their_cells() {
    assert_eq!(order(TWO_ROOTS), [1, 3, 2, 4]);
    assert_eq!(map(4, TWO_ROOTS), Err(9));
    let sequence = "110401030005\n1201020304\n130100\n13020001\n130301\n130403\n1404\n1402\n1401\n";
    assert_eq!(map(5, TWO_ROOTS).unwrap(), sequence);
}

#[test]
fn weights_add_up() {
    // Four gate operands of weight 1: 1, 2, 3, 4.
    let four = "0104000501\n020000\n020001\n020002\n020003\n020004000500060007\n030008\n";
    assert_eq!(weights(four), [1, 1, 1, 1, 4]);
    // A gate with one input and one gate operand takes the gate's weight; inputs don't count.
    let one = "0102000401\n020000\n020001\n0200020003\n0200000004\n030005\n";
    assert_eq!(weights(one), [1, 1, 2, 2]);
    // Weights 2 and 2 make 3; weights 3 and 1 make 3.
    let tree = "0104000901\n020000\n020001\n020002\n020003\n0200040005\n0200060007\n\
                0200080009\n0200000001\n02000A000B\n03000C\n";
    assert_eq!(weights(tree), [1, 1, 1, 1, 2, 2, 3, 1, 3]);
}

#[test]
fn a_chain_goes_back_and_forth_between_two_cells() {
    let sequence = "110201010007\n120102\n130100\n130201\n1201\n130102\n1202\n130201\n1402\n";
    assert_eq!(map(3, &chain(4)).unwrap(), sequence);
    // With one work cell the second gate has no cell to write.
    assert_eq!(map(2, &chain(2)), Err(9));
    assert_eq!(
        map(2, &chain(1)).unwrap(),
        "110101010002\n1201\n130100\n1401\n"
    );
}

#[test]
fn the_longest_chain_takes_the_most_instructions() {
    let printed = map(3, &chain(512)).unwrap();
    assert!(printed.starts_with("1102010103FF\n"));
    assert_eq!(check(&chain(512), &printed), Ok(1023));
}
