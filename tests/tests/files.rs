//! Tree files: the fifteen words, round trips, and which class a refusal names.

use outside::calls::State;
use outside::curves::Curve;
use outside::file::{bytes_of, file_of, read, words_of, write, Order};
use outside::gen::{random_tree, tree_a, Dice};
use outside::tree::{refusal, Class, Refusal, Tree};

const FIFTEEN: [u32; 15] = [
    0x01020304, 0x00000001, 0x00000002, 0x0000003C, 0x00000020, 0x0000000C, 0x0000002C, 0x00000010, 0x00000000, 0x00010000,
    0x00000000, 0x00000000, 0x00010000, 0x00000001, 0x00010000,
];

fn class(parent: u32, share: u32, curve: Curve) -> Class {
    Class { parent, share, curve }
}

fn leaf(parent: u32) -> Class {
    class(parent, 1, Curve::None)
}

const FULL: Curve = Curve::Straight { m: 65_536 };

#[test]
fn the_smallest_straight_tree_in_both_orders() {
    let tree = Tree::under_root(&[class(0, 65_536, FULL)]);
    assert_eq!(words_of(&tree), FIFTEEN);
    for order in [Order::Big, Order::Little] {
        assert_eq!(read(&bytes_of(&FIFTEEN, order)), Ok(tree.clone()));
    }
    let mut buffer = [7u8; 64];
    assert_eq!(write(&tree, &mut buffer), Ok(60));
    assert_eq!(buffer[..60], bytes_of(&FIFTEEN, Order::Big));
    assert_eq!(buffer[60..], [7; 4]);
}

#[test]
fn round_trips() {
    for seed in 0..2_000 {
        let tree = random_tree(&mut Dice::new(seed));
        let mut buffer = vec![0xAA; 2_100];
        let total = write(&tree, &mut buffer).unwrap();
        assert_eq!(buffer[..total], file_of(&tree, Order::Big));
        assert!(buffer[total..].iter().all(|&byte| byte == 0xAA));
        assert_eq!(read(&buffer[..total]).as_ref(), Ok(&tree));
        assert_eq!(read(&file_of(&tree, Order::Little)).as_ref(), Ok(&tree));
        let mut short = vec![0xAA; total - 1];
        assert_eq!(write(&tree, &mut short), Err(refusal(17, 0)));
        assert!(short.iter().all(|&byte| byte == 0xAA));
    }
}

/// Reading, after the words of tree A were changed.
fn changed(change: impl Fn(&mut Vec<u32>)) -> Result<Tree, Refusal> {
    let mut words = words_of(&tree_a());
    change(&mut words);
    let both = [Order::Big, Order::Little].map(|order| read(&bytes_of(&words, order)));
    assert_eq!(both[0], both[1]);
    both[0].clone()
}

fn refused(number: u32, class: usize, change: impl Fn(&mut Vec<u32>)) {
    assert_eq!(changed(change), Err(refusal(number, class)));
}

// Tree A as words: header 0 to 3, contents 4 to 9, root 10 to 12, class 1 at 13 to 18, class 2 at 19 to 23; 96 bytes.

#[test]
fn header_refusals() {
    assert_eq!(words_of(&tree_a()).len(), 24);
    for length in 0..16 {
        assert_eq!(read(&file_of(&tree_a(), Order::Big)[..length]), Err(refusal(1, 0)));
    }
    refused(2, 0, |w| w[0] = 0x0102_0305);
    refused(3, 0, |w| w[1] = 2);
    refused(3, 0, |w| (w[1], w[2]) = (0, 65));
    for count in [0, 1, 65, u32::MAX] {
        refused(4, 0, |w| w[2] = count);
    }
    refused(5, 0, |w| w[3] += 1);
    refused(5, 0, |w| w.push(0));
    refused(5, 0, |w| w[2] = 11); // contents to 104
    refused(6, 0, |w| w[2] = 10); // contents to 96: they fit, and the first offset is wrong
    refused(5, 0, |w| {
        w.truncate(9);
        w[3] = 36;
    });
}

#[test]
fn body_places() {
    refused(6, 0, |w| w[4] += 4);
    refused(6, 1, |w| w[6] -= 4);
    refused(6, 0, |w| w[5] = 28);
    refused(6, 1, |w| w[5] = 16); // the next no longer starts where this one ends
    refused(6, 2, |w| w[9] = 24); // passes the total
    refused(6, 2, |w| w[9] = 16); // ends before the total
    refused(6, 2, |w| {
        w.push(0);
        w[3] = 100;
    });
    refused(6, 1, |w| {
        w.truncate(18);
        w[3] = 72;
    });
    refused(6, 2, |w| w[8] = u32::MAX - 3);
}

#[test]
fn body_rules() {
    refused(7, 0, |w| w[10] = 1);
    refused(7, 0, |w| w[11] = 65_535);
    refused(7, 0, |w| w[12] = 1);
    refused(7, 1, |w| w[13] = 1);
    refused(7, 1, |w| (w[13], w[19]) = (2, 2));
    refused(7, 2, |w| w[19] = 2);
    for share in [0, 65_537] {
        refused(7, 1, |w| w[14] = share);
    }
    for kind in [0, 1, 3, 4, u32::MAX] {
        refused(7, 1, |w| w[15] = kind);
    }
    refused(7, 1, |w| w[16] = 16_384); // m1 = m2
    refused(7, 1, |w| w[16] = 65_537);
    refused(7, 1, |w| w[18] = 0);
    for bend in [0, 1_048_577] {
        refused(7, 1, |w| w[17] = bend);
        refused(7, 2, |w| w[22] = bend);
    }
    for rate in [0, 65_537] {
        refused(7, 2, |w| w[23] = rate);
    }
    assert!(changed(|w| w[19] = 0).is_ok());
    refused(9, 1, |w| w[19] = 1); // class 2 under class 1, which has a curve
    refused(10, 0, |w| w[23] = 49_153);
    refused(7, 2, |w| (w[19], w[23]) = (1, 0)); // 7 over all classes comes before 9
}

#[test]
fn a_root_with_a_curve_is_7() {
    let mut tree = tree_a();
    tree.classes[0].curve = Curve::Straight { m: 1 };
    assert_eq!(read(&file_of(&tree, Order::Big)), Err(refusal(7, 0)));
    assert_eq!(tree.check(), Err(refusal(7, 0)));
}

#[test]
fn trees_in_memory() {
    let check = |tree: &Tree| {
        let by_check = tree.check().err();
        let mut buffer = vec![1; 4_000];
        assert_eq!(write(tree, &mut buffer).err(), by_check);
        assert!(by_check.is_none() || buffer.iter().all(|&byte| byte == 1));
        assert_eq!(State::start(tree, 0).err(), by_check);
        if (2..=64).contains(&tree.count()) {
            assert_eq!(read(&file_of(tree, Order::Big)).err(), by_check);
        }
        by_check
    };
    assert_eq!(check(&Tree::of_no_classes()), Some(refusal(4, 0)));
    assert_eq!(check(&Tree::under_root(&[])), Some(refusal(4, 0)));
    assert_eq!(check(&Tree::under_root(&[leaf(0); 64])), Some(refusal(4, 0)));
    assert_eq!(check(&Tree::under_root(&[leaf(0); 63])), None);
    assert_eq!(check(&Tree::under_root(&[leaf(0), leaf(2)])), Some(refusal(7, 2)));
    let chain = |length: u32| Tree::under_root(&(0..length).map(leaf).collect::<Vec<_>>());
    assert_eq!(check(&chain(8)), None);
    assert_eq!(check(&chain(9)), Some(refusal(8, 9)));
    assert_eq!(check(&chain(12)), Some(refusal(8, 9)));
    let inside = [leaf(0), class(0, 1, FULL), class(0, 1, FULL), leaf(3), leaf(2)];
    assert_eq!(check(&Tree::under_root(&inside)), Some(refusal(9, 2)));
    assert_eq!(check(&Tree::under_root(&[class(0, 1, FULL), class(0, 1, FULL)])), Some(refusal(10, 0)));
}
