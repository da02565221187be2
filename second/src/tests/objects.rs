//! 01, "Message layout": objects, and answers 7, 8 and 9.

use super::build::*;

const SKIPPED: [u8; 16] = [0, 3, 4, 5, 12, 13, 14, 19, 20, 21, 24, 34, 35, 36, 37, 133];
const IN_THE_TABLE: [u8; 6] = [1, 6, 11, 23, 196, 207];

/// A setup with one more object, in front.
fn with(extra: Vec<u8>) -> Vec<u8> {
    let mut objects = six(X, 5, b"ab", SETUP);
    objects.insert(0, extra);
    message(NOTIFY, &objects)
}

/// A setup with one object in place of another.
fn instead(which: usize, object: Vec<u8>) -> Vec<u8> {
    let mut objects = six(X, 5, b"ab", SETUP);
    objects[which] = object;
    message(NOTIFY, &objects)
}

#[test]
fn object_length_is_7() {
    let mut tested = TestNode::two();
    for class in [0, 1, 2, 24, 133, 200] {
        for length in [0, 1, 2, 3, 5, 6, 7, 9, 12, 0xfffc, 0xffff] {
            let [high, low] = u16::to_be_bytes(length);
            let last = vec![high, low, class, 1, 0, 0, 0, 0];
            let mut objects = six(X, 5, b"ab", SETUP);
            objects.push(last);
            assert_eq!(tested.ask(&message(NOTIFY, &objects)), 7);
        }
    }
}

#[test]
fn classes() {
    for class in 0..=255 {
        let mut tested = TestNode::two();
        let answer = tested.ask(&with(object(class, 99, &[])));
        let expected = if SKIPPED.contains(&class) {
            20
        } else if IN_THE_TABLE.contains(&class) {
            9
        } else if class < 128 {
            8
        } else {
            20
        };
        assert_eq!(answer, expected, "class {class}");
    }
}

#[test]
fn skipped_and_ignored_any_number_of_times() {
    let mut tested = TestNode::two();
    let mut objects = six(X, 5, b"ab", SETUP);
    for class in SKIPPED.into_iter().chain([128, 197, 255]) {
        for c_type in [0, 1, 7] {
            objects.push(object(class, c_type, &[]));
            objects.push(object(class, c_type, &[0xff; 8]));
        }
    }
    assert_eq!(tested.ask(&message(NOTIFY, &objects)), 20);
}

#[test]
fn the_first_faulty_object_decides() {
    let mut tested = TestNode::two();
    let (seven, eight) = (vec![0, 3, 0, 0], object(2, 1, &[]));
    let nine = object(1, 8, &[0; 12]);
    for (first, second, answer) in [
        (&nine, &seven, 9),
        (&nine, &eight, 9),
        (&eight, &seven, 8),
        (&eight, &nine, 8),
        (&seven, &eight, 7),
        (&seven, &nine, 7),
    ] {
        let two = message(NOTIFY, &[first.clone(), second.clone()]);
        assert_eq!(tested.ask(&two), answer);
    }
    // A faulty length goes before a refused class in one object.
    assert_eq!(tested.ask(&message(NOTIFY, &[vec![0, 3, 2, 0]])), 7);
    // A repeated object has to pass 9 too.
    let mut objects = six(X, 5, b"ab", SETUP);
    objects.push(nine);
    assert_eq!(tested.ask(&message(NOTIFY, &objects)), 9);
}

#[test]
fn c_type_and_length_are_9() {
    let mut tested = TestNode::two();
    for (which, one) in six(X, 5, b"ab", SETUP).iter().enumerate() {
        let (class, c_type, body) = (one[2], one[3], &one[4..]);
        let other = object(class, c_type + 1, body);
        assert_eq!(tested.ask(&instead(which, other)), 9);
        let longer = object(class, c_type, &[body, &[0; 4]].concat());
        assert_eq!(tested.ask(&instead(which, longer)), 9);
        let shorter = object(class, c_type, &body[..body.len() - 4]);
        assert_eq!(tested.ask(&instead(which, shorter)), 9);
        assert_eq!(tested.ask(&instead(which, object(class, c_type, &[]))), 9);
        // The same in a Path, where the object may not be needed.
        let bad = object(class, c_type, &[]);
        assert_eq!(tested.ask(&message(PATH, &[bad])), 9);
    }
}

#[test]
fn session_attribute_length_and_padding() {
    let mut tested = TestNode::two();
    let try_body = |tested: &mut TestNode, body: &[u8]| tested.ask(&instead(5, object(207, 7, body)));
    assert_eq!(try_body(&mut tested, &[0, 0, 0, 1, b'a', 0, 0, 1]), 9);
    assert_eq!(try_body(&mut tested, &[0, 0, 0, 1, b'a', 1, 0, 0]), 9);
    assert_eq!(try_body(&mut tested, &[0, 0, 0, 5, 1, 2, 3, 4]), 9);
    assert_eq!(try_body(&mut tested, &[0, 0, 0, 0, 0, 0, 0, 0]), 9);
    assert_eq!(try_body(&mut tested, &[0, 0, 0, 4, 1, 2, 3, 4, 0, 0, 0, 0]), 9);
    assert_eq!(try_body(&mut tested, &[0, 0, 0, 0]), 13);
    assert_eq!(try_body(&mut tested, &[9, 9, 9, 4, 1, 2, 3, 4]), 20);
    // Name length 255 takes 256 bytes, the last of them a zero.
    let mut long = vec![0, 0, 0, 255];
    long.extend([b'n'; 255]);
    long.push(0);
    assert_eq!(try_body(&mut tested, &long), 13);
    long[259] = 1;
    assert_eq!(try_body(&mut tested, &long), 9);
}
