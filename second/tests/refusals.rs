//! The table of refusals: the limits, each number, the order among them, and what stays untouched.

use second::ground::{Cell, Ground, Size};
use second::network::network_of_lists;
use second::refusal::Refusal;
use second::{call, network_by_call, network_record, record};

/// Counts of neighbours that can't be asked for: small ones, and large ones of which some part is a
/// count that can.
const WRONG_COUNTS: [u32; 20] = [
    0,
    1,
    2,
    3,
    5,
    6,
    7,
    9,
    12,
    16,
    256 + 8,
    65_536,
    65_540,
    65_544,
    131_076,
    4 << 16,
    (1 << 31) + 4,
    u32::MAX - 7,
    u32::MAX - 3,
    u32::MAX,
];

/// Manners that can't be asked for, of the same kinds.
const WRONG_MANNERS: [u32; 16] = [
    0,
    3,
    4,
    5,
    8,
    256 + 1,
    65_536,
    65_537,
    65_538,
    131_073,
    2 << 16,
    (1 << 31) + 1,
    (1 << 31) + 2,
    u32::MAX - 2,
    u32::MAX - 1,
    u32::MAX,
];

/// A level tile with one outlet at its first cell.
fn level_ground(width: usize, height: usize) -> Ground {
    let cells = width * height;
    let mut marks = vec![0; cells];
    marks[0] = 1;
    Ground {
        size: Size { width, height },
        heights: vec![0; cells],
        marks,
        water: vec![1; cells],
    }
}

/// The calls' answer with room to spare.
fn answer(bytes: &[u8]) -> u32 {
    answer_with_room(bytes, 61_468)
}

/// The answer of document 01's call, which is that of the call of W-203 and W-205 with 4 and with 8
/// neighbours, in either manner. Says too that any other manner is refused with 12 and any other count
/// with 11, whatever else is wrong, and that 11 comes before 12.
fn answer_with_room(bytes: &[u8], length: usize) -> u32 {
    let answer = answer_of(length, |room| call(bytes, room));
    let asked = |count, manner| {
        let answer = answer_of(length, |room| network_by_call(count, manner, bytes, room));
        (count, manner, answer)
    };
    for count in [4, 8] {
        for manner in [1, 2] {
            assert_eq!(asked(count, manner), (count, manner, answer));
        }
        for manner in WRONG_MANNERS {
            assert_eq!(asked(count, manner), (count, manner, refused(12, 0)));
        }
    }
    for count in WRONG_COUNTS {
        for manner in [1, 2].into_iter().chain(WRONG_MANNERS) {
            assert_eq!(asked(count, manner), (count, manner, refused(11, 0)));
        }
    }
    answer
}

/// A call's answer. Says too that a refusal leaves the room untouched.
fn answer_of(length: usize, call: impl Fn(&mut [u8]) -> u32) -> u32 {
    let mut room = vec![0xA5; length];
    let answer = call(&mut room);
    if answer >= 65_536 {
        assert!(room.iter().all(|&byte| byte == 0xA5));
    }
    answer
}

fn refused(number: u32, place: u32) -> u32 {
    number * 65_536 + place
}

#[test]
fn only_4_and_8_neighbours_can_be_asked_for() {
    let whole = record::bytes(&level_ground(2, 1));
    for count in 0..=9 {
        let wanted = match count {
            4 | 8 => 58,
            _ => refused(11, 0),
        };
        let found = answer_of(58, |room| network_by_call(count, 1, &whole, room));
        assert_eq!(found, wanted, "count {count}");
    }
}

#[test]
fn only_manners_1_and_2_can_be_asked_for() {
    let whole = record::bytes(&level_ground(2, 1));
    for manner in 0..=9 {
        let wanted = match manner {
            1 | 2 => 58,
            _ => refused(12, 0),
        };
        let found = answer_of(58, |room| network_by_call(4, manner, &whole, room));
        assert_eq!(found, wanted, "manner {manner}");
    }
}

#[test]
fn heights_at_the_limits() {
    for (height, wanted) in [
        (8_000_000, 58),
        (-8_000_000, 58),
        (8_000_001, refused(4, 1)),
        (-8_000_001, refused(4, 1)),
        (i32::MAX, refused(4, 1)),
        (i32::MIN, refused(4, 1)),
    ] {
        let mut ground = level_ground(2, 1);
        ground.heights[1] = height;
        assert_eq!(answer(&record::bytes(&ground)), wanted, "height {height}");
    }
}

#[test]
fn sizes_at_the_limits() {
    assert_eq!(answer(&record::bytes(&level_ground(64, 1))), 15 * 64 + 28);
    assert_eq!(answer(&record::bytes(&level_ground(1, 64))), 15 * 64 + 28);
    assert_eq!(answer(&record::bytes(&level_ground(64, 64))), 61_468);
    assert_eq!(answer(&record::bytes(&level_ground(65, 1))), refused(1, 0));
    assert_eq!(answer(&record::bytes(&level_ground(1, 65))), refused(1, 0));
    assert_eq!(record::length(level_ground(64, 64).size), record::LARGEST);
}

#[test]
fn short_and_long_records() {
    assert_eq!(answer(&[]), refused(2, 0));
    assert_eq!(answer(&[0; 15]), refused(2, 0));
    assert_eq!(answer(&[0; 16]), refused(1, 0));
    assert_eq!(answer(&vec![0; 28_689]), refused(1, 0));
    let whole = record::bytes(&level_ground(2, 1));
    assert_eq!(answer(&whole[1..]), refused(2, 0));
    let mut longer = vec![0];
    longer.extend(&whole);
    assert_eq!(answer(&longer), refused(2, 0));
}

#[test]
fn each_distance_is_judged() {
    let whole = record::bytes(&level_ground(2, 1));
    for byte in whole.len() - 12..whole.len() {
        let mut wrong = whole.clone();
        wrong[byte] ^= 1;
        assert_eq!(answer(&wrong), refused(7, 0), "byte {byte}");
    }
}

#[test]
fn the_room_is_judged() {
    let whole = record::bytes(&level_ground(2, 1));
    assert_eq!(answer_with_room(&whole, 58), 58);
    assert_eq!(answer_with_room(&whole, 57), refused(3, 0));
    assert_eq!(answer_with_room(&whole, 0), refused(3, 0));
}

#[test]
fn the_first_bad_cell_is_the_place() {
    let mut ground = level_ground(3, 2);
    ground.marks[4] = 2;
    ground.marks[2] = 255;
    assert_eq!(answer(&record::bytes(&ground)), refused(5, 2));
    ground.heights[5] = 8_000_001;
    assert_eq!(answer(&record::bytes(&ground)), refused(4, 5));
    ground.heights[3] = i32::MIN;
    assert_eq!(answer(&record::bytes(&ground)), refused(4, 3));
}

#[test]
fn no_outlet_is_refused_after_bad_marks() {
    let mut ground = level_ground(2, 2);
    ground.marks[0] = 0;
    assert_eq!(answer(&record::bytes(&ground)), refused(6, 0));
    ground.marks[3] = 9;
    assert_eq!(answer(&record::bytes(&ground)), refused(5, 3));
}

/// Every fault at once, then one fewer each time: the order of the table.
#[test]
fn the_order_is_that_of_the_table() {
    let mut ground = level_ground(2, 2);
    ground.marks = vec![0, 0, 7, 0];
    ground.heights[3] = 8_000_001;
    let mut bytes = record::bytes(&ground);
    let trailer = bytes.len() - 16;
    bytes[trailer + 4] ^= 1;
    bytes[trailer] = 65;
    bytes.insert(0, 0);
    let short = 15 * 4 + 27;
    assert_eq!(answer_with_room(&bytes, short), refused(1, 0));
    bytes[trailer + 1] = 2;
    assert_eq!(answer_with_room(&bytes, short), refused(2, 0));
    bytes.remove(0);
    assert_eq!(answer_with_room(&bytes, short), refused(7, 0));
    bytes[trailer + 4] ^= 1;
    assert_eq!(answer_with_room(&bytes, short), refused(3, 0));
    assert_eq!(answer_with_room(&bytes, short + 1), refused(4, 3));
    bytes[14] = 0;
    assert_eq!(answer_with_room(&bytes, short + 1), refused(5, 2));
    bytes[18] = 0;
    assert_eq!(answer_with_room(&bytes, short + 1), refused(6, 0));
    bytes[18] = 1;
    assert_eq!(answer_with_room(&bytes, short + 1), 88);
}

#[test]
fn lists_are_judged_by_their_lengths() {
    let whole = level_ground(3, 2);
    let mut short = whole.clone();
    short.water.pop();
    let mut long = whole.clone();
    long.heights.push(0);
    let mut none = whole.clone();
    none.size.width = 0;
    assert_eq!(network_of_lists(&short), Err(Refusal::Length));
    assert_eq!(network_of_lists(&long), Err(Refusal::Length));
    assert_eq!(network_of_lists(&none), Err(Refusal::Size));
}

#[test]
fn the_writer_refuses_what_the_reader_would() {
    let mut ground = level_ground(3, 2);
    let mut room = vec![0xA5; record::length(ground.size)];
    ground.heights[4] = 8_000_001;
    let refused = record::write(&ground, &mut room);
    assert_eq!(refused, Err(Refusal::Height(Cell(4))));
    assert_eq!(record::write(&ground, &mut room[1..]), Err(Refusal::Room));
    assert!(room.iter().all(|&byte| byte == 0xA5));
}

#[test]
fn lent_lists_are_filled_to_n_and_no_further() {
    let ground = level_ground(2, 1);
    let bytes = record::bytes(&ground);
    let (mut heights, mut marks, mut water) = ([9; 3], [9; 3], [9; 3]);
    let read = record::read_into(&bytes, &mut heights, &mut marks, &mut water);
    assert_eq!(read, Ok(ground.size));
    assert_eq!((heights, marks, water), ([0, 0, 9], [1, 0, 9], [1, 1, 9]));
    let refused = record::read_into(&bytes, &mut heights, &mut marks[..1], &mut water);
    assert_eq!(refused, Err(Refusal::Room));
    assert_eq!((heights, marks, water), ([0, 0, 9], [1, 0, 9], [1, 1, 9]));
}

#[test]
fn no_answer_has_two_meanings() {
    let smallest = network_record::length(Size {
        width: 1,
        height: 1,
    });
    let largest = network_record::length(Size {
        width: 64,
        height: 64,
    });
    assert_eq!((smallest, largest), (43, 61_468));
    assert!(largest < 65_536);
}
