//! The program `follow`: its line for each kind of question.

use second::follow::{text, Question, LONGEST};

const G: [u16; 6] = [0, 2, 3, 4, 5, 5];

fn asked(receivers: &[u16], cell: u32, budget: u32) -> String {
    let receivers = receivers.to_vec();
    text(
        &Question {
            cell,
            budget,
            receivers,
        }
        .bytes(),
    )
}

#[test]
fn t1_to_t5_are_answered() {
    assert_eq!(asked(&G, 1, 4), "outlet 5 4\n");
    assert_eq!(asked(&G, 1, 3), "stopped 4 3\n");
    assert_eq!(asked(&G, 5, 0), "outlet 5 0\n");
    assert_eq!(asked(&[1, 0], 0, 5), "stopped 1 5\n");
    assert_eq!(asked(&[0, 9], 1, 0), "refused 9 1\n");
}

/// T1, byte for byte.
#[test]
fn numbers_are_little_endian_and_without_gaps() {
    let bytes = [1, 0, 0, 0, 4, 0, 0, 0, 0, 0, 2, 0, 3, 0, 4, 0, 5, 0, 5, 0];
    assert_eq!(text(&bytes), "outlet 5 4\n");
    let receivers = G.to_vec();
    let (cell, budget) = (1, 4);
    let question = Question {
        cell,
        budget,
        receivers,
    };
    assert_eq!(Question::read(&bytes), Ok(question.clone()));
    assert_eq!(question.bytes(), bytes);
    let receivers = vec![0xFFFE, 0x0102];
    let (cell, budget) = (0xFFFF_FFFE, 0x0102_0304);
    let question = Question {
        cell,
        budget,
        receivers,
    };
    assert_eq!(Question::read(&question.bytes()), Ok(question));
}

#[test]
fn the_largest_budget_is_spent_on_a_ring() {
    assert_eq!(asked(&[1, 0], 0, u32::MAX), "stopped 1 4294967295\n");
    assert_eq!(asked(&[1, 2, 0], 0, u32::MAX), "stopped 0 4294967295\n");
}

#[test]
fn a_cell_past_the_list_is_refused_with_8() {
    assert_eq!(asked(&G, 6, 0), "refused 8 0\n");
    assert_eq!(asked(&G, 65_536, 0), "refused 8 0\n");
    assert_eq!(asked(&G, u32::MAX, 0), "refused 8 0\n");
}

#[test]
fn a_question_without_a_list_is_refused_with_2() {
    let question = Question {
        cell: 0,
        budget: 0,
        receivers: vec![0; 3],
    }
    .bytes();
    for length in 0..=8 {
        assert_eq!(text(&question[..length]), "refused 2 0\n");
    }
    for half in [9, 11, 13] {
        assert_eq!(text(&question[..half]), "refused 2 0\n");
    }
    assert_eq!(text(&question[..10]), "outlet 0 0\n");
}

#[test]
fn a_list_has_at_most_4096_entries() {
    assert_eq!(asked(&[0; 4_096], 4_095, 1), "outlet 0 1\n");
    assert_eq!(asked(&[0; 4_097], 4_095, 1), "refused 2 0\n");
    assert_eq!(text(&[0; LONGEST]), "outlet 0 0\n");
    assert_eq!(text(&[0; LONGEST + 1]), "refused 2 0\n");
}
