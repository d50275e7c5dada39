//! The trace: samples T1 to T5, its refusals, and rings against a walk of every single step.

use second::ground::Cell;
use second::refusal::Refusal;
use second::trace::{trace, Ending, Trace};

const G_RECEIVERS: [u16; 6] = [0, 2, 3, 4, 5, 5];

fn outlet(cell: u16, steps: u32) -> Result<Trace, Refusal> {
    let ending = Ending::Outlet(Cell(cell));
    Ok(Trace { ending, steps })
}

fn stopped(cell: u16, steps: u32) -> Result<Trace, Refusal> {
    let ending = Ending::Stopped(Cell(cell));
    Ok(Trace { ending, steps })
}

#[test]
fn samples_t1_to_t5() {
    assert_eq!(trace(&G_RECEIVERS, 1, 4), outlet(5, 4));
    assert_eq!(trace(&G_RECEIVERS, 1, 3), stopped(4, 3));
    assert_eq!(trace(&G_RECEIVERS, 5, 0), outlet(5, 0));
    assert_eq!(trace(&[1, 0], 0, 5), stopped(1, 5));
    assert_eq!(trace(&[0, 9], 1, 0), Err(Refusal::TracedEntry(Cell(1))));
}

#[test]
fn refusals_come_in_the_order_of_the_table() {
    assert_eq!(trace(&[], 0, 0), Err(Refusal::Length));
    assert_eq!(trace(&[0; 4_097], 9_999, 0), Err(Refusal::Length));
    assert_eq!(trace(&[0; 4_096], 4_096, 0), Err(Refusal::TracedCell));
    assert_eq!(trace(&[0; 4_096], u32::MAX, 0), Err(Refusal::TracedCell));
    assert_eq!(trace(&[7], 1, 0), Err(Refusal::TracedCell));
    assert_eq!(Refusal::TracedEntry(Cell(1)).answer(), 9 * 65_536 + 1);
    assert_eq!(Refusal::TracedCell.answer(), 8 * 65_536);
}

#[test]
fn an_entry_equal_to_the_length_is_refused() {
    assert_eq!(trace(&[1, 2], 0, 5), Err(Refusal::TracedEntry(Cell(1))));
    assert_eq!(trace(&[1, 2], 0, 0), stopped(0, 0));
}

#[test]
fn a_larger_budget_gives_the_same_answer() {
    for cell in 0..6 {
        let enough = trace(&G_RECEIVERS, cell, 4);
        assert!(matches!(enough.unwrap().ending, Ending::Outlet(_)));
        assert_eq!(trace(&G_RECEIVERS, cell, 5), enough);
        assert_eq!(trace(&G_RECEIVERS, cell, u32::MAX), enough);
    }
}

#[test]
fn the_largest_budget_on_a_ring() {
    assert_eq!(trace(&[1, 0], 0, u32::MAX), stopped(1, u32::MAX));
    // Two steps lead to the ring of 2, 3 and 4; 4,294,967,293 steps are left, a whole number
    // of rounds and one step.
    let hook = [1, 2, 3, 4, 2];
    assert_eq!(trace(&hook, 0, u32::MAX), stopped(3, u32::MAX));
}

/// Every step walked, as the rule says it, for lists without refusals.
fn walked(receivers: &[u16], mut cell: u16, budget: u32) -> Result<Trace, Refusal> {
    let mut steps = 0;
    loop {
        let entry = receivers[usize::from(cell)];
        if entry == cell {
            return outlet(cell, steps);
        }
        if steps == budget {
            return stopped(cell, steps);
        }
        cell = entry;
        steps += 1;
    }
}

#[test]
fn rings_agree_with_every_step_walked() {
    for list in 0..4_u16.pow(4) {
        let receivers = [list % 4, list / 4 % 4, list / 16 % 4, list / 64];
        for cell in 0..4 {
            for budget in 0..30 {
                let wanted = walked(&receivers, cell, budget);
                assert_eq!(trace(&receivers, u32::from(cell), budget), wanted);
            }
        }
    }
}
