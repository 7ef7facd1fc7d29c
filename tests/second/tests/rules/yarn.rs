//! The calls with sheets: what they merge and return, answers 16 and 4, and that a refusal changes neither sheet.

use crate::support::costed::{base_places, measured, unmeasured, Costed, MARKED};
use crate::support::lot::Call;
use crate::support::maps::{star, T};
use second::map::Map;
use second::merges::places;
use second::operation::Kind::{Contract, Remove};
use second::record::Record;

/// T's vertices have the places 0, 1, 3 and 7.
fn t_with(records: [Record; 4]) -> Costed {
    Costed::started(&T, &records)
}

/// "1 2 3 4" stitches and half a metre each.
fn costed_t() -> Costed {
    t_with([1, 2, 3, 4].map(|stitches| measured(stitches, 0.5)))
}

#[test]
fn k5_and_k7_merge_and_undo_returns() {
    let base = costed_t();
    let mut costed = base.clone();
    costed.accept(&Call::Reduce(Contract, &[0, 1]));
    let mut expected = base.clone();
    expected.sheet[0] = measured(6, 1.5);
    expected.kept[0] = measured(1, 0.5);
    expected.kept[1] = measured(3, 1.0);
    assert_eq!((&costed.sheet, &costed.kept), (&expected.sheet, &expected.kept), "K5");
    costed.accept(&Call::Reduce(Remove, &[2]));
    assert_eq!((&costed.sheet, &costed.kept), (&expected.sheet, &expected.kept), "K7: a removal merges nothing");
    costed.accept(&Call::Undo);
    assert_eq!((&costed.sheet, &costed.kept), (&expected.sheet, &expected.kept), "K7 undone");
    costed.accept(&Call::Undo);
    assert_eq!((&costed.sheet, &costed.kept), (&base.sheet, &expected.kept), "what was kept stays on its sheet");
}

#[test]
fn a_kernel_listed_the_other_way_keeps_another_record() {
    let mut costed = costed_t();
    costed.accept(&Call::Reduce(Contract, &[1, 0]));
    assert_eq!(costed.sheet[..4], [measured(6, 1.5), measured(5, 1.0), MARKED, measured(3, 0.5)]);
    assert_eq!(costed.kept[..3], [measured(2, 0.5), measured(1, 0.5), MARKED]);
}

#[test]
fn the_order_of_adding_shows_in_the_last_bits() {
    let third = |edges: &[u32]| {
        let mut costed = t_with([0.1, 0.2, 0.3, 0.0].map(|metres| measured(1, metres)));
        costed.accept(&Call::Reduce(Contract, edges));
        costed.sheet[0]
    };
    assert_eq!(third(&[0, 1]), measured(3, (0.1 + 0.2) + 0.3));
    assert_eq!(third(&[1, 0]), measured(3, 0.1 + (0.2 + 0.3)));
    assert_ne!(third(&[0, 1]), third(&[1, 0]));
}

#[test]
fn not_measured_with_anything_is_not_measured() {
    for (one, other) in
        [(unmeasured(1), measured(2, 0.5)), (measured(1, 0.5), unmeasured(2)), (unmeasured(1), unmeasured(2))]
    {
        let mut costed = t_with([one, other, measured(4, 0.5), measured(8, 0.5)]);
        costed.accept(&Call::Reduce(Contract, &[0]));
        assert_eq!((costed.sheet[0], costed.sheet[1], costed.kept[0]), (unmeasured(3), other, one));
        costed.accept(&Call::Undo);
        assert_eq!(costed.sheet[0], one);
    }
}

#[test]
fn sums_may_be_larger_than_a_base_record() {
    let most = measured(65_535, 100_000.0);
    let mut costed = Costed::started(&star(66), &[most; 67]);
    let edges: Vec<u32> = (0..65).collect();
    costed.accept(&Call::Reduce(Contract, &edges));
    assert_eq!(costed.sheet[0], measured(66 * 65_535, 6_600_000.0));
    costed.accept(&Call::Unfold(1));
    costed.accept(&Call::Unfold(0));
    assert_eq!(costed.sheet[0], most);
}

#[test]
fn answer_16_for_each_record_outside_the_limits() {
    let above = f64::from_bits(100_000_f64.to_bits() + 1);
    let unfit = [
        measured(65_536, 0.0),
        unmeasured(65_536),
        unmeasured(u32::MAX),
        measured(0, f64::NAN),
        measured(0, -f64::NAN),
        measured(0, above),
        measured(0, f64::INFINITY),
        measured(0, f64::NEG_INFINITY),
        measured(0, -5e-324),
        measured(0, -1.0),
        measured(65_536, f64::NAN),
        measured(0, f64::MAX),
    ];
    let fine = [measured(65_535, 100_000.0), measured(0, -0.0), unmeasured(65_535), measured(0, 5e-324)];
    for record in unfit {
        for (vertex, place) in [0, 1, 3, 7].into_iter().enumerate() {
            let mut records = fine;
            records[vertex] = record;
            Costed::given(&T, &records).refuse(&Call::Start(8), 16, place, 32);
            records[3] = record;
            Costed::given(&T, &records).refuse(&Call::Start(8), 16, place, 32);
        }
    }
    for record in fine {
        Costed::started(&T, &[record; 4]);
    }
}

#[test]
fn a_start_answers_1_then_2_then_3_then_16() {
    let unfit = Costed::given(&T, &[measured(0, f64::NAN); 4]);
    for darts in [0, 7, 65_538, u32::MAX] {
        unfit.refuse(&Call::Start(darts), 1, 0, 0);
    }
    for short in 0..5 {
        let mut costed = unfit.clone();
        costed.lot.table[2] = 5;
        match short {
            0 => costed.lot.table.truncate(7),
            1 => costed.lot.history.truncate(3),
            2 => costed.lot.work.truncate(31),
            3 => costed.sheet.truncate(7),
            _ => costed.kept.truncate(3),
        }
        costed.refuse(&Call::Start(8), 2, 0, 0);
        costed.refuse(&Call::Start(7), 1, 0, 0);
    }
    let mut costed = unfit.clone();
    costed.lot.table[2] = 9;
    let answer = costed.call(&Call::Start(8));
    assert_eq!((answer.number, answer.place, answer.second), (3, 2, 8));
    unfit.refuse(&Call::Start(8), 16, 0, 32);
}

const ON_A_STATE: [Call; 5] =
    [Call::Reduce(Contract, &[0]), Call::Reduce(Remove, &[0]), Call::Sweep, Call::Undo, Call::Unfold(9)];

#[test]
fn the_others_answer_1_then_2_then_4_then_their_own() {
    let mut k5 = costed_t();
    k5.accept(&Call::Reduce(Contract, &[0, 1]));
    let mut damaged = k5.clone();
    damaged.sheet[0].stitches += 1;
    for call in ON_A_STATE {
        damaged.refuse(&call, 4, 0, 32);
        let mut short = damaged.clone();
        short.sheet.truncate(7);
        short.refuse(&call, 2, 0, 0);
        short = damaged.clone();
        short.kept.truncate(3);
        short.refuse(&call, 2, 0, 0);
        short.lot.state.darts = 7;
        short.refuse(&call, 1, 0, 0);
        let mut no_pyramid = k5.clone();
        no_pyramid.lot.table[2] = 9;
        no_pyramid.refuse(&call, 4, 0, 32);
    }
    damaged.refuse(&Call::Reduce(Contract, &[]), 4, 0, 32);
    k5.refuse(&Call::Reduce(Contract, &[]), 5, 0, 32);
    k5.refuse(&Call::Reduce(Contract, &[3, 9]), 7, 1, 32);
    k5.refuse(&Call::Reduce(Contract, &[3, 0]), 8, 1, 32);
    k5.refuse(&Call::Reduce(Contract, &[3, 2]), 9, 1, 32);
    k5.refuse(&Call::Reduce(Remove, &[3]), 10, 0, 32);
    k5.refuse(&Call::Reduce(Contract, &[0]), 8, 0, 32);
    k5.refuse(&Call::Unfold(2), 12, 1, 32);
    let mut k7 = k5.clone();
    k7.accept(&Call::Sweep);
    k7.refuse(&Call::Sweep, 5, 0, 32);
    k7.refuse(&Call::Reduce(Contract, &[3]), 11, 0, 32);
    costed_t().refuse(&Call::Undo, 12, 0, 32);
}

#[test]
fn sixty_four_levels_are_6() {
    let mut costed = Costed::started(&star(66), &[measured(1, 0.1); 67]);
    for edge in 0..64 {
        costed.accept(&Call::Reduce(Contract, &[edge]));
    }
    costed.refuse(&Call::Reduce(Contract, &[]), 6, 0, 4 * 132);
    costed.refuse(&Call::Sweep, 6, 0, 4 * 132);
    costed.sheet[0].stitches -= 1;
    costed.refuse(&Call::Sweep, 4, 0, 4 * 132);
}

#[test]
fn plain_calls_leave_the_sheets_behind() {
    let mut costed = costed_t();
    costed.lot.accept(&Call::Reduce(Contract, &[0]));
    costed.lot.work.fill(0);
    costed.refuse(&Call::Undo, 4, 0, 32);
    costed.lot.accept(&Call::Undo);
    costed.accept(&Call::Reduce(Contract, &[0]));
    assert_eq!(costed.sheet[0], measured(3, 1.0));
    costed.lot.accept(&Call::Undo);
    costed.accept(&Call::Reduce(Contract, &[0]));
    assert_eq!(costed.sheet[0], measured(5, 1.5), "a merged record that is fit passes for a base's");
    costed.lot.accept(&Call::Reduce(Remove, &[2]));
    costed.accept(&Call::Undo);
    assert_eq!(costed.sheet[0], measured(5, 1.5), "a removal merges nothing, with sheets or without");
}

#[test]
fn places_are_those_of_the_lowest_darts() {
    let map = Map::new(&T, vec![true; 8]);
    assert_eq!(places(&map), [0, 1, 1, 3, 3, 0, 3, 7]);
    assert_eq!(base_places(&map), [0, 1, 3, 7]);
}
