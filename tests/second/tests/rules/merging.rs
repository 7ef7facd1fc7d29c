//! The calls with sheets on random pyramids: zones and their places, stitches at every level, undo, any order, and damage.

use crate::support::chance::{on_random_pyramids, Chance};
use crate::support::costed::{any_fit, base_places, measured, unmeasured, Costed, MARKED};
use crate::support::lot::Call;
use second::merges::{merges, places, Merge};
use second::operation::{edge_of, kind_of, Kind::Contract, Kind::Remove};
use second::pyramid::Pyramid;
use second::record::{Record, Yarn};

/// The places by labels, as document 02's words can be read dart by dart: what had the higher place has the lower one from
/// then on.
fn by_labels(pyramid: &Pyramid) -> (Vec<Option<Merge>>, Vec<usize>) {
    let mut places = places(&pyramid.levels()[0].map);
    let mut merges = Vec::new();
    for &number in pyramid.history() {
        let (p, q) = (places[2 * edge_of(number) as usize], places[2 * edge_of(number) as usize + 1]);
        let (low, high) = (p.min(q), p.max(q));
        merges.push((kind_of(number) == Contract).then_some(Merge { low, high }));
        if kind_of(number) == Contract {
            places.iter_mut().filter(|place| **place == high).for_each(|place| *place = low);
        }
    }
    (merges, places)
}

#[test]
fn zones_are_the_vertices_and_their_places_the_lowest() {
    on_random_pyramids(|pyramid, _| {
        let (told, places) = by_labels(pyramid);
        assert_eq!(merges(pyramid), told);
        let map = pyramid.map();
        for p in map.survivors() {
            for q in map.survivors().filter(|&q| q != p) {
                assert_eq!(map.same_vertex(p, q), places[p as usize] == places[q as usize]);
            }
        }
    });
}

/// The records of the zones of the present level.
fn zone_records(costed: &Costed, pyramid: &Pyramid) -> Vec<Record> {
    let mut places: Vec<usize> = by_labels(pyramid).1;
    places.sort_unstable();
    places.dedup();
    places.into_iter().map(|place| costed.sheet[place]).collect()
}

#[test]
fn every_level_has_the_base_s_stitches_and_undo_returns_every_record() {
    on_random_pyramids(|pyramid, chance| {
        let top = Costed::of(pyramid, chance);
        let mut pyramid = pyramid.clone();
        let mut costed = top.clone();
        let total = |costed: &Costed, pyramid: &Pyramid| {
            zone_records(costed, pyramid).iter().map(|record| u64::from(record.stitches)).sum::<u64>()
        };
        let stitches = total(&costed, &pyramid);
        let mut sheets = vec![costed.sheet.clone()];
        while pyramid.top() > 0 {
            pyramid.undo().expect("a level");
            costed.accept(&Call::Undo);
            assert_eq!(total(&costed, &pyramid), stitches);
            assert_eq!(costed.kept, top.kept, "undo writes no kept record");
            sheets.push(costed.sheet.clone());
        }
        for (undos, sheet) in sheets.iter().enumerate() {
            let mut unfolded = top.clone();
            unfolded.accept(&Call::Unfold((sheets.len() - 1 - undos) as u32));
            assert_eq!((&unfolded.sheet, &unfolded.kept), (sheet, &top.kept));
        }
    });
}

#[test]
fn a_kernel_in_any_order_gives_the_same_stitches_and_the_same_zones_measured() {
    on_random_pyramids(|pyramid, chance| {
        let base = pyramid.levels()[0].map.table();
        let records: Vec<Record> = base_places(&pyramid.levels()[0].map).iter().map(|_| any_fit(chance)).collect();
        let mut told = Vec::new();
        for shuffled in [false, true] {
            let mut costed = Costed::started(base, &records);
            for kernel in pyramid.kernels() {
                let mut edges: Vec<u32> = kernel.iter().map(|&number| edge_of(number)).collect();
                if shuffled {
                    chance.shuffle(&mut edges);
                }
                costed.accept(&Call::Reduce(kind_of(kernel[0]), &edges));
            }
            let figures = |record: Record| (record.stitches, matches!(record.yarn, Yarn::Metres(_)));
            told.push(zone_records(&costed, pyramid).into_iter().map(figures).collect::<Vec<_>>());
        }
        assert_eq!(told[0], told[1]);
    });
}

/// Any of the calls on a state.
fn any_call(costed: &Costed, chance: &mut Chance) -> Call<'static> {
    let levels = costed.lot.state.levels;
    match chance.below(5) {
        0 => Call::Reduce(Contract, &[0]),
        1 => Call::Reduce(Remove, &[0]),
        2 => Call::Sweep,
        3 => Call::Undo,
        _ => Call::Unfold(chance.below(levels + 1)),
    }
}

#[test]
fn a_stitch_more_where_records_are_looked_at_is_4() {
    on_random_pyramids(|pyramid, chance| {
        let right = Costed::of(pyramid, chance);
        let work = 4 * right.lot.darts();
        let merges = merges(pyramid);
        let places = base_places(&pyramid.levels()[0].map);
        let call = any_call(&right, chance);
        let answer = right.clone().call(&call);
        for place in 0..right.lot.darts() {
            let mut damaged = right.clone();
            damaged.sheet[place].stitches = damaged.sheet[place].stitches.wrapping_add(1);
            let merged = merges.iter().flatten().any(|merge| merge.low == place || merge.high == place);
            if merged || places.contains(&place) && !damaged.sheet[place].fit() {
                damaged.refuse(&call, 4, 0, work);
            } else {
                assert_eq!(damaged.call(&call), answer, "place {place}");
            }
        }
        for (operation, _) in right.kept.iter().enumerate() {
            let mut damaged = right.clone();
            damaged.kept[operation].stitches = damaged.kept[operation].stitches.wrapping_add(1);
            match merges.get(operation) {
                Some(Some(_)) => damaged.refuse(&call, 4, 0, work),
                _ => assert_eq!(damaged.call(&call), answer, "operation {operation}"),
            }
        }
    });
}

#[test]
fn what_is_not_looked_at_stays_as_it_was() {
    on_random_pyramids(|pyramid, chance| {
        let mut costed = Costed::of(pyramid, chance);
        let places = base_places(&pyramid.levels()[0].map);
        let merges = merges(pyramid);
        for place in (0..costed.sheet.len()).filter(|place| !places.contains(place)) {
            assert_eq!(costed.sheet[place], MARKED, "place {place}");
        }
        for operation in (0..costed.kept.len()).filter(|&operation| merges.get(operation).is_none_or(Option::is_none)) {
            assert_eq!(costed.kept[operation], MARKED, "operation {operation}");
        }
        let before = costed.clone();
        costed.accept(&Call::Unfold(pyramid.top() as u32));
        costed.lot.work = before.lot.work.clone();
        assert_eq!(costed, before, "the top itself changes nothing");
    });
}

#[test]
fn rubbish_on_the_sheets_gets_an_answer() {
    let any = [f64::NAN, f64::INFINITY, f64::NEG_INFINITY, -0.0, 0.0, 1e308, -1e308, 100_000.0];
    on_random_pyramids(|pyramid, chance| {
        let mut costed = Costed::of(pyramid, chance);
        for _ in 0..1 + chance.below(3) {
            let record = match chance.below(3) {
                0 => unmeasured(chance.next() as u32),
                _ => measured(u32::MAX - chance.below(2), any[chance.below(8) as usize]),
            };
            let (sheet, kept) = (chance.below(costed.sheet.len() as u32), chance.below(costed.kept.len() as u32));
            if chance.coin() {
                costed.sheet[sheet as usize] = record;
            } else {
                costed.kept[kept as usize] = record;
            }
        }
        let call = any_call(&costed, chance);
        let before = costed.clone();
        let answer = costed.call(&call);
        assert!(answer.number != 16 && answer.second == 0);
        if answer.number != 0 {
            assert_eq!((&costed.sheet, &costed.kept), (&before.sheet, &before.kept));
        }
    });
}
