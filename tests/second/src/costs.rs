//! lines  == what `costs` prints: the place, the stitches and the metres of each zone of the present level
//! places == the place of each zone's record, by rising number, from the numbers as they stand
//! metres == a yarn figure "in decimal with three places, cut off, `-` where not measured, `?` where it is no number from 0 to
//!           10^12"
//!
//! A dart and the dart that its entry names are in one zone, also where they are gone; so are the two darts of an edge that was
//! contracted. Of a pyramid this gives the zones that its levels give (`merges`): where it does not, the program stops.

use crate::decide::levels_of;
use crate::lent::Lent;
use crate::map::{partner, Dart};
use crate::merges::present;
use crate::operation::{dart_of, kind_of, Kind};
use crate::record::{Record, Yarn};
use crate::sheets::LentSheets;
use crate::state::State;

/// "`?` where it is no number from 0 to 10^12"
const MOST_METRES: f64 = 1e12;

/// Nothing where fewer than D entries, N history numbers or D records are lent.
pub fn lines(state: &State, lent: &Lent, sheets: &LentSheets) -> String {
    let (darts, operations) = (state.darts as usize, state.operations as usize);
    let (Some(table), Some(history), Some(sheet)) =
        (lent.table.get(..darts), lent.history.get(..operations), sheets.sheet.get(..darts))
    else {
        return String::new();
    };
    let places = places(table, history);
    agree(&places, state, table, history);
    places.into_iter().map(|place| line(place, sheet[place])).collect()
}

fn line(place: usize, Record { stitches, yarn }: Record) -> String {
    format!("zone={place} stitches={stitches} metres={}\n", metres(yarn))
}

/// Darts are taken by rising number: the first one of a zone is its lowest, and all that goes with it is flooded. A number that
/// is no dart goes with none.
fn places(table: &[u32], history: &[u32]) -> Vec<usize> {
    let contracted = history.iter().filter(|&&number| kind_of(number) == Kind::Contract).map(|&number| dart_of(number));
    let entries = table.iter().enumerate().map(|(dart, &entry)| (dart as Dart, entry));
    let mut beside = vec![Vec::new(); table.len()];
    for (one, other) in entries.chain(contracted.map(|dart| (dart, partner(dart)))) {
        let (one, other) = (one as usize, other as usize);
        if one < table.len() && other < table.len() {
            beside[one].push(other);
            beside[other].push(one);
        }
    }
    let mut reached = vec![false; table.len()];
    let mut places = Vec::new();
    for lowest in 0..table.len() {
        if !reached[lowest] {
            places.push(lowest);
        }
        let mut open = vec![lowest];
        while let Some(dart) = open.pop() {
            if !std::mem::replace(&mut reached[dart], true) {
                open.extend(&beside[dart]);
            }
        }
    }
    places
}

/// Stops the program where a pyramid's levels give other zones.
fn agree(places: &[usize], state: &State, table: &[u32], history: &[u32]) {
    let paired = state.darts.is_multiple_of(2);
    if let Some(pyramid) = paired.then(|| levels_of(state, table, history)).flatten() {
        let present: Vec<usize> = present(&pyramid).into_iter().collect();
        assert_eq!(places, present, "costs: the zones by the numbers and the zones of the levels differ");
    }
}

fn metres(yarn: Yarn) -> String {
    match yarn {
        Yarn::NotMeasured => "-".to_string(),
        Yarn::Metres(metres) if (0.0..=MOST_METRES).contains(&metres) => {
            let thousandths = thousandths(metres);
            format!("{}.{:03}", thousandths / 1000, thousandths % 1000)
        }
        Yarn::Metres(_) => "?".to_string(),
    }
}

/// Cut off, from the 64 bits: the metres are significand / 2^halvings. Minus zero is zero.
fn thousandths(metres: f64) -> u128 {
    let bits = metres.abs().to_bits();
    let (exponent, fraction) = (bits >> 52, bits & ((1 << 52) - 1));
    let significand = if exponent == 0 { fraction } else { fraction | 1 << 52 };
    let halvings = 1075 - exponent.max(1) as u32;
    (u128::from(significand) * 1000).checked_shr(halvings).unwrap_or(0)
}
