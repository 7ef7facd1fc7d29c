//! twice == an edge that is contracted and later removed in one history, or the other way round
//!
//! Undoing an operation needs no more than that the darts it leads to survive. So undoing an edge a second time goes
//! through, and spoils the successors of its two darts; but where an empty loop or a pending edge came off after each
//! of them before, undoing these puts both successors right again. Only a look for edges that come twice sees it.

use crate::bases::put_after;
use crate::chance::Chance;
use crate::scene::needed;
use crate::script::Script;
use second::map::partner;
use second::operation::{number, Kind};
use second::pyramid::Pyramid;
use second::state::State;

/// Makes every call on such a history over this base, where the base lends itself to one.
pub fn twice(script: &mut Script, chance: &mut Chance, base: &[u32]) {
    let mut table = base.to_vec();
    let p = 2 * chance.below(base.len() as u32 / 2);
    let first = add_after(&mut table, p, chance.kind());
    let second = add_after(&mut table, partner(p), chance.kind());
    let kind = chance.kind();
    let Some(pyramid) = reduced(&table, &[first, second, (kind, p / 2)]) else { return };
    let [a, b, last] = *pyramid.history() else { unreachable!("three kernels of one edge") };
    let other = match kind {
        Kind::Contract => number(Kind::Remove, p),
        Kind::Remove => number(Kind::Contract, p),
    };
    let mut state = State { operations: 4, levels: 4, ..pyramid.state() };
    state.ends[..4].copy_from_slice(&[1, 2, 3, 4]);
    // The numbers of the cycles, and those that four operations would leave of the base's.
    let of_the_cycles = state;
    match kind {
        Kind::Contract => state.faces -= 1,
        Kind::Remove => state.vertices -= 1,
    }
    script.lend(needed(state.darts));
    script.put("table", 0, pyramid.map().table());
    script.put("history", 0, &[a, b, other, last]);
    for call in ["counts", "contract 0", "remove 0", "sweep", "undo", "unfold 0", "write 900"] {
        for state in [of_the_cycles, state] {
            script.state(&state);
            script.word(call);
        }
    }
}

/// Adds an edge after a dart that can come off at once by this kind: a pending edge, or an empty loop.
fn add_after(table: &mut Vec<u32>, dart: u32, kind: Kind) -> (Kind, u32) {
    let x = table.len() as u32;
    table.extend([x, x + 1]);
    put_after(table, dart, x);
    if kind == Kind::Remove {
        put_after(table, x, x + 1);
    }
    (kind, x / 2)
}

/// The pyramid of these kernels of one edge each, where all are accepted.
fn reduced(base: &[u32], kernels: &[(Kind, u32)]) -> Option<Pyramid> {
    let mut pyramid = Pyramid::start(base).ok()?;
    for &(kind, edge) in kernels {
        pyramid.reduce(kind, &[edge]).ok()?;
    }
    Some(pyramid)
}
