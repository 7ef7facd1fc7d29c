//! Group `large`: maps of 4,096 to 65,536 darts

use crate::bases::{self, Added};
use crate::chance::Chance;
use crate::damage::the_numbers;
use crate::files;
use crate::input::Input;
use crate::kernels;
use crate::scene::Scene;
use crate::script::Script;
use second::file_write::bytes_of;
use second::kernel::judge;
use second::map::Map;
use second::operation::Kind;
use second::plan::Grid;
use second::state::MOST_DARTS;

/// The group's seeds start here.
const SEEDS: u64 = 5 << 32;

/// A sort of map, and how many edges are proposed for a kernel: fewer where the second program, which walks vertices
/// and faces dart by dart, has long ones to walk.
pub type Sort = (fn(&mut Chance, u32) -> Vec<u32>, usize);

pub const SORTS: [Sort; 7] = [
    (plan, 20_000),
    (long_chain, 20_000),
    (plane, 20_000),
    (many_pieces, 20_000),
    (short_vertices, 1_000),
    (single_vertex, 60),
    (loops_in_loops, 20_000),
];

pub fn input(script: usize) -> Input {
    let mut chance = Chance::new(SEEDS + script as u64);
    // One script in three has all the darts there can be.
    let darts = match script % 3 {
        0 => MOST_DARTS,
        _ => 2 * chance.between(2_400, MOST_DARTS / 2),
    };
    let (sort, proposals) = SORTS[script % SORTS.len()];
    let base = sort(&mut chance, darts);
    let mut script = Script::default();
    life(&mut script, &mut chance, &base, proposals);
    Input::script(script)
}

/// A base, two levels or three, every call, refusals late in a kernel, one number changed, and other numbers stored.
fn life(script: &mut Script, chance: &mut Chance, base: &[u32], proposals: usize) {
    script.numbers("fill", &[chance.below(9)]);
    let mut scene = Scene::start(script, chance, base);
    scene.script.word("counts");
    for _ in 0..2 {
        let kind = chance.kind();
        let kernel = fine(chance, scene.pyramid.map(), kind, proposals);
        scene.reduce(kind, &kernel);
        fails_late(&mut scene, chance, proposals);
        scene.sweep();
    }
    scene.script.word("counts");
    write_and_read(&mut scene, chance);
    one_entry_changed(&mut scene, chance);
    other_numbers_stored(&mut scene, chance);
    scene.lend_one_short(chance);
    scene.any_call(chance);
    scene.lend_again();
    scene.undo();
    scene.unfold(chance.below(scene.top() + 1));
    scene.script.word("counts");
    scene.script.word("show");
}

/// The edges among so many proposals that are accepted, one after another.
pub fn fine(chance: &mut Chance, map: &Map, kind: Kind, proposals: usize) -> Vec<u32> {
    let mut proposed = kernels::all(chance, map);
    proposed.truncate(proposals);
    kernels::fine_among(proposed, &mut map.clone(), kind, proposals)
}

/// A kernel of many fine edges whose last one is refused, and which must leave nothing behind.
fn fails_late(scene: &mut Scene, chance: &mut Chance, proposals: usize) {
    let kind = chance.kind();
    let map = scene.pyramid.map();
    let mut kernel = fine(chance, map, kind, proposals / 4);
    let tried: Vec<u32> = (0..50).map(|_| chance.below(map.edges())).collect();
    let refused = tried.into_iter().find(|&edge| judge(map, kind, edge, 0).is_err());
    kernel.push(refused.unwrap_or(map.edges()));
    scene.reduce(kind, &kernel);
}

/// The file goes the way through both calls; what was read is what the script goes on with.
fn write_and_read(scene: &mut Scene, chance: &mut Chance) {
    let length = bytes_of(&scene.pyramid).len() as u32;
    scene.script.numbers("write", &[length - 1]);
    scene.write_exactly();
    let file = files::under_any_flag(chance, bytes_of(&scene.pyramid));
    scene.read(&file);
    scene.script.word("counts");
}

fn one_entry_changed(scene: &mut Scene, chance: &mut Chance) {
    let dart = chance.below(scene.darts());
    let entry = scene.pyramid.map().table()[dart as usize];
    scene.script.put("table", dart, &[chance.below(scene.darts())]);
    scene.script.word("counts");
    scene.script.put("table", dart, &[entry]);
}

/// Other numbers of vertices and faces, counts, which leave them, and the right ones.
fn other_numbers_stored(scene: &mut Scene, chance: &mut Chance) {
    let state = scene.pyramid.state();
    for _ in 0..2 {
        the_numbers(&state, scene, chance);
        scene.script.word("counts");
    }
    scene.script.stored(state.vertices, state.faces);
}

/// A grid of that many darts, or fewer by less than a course's, under its own numbers. It may be higher than a plan.
pub fn plan(chance: &mut Chance, darts: u32) -> Vec<u32> {
    let wales = chance.between(2, 128);
    // A course more adds the upright edges of its cells and the edges along it.
    let courses = 1 + (darts / 2 - (wales - 1)) / (2 * wales - 1);
    Grid { wales, courses }.table()
}

pub fn long_chain(chance: &mut Chance, darts: u32) -> Vec<u32> {
    let chain = bases::chain(darts / 2);
    if chance.one_in(2) {
        bases::renamed(chance, &chain)
    } else {
        chain
    }
}

fn plane(chance: &mut Chance, darts: u32) -> Vec<u32> {
    bases::grown(chance, darts, &[(2, Added::Pending), (1, Added::EmptyLoop), (3, Added::AcrossFace)])
}

fn many_pieces(chance: &mut Chance, darts: u32) -> Vec<u32> {
    let ways = [(2, Added::Pending), (1, Added::EmptyLoop), (1, Added::AcrossFace), (2, Added::NewPiece)];
    bases::grown(chance, darts, &ways)
}

fn short_vertices(chance: &mut Chance, darts: u32) -> Vec<u32> {
    bases::any_order(chance, darts, 4)
}

fn single_vertex(chance: &mut Chance, darts: u32) -> Vec<u32> {
    bases::any_order(chance, darts, u32::MAX)
}

pub fn loops_in_loops(chance: &mut Chance, darts: u32) -> Vec<u32> {
    bases::grown(chance, darts, &[(1, Added::EmptyLoop), (1, Added::AcrossFace)])
}
