//! Step == one thing that can happen next in a scene: a call, or something that a call must not mind

use crate::chance::Chance;
use crate::files;
use crate::kernels;
use crate::scene::Scene;
use crate::spoil::spoiled;
use second::file_write::bytes_of;
use second::operation::Kind;

pub type Step = fn(&mut Scene, &mut Chance);

/// Few edges at a time, so that many levels come about; where none is left, back to a lower level.
pub fn fine_kernel(scene: &mut Scene, chance: &mut Chance) {
    let most = 1 + chance.place(4);
    match fine_of_any_kind(scene, chance, most) {
        Some((kind, kernel)) => scene.reduce(kind, &kernel),
        None => unfold(scene, chance),
    }
}

/// A kernel of one edge.
pub fn one_edge(scene: &mut Scene, chance: &mut Chance) {
    if let Some((kind, kernel)) = fine_of_any_kind(scene, chance, 1) {
        scene.reduce(kind, &kernel);
    }
}

/// A kernel of one kind or the other that is fine, if there is any.
fn fine_of_any_kind(scene: &Scene, chance: &mut Chance, most: usize) -> Option<(Kind, Vec<u32>)> {
    let mut kinds = [Kind::Contract, Kind::Remove];
    chance.shuffle(&mut kinds);
    let kernels = kinds.map(|kind| (kind, kernels::fine(chance, scene.pyramid.map(), kind, most)));
    kernels.into_iter().find(|(_, kernel)| !kernel.is_empty())
}

pub fn failing_kernel(scene: &mut Scene, chance: &mut Chance) {
    let kind = chance.kind();
    let kernel = kernels::failing(chance, scene.pyramid.map(), kind);
    scene.reduce(kind, &kernel);
}

pub fn any_kernel(scene: &mut Scene, chance: &mut Chance) {
    let length = chance.between(1, 4);
    let kernel = kernels::anything(chance, scene.pyramid.map(), length);
    scene.reduce(chance.kind(), &kernel);
}

pub fn empty_kernel(scene: &mut Scene, chance: &mut Chance) {
    scene.reduce(chance.kind(), &[]);
}

/// Longer than any kernel that could be accepted.
pub fn every_edge(scene: &mut Scene, chance: &mut Chance) {
    let kernel = kernels::all(chance, scene.pyramid.map());
    scene.reduce(chance.kind(), &kernel);
}

/// As many edges as can be accepted, and then all that a line may hold: "A kernel has at most 32,772 edges".
pub fn very_long_kernel(scene: &mut Scene, chance: &mut Chance) {
    let kind = chance.kind();
    let length = chance.pick(&[100, 1_000, 32_772]);
    let mut kernel = kernels::fine(chance, scene.pyramid.map(), kind, usize::MAX);
    kernel.extend(kernels::anything(chance, scene.pyramid.map(), length));
    kernel.truncate(length as usize);
    scene.reduce(kind, &kernel);
}

/// A start from the table as it stands, which gone darts have most often left no permutation.
pub fn start_again(scene: &mut Scene, _: &mut Chance) {
    scene.start_again();
}

pub fn sweep(scene: &mut Scene, _: &mut Chance) {
    scene.sweep();
}

pub fn undo(scene: &mut Scene, _: &mut Chance) {
    scene.undo();
}

/// To any level there is, the top included, or above it.
pub fn unfold(scene: &mut Scene, chance: &mut Chance) {
    let top = scene.top();
    let k = match chance.below(5) {
        0 => chance.pick(&[top + 1, 64, 65, u32::MAX]),
        1 => top,
        _ => chance.below(top + 1),
    };
    scene.unfold(k);
}

/// Not far down, so that the way up again is short.
pub fn unfold_a_little(scene: &mut Scene, chance: &mut Chance) {
    scene.unfold((scene.top() + 1).saturating_sub(chance.below(4)));
}

pub fn counts(scene: &mut Scene, _: &mut Chance) {
    scene.script.word("counts");
}

/// The stitches and the yarn of each zone.
pub fn costs(scene: &mut Scene, _chance: &mut Chance) {
    scene.script.word("costs");
}

/// Into what is needed, one byte less, nothing, more, or all there is.
pub fn write(scene: &mut Scene, chance: &mut Chance) {
    let length = bytes_of(&scene.pyramid).len() as u32;
    let lent = match chance.below(100) {
        0..=29 => length,
        30..=59 => length - 1,
        60..=64 => 0,
        65 => 599_996,
        _ => length + chance.below(9),
    };
    scene.script.numbers("write", &[lent]);
    scene.script.word("bytes");
}

/// A call that is lent one number too few; a start and a read then hand back zeros.
pub fn one_short(scene: &mut Scene, chance: &mut Chance) {
    scene.lend_one_short(chance);
    match chance.below(4) {
        0 => scene.start_refused(scene.darts()),
        // A reader is lent no sheets.
        1 if scene.sheets.is_none() => scene.script.read(&bytes_of(&scene.pyramid)),
        _ => scene.any_call(chance),
    }
    scene.state_again();
    scene.lend_again();
}

pub fn rubbish(scene: &mut Scene, chance: &mut Chance) {
    scene.rubbish(chance);
}

pub fn rubbish_everywhere(scene: &mut Scene, chance: &mut Chance) {
    let value = chance.pick(&[1, 7, 4_000_000_000, u32::MAX]);
    scene.script.numbers("fill", &[value]);
}

/// The pyramid's own file, spoiled now and then.
pub fn read_back(scene: &mut Scene, chance: &mut Chance) {
    let mut file = files::under_any_flag(chance, bytes_of(&scene.pyramid));
    if chance.one_in(3) {
        file = spoiled(chance, file);
    }
    scene.read(&file);
}

/// The pyramid's own file with a level more, which is 65 after 64, and one kernel more.
pub fn read_a_level_more(scene: &mut Scene, _: &mut Chance) {
    let file = String::from_utf8_lossy(&bytes_of(&scene.pyramid)).into_owned();
    let stated = format!("levels={}\n", scene.top());
    let one_more = format!("levels={}\nkernel=contract 1\n", scene.top() + 1);
    scene.read(file.replacen(&stated, &one_more, 1).as_bytes());
}
