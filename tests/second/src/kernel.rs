//! judge  == one edge "judged on the map as it stands at its turn"
//! reduce == a kernel: "a list of edges of one kind, done in the listed order"
//! sweep  == the removal kernel of empty loops

use crate::answer::Refusal;
use crate::map::Map;
use crate::operation::{operate, Kind};

/// "the kernel's first failing edge, for which 7, 8, 9 or 10, 11"
pub fn judge(map: &Map, kind: Kind, edge: u32, place: usize) -> Result<(), Refusal> {
    if edge >= map.edges() {
        return Err(Refusal::NoSuchEdge { place });
    }
    let (p, q) = (2 * edge, 2 * edge + 1);
    if !map.survives(p) {
        return Err(Refusal::EdgeGone { place });
    }
    if kind == Kind::Contract && map.same_vertex(p, q) {
        return Err(Refusal::OneVertex { place });
    }
    if kind == Kind::Remove && map.same_face(p, q) {
        return Err(Refusal::OneFace { place });
    }
    if map.whole_piece(edge) {
        return Err(Refusal::WholePiece { place });
    }
    Ok(())
}

/// Does the edges one after another and gives their history numbers. After a refusal the map is good for nothing.
pub fn reduce(map: &mut Map, kind: Kind, edges: &[u32]) -> Result<Vec<u32>, Refusal> {
    let mut numbers = Vec::new();
    for (place, &edge) in edges.iter().enumerate() {
        judge(map, kind, edge, place)?;
        numbers.push(operate(map, kind, edge));
    }
    Ok(numbers)
}

/// "one pass over the edges by rising number, taking each surviving edge that at its turn is an empty loop (r = q or
/// s = p) and no whole piece." None is judged: "an empty loop always has two different faces" (request Seven of document
/// 02).
pub fn sweep(map: &mut Map) -> Vec<u32> {
    let mut numbers = Vec::new();
    for edge in 0..map.edges() {
        if map.survives(2 * edge) && map.empty_loop(edge) && !map.whole_piece(edge) {
            numbers.push(operate(map, Kind::Remove, edge));
        }
    }
    numbers
}
