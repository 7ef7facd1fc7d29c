//! partner d   == the other dart of d's edge
//! Map         == a table entry of every dart and the set of surviving darts
//! successor d == d's table entry; its cycles are the vertices
//! face_next d == "the successor of its partner"; its cycles are the faces
//! before x    == "the one surviving dart that leads to x"

/// A dart, 0 to D-1.
pub type Dart = u32;

/// "The partner of an even dart is one more, of an odd dart one less."
pub fn partner(d: Dart) -> Dart {
    if d.is_multiple_of(2) {
        d + 1
    } else {
        d - 1
    }
}

/// One map in full.
#[derive(Clone, Debug)]
pub struct Map {
    table: Vec<Dart>,
    survives: Vec<bool>,
    /// For each dart x the surviving dart that was last seen leading to x.
    before: Vec<Option<Dart>>,
}

impl Map {
    /// The map of a table whose entries are all darts.
    pub fn new(table: &[Dart], survives: Vec<bool>) -> Map {
        let mut before = vec![None; table.len()];
        for (d, &x) in table.iter().enumerate() {
            if survives[d] {
                before[x as usize] = Some(d as Dart);
            }
        }
        Map { table: table.to_vec(), survives, before }
    }

    /// Every dart's entry. "gone darts keep old entries"
    pub fn table(&self) -> &[Dart] {
        &self.table
    }

    pub fn edges(&self) -> u32 {
        self.table.len() as u32 / 2
    }

    pub fn survives(&self, d: Dart) -> bool {
        self.survives[d as usize]
    }

    pub fn survivors(&self) -> impl Iterator<Item = Dart> + '_ {
        (0..self.table.len() as Dart).filter(|&d| self.survives(d))
    }

    /// "The table gives each dart its successor."
    pub fn successor(&self, d: Dart) -> Dart {
        self.table[d as usize]
    }

    /// "The face-next of d is the successor of its partner"
    pub fn face_next(&self, d: Dart) -> Dart {
        self.successor(partner(d))
    }

    /// "the one surviving dart that leads to x; gone darts keep old entries and do not count"
    pub fn before(&self, x: Dart) -> Option<Dart> {
        self.before[x as usize].filter(|&d| self.survives(d) && self.successor(d) == x)
    }

    /// From now on d leads to x.
    pub fn lead(&mut self, d: Dart, x: Dart) {
        self.table[d as usize] = x;
        self.before[x as usize] = Some(d);
    }

    /// p and its partner are gone. "The table entries of p and q are left as they stand"
    pub fn leave(&mut self, p: Dart) {
        self.survives[p as usize] = false;
        self.survives[partner(p) as usize] = false;
    }

    /// p and its partner survive again and lead where their entries say.
    pub fn bring_back(&mut self, p: Dart) {
        for d in [p, partner(p)] {
            self.survives[d as usize] = true;
            self.lead(d, self.successor(d));
        }
    }

    /// "Its cycles are the vertices." Asked of survivors only.
    pub fn same_vertex(&self, p: Dart, q: Dart) -> bool {
        same_cycle(|d| self.successor(d), p, q)
    }

    /// "Its cycles are the faces." Asked of survivors only.
    pub fn same_face(&self, p: Dart, q: Dart) -> bool {
        same_cycle(|d| self.face_next(d), p, q)
    }

    /// "the edge is a whole piece: r = p and s = q, or r = q and s = p"
    pub fn whole_piece(&self, edge: u32) -> bool {
        let (p, q) = (2 * edge, 2 * edge + 1);
        let (r, s) = (self.successor(p), self.successor(q));
        (r == p && s == q) || (r == q && s == p)
    }

    /// "an empty loop (r = q or s = p)"
    pub fn empty_loop(&self, edge: u32) -> bool {
        let (p, q) = (2 * edge, 2 * edge + 1);
        self.successor(p) == q || self.successor(q) == p
    }
}

/// Are the different darts p and q on one cycle? Both cycles are walked at once: whoever comes to the other's start
/// first has met it, whoever comes home first has not.
fn same_cycle(step: impl Fn(Dart) -> Dart, p: Dart, q: Dart) -> bool {
    let (mut from_p, mut from_q) = (step(p), step(q));
    while from_p != p && from_p != q && from_q != p && from_q != q {
        from_p = step(from_p);
        from_q = step(from_q);
    }
    from_p == q || from_q == p
}
