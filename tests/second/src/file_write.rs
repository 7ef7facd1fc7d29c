//! renumbering == "A file has its own numbers"
//! bytes_of    == the file of a pyramid; "The writer writes F = 0."

use crate::map::{partner, Dart};
use crate::operation::{dart_of, kind_of, Kind};
use crate::pyramid::Pyramid;

/// The darts in the file's order, so that place i holds the dart that the file calls i. "the p and q of operation t,
/// t from 1, become 2t-2 and 2t-1; surviving edges follow by rising number, each even dart staying even."
pub fn file_order(pyramid: &Pyramid) -> Vec<Dart> {
    let mut order = Vec::new();
    for &number in pyramid.history() {
        let p = dart_of(number);
        order.extend([p, partner(p)]);
    }
    order.extend(pyramid.map().survivors());
    order
}

/// What the file calls each dart.
pub fn file_names(order: &[Dart]) -> Vec<Dart> {
    let mut names = vec![0; order.len()];
    for (name, &dart) in order.iter().enumerate() {
        names[dart as usize] = name as Dart;
    }
    names
}

/// "4. L lines `kernel=contract N` or `kernel=remove N`, N its count of operations."
fn kernel_line(numbers: &[u32]) -> String {
    let word = match kind_of(numbers[0]) {
        Kind::Contract => "contract",
        Kind::Remove => "remove",
    };
    format!("kernel={} {}\n", word, numbers.len())
}

/// "Lines of key=value in a fixed order, each ended by one line feed, nothing after the last."
pub fn bytes_of(pyramid: &Pyramid) -> Vec<u8> {
    let order = file_order(pyramid);
    let names = file_names(&order);
    let mut text = format!("numbers=0\ndarts={}\nlevels={}\n", order.len(), pyramid.top());
    text.extend(pyramid.kernels().map(kernel_line));
    // "Entries are renamed alike."
    let entry = |dart: Dart| names[pyramid.map().successor(dart) as usize];
    for pair in order.chunks(2) {
        text.push_str(&format!("pair={} {}\n", entry(pair[0]), entry(pair[1])));
    }
    text.into_bytes()
}
