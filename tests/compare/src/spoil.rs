//! spoiled == a file with one thing changed, or two: most are refused, some mean another pyramid

use crate::chance::Chance;
use std::ops::Range;

type Spoil = fn(Vec<u8>, &mut Chance) -> Vec<u8>;

const SPOILS: [(u32, Spoil); 13] = [
    (4, change_byte),
    (2, insert_byte),
    (2, drop_byte),
    (2, cut),
    (2, extend),
    (4, change_number),
    (6, change_head),
    (4, exchange_numbers),
    (2, exchange_lines),
    (1, drop_line),
    (1, double_line),
    (2, change_flag),
    (3, change_kind),
];

/// One thing changed; one time in five another one too. An empty file stays as it is.
pub fn spoiled(chance: &mut Chance, mut file: Vec<u8>) -> Vec<u8> {
    let times = if chance.one_in(5) { 2 } else { 1 };
    for _ in 0..times {
        let spoil = chance.weighed(&SPOILS);
        if !file.is_empty() {
            file = spoil(file, chance);
        }
    }
    file
}

/// A byte of the form's own, or any other.
fn any_byte(chance: &mut Chance) -> u8 {
    match chance.below(4) {
        0 => chance.below(256) as u8,
        1 => chance.pick(b"0123456789"),
        _ => chance.pick(b"01\n =-\r\tcr"),
    }
}

fn change_byte(mut file: Vec<u8>, chance: &mut Chance) -> Vec<u8> {
    let place = chance.place(file.len());
    file[place] = any_byte(chance);
    file
}

fn insert_byte(mut file: Vec<u8>, chance: &mut Chance) -> Vec<u8> {
    file.insert(chance.place(file.len()), any_byte(chance));
    file
}

fn drop_byte(mut file: Vec<u8>, chance: &mut Chance) -> Vec<u8> {
    file.remove(chance.place(file.len()));
    file
}

fn cut(mut file: Vec<u8>, chance: &mut Chance) -> Vec<u8> {
    file.truncate(chance.place(file.len()));
    file
}

/// Something after the last line.
fn extend(mut file: Vec<u8>, chance: &mut Chance) -> Vec<u8> {
    match chance.below(3) {
        0 => file.push(any_byte(chance)),
        1 => file.extend(b"pair=0 1\n"),
        _ => file.extend_from_within(..),
    }
    file
}

/// Where the numbers stand.
fn numbers(file: &[u8]) -> Vec<Range<usize>> {
    let mut found: Vec<Range<usize>> = Vec::new();
    for (place, byte) in file.iter().enumerate() {
        match found.last_mut() {
            Some(number) if byte.is_ascii_digit() && number.end == place => number.end += 1,
            _ if byte.is_ascii_digit() => found.push(place..place + 1),
            _ => (),
        }
    }
    found
}

fn change_number(file: Vec<u8>, chance: &mut Chance) -> Vec<u8> {
    let found = numbers(&file);
    change_one_of(file, &found, chance)
}

/// A number of the lines before the pairs, other than the flag.
fn change_head(file: Vec<u8>, chance: &mut Chance) -> Vec<u8> {
    let pairs = file.windows(5).position(|word| word == b"pair=").unwrap_or(file.len());
    let found = numbers(&file[..pairs]);
    change_one_of(file, found.get(1..).unwrap_or(&[]), chance)
}

/// Another number at one of these places, if there is any: a little off, at a limit, or in bad form.
fn change_one_of(mut file: Vec<u8>, places: &[Range<usize>], chance: &mut Chance) -> Vec<u8> {
    if places.is_empty() {
        return file;
    }
    let place = chance.pick(places);
    let old: u64 = String::from_utf8_lossy(&file[place.clone()]).parse().unwrap_or(0);
    let limits = ["0", "1", "3", "63", "64", "65", "65536", "65537", "65538", "99999", "100000"];
    let new = match chance.below(5) {
        0 => (old + 1).to_string(),
        1 => old.saturating_sub(1).to_string(),
        2 => chance.pick(&[String::new(), format!("0{old}"), "00".into()]),
        _ => chance.pick(&limits).into(),
    };
    file.splice(place, new.into_bytes());
    file
}

fn exchange_numbers(mut file: Vec<u8>, chance: &mut Chance) -> Vec<u8> {
    let found = numbers(&file);
    if found.len() < 2 {
        return file;
    }
    let (a, b) = (chance.pick(&found), chance.pick(&found));
    let (first, last) = if a.start <= b.start { (a, b) } else { (b, a) };
    let (of_first, of_last) = (file[first.clone()].to_vec(), file[last.clone()].to_vec());
    file.splice(last, of_first);
    file.splice(first, of_last);
    file
}

fn lines(file: &[u8]) -> Vec<Vec<u8>> {
    file.split_inclusive(|&byte| byte == b'\n').map(<[u8]>::to_vec).collect()
}

fn exchange_lines(file: Vec<u8>, chance: &mut Chance) -> Vec<u8> {
    let mut lines = lines(&file);
    let (a, b) = (chance.place(lines.len()), chance.place(lines.len()));
    lines.swap(a, b);
    lines.concat()
}

fn drop_line(file: Vec<u8>, chance: &mut Chance) -> Vec<u8> {
    let mut lines = lines(&file);
    lines.remove(chance.place(lines.len()));
    lines.concat()
}

fn double_line(file: Vec<u8>, chance: &mut Chance) -> Vec<u8> {
    let mut lines = lines(&file);
    let place = chance.place(lines.len());
    lines.insert(place, lines[place].clone());
    lines.concat()
}

/// Byte nine: the other flag over the same pairs, or none at all.
fn change_flag(mut file: Vec<u8>, chance: &mut Chance) -> Vec<u8> {
    if let Some(flag) = file.get_mut(8) {
        *flag = chance.pick(b"010123\n ");
    }
    file
}

/// A kernel of the other kind.
fn change_kind(file: Vec<u8>, chance: &mut Chance) -> Vec<u8> {
    let mut lines = lines(&file);
    let kernels: Vec<usize> = (0..lines.len()).filter(|&line| lines[line].starts_with(b"kernel=")).collect();
    if kernels.is_empty() {
        return file;
    }
    let line = &mut lines[chance.pick(&kernels)];
    let text = String::from_utf8_lossy(line).into_owned();
    let other = match text.strip_prefix("kernel=contract") {
        Some(count) => format!("kernel=remove{count}"),
        None => text.replacen("remove", "contract", 1),
    };
    *line = other.into_bytes();
    lines.concat()
}
