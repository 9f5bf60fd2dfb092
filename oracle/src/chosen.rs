//! Names that a stranger could choose to slow lookups down: they share bits, or all, of the symbol table's hash.
use std::collections::HashMap;

/// The factor of the symbol table's hash.
const FACTOR: u32 = 2_654_440_485;

/// The hash of a name; its lowest ten bits choose the bucket of a global, the lowest seven are kept with an entry of a function.
fn hash(name: &[u8]) -> u32 {
    name.iter().fold(0, |hash: u32, &b| hash.wrapping_mul(FACTOR).wrapping_add(u32::from(b)))
}

/// All names of three bytes of ASCII without 0.
fn triples() -> impl Iterator<Item = [u8; 3]> {
    let byte = || 1..128u8;
    byte().flat_map(move |a| byte().flat_map(move |b| byte().map(move |c| [a, b, c])))
}

/// So many names of three bytes that share a bucket.
pub fn of_one_bucket(count: usize) -> Vec<Vec<u8>> {
    triples().filter(|name| hash(name) % 1024 == 0).take(count).map(|name| name.to_vec()).collect()
}

/// So many names of seven bytes that share all 32 bits: first and last halves that meet.
pub fn of_one_hash(count: usize) -> Vec<Vec<u8>> {
    let power = FACTOR.wrapping_pow(4);
    let fronts: HashMap<_, _> = triples().map(|front| (hash(&front).wrapping_mul(power), front)).collect();
    let backs = (b'a'..=b'z').flat_map(|a| triples().map(move |[b, c, d]| [a, b, c, d]));
    let names = backs.filter_map(|back| Some([&fronts.get(&hash(&back).wrapping_neg())?[..], &back].concat()));
    let names: Vec<_> = names.take(count).collect();
    assert!(names.len() == count && names.iter().all(|name| hash(name) == 0));
    names
}
