//! 4,096 modules of a random build.

use text::Module;

use super::{
    build_parts::repeat_outside,
    ids,
    largest::{MODULES, full_sizes},
    merge,
    numbers::TOTAL,
    records::index,
};
use crate::rng::Rng;

/// Modules with so many entries, of which so many different bits are drawn. One in 4^k modules has
/// tag k, and one in 2^k a share count of at least k.
pub fn modules(rng: &mut Rng, entries: u64, kinds: usize) -> Vec<Module> {
    let most = rng.pick(&[2, 8, 40]);
    let bits: Vec<[u64; 4]> = (0..kinds).map(|_| merge::bits(rng, entries, most)).collect();
    let step = rng.pick(&[1, 3, 1_000_000]);
    let mut orders: Vec<u32> = (0..index(MODULES)).map(|order| order * step).collect();
    rng.shuffle(&mut orders);
    let (odd, sizes) = (rng.pick(&[3, 9, 97, 1 << 40]), sizes(rng));
    let long_ids = rng.one_in(4);
    let mut modules: Vec<Module> = Vec::new();
    for number in 0..MODULES {
        modules.push(Module {
            flags: if rng.one_in(odd) { rng.pick(&[0, 1, 2, 5, 6, 7, 7, 7]) } else { 3 },
            size: sizes[number],
            order: orders[number],
            share_count: rng.word().trailing_zeros(),
            tags: tags(rng),
            bits: rng.pick(&bits),
            first_record: 0,
            id: id(rng, number, long_ids),
        });
    }
    if sizes.iter().sum::<u64>() == TOTAL {
        fill_up(&mut modules);
    }
    repeat_outside(rng, &mut modules);
    modules
}

/// Sizes that add to 2^53, or small ones.
fn sizes(rng: &mut Rng) -> Vec<u64> {
    match rng.pick(&[0, 2, 9_000, 9_000, 1_000_000]) {
        0 => full_sizes(rng, MODULES),
        most => (0..MODULES).map(|_| rng.between(0, most)).collect(),
    }
}

/// Makes the sizes of those that take part add to 2^53.
fn fill_up(modules: &mut [Module]) {
    let mut taking_part = modules.iter_mut().filter(|module| module.flags & 3 == 3);
    let Some(first) = taking_part.next() else { return };
    let others: u64 = taking_part.map(|module| module.size).sum();
    first.size = TOTAL - others;
}

/// Tag 0, and each further tag with one fourth of those that have the one before.
fn tags(rng: &mut Rng) -> u64 {
    let highest = rng.word().trailing_zeros() / 2;
    (1 << (highest + 1)) - 1
}

/// A path that ends in the number, so no two are the same; now and then up to 1,024 bytes long.
fn id(rng: &mut Rng, number: usize, long_ids: bool) -> Vec<u8> {
    let mut id = match rng.below(3) {
        0 => format!("src/{:02}/{}/", number % 50, number % 9).into_bytes(),
        1 => b"node_modules/".to_vec(),
        _ => ids::plain(rng, 12),
    };
    if long_ids && rng.one_in(64) {
        id.resize(rng.pick(&[300, 1_019]), b'x');
    }
    id.extend(format!("m{number:04}").into_bytes());
    id
}
