//! The entries that reach each module.

/// Entry bits: entry 0 is the lowest bit of the first word. An entry that has no place in the four
/// words is left out: the library refuses the count.
pub fn set_bit(bits: &mut [u64; 4], entry: usize) {
    if let Some(word) = bits.get_mut(entry / 64) {
        *word |= 1 << (entry % 64);
    }
}

/// How many entries there are in a set.
pub fn count(bits: [u64; 4]) -> u32 {
    bits.iter().map(|word| word.count_ones()).sum()
}

/// The bits of the entries whose modules lead to each module. Only modules that take part, the
/// normal included ones, are reached and lead on.
pub fn reaching(needs: &[Vec<usize>], takes_part: &[bool], starts: &[usize]) -> Vec<[u64; 4]> {
    let mut bits = vec![[0; 4]; needs.len()];
    for (entry, start) in starts.iter().enumerate() {
        for module in reached(needs, takes_part, *start) {
            set_bit(&mut bits[module], entry);
        }
    }
    bits
}

/// The modules that one leads to, itself included.
fn reached(needs: &[Vec<usize>], takes_part: &[bool], start: usize) -> Vec<usize> {
    let mut met = vec![false; needs.len()];
    let mut modules: Vec<usize> = Vec::new();
    let mut to_visit = vec![start];
    while let Some(module) = to_visit.pop() {
        if takes_part[module] && !met[module] {
            met[module] = true;
            modules.push(module);
            to_visit.extend(&needs[module]);
        }
    }
    modules
}

#[cfg(test)]
mod tests {
    use super::{count, reaching, set_bit};

    #[test]
    fn entries_follow_what_is_needed() {
        let needs = [vec![1], vec![2], vec![], vec![2]];
        let bits = reaching(&needs, &[true; 4], &[0, 3]);
        assert_eq!(bits.iter().map(|bits| bits[0]).collect::<Vec<_>>(), [1, 1, 3, 2]);
    }

    #[test]
    fn a_module_without_a_part_leads_nowhere() {
        let needs = [vec![1], vec![2], vec![]];
        let bits = reaching(&needs, &[true, false, true], &[0]);
        assert_eq!(bits.iter().map(|bits| bits[0]).collect::<Vec<_>>(), [1, 0, 0]);
    }

    #[test]
    fn bits_go_through_four_words() {
        let mut bits = [0; 4];
        [0, 64, 255, 256].into_iter().for_each(|entry| set_bit(&mut bits, entry));
        assert_eq!((bits, count(bits)), ([1, 1, 0, 1 << 63], 3));
    }
}
