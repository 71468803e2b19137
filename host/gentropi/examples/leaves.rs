//! The leaf calls on small inputs: `cargo run -p gentropi --example leaves`.

use gentropi::{
    Chains, ChunkToName, Cut, CutPoint, FilteredModule, IdBuf, Refusal, StaticFilter, Subgroups,
    capture_to_vec, chunk_name_to_vec, cut, filter, flag, limits, merge_to_vec, similarity,
};

fn main() -> Result<(), Refusal> {
    println!("similarity of two paths: {}", similarity(b"src/a", b"src/b")?);

    let ids = IdBuf::from_iter(["ui/a", "ui/b", "vendor/b"]);
    match cut(ids.as_ids(), &[10, 10, 10], 0.0, 20.0)? {
        Cut::At(CutPoint { index, left_size, right_size }) => {
            println!("cut after {index}: {left_size} and {right_size}");
        }
        Cut::FewerThanTwo => println!("no cut: fewer than two modules"),
        Cut::NoneAllowed => println!("no cut that is allowed"),
    }

    let at_most_10 = StaticFilter { max_module_size: Some(10.0), ..StaticFilter::default() };
    let module = FilteredModule { size: 11, ..FilteredModule::default() };
    println!("11 bytes where 10 are allowed: {}", filter(&at_most_10, module)?);

    // 0 depends on 1 and 3, 1 on 2; module 1 has been assigned before.
    let chains = Chains::from_lists([vec![1, 3], vec![2], vec![], vec![]]);
    let flags = [flag::ELIGIBLE, flag::ELIGIBLE | flag::ASSIGNED, flag::ELIGIBLE, flag::ELIGIBLE];
    println!("captured from 0: {:?}", capture_to_vec(chains.modules(&flags), 0, true)?);

    let bits = [[1, 0, 0, 0], [2, 0, 0, 0], [3, 0, 0, 0]];
    let subgroups = Subgroups { entries: 2, sizes: &[5, 100, 50], bits: &bits };
    for (number, merged) in merge_to_vec(subgroups, 10.0)?.into_iter().enumerate() {
        println!("subgroup {number} ended in {} with {} bytes", merged.number, merged.size);
    }

    println!("a chunk's name: {}", String::from_utf8_lossy(&name()?));

    // What doesn't fit is refused: two sizes for three ids.
    let refusal = cut(ids.as_ids(), &[10, 10], 0.0, 20.0).expect_err("the lengths differ");
    println!("{refusal}");
    Ok(())
}

/// The name of a chunk that has entries 0 and 2. No hash of it is needed, as it isn't cut.
fn name() -> Result<Vec<u8>, Refusal> {
    let (groups, entries) = (IdBuf::from_iter(["ui"]), IdBuf::from_iter(["shop", "docs", "guide"]));
    chunk_name_to_vec(&ChunkToName {
        group_names: groups.as_ids(),
        entry_names: entries.as_ids(),
        number: 0,
        entries_aware: true,
        bits: [0b101, 0, 0, 0],
        hash: &[0; limits::HASH_BYTES],
    })
}
