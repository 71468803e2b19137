//! Modules in folders of 25, without dependencies.

use text::{
    Module,
    drawn::{drawn, shuffled},
};

/// How many modules a folder has.
const FOLDER: u32 = 25;

/// Words that file names begin with.
const WORDS: [&str; 8] = ["index", "button", "list", "store", "format", "types", "reducer", "view"];

/// Where a folder lies.
#[derive(Clone, Copy, PartialEq, Eq)]
pub enum Area {
    /// Every second folder: a package, by its number.
    Vendor(u32),
    Ui,
    App,
}

/// The folder of a module.
pub fn folder(number: u32) -> u32 {
    number / FOLDER
}

/// The area of a module.
pub fn area(number: u32) -> Area {
    let folder = folder(number);
    match folder % 4 {
        0 | 2 => Area::Vendor(folder / 2),
        1 => Area::Ui,
        _ => Area::App,
    }
}

/// Modules folder by folder, in an execution order of their own.
pub fn modules(count: u32) -> Vec<Module> {
    let orders = shuffled(1, count);
    (0..count).map(|number| module(number, orders[number as usize])).collect()
}

/// Some 4,600 bytes on average; one to three of three entries reach it.
fn module(number: u32, order: u32) -> Module {
    let bits = u64::from(1 + drawn(2, number) % 7);
    Module {
        flags: 3,
        size: u64::from(200 + drawn(3, number) % 8_800),
        order,
        share_count: bits.count_ones(),
        tags: 1,
        bits: [bits, 0, 0, 0],
        first_record: 0,
        id: id(number).into_bytes(),
    }
}

fn id(number: u32) -> String {
    let word = WORDS[drawn(4, number) as usize % WORDS.len()];
    let folder = folder(number);
    match area(number) {
        Area::Vendor(_) => format!("node_modules/package{folder:03}/lib/{word}{number}.js"),
        Area::Ui => format!("src/ui/panel{folder:03}/{word}{number}.tsx"),
        Area::App => format!("src/app/part{folder:03}/{word}{number}.ts"),
    }
}
