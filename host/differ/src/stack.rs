//! How much stack a call of the library takes.
//!
//! Each call is made on a thread of its own. The system gives a thread's stack memory page by page
//! as it is touched and tells in `/proc/self/pagemap` which pages are there, so the lowest of them
//! shows how deep the call went. A whole build is laid out beforehand, and its thread makes the call
//! and nothing else; what the caller of a leaf takes is in the figure.

use std::{
    fs::File,
    io::{self, Read, Seek, SeekFrom},
    sync::mpsc::channel,
    thread,
};

use chunklist::ReadyBuild;
use text::{Call, Chunks, Question};

use crate::{
    generate::{self, builds, damage, damage_build, large_build, largest},
    rng::Rng,
};

/// Below the size of a huge page, so that the stack is given in small ones.
const STACK: usize = 1 << 20;

/// How far down the stack is looked at; the rest is left to what lies above the call.
const LOOKED_AT: usize = STACK - (1 << 16);

const PAGE: usize = 4_096;

/// The deepest call of a kind.
#[derive(Debug, Default)]
pub struct Deepest {
    pub bytes: usize,
    /// What it was asked.
    pub what: String,
    /// How many calls there were.
    pub calls: u64,
}

/// The deepest accepted call and the deepest refused one.
#[derive(Debug, Default)]
pub struct Depths {
    pub accepted: Deepest,
    pub refused: Deepest,
}

/// Makes the timed shapes, the largest questions, so many random ones of each call, and damaged ones.
pub fn measure(cases: u64) -> io::Result<Depths> {
    let mut depths = Depths::default();
    for shape in shapes::ALL {
        for count in shape.counts {
            let name = format!("{} of {count} modules", shape.label);
            depths.note(&builds::question((shape.build)(*count)), &name)?;
        }
    }
    for call in Call::ALL {
        for question in largest::largest(call, &mut Rng::for_case(1, 0)) {
            depths.note(&question, &format!("a largest {}", call.word()))?;
        }
        for case in 0..cases {
            depths.random(call, case)?;
        }
    }
    for case in 0..26 {
        depths.large(case)?;
    }
    Ok(depths)
}

impl Depths {
    /// A random question, and a damaged copy.
    fn random(&mut self, call: Call, case: u64) -> io::Result<()> {
        let mut rng = Rng::for_case(2, case);
        let mut question = generate::plain(call, &mut rng);
        self.note(&question, &format!("a random {}", call.word()))?;
        if let Some(number) = damage::damage(&mut rng, &mut question) {
            self.note(&question, &format!("a {} refused with {number}", call.word()))?;
        }
        Ok(())
    }

    /// A random build of 4,096 modules and 65,535 records, and a damaged copy.
    fn large(&mut self, case: u64) -> io::Result<()> {
        let mut rng = Rng::for_case(3, case);
        let build = large_build::random(&mut rng, 4 * 4_096);
        self.note(&builds::question(build.clone()), "a random build of 4096 modules")?;
        let mut chunks = Box::new(Chunks { build, damage: text::Damage::default() });
        let number = 1 + (case % 13) as u32;
        if damage_build::plant(&mut rng, &mut chunks, number) {
            let what = format!("a build of 4096 modules refused with {number}");
            self.note(&Question::Chunks(chunks), &what)?;
        }
        Ok(())
    }

    fn note(&mut self, question: &Question, what: &str) -> io::Result<()> {
        let (bytes, accepted) = depth(question)?;
        let deepest = if accepted { &mut self.accepted } else { &mut self.refused };
        deepest.calls += 1;
        if bytes > deepest.bytes {
            (deepest.bytes, deepest.what) = (bytes, what.into());
        }
        Ok(())
    }
}

/// How many bytes of stack a call takes, down to the end of the lowest page that it touched, and
/// whether it is accepted.
fn depth(question: &Question) -> io::Result<(usize, bool)> {
    match question {
        Question::Chunks(chunks) => {
            let mut ready = ReadyBuild::new(chunks);
            depth_of(|| ready.call() == 0)
        }
        leaf => depth_of(|| chunklist::ask(leaf).outcome.is_ok()),
    }
}

/// Makes a call on a thread of its own and looks at the stack before that thread ends.
fn depth_of(call: impl FnOnce() -> bool + Send) -> io::Result<(usize, bool)> {
    thread::scope(|scope| {
        let (made, made_at) = channel();
        let (seen, until_seen) = channel::<()>();
        let work = move || {
            let top = 0_u8;
            let accepted = call();
            made.send((std::ptr::from_ref(&top).addr(), accepted)).map(|()| until_seen.recv())
        };
        thread::Builder::new().stack_size(STACK).spawn_scoped(scope, work)?;
        let (top, accepted) = made_at.recv().map_err(io::Error::other)?;
        let lowest = lowest_page(top)?;
        drop(seen);
        Ok((top - lowest, accepted))
    })
}

/// The beginning of the lowest page of the stack below this address that has memory.
fn lowest_page(top: usize) -> io::Result<usize> {
    let pages = LOOKED_AT / PAGE;
    let from = top / PAGE + 1 - pages;
    let mut entries = vec![0; 8 * pages];
    let mut file = File::open("/proc/self/pagemap")?;
    file.seek(SeekFrom::Start(8 * from as u64))?;
    file.read_exact(&mut entries)?;
    // The two highest bits: the page is in memory, or swapped out.
    let touched = entries.chunks_exact(8).position(|entry| entry[7] >> 6 != 0);
    Ok((from + touched.unwrap_or(pages - 1)) * PAGE)
}
