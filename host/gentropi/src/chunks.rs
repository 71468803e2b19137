//! The chunk list of a whole build.

use crate::{EntryBits, GroupBuf, Ids, Mark, Modules, Options, Refusal, needs, raw};

/// A whole build.
#[derive(Debug, Clone, Copy)]
pub struct Build<'a> {
    /// Flag bytes and dependency records.
    pub modules: Modules<'a>,
    /// The stable id of each module.
    pub ids: Ids<'a>,
    /// The size of each module.
    pub sizes: &'a [u64],
    /// The execution order of each module.
    pub orders: &'a [u32],
    /// How many entries reach each module.
    pub shares: &'a [u32],
    /// The tags of each module.
    pub tags: &'a [u64],
    /// The entries of each module.
    pub bits: &'a [EntryBits],
    /// How many entries there are.
    pub entries: usize,
    /// How many names there are.
    pub names: usize,
    /// The options of the build as a whole.
    pub options: Options,
    /// The groups.
    pub groups: &'a GroupBuf,
    /// Group by group one answer for each module: 0 not matched, 1 matched without a name, 2 and
    /// more the name with that number less 2.
    pub answers: &'a [u32],
    /// How many chunks there are already.
    pub on_entry: usize,
}

impl<'a> Build<'a> {
    /// The tables of the call; the counts are those that the tables have room for.
    ///
    /// ```
    /// # use gentropi::{Build, Chains, Group, GroupBuf, IdBuf, Options, flag::ELIGIBLE};
    /// # let (ids, chains) = (IdBuf::from_iter(["a"]), Chains::from_lists([vec![]]));
    /// # let groups = GroupBuf::from_iter([Group::default()]);
    /// let build = Build {
    ///     sizes: &[7],
    /// #   modules: chains.modules(&[ELIGIBLE]), ids: ids.as_ids(), answers: &[0], orders: &[0],
    /// #   shares: &[1], tags: &[0], bits: &[[1, 0, 0, 0]], entries: 1, names: 1,
    /// #   options: Options::default(), groups: &groups, on_entry: 0,
    ///     // one module, one group
    /// };
    /// let tables = build.tables();
    /// assert_eq!((tables.n, tables.g, tables.sizes), (1, 1, &[7][..]));
    /// ```
    pub fn tables(&self) -> raw::ChunksTables<'a> {
        let Modules { flags, first, dependency, next } = self.modules;
        let groups = self.groups.as_tables();
        raw::ChunksTables {
            n: flags.len(),
            g: groups.given.len(),
            e: self.entries,
            k: self.names,
            d: next.len().saturating_sub(1),
            flags,
            sizes: self.sizes,
            orders: self.orders,
            shares: self.shares,
            tags: self.tags,
            bits: self.bits.as_flattened(),
            bytes: self.ids.bytes,
            offsets: self.ids.offsets,
            first,
            dependency,
            next,
            options: self.options.numbers(),
            groups,
            answers: self.answers,
            on_entry: self.on_entry,
        }
    }

    /// How many words of scratch the call needs (see [`needs::chunks_scratch_words`]).
    ///
    /// ```
    /// # use gentropi::{Build, Chains, Group, GroupBuf, IdBuf, Options, flag::ELIGIBLE};
    /// # let (ids, chains) = (IdBuf::from_iter(["a"]), Chains::from_lists([vec![]]));
    /// # let groups = GroupBuf::from_iter([Group::default()]);
    /// let build = Build {
    ///     answers: &[2],
    /// #   modules: chains.modules(&[ELIGIBLE]), ids: ids.as_ids(), sizes: &[1], orders: &[0],
    /// #   shares: &[1], tags: &[0], bits: &[[1, 0, 0, 0]], entries: 1, names: 1,
    /// #   options: Options::default(), groups: &groups, on_entry: 0,
    ///     // one module, one group, one name
    /// };
    /// assert_eq!(build.scratch_words(), 33);
    /// ```
    pub fn scratch_words(&self) -> usize {
        needs::chunks_scratch_words(self.answers, self.modules.flags.len())
    }
}

/// The areas that [`chunks`] writes. The first eight need as many items as there are modules, the
/// last as many as [`Build::scratch_words`] says.
#[derive(Debug, PartialEq)]
pub struct ChunksAreas<'a> {
    /// The chunk of each module plus 1, or 0.
    pub chunk_of: &'a mut [u32],
    /// The module after each in its chunk plus 1, or 0.
    pub next_of: &'a mut [u32],
    /// The first module of each new chunk plus 1.
    pub first_of: &'a mut [u32],
    /// The group of each new chunk.
    pub group_of: &'a mut [u32],
    /// The name of each new chunk.
    pub name_of: &'a mut [u32],
    /// The size of each new chunk.
    pub size_of: &'a mut [f64],
    /// The entries of each new chunk.
    pub bits_of: &'a mut [EntryBits],
    /// The number of each new chunk's [`Mark`].
    pub mark_of: &'a mut [u8],
    /// All of it ends as zeros.
    pub scratch: &'a mut [u32],
}

/// Divides the modules of a build among new chunks, writes them, and answers how many there are.
///
/// Items of the areas past the modules, or past the new chunks, keep their content. [`needs`] says how
/// long the areas have to be, and how much stack the call takes.
///
/// # Errors
///
/// Refused with 1 to 13. There are as many modules as flag bytes.
///
/// ```
/// use gentropi::{Build, Chains, ChunksAreas, Group, GroupBuf, IdBuf, Mark, Options};
/// use gentropi::{chunks, flag, needs};
///
/// // Two modules, of which the first depends on the second, and a group that matches the first.
/// let ids = IdBuf::from_iter(["a", "b"]);
/// let chains = Chains::from_lists([vec![1], vec![]]);
/// let groups = GroupBuf::from_iter([Group::default()]);
/// let build = Build {
///     modules: chains.modules(&[flag::ELIGIBLE; 2]),
///     ids: ids.as_ids(),
///     sizes: &[5, 7],
///     orders: &[1, 0],
///     shares: &[1, 1],
///     tags: &[0, 0],
///     bits: &[[1, 0, 0, 0]; 2],
///     entries: 1,
///     names: 1,
///     options: Options::default(),
///     groups: &groups,
///     answers: &[2, 0],
///     on_entry: 4,
/// };
/// let items = needs::chunks_items(2);
/// let (mut chunk_of, mut next_of, mut first_of) = (vec![9; items], vec![9; items], vec![9; items]);
/// let (mut group_of, mut name_of) = (vec![9; items], vec![9; items]);
/// let (mut size_of, mut bits_of) = (vec![9.0; items], vec![[9; 4]; items]);
/// let mut mark_of = vec![9; items];
/// let areas = ChunksAreas {
///     chunk_of: &mut chunk_of,
///     next_of: &mut next_of,
///     first_of: &mut first_of,
///     group_of: &mut group_of,
///     name_of: &mut name_of,
///     size_of: &mut size_of,
///     bits_of: &mut bits_of,
///     mark_of: &mut mark_of,
///     scratch: &mut vec![9; build.scratch_words()],
/// };
/// assert_eq!(chunks(&build, areas), Ok(1));
/// // Both are in chunk 4, numbered plus 1: module 1 first, then module 0, which is the last.
/// assert_eq!((chunk_of, first_of, next_of), (vec![5, 5], vec![2, 9], vec![0, 1]));
/// assert_eq!((size_of, bits_of[0]), (vec![12.0, 9.0], [1, 0, 0, 0]));
/// // It has no maximum.
/// assert_eq!(mark_of, [Mark::Within.number(), 9]);
/// ```
pub fn chunks(build: &Build<'_>, areas: ChunksAreas<'_>) -> Result<usize, Refusal> {
    let mut count = 0;
    let areas = raw::ChunksAreas {
        chunk_of: areas.chunk_of,
        next_of: areas.next_of,
        first_of: areas.first_of,
        group_of: areas.group_of,
        name_of: areas.name_of,
        size_of: areas.size_of,
        bits_of: areas.bits_of.as_flattened_mut(),
        mark_of: areas.mark_of,
        scratch: areas.scratch,
        count: &mut count,
    };
    Refusal::check(raw::chunks(&build.tables(), areas))?;
    Ok(count)
}

/// A new chunk.
#[derive(Debug, Clone, PartialEq)]
pub struct Chunk {
    /// Its number, which goes on from the count on entry.
    pub number: usize,
    /// The group that it was made for.
    pub group: u32,
    /// Its name.
    pub name: u32,
    /// Its size.
    pub size: f64,
    /// Its entries.
    pub bits: EntryBits,
    /// Whether it is above its maximum, and why.
    pub mark: Mark,
    /// Its modules in execution order.
    pub modules: Vec<u32>,
}

/// As [`chunks`], with areas of its own: the new chunks in the order in which they were made.
///
/// # Errors
///
/// Refused with 1 to 11.
///
/// ```
/// use gentropi::{Build, Chains, Group, GroupBuf, IdBuf, Mark, Options};
/// use gentropi::{chunks_to_vec, flag::ELIGIBLE};
///
/// // Two modules, of which the first depends on the second, and a group that matches the first. Its
/// // maximum is 11, and no cut leaves 6 on both sides.
/// let ids = IdBuf::from_iter(["a", "b"]);
/// let chains = Chains::from_lists([vec![1], vec![]]);
/// let options = Options { min_size: Some(6.0), max_size: Some(11.0), ..Options::default() };
/// let groups = GroupBuf::from_iter([Group { options, ..Group::default() }]);
/// let build = Build {
///     modules: chains.modules(&[ELIGIBLE; 2]),
///     ids: ids.as_ids(),
///     sizes: &[5, 7],
///     orders: &[1, 0],
///     shares: &[1, 1],
///     tags: &[0, 0],
///     bits: &[[1, 0, 0, 0]; 2],
///     entries: 1,
///     names: 1,
///     options: Options::default(),
///     groups: &groups,
///     answers: &[2, 0],
///     on_entry: 4,
/// };
/// let chunks = chunks_to_vec(&build).unwrap();
/// assert_eq!(chunks.len(), 1);
/// assert_eq!((chunks[0].number, chunks[0].size), (4, 12.0));
/// assert_eq!(chunks[0].mark, Mark::NoCutAllowed);
/// assert_eq!(chunks[0].modules, [1, 0]);
/// ```
pub fn chunks_to_vec(build: &Build<'_>) -> Result<Vec<Chunk>, Refusal> {
    let n = build.modules.flags.len();
    let numbers = || vec![0; n];
    let (mut chunk_of, mut next_of, mut first_of) = (numbers(), numbers(), numbers());
    let (mut group_of, mut name_of) = (numbers(), numbers());
    let (mut size_of, mut bits_of, mut mark_of) = (vec![0.0; n], vec![[0; 4]; n], vec![0; n]);
    let areas = ChunksAreas {
        chunk_of: &mut chunk_of,
        next_of: &mut next_of,
        first_of: &mut first_of,
        group_of: &mut group_of,
        name_of: &mut name_of,
        size_of: &mut size_of,
        bits_of: &mut bits_of,
        mark_of: &mut mark_of,
        scratch: &mut vec![0; build.scratch_words()],
    };
    let count = chunks(build, areas)?;
    let chunk = |record: usize| Chunk {
        number: build.on_entry + record,
        group: group_of[record],
        name: name_of[record],
        size: size_of[record],
        bits: bits_of[record],
        mark: Mark::numbered(mark_of[record]).expect("the library is proved to write no other"),
        modules: chain(first_of[record], &next_of),
    };
    Ok((0..count).map(chunk).collect())
}

/// The modules from one on, each written plus 1.
fn chain(first: u32, next_of: &[u32]) -> Vec<u32> {
    let next = |module: &u32| next_of[*module as usize].checked_sub(1);
    std::iter::successors(first.checked_sub(1), next).collect()
}
