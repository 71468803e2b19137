//! The functions of the static library, as C sees them.
//!
//! A slice is a pointer and then its length in items. Each function answers 0, or the number of
//! a refusal, and then nothing behind a `*mut` has changed. None has a condition on what it is
//! handed: the library tests it. [`raw`](crate::raw) wraps each in a function that is safe to call.
//!
//! `include/gentropi.h` declares the same for C.
//!
//! ```
//! use gentropi::sys;
//!
//! let (lhs, rhs, mut score) = (b"a", b"j", 9);
//! // SAFETY: both slices and the place are live, and the place is lent to this call alone.
//! let number = unsafe {
//!     sys::gentropi_similarity(lhs.as_ptr(), lhs.len(), rhs.as_ptr(), rhs.len(), &mut score)
//! };
//! assert_eq!((number, score), (0, 1));
//! ```
//!
//! # Safety
//!
//! What a caller owes is the same for all: a `*const T` points to as many readable items as the
//! length after it says, a `*mut T` to as many that may be written and that nothing else reaches
//! during the call, and a pointer without a length after it to one item. Pointers are aligned and
//! not null, also where the length is 0, and items are initialised.

unsafe extern "C" {
    /// Similarity of two ids. Writes `score`.
    pub fn gentropi_similarity(
        lhs: *const u8,
        lhs_len: usize,
        rhs: *const u8,
        rhs_len: usize,
        score: *mut u32,
    ) -> u32;

    /// Cut of `n` modules. Writes `why_none`: 0 if there is a cut, and then the three others too, 1 if
    /// there are fewer than two modules, 2 if there are more and no cut is allowed.
    pub fn gentropi_cut(
        n: usize,
        bytes: *const u8,
        bytes_len: usize,
        offsets: *const u32,
        offsets_len: usize,
        sizes: *const u64,
        sizes_len: usize,
        minimum: f64,
        maximum: f64,
        why_none: *mut u8,
        index: *mut usize,
        left: *mut f64,
        right: *mut f64,
    ) -> u32;

    /// Filter on one module; the number after a `false` is not read. Writes `passes`.
    pub fn gentropi_filter(
        mask: u64,
        has_min: bool,
        min_module_size: f64,
        has_max: bool,
        max_module_size: f64,
        has_shares: bool,
        min_share_count: u32,
        tags: u64,
        size: u64,
        share_count: u32,
        passes: *mut bool,
    ) -> u32;

    /// Capture of the module `from` among `n` modules with `d` records. Writes the first `n`
    /// marks, and zeros into all of `scratch`.
    pub fn gentropi_capture(
        n: usize,
        d: usize,
        recursive: bool,
        from: u32,
        flags: *const u8,
        flags_len: usize,
        first: *const u32,
        first_len: usize,
        dependency: *const u32,
        dependency_len: usize,
        next: *const u32,
        next_len: usize,
        marks: *mut u8,
        marks_len: usize,
        scratch: *mut u32,
        scratch_len: usize,
    ) -> u32;

    /// Merge of `k` subgroups. Writes the first `k` numbers and sizes and `4 * k` words of bits.
    pub fn gentropi_merge(
        k: usize,
        entries: usize,
        sizes: *const u64,
        sizes_len: usize,
        bits: *const u64,
        bits_len: usize,
        threshold: f64,
        final_numbers: *mut u32,
        final_numbers_len: usize,
        final_sizes: *mut u64,
        final_sizes_len: usize,
        final_bits: *mut u64,
        final_bits_len: usize,
    ) -> u32;

    /// Chunks of a whole build: `n` modules, `g` groups, `e` entries, `k` names and `d` records. A
    /// byte of what is given sums 1 `min_size`, 2 `max_size`, 4 `min_module_size`,
    /// 8 `max_module_size`, 16 `min_share_count`, 32 recursion is given, 64 it is on, and of a group
    /// 128 `entries_aware`; the number of an option that isn't given is not read. Writes the first
    /// `n` items of `chunk_of` and `next_of`, as many records as there are new chunks, zeros into
    /// all of `scratch`, and `count`. In `mark_of` 0 is a chunk within its maximum or without one, 1
    /// one above it with one module, 2 one above it of which no cut is allowed.
    /// [`needs`](crate::needs) says how much stack it takes.
    pub fn gentropi_chunks(
        n: usize,
        g: usize,
        e: usize,
        k: usize,
        d: usize,
        flags: *const u8,
        flags_len: usize,
        sizes: *const u64,
        sizes_len: usize,
        orders: *const u32,
        orders_len: usize,
        shares: *const u32,
        shares_len: usize,
        tags: *const u64,
        tags_len: usize,
        bits: *const u64,
        bits_len: usize,
        bytes: *const u8,
        bytes_len: usize,
        offsets: *const u32,
        offsets_len: usize,
        first: *const u32,
        first_len: usize,
        dependency: *const u32,
        dependency_len: usize,
        next: *const u32,
        next_len: usize,
        given: u8,
        min_size: f64,
        max_size: f64,
        min_module_size: f64,
        max_module_size: f64,
        min_share_count: u32,
        group_given: *const u8,
        group_given_len: usize,
        group_min_size: *const f64,
        group_min_size_len: usize,
        group_max_size: *const f64,
        group_max_size_len: usize,
        group_min_module_size: *const f64,
        group_min_module_size_len: usize,
        group_max_module_size: *const f64,
        group_max_module_size_len: usize,
        group_min_share_count: *const u32,
        group_min_share_count_len: usize,
        group_tags: *const u64,
        group_tags_len: usize,
        group_priority: *const u32,
        group_priority_len: usize,
        group_threshold: *const f64,
        group_threshold_len: usize,
        answers: *const u32,
        answers_len: usize,
        on_entry: usize,
        chunk_of: *mut u32,
        chunk_of_len: usize,
        next_of: *mut u32,
        next_of_len: usize,
        first_of: *mut u32,
        first_of_len: usize,
        group_of: *mut u32,
        group_of_len: usize,
        name_of: *mut u32,
        name_of_len: usize,
        size_of: *mut f64,
        size_of_len: usize,
        bits_of: *mut u64,
        bits_of_len: usize,
        mark_of: *mut u8,
        mark_of_len: usize,
        scratch: *mut u32,
        scratch_len: usize,
        count: *mut usize,
    ) -> u32;

    /// Name of a chunk, among `k` names of groups and `e` names of entries. Writes the name to the
    /// front of `name`, and how many bytes it has into `length`.
    pub fn gentropi_name(
        k: usize,
        e: usize,
        group_names: *const u8,
        group_names_len: usize,
        group_offsets: *const u32,
        group_offsets_len: usize,
        entry_names: *const u8,
        entry_names_len: usize,
        entry_offsets: *const u32,
        entry_offsets_len: usize,
        number: u32,
        entries_aware: bool,
        word0: u64,
        word1: u64,
        word2: u64,
        word3: u64,
        hash: *const u8,
        hash_len: usize,
        name: *mut u8,
        name_len: usize,
        length: *mut usize,
    ) -> u32;
}
