//! The calls of the C interface, one to one, over slices of any length: not null and not overlapping by their types.
//!
//! Numbers are bare here: an answer's stands in the header `lovarntek.h`, an order is 0 to 6 or 9. A record is a slice too: one of another length than 2 is
//! answered 8 where a table's wrong length would be, and left as it is.

/// An answer's number, and its frame (0 unless the number is 0).
#[repr(C)]
#[derive(Clone, Copy, Debug, PartialEq, Eq)]
pub struct Answered {
    /// 0 to 14.
    pub number: u64,
    /// The block's first frame; 0 unless the number is 0.
    pub frame: u64,
}

/// The last answer of a run, and the steps that it made.
#[repr(C)]
#[derive(Clone, Copy, Debug, PartialEq, Eq)]
pub struct Ran {
    /// 0 to 14; 1 when the steps allowed were too few.
    pub number: u64,
    /// The block's first frame; 0 unless the number is 0.
    pub frame: u64,
    /// How many steps the run made.
    pub steps: u64,
}

/// Declares C functions over tables, and methods of the same name that lend them.
macro_rules! calls {
    ($($(#[$doc:meta])* $name:ident = $symbol:ident($header:tt, $words:tt, $others:tt; $($record:ident)?; $($number:ident),*) -> $answer:ty;)*) => {
        unsafe extern "C" {
            $(fn $symbol(
                header: calls!(@type $header u64), headers: usize,
                words: calls!(@type $words u64), words_length: usize,
                children: calls!(@type $others u16), children_length: usize,
                trees: calls!(@type $others u16), trees_length: usize,
                cpus: calls!(@type $others u64), cpus_length: usize,
                $($record: *mut u64, record_length: usize,)?
                $($number: u64,)*
            ) -> $answer;)*
        }

        impl Tables<'_> {
            $($(#[$doc])* pub fn $name(&mut self, $($record: &mut [u64],)? $($number: u64,)*) -> $answer {
                // Every pointer comes from a slice, with its length: not null, and none overlaps another, since all are lent mutably.
                unsafe {
                    $symbol(
                        calls!(@pointer $header self.header), self.header.len(),
                        calls!(@pointer $words self.words), self.words.len(),
                        calls!(@pointer $others self.children), self.children.len(),
                        calls!(@pointer $others self.trees), self.trees.len(),
                        calls!(@pointer $others self.cpus), self.cpus.len(),
                        $($record.as_mut_ptr(), $record.len(),)?
                        $($number,)*
                    )
                }
            })*
        }
    };
    (@type mut $entry:ty) => { *mut $entry };
    (@type const $entry:ty) => { *const $entry };
    (@pointer mut $table:expr) => { $table.as_mut_ptr() };
    (@pointer const $table:expr) => { $table.as_ptr() };
}

/// The five tables, lent as slices of their own width.
#[derive(Debug)]
pub struct Tables<'a> {
    /// One entry.
    pub header: &'a mut [u64],
    /// 8 n entries.
    pub words: &'a mut [u64],
    /// n entries.
    pub children: &'a mut [u16],
    /// n / 32 entries, rounded up.
    pub trees: &'a mut [u16],
    /// 1 to 64 entries.
    pub cpus: &'a mut [u64],
}

calls! {
    /// Create's first step.
    create = lovarntek_create(mut, const, const; record; n) -> Answered;
    /// A later step of create, with n again.
    create_step = lovarntek_create_step(mut, mut, mut; record; n) -> Answered;
    /// Up to max(1, fuel) later steps of create.
    create_run = lovarntek_create_run(mut, mut, mut; record; n, fuel) -> Ran;
    /// Open's first step.
    open = lovarntek_open(mut, const, const; record;) -> Answered;
    /// A later step of open.
    open_step = lovarntek_open_step(const, const, mut; record;) -> Answered;
    /// Up to max(1, fuel) later steps of open.
    open_run = lovarntek_open_run(const, const, mut; record; fuel) -> Ran;
    /// Close, one step.
    close = lovarntek_close(mut, const, const;;) -> Answered;
    /// What close would answer, without its store.
    settled = lovarntek_settled(const, const, const;;) -> Answered;
    /// Begins a get.
    get = lovarntek_get(const, const, const; record; cpu, order) -> Answered;
    /// Begins a put.
    put = lovarntek_put(const, const, const; record; cpu, frame, order) -> Answered;
    /// A step of a get or put.
    step = lovarntek_step(const, mut, mut; record;) -> Answered;
    /// Up to max(1, fuel) steps of a get or put.
    run = lovarntek_run(const, mut, mut; record; fuel) -> Ran;
    /// Begins a get and, if that is answered 1, makes up to `fuel` steps of it. The steps are 0 where the beginning is refused.
    get_run = lovarntek_get_run(const, mut, mut; record; cpu, order, fuel) -> Ran;
    /// Begins a put and, if that is answered 1, makes up to `fuel` steps of it. The steps are 0 where the beginning is refused.
    put_run = lovarntek_put_run(const, mut, mut; record; cpu, frame, order, fuel) -> Ran;
}

mod lengths {
    unsafe extern "C" {
        pub safe fn lovarntek_words(n: u64) -> u64;
        pub safe fn lovarntek_children(n: u64) -> u64;
        pub safe fn lovarntek_trees(n: u64) -> u64;
    }
}

/// The words of `n` huge frames; 0 where there is no such zone.
pub fn words(n: u64) -> u64 {
    lengths::lovarntek_words(n)
}

/// The children of `n` huge frames; 0 where there is no such zone.
pub fn children(n: u64) -> u64 {
    lengths::lovarntek_children(n)
}

/// The trees of `n` huge frames; 0 where there is no such zone.
pub fn trees(n: u64) -> u64 {
    lengths::lovarntek_trees(n)
}
