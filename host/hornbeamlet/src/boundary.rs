//! The calls over the C boundary.
//!
//! Each slice crosses as a pointer and a length. A Rust slice's pointer is
//! never null and always aligned, also where it is empty; shared and exclusive
//! borrows keep rooms and answer apart from everything else. That is all the
//! library asks.

use crate::{Answer, Entered, Library};

/// The answer as it crosses the boundary.
type Numbers = [u64; 7];

/// Makes of each function of the library a safe one of the same name. The list
/// has to be that of `include/hornbeamlet.h`, in Rust's types:
///
/// - `Entered` for the numbers of the settings,
/// - `&[u8]`, `&mut [u32]` and their like for a pointer and a length,
/// - `&mut [u64; 7]` and its like for a pointer to just so many numbers,
/// - `u32` and its like for a number.
macro_rules! calls {
    ($(fn $call:ident($($list:tt)*) $(-> $reply:ty)?;)*) => {
        $(calls!(@next {$call [$($reply)?] [] []} $($list)*,);)*
    };

    // What is next in the list: as it is taken, and what crosses for it.
    (@next $made:tt $name:ident: Entered, $($list:tt)*) => {
        calls!(@add $made
            {Entered { k, b, a, m, strand, mask }: Entered}
            {k => u32, b => u32, a => u32, m => u32, strand => u32, mask => u32}
            $($list)*);
    };
    (@next $made:tt $name:ident: &[$of:ty], $($list:tt)*) => {
        calls!(@add $made
            {$name: &[$of]}
            {$name.as_ptr() => *const $of, $name.len() => usize}
            $($list)*);
    };
    (@next $made:tt $name:ident: &mut [$of:ty], $($list:tt)*) => {
        calls!(@add $made
            {$name: &mut [$of]}
            {$name.as_mut_ptr() => *mut $of, $name.len() => usize}
            $($list)*);
    };
    (@next $made:tt $name:ident: &mut [$of:ty; $count:expr], $($list:tt)*) => {
        calls!(@add $made
            {$name: &mut [$of; $count]}
            {$name.as_mut_ptr() => *mut $of}
            $($list)*);
    };
    (@next $made:tt $name:ident: $number:ident, $($list:tt)*) => {
        calls!(@add $made
            {$name: $number}
            {$name => $number}
            $($list)*);
    };
    (@add {$call:ident $reply:tt [$($taken:tt)*] [$($crosses:tt)*]}
        {$($take:tt)*} {$($cross:tt)*} $($list:tt)*) => {
        calls!(@next
            {$call $reply [$($taken)* $($take)*,] [$($crosses)* $($cross)*,]}
            $($list)*);
    };

    // The list is at its end, or at the comma after its last.
    (@next {$call:ident [$($reply:ty)?] [$($taken:tt)*] [$($value:expr => $declared:ty,)*]}
        $(,)?) => {
        // It takes as many as the header says.
        #[allow(clippy::too_many_arguments)]
        fn $call($($taken)*) $(-> $reply)? {
            extern "C" {
                fn $call($(_: $declared),*) $(-> $reply)?;
            }
            // SAFETY: see the head of this file; the list is the header's.
            unsafe { $call($($value),*) }
        }
    };
}

calls! {
    fn hornbeamlet_need(settings: Entered, first: &[u8], second: &[u8]) -> u64;

    fn hornbeamlet_compare(
        settings: Entered,
        first: &[u8],
        second: &[u8],
        work: &mut [u32],
        list: &mut [u32],
        answer: &mut [u64; 7],
    );

    fn hornbeamlet_stopped(
        settings: Entered,
        first: &[u8],
        second: &[u8],
        work: &mut [u32],
        row: u32,
        answer: &mut [u64; 7],
    );

    fn hornbeamlet_index(
        k: u32,
        mask: u32,
        second: &[u8],
        index: &mut [u32],
        answer: &mut [u64; 7],
    );

    fn hornbeamlet_compare_indexed(
        settings: Entered,
        first: &[u8],
        second: &[u8],
        index: &[u32],
        work: &mut [u32],
        list: &mut [u32],
        answer: &mut [u64; 7],
    );

    fn hornbeamlet_stopped_indexed(
        settings: Entered,
        first: &[u8],
        second: &[u8],
        index: &[u32],
        work: &mut [u32],
        row: u32,
        answer: &mut [u64; 7],
    );

    fn hornbeamlet_write_frame(kind: u32, values: &[u64], line: &mut [u8]) -> u64;

    fn hornbeamlet_read_frame(kind: u32, line: &[u8], values: &mut [u64; 5]) -> u64;
}

impl Library {
    /// How many records of work room the job needs: W, over both strands the
    /// larger of the two, or [`crate::REFUSED`] plus the number of a refusal,
    /// 1 to 6, 9 or 10.
    pub fn need(&self, settings: impl Into<Entered>, first: &[u8], second: &[u8]) -> u64 {
        hornbeamlet_need(settings.into(), first, second)
    }

    /// The two sequences compared: entries in the list room, the forward ones
    /// first, then zeros, and zeros in the work room.
    pub fn compare(
        &self,
        settings: impl Into<Entered>,
        first: &[u8],
        second: &[u8],
        work: &mut [u32],
        list: &mut [u32],
    ) -> Answer {
        let settings = settings.into();
        answered(|answer| hornbeamlet_compare(settings, first, second, work, list, answer))
    }

    /// The stopped sweep of one strand: records of the row and the b rows before
    /// it in the work room, then zeros. On the reverse strand their columns are
    /// those of the second sequence turned round. [`crate::Settings::on`] names the
    /// strand.
    pub fn stopped(
        &self,
        settings: impl Into<Entered>,
        first: &[u8],
        second: &[u8],
        work: &mut [u32],
        row: u32,
    ) -> Answer {
        let settings = settings.into();
        answered(|answer| hornbeamlet_stopped(settings, first, second, work, row, answer))
    }

    /// The index of the second sequence for this k and this mask setting: its places
    /// that have a k-mer, by packed k-mer and then by place, then zeros. The answer's
    /// first tally is their number, which is never more than that of the letters. One
    /// index serves every b, a and m, and either strand.
    pub fn index(&self, k: u32, mask: u32, second: &[u8], index: &mut [u32]) -> Answer {
        answered(|answer| hornbeamlet_index(k, mask, second, index, answer))
    }

    /// What [`Library::compare`] gives, in answer and rooms, from a slice that begins
    /// with the index of the second sequence. Any other is refused by 12, which
    /// leaves the rooms as they were.
    pub fn compare_indexed(
        &self,
        settings: impl Into<Entered>,
        first: &[u8],
        second: &[u8],
        index: &[u32],
        work: &mut [u32],
        list: &mut [u32],
    ) -> Answer {
        let settings = settings.into();
        answered(|answer| {
            hornbeamlet_compare_indexed(settings, first, second, index, work, list, answer)
        })
    }

    /// What [`Library::stopped`] gives, likewise.
    pub fn stopped_indexed(
        &self,
        settings: impl Into<Entered>,
        first: &[u8],
        second: &[u8],
        index: &[u32],
        work: &mut [u32],
        row: u32,
    ) -> Answer {
        let settings = settings.into();
        answered(|answer| {
            hornbeamlet_stopped_indexed(settings, first, second, index, work, row, answer)
        })
    }

    /// A frame written as a line to the front of the slice; the bytes behind it
    /// stay. The reply is the length with the line feed, at most [`crate::LINE`],
    /// or [`crate::REFUSED`] plus 27 with the slice as it was: a value does not
    /// fit its field, the slice is too short, or [`crate::kinds`] has no such kind
    /// with so many values.
    pub fn write_frame(&self, kind: u32, values: &[u64], line: &mut [u8]) -> u64 {
        hornbeamlet_write_frame(kind, values, line)
    }

    /// The values of a frame of this kind, zeros behind them, from a line with
    /// its line feed, which has to be the whole slice. The reply is 0, or a
    /// refusal with all values 0: 20, 21, 22, 23, 25. Kinds that have a reader
    /// are an entry, a reverse entry, done and refused; any other gets 23.
    pub fn read_frame(&self, kind: u32, line: &[u8], values: &mut [u64; 5]) -> u64 {
        hornbeamlet_read_frame(kind, line, values)
    }
}

/// What a call answers that writes its answer where it is told to.
fn answered(call: impl FnOnce(&mut Numbers)) -> Answer {
    let mut numbers = Numbers::default();
    call(&mut numbers);
    let [number, sequence, detail, listed, matches, widest, links] = numbers;
    Answer {
        number,
        sequence,
        detail,
        listed,
        matches,
        widest,
        links,
    }
}
