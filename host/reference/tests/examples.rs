//! The examples in the registry, P1 to P11, the boundaries named there, the same
//! on the reverse strand, with letters in lower case, and over an index.

use reference::{
    build_index, chain, compare, compare_indexed, need, stopped, stopped_indexed, Answer, Settings,
};

const STALE: u32 = 77;

fn settings(k: u32, b: u32, a: u32, m: u32) -> Settings {
    Settings {
        k,
        b,
        a,
        m,
        strand: 0,
        mask: 0,
    }
}

/// The same settings with strand 1: both strands, or the reverse one where the
/// sweep is stopped.
fn strand_1(settings: Settings) -> Settings {
    Settings {
        strand: 1,
        ..settings
    }
}

/// The same settings with mask setting 1: masked letters break k-mers.
fn mask_1(settings: Settings) -> Settings {
    Settings {
        mask: 1,
        ..settings
    }
}

fn answer(refusal: [u64; 3], tallies: [u64; 4]) -> Answer {
    Answer {
        number: refusal[0],
        sequence: refusal[1],
        detail: refusal[2],
        listed: tallies[0],
        matches: tallies[1],
        widest: tallies[2],
        links: tallies[3],
    }
}

fn done(tallies: [u64; 4]) -> Answer {
    answer([0, 0, 0], tallies)
}

fn refused(number: u64, sequence: u64, detail: u64) -> Answer {
    answer([number, sequence, detail], [0; 4])
}

/// The document's five numbers of each entry, with the sixth.
fn on_strand(strand: u32, entries: &[[u32; 5]]) -> Vec<u32> {
    let whole = entries.iter().flat_map(|it| it.iter().chain([&strand]));
    whole.copied().collect()
}

/// The numbers given, then zeros up to the length of the room.
fn then_zeros(front: &[u32], length: usize) -> Vec<u32> {
    let mut room = front.to_vec();
    room.resize(length, 0);
    room
}

struct Example<'a> {
    settings: Settings,
    first: &'a [u8],
    second: &'a [u8],
    rooms: (usize, usize),
}

/// "Where no room is named, each has 100 numbers."
fn example<'a>(settings: Settings, first: &'a [u8], second: &'a [u8]) -> Example<'a> {
    Example {
        settings,
        first,
        second,
        rooms: (100, 100),
    }
}

impl Example<'_> {
    fn run(&self) -> (Answer, Vec<u32>, Vec<u32>) {
        let mut work = vec![STALE; self.rooms.0];
        let mut list = vec![STALE; self.rooms.1];
        let answer = compare(self.settings, self.first, self.second, &mut work, &mut list);
        (answer, work, list)
    }

    fn gives(&self, answer: Answer, forward: &[[u32; 5]]) {
        self.gives_both(answer, forward, &[]);
    }

    fn gives_both(&self, answer: Answer, forward: &[[u32; 5]], reverse: &[[u32; 5]]) {
        let work = vec![0; self.rooms.0];
        let entries = [on_strand(0, forward), on_strand(1, reverse)].concat();
        let list = then_zeros(&entries, self.rooms.1);
        assert_eq!(self.run(), (answer, work, list));
    }

    fn leaves_untouched(&self, answer: Answer) {
        let work = vec![STALE; self.rooms.0];
        let list = vec![STALE; self.rooms.1];
        assert_eq!(self.run(), (answer, work, list));
    }
}

fn p1() -> Example<'static> {
    example(settings(2, 2, 8, 0), b"ACCGT", b"ACGGT")
}

fn p2() -> Example<'static> {
    example(settings(2, 1, 8, 0), b"ACCGT", b"ACGGT")
}

const P2_ENTRIES: [[u32; 5]; 3] = [[1, 2, 1, 2, 1], [3, 4, 2, 3, 1], [4, 5, 4, 5, 1]];

fn p5() -> Example<'static> {
    example(settings(1, 1, 6, 0), b"AAA", b"AAA")
}

#[test]
fn example_p1() {
    p1().gives(done([1, 3, 2, 2]), &[[1, 5, 1, 5, 3]]);
    assert_eq!(need(p1().settings, b"ACCGT", b"ACGGT"), 2);
}

#[test]
fn example_p2() {
    p2().gives(done([3, 3, 2, 0]), &P2_ENTRIES);
}

#[test]
fn example_p3() {
    let mut p3 = p1();
    p3.rooms.0 = 16;
    p3.gives(done([1, 3, 2, 2]), &[[1, 5, 1, 5, 3]]);
}

#[test]
fn example_p4() {
    let mut p4 = p1();
    p4.rooms.0 = 15;
    p4.gives(refused(7, 0, 2), &[]);
}

#[test]
fn example_p5() {
    p5().gives(done([1, 9, 6, 16]), &[[1, 3, 1, 3, 5]]);
}

#[test]
fn example_p6() {
    let mut p6 = p5();
    p6.settings.a = 5;
    p6.gives(done([0, 0, 0, 0]), &[]);
}

#[test]
fn example_p7() {
    let mut p7 = p5();
    p7.settings.m = 3;
    p7.gives(done([1, 9, 6, 16]), &[[1, 3, 1, 3, 5]]);
}

#[test]
fn example_p8() {
    let p8 = example(settings(2, 3, 3, 0), b"ACNAC", b"AC");
    p8.gives(done([1, 2, 2, 1]), &[[1, 5, 1, 2, 2]]);
}

#[test]
fn example_p9() {
    let p9 = example(settings(2, 2, 3, 0), b"ACNAC", b"AC");
    p9.gives(done([2, 2, 1, 0]), &[[1, 2, 1, 2, 1], [4, 5, 1, 2, 1]]);
}

#[test]
fn example_p10() {
    let mut p10 = example(settings(1, 1, 1, 0), b"", b"");
    p10.rooms = (0, 0);
    p10.gives(done([0, 0, 0, 0]), &[]);
}

#[test]
fn example_p11() {
    let mut work = vec![STALE; 100];
    let held = stopped(p1().settings, b"ACCGT", b"ACGGT", &mut work, 3);
    let records = [1, 1, 1, 1, 1, 0, 0, 0, 3, 2, 2, 1, 1, 0, 0, 0];
    assert_eq!(held, done([2, 3, 2, 2]));
    assert_eq!(work, then_zeros(&records, 100));
}

#[test]
fn the_stopped_sweep_at_its_other_rows() {
    let run = |row: u32, numbers: usize| {
        let mut work = vec![STALE; numbers];
        let held = stopped(p1().settings, b"ACCGT", b"ACGGT", &mut work, row);
        (held, work)
    };
    assert_eq!(run(0, 100), (done([0, 3, 2, 2]), vec![0; 100]));
    let records = [3, 2, 2, 1, 1, 0, 0, 0, 4, 4, 3, 1, 1, 0, 0, 0];
    let after_row_4 = then_zeros(&records, 17);
    assert_eq!(run(4, 17), (done([2, 3, 2, 2]), after_row_4));
    assert_eq!(run(5, 100), (refused(19, 0, 4), vec![0; 100]));
    assert_eq!(run(5, 15), (refused(7, 0, 2), vec![0; 15]));
}

#[test]
fn list_rooms_just_enough_and_too_small() {
    let mut lent = p2();
    lent.rooms = (16, 18);
    lent.gives(done([3, 3, 2, 0]), &P2_ENTRIES);
    for numbers in [17, 12, 0] {
        lent.rooms = (16, numbers);
        lent.gives(refused(8, 0, 3), &[]);
        lent.rooms = (15, numbers);
        lent.gives(refused(7, 0, 2), &[]);
    }
}

#[test]
fn only_what_is_listed_needs_list_room() {
    // Five matches of P5 have none below and to the right; four of them go on in
    // the last row or the last column.
    let mut lent = p5();
    lent.rooms.1 = 6;
    lent.gives(done([1, 9, 6, 16]), &[[1, 3, 1, 3, 5]]);
    lent.rooms.1 = 5;
    lent.gives(refused(8, 0, 1), &[]);
}

#[test]
fn the_boundaries_of_the_settings() {
    let with = |k, b, a, m| example(settings(k, b, a, m), b"ACGT", b"ACGT");
    with(31, 1_024, 1_024, 16_384).gives(done([0; 4]), &[]);
    for k in [0, 32] {
        with(k, 0, 0, 16_385).leaves_untouched(refused(1, 0, 0));
    }
    for b in [0, 1_025] {
        with(1, b, 0, 16_385).leaves_untouched(refused(2, 0, 0));
    }
    for a in [0, 1_025] {
        with(1, 1, a, 16_385).leaves_untouched(refused(3, 0, 0));
    }
    with(1, 1, 1, 16_385).leaves_untouched(refused(4, 0, 0));
}

#[test]
fn the_boundaries_of_the_sequences() {
    let (fits, over) = (vec![b'A'; 16_384], vec![b'A'; 16_385]);
    let bad = [b"ACGT".repeat(4_095), b"ACuT".to_vec()].concat();
    let with = |first, second| example(settings(1, 1, 1, 0), first, second);
    with(&fits, &fits).gives(done([0; 4]), &[]);
    with(&over, &over).leaves_untouched(refused(5, 1, 0));
    with(&bad, &over).leaves_untouched(refused(5, 2, 0));
    with(&bad, b"Z").leaves_untouched(refused(6, 1, 16_383));
    with(&fits, b"ACZ-").leaves_untouched(refused(6, 2, 3));
}

#[test]
fn the_room_needed_or_the_refusal() {
    let over = vec![b'A'; 16_385];
    let base = 4_294_967_296;
    assert_eq!(need(settings(0, 0, 1, 0), b"", b""), base + 1);
    assert_eq!(need(settings(1, 0, 1, 0), b"", b""), base + 2);
    assert_eq!(need(settings(1, 1, 0, 0), b"", b""), base + 3);
    assert_eq!(need(settings(1, 1, 1, 16_385), b"", b""), base + 4);
    assert_eq!(need(strand_2(), b"x", &over), base + 9);
    assert_eq!(need(mask_2(), b"x", &over), base + 10);
    assert_eq!(need(settings(1, 1, 1, 0), b"x", &over), base + 5);
    assert_eq!(need(settings(1, 1, 1, 0), b"", b"x"), base + 6);
    assert_eq!(need(settings(1, 1, 6, 0), b"AAA", b"AAA"), 6);
}

#[test]
fn the_tie_between_columns_decides_the_start() {
    // With b 3, (1,3) and (3,1) are left extensions of (3,4) with weight 1; the
    // smaller column wins, though its row is the greater.
    let tie = example(settings(1, 2, 5, 0), b"ACG", b"GTAG");
    tie.gives(done([2, 3, 3, 1]), &[[3, 3, 1, 1, 1], [1, 3, 3, 4, 2]]);
    let tie = example(settings(1, 3, 5, 0), b"ACG", b"GTAG");
    tie.gives(done([1, 3, 3, 2]), &[[3, 3, 1, 4, 2]]);
}

/// A strand that is refused; all else is accepted.
fn strand_2() -> Settings {
    Settings {
        strand: 2,
        ..settings(1, 1, 1, 0)
    }
}

/// A mask setting that is refused; all else is accepted.
fn mask_2() -> Settings {
    Settings {
        mask: 2,
        ..settings(1, 1, 1, 0)
    }
}

#[test]
fn a_mask_that_is_none_is_refused_after_the_strand_and_before_the_lengths() {
    let over = vec![b'A'; 16_385];
    let mut bad = example(mask_2(), b"x", &over);
    bad.leaves_untouched(refused(10, 0, 0));
    let mut work = vec![STALE; 9];
    let held = stopped(bad.settings, b"x", &over, &mut work, 7);
    assert_eq!((held, work), (refused(10, 0, 0), vec![STALE; 9]));
    bad.settings.mask = u32::MAX;
    bad.leaves_untouched(refused(10, 0, 0));
    bad.settings.strand = 2;
    bad.leaves_untouched(refused(9, 0, 0));
}

#[test]
fn a_strand_that_is_none_is_refused_after_m_and_before_the_lengths() {
    let over = vec![b'A'; 16_385];
    let mut bad = example(strand_2(), b"x", &over);
    bad.leaves_untouched(refused(9, 0, 0));
    let mut work = vec![STALE; 9];
    let held = stopped(bad.settings, b"x", &over, &mut work, 7);
    assert_eq!((held, work), (refused(9, 0, 0), vec![STALE; 9]));
    bad.settings.strand = u32::MAX;
    bad.leaves_untouched(refused(9, 0, 0));
    bad.settings.m = 16_385;
    bad.leaves_untouched(refused(4, 0, 0));
}

/// P1 on both strands. Its second sequence turned round is its first, so the
/// reverse sweep finds the first sequence in itself: (1,1), (2,2), (3,3), (4,4).
fn p1_on_both() -> Example<'static> {
    let mut p1 = p1();
    p1.settings.strand = 1;
    p1
}

#[test]
fn both_strands_of_p1() {
    let (forward, reverse) = ([[1, 5, 1, 5, 3]], [[1, 5, 1, 5, 4]]);
    p1_on_both().gives_both(done([2, 7, 3, 7]), &forward, &reverse);
}

#[test]
fn the_larger_need_of_both_strands_decides() {
    assert_eq!(need(p1().settings, b"ACCGT", b"ACGGT"), 2);
    assert_eq!(need(p1_on_both().settings, b"ACCGT", b"ACGGT"), 3);
    let mut both = p1_on_both();
    both.rooms = (24, 12);
    assert_eq!(both.run().0, done([2, 7, 3, 7]));
    both.rooms = (24, 11);
    both.gives(refused(8, 0, 2), &[]);
    both.rooms = (23, 11);
    both.gives(refused(7, 0, 3), &[]);
}

#[test]
fn reverse_places_are_turned_back_by_the_letters_of_the_second() {
    // NNACCGT turned round is ACGGTNN, with P1's matches at P1's places.
    let turned = example(strand_1(settings(2, 2, 8, 0)), b"ACCGT", b"NNACCGT");
    let (forward, reverse) = ([[1, 5, 3, 7, 4]], [[1, 5, 3, 7, 3]]);
    turned.gives_both(done([2, 7, 3, 7]), &forward, &reverse);
}

#[test]
fn reverse_entries_keep_the_order_of_their_sweep() {
    // TTT turned round is AAA, and the reverse sweep is P5's.
    let turned = example(strand_1(p5().settings), b"AAA", b"TTT");
    turned.gives_both(done([1, 9, 6, 16]), &[], &[[1, 3, 1, 3, 5]]);
    // GTNGT turned round is ACNAC: two matches of one row, as far apart as P9's.
    let turned = example(strand_1(settings(2, 2, 3, 0)), b"AC", b"GTNGT");
    let entries = [[1, 2, 4, 5, 1], [1, 2, 1, 2, 1]];
    turned.gives_both(done([2, 2, 2, 0]), &[], &entries);
    // ACCGT turned round is P2's second sequence.
    let entries = [[1, 2, 4, 5, 1], [3, 4, 3, 4, 1], [4, 5, 1, 2, 1]];
    let mut p2 = example(strand_1(settings(2, 1, 8, 0)), b"ACCGT", b"ACCGT");
    p2.gives_both(done([4, 7, 2, 3]), &[[1, 5, 1, 5, 4]], &entries);
    p2.settings.m = 3;
    p2.gives(done([1, 7, 2, 3]), &[[1, 5, 1, 5, 4]]);
}

#[test]
fn each_strand_has_totals_of_its_own() {
    // AAAT turned round is ATTT: six As in both together forward, four reverse.
    let with_cap = |a| example(strand_1(settings(1, 1, a, 0)), b"AAA", b"AAAT");
    let (forward, reverse) = ([[1, 3, 1, 3, 5]], [[1, 3, 4, 4, 3]]);
    with_cap(6).gives_both(done([2, 12, 6, 18]), &forward, &reverse);
    with_cap(5).gives_both(done([1, 3, 2, 2]), &[], &reverse);
    with_cap(3).gives(done([0; 4]), &[]);
}

#[test]
fn a_sequence_that_is_its_own_reverse_complement_is_listed_twice() {
    let same = example(strand_1(settings(2, 2, 8, 0)), b"ACGT", b"ACGT");
    let entry = [[1, 4, 1, 4, 3]];
    same.gives_both(done([2, 6, 3, 6]), &entry, &entry);
}

#[test]
fn the_stopped_sweep_of_the_reverse_strand() {
    // ACCGT turned round is P1's second sequence; its records are P11's.
    let reverse = strand_1(p1().settings);
    let run = |numbers: usize| {
        let mut work = vec![STALE; numbers];
        let held = stopped(reverse, b"ACCGT", b"ACCGT", &mut work, 3);
        (held, work)
    };
    let records = [1, 1, 1, 1, 1, 0, 0, 0, 3, 2, 2, 1, 1, 0, 0, 0];
    assert_eq!(run(16), (done([2, 3, 2, 2]), records.to_vec()));
    assert_eq!(run(15), (refused(7, 0, 2), vec![0; 15]));
    assert_eq!(need(reverse, b"ACCGT", b"ACCGT"), 3);
}

#[test]
fn masked_letters_form_kmers_as_their_capitals_do() {
    let capitals = p1_on_both().run();
    for (first, second) in [("accgt", "ACGGT"), ("ACCGT", "acggt"), ("AcCgT", "aCgGt")] {
        let masked = example(p1_on_both().settings, first.as_bytes(), second.as_bytes());
        assert_eq!(masked.run(), capitals);
    }
}

#[test]
fn masked_letters_break_kmers_as_n_does() {
    // P8 and P9 with a masked letter in the place of N.
    let p8 = mask_1(settings(2, 3, 3, 0));
    let p9 = mask_1(settings(2, 2, 3, 0));
    for first in [b"ACaAC", b"ACgAC", b"ACnAC", b"ACrAC"] {
        example(p8, first, b"AC").gives(done([1, 2, 2, 1]), &[[1, 5, 1, 2, 2]]);
        let entries = [[1, 2, 1, 2, 1], [4, 5, 1, 2, 1]];
        example(p9, first, b"AC").gives(done([2, 2, 1, 0]), &entries);
    }
    for (first, second) in [("accgt", "ACGGT"), ("ACCGT", "acggt"), ("AcCgT", "ACGGT")] {
        let masked = example(
            mask_1(p1_on_both().settings),
            first.as_bytes(),
            second.as_bytes(),
        );
        masked.gives(done([0; 4]), &[]);
    }
}

/// What breaks is not counted: three As in lower case leave a total of three.
#[test]
fn a_masked_kmer_is_not_counted_where_it_breaks() {
    let with_cap = |a, mask| {
        let settings = Settings {
            mask,
            ..settings(1, 1, a, 0)
        };
        example(settings, b"Aaaa", b"AA")
    };
    with_cap(3, 1).gives(done([1, 2, 2, 1]), &[[1, 1, 1, 2, 2]]);
    with_cap(2, 1).gives(done([0; 4]), &[]);
    with_cap(5, 0).gives(done([0; 4]), &[]);
}

#[test]
fn turning_round_keeps_the_mask() {
    // AcNGt turned round is aCNgT: A and G form k-mers on the one strand, their
    // complements on the other.
    let turned = mask_1(strand_1(settings(1, 1, 9, 0)));
    let forward = [[1, 1, 1, 1, 1], [3, 3, 4, 4, 1]];
    let reverse = [[2, 2, 4, 4, 1], [4, 4, 1, 1, 1]];
    let answer = done([4, 4, 1, 0]);
    example(turned, b"ACGT", b"AcNGt").gives_both(answer, &forward, &reverse);
}

const P1_INPUT: &str = "010702000200080000EC\n020312248045\n030312448024\n0400FC\n";

/// It has AC at places 1 and 5, ca at 4, GT at 8 and TA at 9.
const INDEXED: &[u8] = b"ACNcaCNGTA";

#[test]
fn an_index_has_its_places_by_kmer_and_then_by_place() {
    let run = |mask, numbers| {
        let mut index = vec![STALE; numbers];
        let answer = build_index(2, mask, INDEXED, &mut index);
        (answer, index)
    };
    assert_eq!(run(0, 5), (done([5, 0, 0, 0]), vec![1, 5, 4, 8, 9]));
    assert_eq!(run(0, 6), (done([5, 0, 0, 0]), vec![1, 5, 4, 8, 9, 0]));
    assert_eq!(run(0, 4), (refused(11, 0, 5), vec![0; 4]));
    assert_eq!(run(1, 3), (done([3, 0, 0, 0]), vec![1, 8, 9]));
}

#[test]
fn what_is_refused_where_an_index_is_built() {
    let over = vec![b'u'; 16_385];
    let cases: [(u32, u32, &[u8], Answer); 4] = [
        (0, 2, &over, refused(1, 0, 0)),
        (31, 2, &over, refused(10, 0, 0)),
        (31, 1, &over, refused(5, 2, 0)),
        (31, 1, b"ACuu", refused(6, 2, 3)),
    ];
    for (k, mask, second, refusal) in cases {
        let mut index = [STALE; 2];
        assert_eq!(build_index(k, mask, second, &mut index), refusal);
        assert_eq!(index, [STALE; 2]);
    }
}

/// P1's second sequence has its 2-mers in their order.
#[test]
fn p1_over_an_index() {
    let run = |second: &[u8], index: &[u32], numbers: usize| {
        let [mut work, mut list] = [vec![STALE; numbers], vec![STALE; 6]];
        let settings = p1().settings;
        let answer = compare_indexed(settings, b"ACCGT", second, index, &mut work, &mut list);
        let stopped = stopped_indexed(settings, b"ACCGT", second, index, &mut work, 3);
        ([answer, stopped], [list[0], work[0]])
    };
    let both = [done([1, 3, 2, 2]), done([2, 3, 2, 2])];
    assert_eq!(run(b"ACGGT", &[1, 2, 3, 4], 16), (both, [1; 2]));
    assert_eq!(run(b"ACGGT", &[1, 2, 3, 4, 4, 0], 16), (both, [1; 2]));
    let short = [refused(7, 0, 2); 2];
    assert_eq!(run(b"ACGGT", &[1, 2, 3, 4], 15), (short, [0; 2]));
    for wrong in [&[][..], &[1, 2, 3], &[1, 2, 4, 3], &[0, 1, 2, 3]] {
        let refused = [refused(12, 0, 0); 2];
        assert_eq!(run(b"ACGGT", wrong, 15), (refused, [STALE; 2]));
    }
    let bad = [refused(6, 2, 5); 2];
    assert_eq!(run(b"ACGGu", &[], 15), (bad, [STALE; 2]));
}

#[test]
fn p1_through_chain() {
    let output = "100A00010005000100050003D7\n\
                  11140000000100000003000000020000000000000002D3\n";
    assert_eq!(chain(P1_INPUT.as_bytes()), output.as_bytes());
}

#[test]
fn p1_through_chain_with_k_0() {
    let input = P1_INPUT.replace("010702000200080000EC", "010700000200080000EE");
    assert_eq!(chain(input.as_bytes()), b"1F06010000000000DA\n");
}

/// P1's input with a job of 8 payload bytes, the last of them the strand.
fn p1_input_on(job_line: &str) -> String {
    P1_INPUT.replace("010702000200080000EC", job_line)
}

#[test]
fn p1_through_chain_on_both_strands() {
    let output = "100A00010005000100050003D7\n\
                  120A00010005000100050004D4\n\
                  11140000000200000007000000030000000000000007C8\n";
    let input = p1_input_on("01080200020008000001EA");
    assert_eq!(chain(input.as_bytes()), output.as_bytes());
}

#[test]
fn p1_through_chain_with_the_strand_0_written_out() {
    let input = p1_input_on("01080200020008000000EB");
    assert_eq!(chain(input.as_bytes()), chain(P1_INPUT.as_bytes()));
}

#[test]
fn p1_through_chain_with_strand_2() {
    let input = p1_input_on("01080200020008000002E9");
    assert_eq!(chain(input.as_bytes()), b"1F06090000000000D2\n");
}
