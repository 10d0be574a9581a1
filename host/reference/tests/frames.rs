//! Writers, readers and the input refusals 20 to 26.

use reference::{
    chain, read_done, read_entry, read_frame, read_refused, read_reverse_entry, write_done,
    write_end, write_entry, write_first_piece, write_frame, write_job, write_refused,
    write_reverse_entry, write_second_piece, Reading,
};

const JOB_LINE: &[u8] = b"010702000200080000EC\n";
const ENTRY_LINE: &[u8] = b"100A00010005000100050003D7\n";
const REVERSE_LINE: &[u8] = b"120A00010005000100050003D5\n";
const DONE_LINE: &[u8] = b"11140000000100000003000000020000000000000002D3\n";
const REFUSED_LINE: &[u8] = b"1F06010000000000DA\n";

/// The line is written whole and nothing after it; one byte less gives 27.
fn writes(writer: impl Fn(&mut [u8]) -> (u64, usize), line: &[u8]) {
    let mut lent = vec![b'?'; line.len() + 3];
    assert_eq!(writer(&mut lent), (0, line.len()));
    assert_eq!(lent, [line, b"???"].concat());
    let mut exact = vec![b'?'; line.len()];
    assert_eq!(writer(&mut exact), (0, line.len()));
    assert_eq!(exact, line);
    declines_in(writer, line.len() - 1);
}

fn declines_in(writer: impl Fn(&mut [u8]) -> (u64, usize), length: usize) {
    let mut lent = vec![b'?'; length];
    assert_eq!(writer(&mut lent), (27, 0));
    assert_eq!(lent, vec![b'?'; length]);
}

fn declines(writer: impl Fn(&mut [u8]) -> (u64, usize)) {
    declines_in(writer, 200);
}

#[test]
fn the_worked_frames_are_written() {
    writes(|lent| write_job([2, 2, 8, 0, 0], lent), JOB_LINE);
    writes(
        |lent| write_job([0, 2, 8, 0, 0], lent),
        b"010700000200080000EE\n",
    );
    writes(
        |lent| write_first_piece(&[1, 2, 2, 4, 8], lent),
        b"020312248045\n",
    );
    writes(
        |lent| write_second_piece(&[1, 2, 4, 4, 8], lent),
        b"030312448024\n",
    );
    writes(write_end, b"0400FC\n");
    writes(|lent| write_entry([1, 5, 1, 5, 3], lent), ENTRY_LINE);
    writes(
        |lent| write_reverse_entry([1, 5, 1, 5, 3], lent),
        REVERSE_LINE,
    );
    writes(|lent| write_done([1, 3, 2, 2], lent), DONE_LINE);
    writes(|lent| write_refused([1, 0, 0], lent), REFUSED_LINE);
}

#[test]
fn a_strand_that_is_not_0_is_written_at_the_end_of_its_job() {
    let on = |strand| move |lent: &mut [u8]| write_job([2, 2, 8, 0, strand], lent);
    writes(on(0), JOB_LINE);
    writes(on(1), b"01080200020008000001EA\n");
    writes(on(2), b"01080200020008000002E9\n");
    writes(on(255), b"010802000200080000FFEC\n");
    declines(on(256));
    declines(on(u64::MAX));
}

#[test]
fn the_longest_piece_is_written() {
    let mut lent = [0; 135];
    assert_eq!(write_first_piece(&[15; 128], &mut lent), (0, 135));
    assert_eq!(&lent[..6], b"0240FF");
    assert_eq!(lent[134], b'\n');
}

#[test]
fn a_check_of_zero_is_written() {
    // 02 + 01 + FD = 256
    writes(|lent| write_first_piece(&[15, 13], lent), b"0201FD00\n");
}

#[test]
fn values_that_do_not_fit_give_27() {
    let over = 65_536;
    declines(|lent| write_job([256, 0, 0, 0, 0], lent));
    declines(|lent| write_job([0, over, 0, 0, 0], lent));
    declines(|lent| write_job([0, 0, over, 0, 0], lent));
    declines(|lent| write_job([0, 0, 0, over, 0], lent));
    for at in 0..5 {
        let mut values = [65_535; 5];
        assert_eq!(write_entry(values, &mut [0; 27]), (0, 27));
        assert_eq!(write_reverse_entry(values, &mut [0; 27]), (0, 27));
        values[at] = over;
        declines(|lent| write_entry(values, lent));
        declines(|lent| write_reverse_entry(values, lent));
    }
    for at in 0..3 {
        let mut values = [4_294_967_295, 4_294_967_295, 4_294_967_295, u64::MAX];
        assert_eq!(write_done(values, &mut [0; 47]), (0, 47));
        values[at] += 1;
        declines(|lent| write_done(values, lent));
    }
    for at in 0..3 {
        let mut values = [255, 255, 4_294_967_295];
        assert_eq!(write_refused(values, &mut [0; 19]), (0, 19));
        values[at] += 1;
        declines(|lent| write_refused(values, lent));
    }
}

#[test]
fn pieces_that_are_none_give_27() {
    declines(|lent| write_first_piece(&[], lent));
    declines(|lent| write_first_piece(&[1; 129], lent));
    declines(|lent| write_second_piece(&[1, 0], lent));
    declines(|lent| write_second_piece(&[16], lent));
    declines(|lent| write_first_piece(&[257], lent));
    declines_in(|lent| write_first_piece(&[1], lent), 0);
}

fn reading<const N: usize>(number: u64, values: [u64; N]) -> Reading<N> {
    Reading {
        number,
        sequence: 0,
        detail: 0,
        values,
    }
}

#[test]
fn the_worked_frames_are_read() {
    assert_eq!(read_entry(ENTRY_LINE), reading(0, [1, 5, 1, 5, 3]));
    let reverse = read_reverse_entry(REVERSE_LINE);
    assert_eq!(reverse, reading(0, [1, 5, 1, 5, 3]));
    assert_eq!(read_done(DONE_LINE), reading(0, [1, 3, 2, 2]));
    assert_eq!(read_refused(REFUSED_LINE), reading(0, [1, 0, 0]));
}

#[test]
fn what_is_written_is_read_back() {
    let mut lent = [0; 47];
    let values = [0xFEDC_BA98, 0x0123_4567, 0x89AB_CDEF, 0x0123_4567_89AB_CDEF];
    assert_eq!(write_done(values, &mut lent), (0, 47));
    assert_eq!(read_done(&lent), reading(0, values));
    let values = [255, 1, 0x0102_0304];
    assert_eq!(write_refused(values, &mut lent), (0, 19));
    assert_eq!(read_refused(&lent[..19]), reading(0, values));
}

#[test]
fn readers_refuse_in_order() {
    let entry = |line: &[u8]| {
        let read = read_entry(line);
        assert_eq!(read, reading(read.number, [0; 5]));
        read.number
    };
    assert_eq!(entry(b""), 20);
    assert_eq!(entry(b"\n"), 20);
    assert_eq!(entry(&ENTRY_LINE[..26]), 20);
    assert_eq!(entry(&[ENTRY_LINE, b"\n"].concat()), 20);
    assert_eq!(entry(&[ENTRY_LINE, ENTRY_LINE].concat()), 20);
    assert_eq!(entry(b"100a00010005000100050003D7\n"), 20);
    assert_eq!(entry(b"100A00010005000100050003D70\n"), 20);
    assert_eq!(entry(b"1000\n"), 20);
    assert_eq!(entry(b"100B00010005000100050003D7\n"), 21);
    assert_eq!(entry(b"110A00010005000100050003D7\n"), 22);
    assert_eq!(entry(DONE_LINE), 23);
    assert_eq!(entry(REVERSE_LINE), 23);
    assert_eq!(entry(b"0400FC\n"), 23);
    assert_eq!(entry(b"1000F0\n"), 25);
    assert_eq!(entry(b"100B0001000500010005000300D6\n"), 25);
    assert_eq!(read_done(ENTRY_LINE).number, 23);
    assert_eq!(read_reverse_entry(ENTRY_LINE).number, 23);
    assert_eq!(read_reverse_entry(b"1200EE\n").number, 25);
    assert_eq!(read_refused(b"1F0100E0\n").number, 25);
}

/// Each kind by its number, with the values of its worked line.
const BY_NUMBER: [(u32, &[u64], &[u8]); 8] = [
    (1, &[2, 2, 8, 0, 0], JOB_LINE),
    (2, &[1, 2, 2, 4, 8], b"020312248045\n"),
    (3, &[1, 2, 4, 4, 8], b"030312448024\n"),
    (4, &[], b"0400FC\n"),
    (16, &[1, 5, 1, 5, 3], ENTRY_LINE),
    (17, &[1, 3, 2, 2], DONE_LINE),
    (18, &[1, 5, 1, 5, 3], REVERSE_LINE),
    (31, &[1, 0, 0], REFUSED_LINE),
];
const NOT_WRITTEN: u64 = 4_294_967_296 + 27;

#[test]
fn the_kind_names_the_writer() {
    for (kind, values, line) in BY_NUMBER {
        let mut lent = [b'?'; 50];
        let length = line.len();
        assert_eq!(write_frame(kind, values, &mut lent), length as u64);
        assert_eq!(&lent[..length], line);
        assert_eq!(&lent[length..], &[b'?'; 50][length..]);
        let mut short = vec![b'?'; length - 1];
        assert_eq!(write_frame(kind, values, &mut short), NOT_WRITTEN);
        assert_eq!(short, vec![b'?'; length - 1]);
    }
}

#[test]
fn another_kind_or_count_of_values_has_no_writer() {
    let declines = |kind, values: &[u64]| {
        let mut lent = [b'?'; 200];
        assert_eq!(write_frame(kind, values, &mut lent), NOT_WRITTEN);
        assert_eq!(lent, [b'?'; 200]);
    };
    for (kind, values, _) in BY_NUMBER {
        declines(kind + 256, values);
        if ![2, 3].contains(&kind) {
            declines(kind, &[values, &[1]].concat());
            declines(kind, &[1; 2]);
        }
    }
    for kind in [0, 5, 15, 19, 30, 32, u32::MAX] {
        for count in 0..7 {
            declines(kind, &vec![1; count]);
        }
    }
}

#[test]
fn the_kind_names_the_reader() {
    for asked in [0, 1, 2, 3, 4, 16, 17, 18, 31, 272, u32::MAX] {
        for (kind, values, line) in BY_NUMBER {
            let mut read = [7; 5];
            let number = read_frame(asked, line, &mut read);
            let mut expected = [0; 5];
            if asked == kind && kind > 4 {
                expected[..values.len()].copy_from_slice(values);
                assert_eq!((number, read), (0, expected));
            } else {
                assert_eq!((number, read), (23, expected));
            }
        }
    }
}

#[test]
fn what_is_wrong_with_a_line_leaves_no_values() {
    for (asked, line, number) in [
        (16, &ENTRY_LINE[..26], 20),
        (17, b"11130000000100000003000000020000000000000002D3\n", 21),
        (18, b"120A00010005000100050003D6\n", 22),
        (31, b"1F00E1\n", 25),
        (32, b"1F00", 23),
    ] {
        let mut read = [7; 5];
        assert_eq!(read_frame(asked, line, &mut read), number);
        assert_eq!(read, [0; 5]);
    }
}

/// A line of any bytes with the right check.
fn line_of(bytes: &[u8]) -> String {
    let sum = bytes.iter().fold(0u8, |sum, &byte| sum.wrapping_add(byte));
    let check = 0u8.wrapping_sub(sum);
    let all = bytes.iter().chain([&check]);
    all.map(|byte| format!("{byte:02X}")).collect::<String>() + "\n"
}

/// The refused frame that names an input refusal at a line.
fn refused_at(number: u8, line: u8) -> String {
    line_of(&[0x1F, 6, number, 0, 0, 0, 0, line])
}

fn gives(input: &str, output: &str) {
    let given = String::from_utf8(chain(input.as_bytes())).unwrap();
    assert_eq!(given, output, "{input}");
}

const JOB: &str = "010702000200080000EC\n";
const END: &str = "0400FC\n";
const NOTHING: &str = "11140000000000000000000000000000000000000000DB\n";

#[test]
fn the_turn_of_the_frames() {
    let (first, second) = ("020312248045\n", "030312448024\n");
    gives(&format!("{JOB}{END}"), NOTHING);
    gives(&format!("{JOB}{first}{END}"), NOTHING);
    gives(&format!("{JOB}{second}{END}"), NOTHING);
    gives("", &refused_at(24, 1));
    gives(END, &refused_at(24, 1));
    gives(first, &refused_at(24, 1));
    gives(JOB, &refused_at(24, 2));
    gives(&format!("{JOB}{JOB}{END}"), &refused_at(24, 2));
    gives(&format!("{JOB}{second}{first}{END}"), &refused_at(24, 3));
    gives(&format!("{JOB}{END}{END}"), &refused_at(24, 3));
    gives(&format!("{JOB}{END}{JOB}"), &refused_at(24, 3));
}

#[test]
fn malformed_lines_take_their_lowest_number() {
    gives(&format!("{JOB}0400FC"), &refused_at(20, 2));
    gives(&format!("{JOB}{END}\n"), &refused_at(20, 3));
    gives(&format!("{JOB}{END}0401FC\n"), &refused_at(21, 3));
    gives(&format!("{JOB}{END}0400FD\n"), &refused_at(22, 3));
    gives(&format!("{JOB}{END}0500FB\n"), &refused_at(23, 3));
    gives(&format!("{JOB}\r\n"), &refused_at(20, 2));
    gives(&format!("{JOB}0401FD\nzz\n"), &refused_at(21, 2));
    gives("0000FF\n", &refused_at(22, 1));
    gives("0000\n", &refused_at(20, 1));
    gives("010700F\n", &refused_at(20, 1));
    gives("000000\n", &refused_at(23, 1));
}

#[test]
fn lines_of_134_digits_are_the_longest() {
    let piece = |count: u8| line_of(&[&[2, count][..], &vec![0xFF; count.into()]].concat());
    gives(&format!("{JOB}{}{END}", piece(64)), NOTHING);
    gives(&format!("{JOB}{}{END}", piece(65)), &refused_at(20, 2));
}

#[test]
fn payloads_wrong_for_their_kind_give_25() {
    for bad in [
        line_of(&[1, 0]),
        line_of(&[1, 6, 2, 0, 2, 0, 8, 0]),
        line_of(&[1, 9, 2, 0, 2, 0, 8, 0, 0, 0, 0]),
    ] {
        gives(&bad, &refused_at(25, 1));
    }
    for bad in [
        line_of(&[2, 0]),
        line_of(&[2, 1, 0x00]),
        line_of(&[2, 1, 0x01]),
        line_of(&[3, 2, 0x10, 0x11]),
        line_of(&[3, 2, 0x11, 0x00]),
        line_of(&[4, 1, 0x11]),
    ] {
        gives(&format!("{JOB}{bad}{END}"), &refused_at(25, 2));
    }
    // out of turn comes first
    gives(&line_of(&[2, 0]), &refused_at(24, 1));
}

#[test]
fn a_reverse_entry_is_no_frame_of_an_input() {
    let reverse = String::from_utf8(REVERSE_LINE.to_vec()).unwrap();
    gives(&format!("{JOB}{reverse}{END}"), &refused_at(23, 2));
}

#[test]
fn the_strand_of_a_job_is_its_eighth_byte() {
    let job = |strand: u8| line_of(&[1, 8, 2, 0, 2, 0, 8, 0, 0, strand]);
    for strand in [0, 1] {
        gives(&format!("{}{END}", job(strand)), NOTHING);
    }
    for strand in [2, 255] {
        gives(&format!("{}{END}", job(strand)), &refused_at(9, 0));
    }
    // what is wrong with a line comes before what is wrong with the strand
    gives(&format!("{}{JOB}{END}", job(2)), &refused_at(24, 2));
}

#[test]
fn a_sequence_passing_16_384_letters_gives_26() {
    let whole = line_of(&[&[2, 64][..], &[0xFF; 64]].concat()).repeat(128);
    gives(&format!("{JOB}{whole}{END}"), NOTHING);
    let (odd, bad) = (line_of(&[2, 1, 0x10]), line_of(&[2, 1, 0x00]));
    gives(&format!("{JOB}{whole}{odd}{END}"), &refused_at(26, 130));
    gives(&format!("{JOB}{whole}{bad}{END}"), &refused_at(25, 130));
}

#[test]
fn the_rooms_that_chain_lends() {
    let job = |a: u8| line_of(&[1, 7, 1, 4, 0, 0, a, 0, 0]);
    let rows = |count| piece(2, &vec![A; count]);
    let columns = piece(3, &[A; 32]);
    // 16 rows of 32 matches are 512 records, which 4,096 numbers just hold.
    let fits = chain(format!("{}{}{columns}{END}", job(48), rows(16)).as_bytes());
    assert!(fits.starts_with(b"100A"));
    let over = format!("{}{}{columns}{END}", job(52), rows(18));
    gives(&over, &line_of(&[0x1F, 6, 7, 0, 0, 0, 2, 64]));
    // With b 1 and an N between letters no match reaches another, so all are
    // closed. 9 rows of 37 are 333, and 2,000 numbers of list room hold just so
    // many entries of six; a C at the end of both is one match more.
    let job = line_of(&[1, 7, 1, 0, 1, 4, 0, 0, 0]);
    let apart = |end: &[u64]| {
        let rows = piece(2, &[&[A, N].repeat(9), end].concat());
        let columns = piece(3, &[&[A, N].repeat(37), end].concat());
        format!("{job}{rows}{columns}{END}")
    };
    let fits = chain(apart(&[]).as_bytes());
    assert_eq!(fits.len(), 333 * ENTRY_LINE.len() + DONE_LINE.len());
    gives(&apart(&[C]), &line_of(&[0x1F, 6, 8, 0, 0, 0, 1, 78]));
}

/// The codes of three letters.
const A: u64 = 1;
const C: u64 = 2;
const N: u64 = 15;

/// A piece of the letters of these codes.
fn piece(kind: u32, codes: &[u64]) -> String {
    let mut lent = [0; 135];
    let length = write_frame(kind, codes, &mut lent);
    String::from_utf8(lent[..length as usize].to_vec()).unwrap()
}
