/*
 * hornbeamlet.h: chains of common k-mers between two sequences.
 *
 * Link with native/libhornbeamlet.a or native/libhornbeamlet.so
 * (tools/staticlib writes both, and native/hornbeamlet.pc for pkg-config). The
 * library needs memset and nothing else. It keeps no state, allocates nothing
 * and calls nobody back, so any number of threads may use it at once. A call
 * takes up to about 1.3 MB of stack: see THREADS.
 *
 * SETTINGS
 *
 *   k        1 to 31       the k-mer length: k letters in a row make a k-mer
 *   b        1 to 1,024    the gap bound: how far apart two matches of a chain
 *                          may lie, in rows and in columns
 *   a        1 to 1,024    the repeat cap: a k-mer that occurs more often than
 *                          this in both sequences together is not used
 *   m        0 to 16,384   the least span in bases: a stretch shorter than
 *                          this in either sequence is not listed
 *   strand   0 or 1        0 the forward strand, 1 both strands; the stopped
 *                          sweep names one strand, and 1 is the reverse
 *   mask     0 or 1        0 masked letters form k-mers as their capitals do,
 *                          1 they break k-mers as N does
 *
 * SEQUENCES
 *
 * Each is a pointer to 0 to 16,384 bytes and their number; no zero byte ends
 * it. The letters are A B C D G H K M N R S T V W Y and the same in lower case,
 * which are masked; neither U nor u is one. K-mers are made of A, C, G and T
 * alone, so the others break them. A masked letter is taken as its capital or
 * breaks k-mers, as the mask setting says, and has its place either way. Places
 * count from 1: row i is a place of the first sequence, column j one of the
 * second.
 *
 * STRANDS
 *
 * On the forward strand the second sequence is taken as it stands, on the
 * reverse strand turned round: from its last letter to its first, each as its
 * complement (A and T change places, C and G, R and Y, K and M, B and V, D and
 * H; S, W and N stay), masked where it was. Each strand is a sweep with columns
 * of its own, and its k-mers are counted in the first sequence and in the
 * second as it is taken.
 *
 * MATCHES AND CHAINS
 *
 * A match (i, j) is a row and a column with the same used k-mer. A left
 * extension of it is another match at most b rows above and at most b columns
 * to the left; the same row or the same column is allowed. A chain is a run of
 * matches, each a left extension of the next, and its weight is their number.
 * A match's predecessor is the left extension whose own heaviest chain weighs
 * most, of several the one in the smallest column; its start is where the
 * predecessors end. A match is closed if it is a left extension of none: no
 * other lies at most b rows below it and at most b columns to its right, the
 * same row and the same column included. The listing holds the closed matches.
 *
 * ROOMS
 *
 * The caller lends memory as 32-bit numbers: a pointer, and how many numbers
 * there are. A remainder too small for one more record or entry holds nothing.
 *
 *   work room   eight numbers a record: row, column, weight, start row,
 *               start column and three zeros. hornbeamlet_need tells how many
 *               records are needed.
 *   list room   six numbers an entry: first and last place in the first
 *               sequence, first and last place in the second, weight, and the
 *               strand, 0 forward or 1 reverse. Reverse entries are turned
 *               back: their places in the second sequence are those of the
 *               sequence as it stands, the smaller first.
 *
 * What the rooms hold before a call does not matter to it.
 *
 * INDEX
 *
 * One second sequence may be compared with many first ones. Its index is then
 * built once and given to each call, which looks k-mers up in it. It is one
 * 32-bit number for each place that has a k-mer: the places, ordered by their
 * k-mers (packed two bits a base, A 0, C 1, G 2, T 3, the first base highest),
 * those of equal k-mers by place. They are never more than the letters.
 * hornbeamlet_index builds it in numbers that the caller lends, the index room.
 * An index is that of one sequence, as it stands, for one k and one mask
 * setting. It serves every b, a and m, and both strands.
 *
 * Any numbers may be given as an index: before the sweep they are held against
 * the sequence, k and the mask setting, and refused unless they begin with its
 * index. Those after it change nothing. The index of a sequence without k-mers
 * is empty, and any numbers begin with it, none too.
 *
 * THE ANSWER
 *
 * Seven numbers, written whatever happens:
 *
 *   [0] number     0 when done, else the number of the refusal
 *   [1] sequence   0, or the sequence refused, 1 or 2
 *   [2] detail     the particulars of the refusal, else 0
 *   [3] listed     entries listed; for the stopped sweep, records held; for
 *                  hornbeamlet_index, places in the index
 *   [4] M          matches: pairs of places with the same used k-mer
 *   [5] W          the most matches in any b + 1 consecutive rows
 *   [6] links      pairs of a match and one of its left extensions
 *
 * Over both strands W is the larger of the two, and the other three are sums.
 * After a refusal the last four are 0, and for hornbeamlet_index the last three
 * always are.
 *
 * REFUSALS
 *
 * Checks go from the top down, and the first that applies is given.
 * hornbeamlet_index has k, the mask setting and the second sequence, and gives
 * 1, 10, 5, 6 and 11 alone.
 *
 *   number  given when                        sequence  detail     rooms then
 *   1       k is outside its range            0         0          untouched
 *   2       b is outside its range            0         0          untouched
 *   3       a is outside its range            0         0          untouched
 *   4       m is outside its range            0         0          untouched
 *   9       the strand is not 0 or 1          0         0          untouched
 *   10      the mask setting is not 0 or 1    0         0          untouched
 *   5       a sequence is too long,           1 or 2    0          untouched
 *           the first looked at first
 *   6       a byte is none of the letters,    1 or 2    its first  untouched
 *           all of the first sequence                   place
 *           before the second
 *   11      index room for too few places     0         how many   all zeros
 *           (hornbeamlet_index alone)                   there are
 *   12      the numbers given do not begin    0         0          untouched
 *           with the index (the calls over
 *           an index alone)
 *   7       work room for fewer than W        0         W          all zeros
 *           records
 *   8       list room for too few entries     0         how many   all zeros
 *           (the compare calls alone)                   there are
 *   19      the row is above the number of    0         that       all zeros
 *           rows (the stopped sweeps alone)             number
 *
 * FRAMES
 *
 * The program chain reads a job and writes its answer as frames, one a line of
 * capital hexadecimal digits closed by a line feed: the kind, the number of
 * payload bytes, these bytes, and a byte that brings the sum of all to 0
 * modulo 256. Here a frame is its kind and its values, 64-bit numbers:
 *
 *   kind             values
 *   1   job          k, b, a, m (k below 256, the others below 65,536), strand
 *                    (below 256); the mask setting is 0
 *   2   piece of     1 to 128 letter codes: A 1, C 2, M 3, G 4, R 5, S 6, V 7,
 *       the first    T 8, W 9, Y 10, H 11, K 12, D 13, B 14, N 15
 *   3   piece of     the same
 *       the second
 *   4   end          none
 *   16  entry        first start, first end, second start, second end, weight
 *                    (each below 65,536)
 *   17  done         listed, M, W (each below 4,294,967,296), links
 *   18  reverse      as 16
 *       entry
 *   31  refused      number, sequence (each below 256), detail (below
 *                    4,294,967,296)
 *
 * An input is one job, any number of 2, any number of 3 and one end; what chain
 * writes is the entries and one done frame, or one refused frame alone. A line
 * is never longer than HORNBEAMLET_LINE bytes. The codes are those of capitals,
 * which is what masked letters are written as, and a job with mask setting 1
 * has no frame.
 *
 * A frame is refused with 27 where it is of no such kind, has another number
 * of values, a value does not fit, or the line does not hold it.
 *
 * A line that is read is refused by the first of these that applies:
 *
 *   20   it is not an even number of 6 to 134 capital hexadecimal digits
 *        closed by a line feed, and nothing else
 *   21   its length byte is not the number of its bytes less 3
 *   22   the sum of its bytes is not 0 modulo 256
 *   23   it is of another kind than the one asked for
 *   25   its payload has not the size of its kind
 *
 * Asked for a kind other than 16, 17, 18 and 31, any line is refused with 23.
 *
 * POINTERS
 *
 * No pointer may be null, even where its length is 0: pass the address of
 * anything suitably aligned. The rooms, an index and the answer must not
 * overlap one another or the sequences, nor a frame's line its values. The two
 * sequences may be the same.
 *
 * THREADS
 *
 * A call keeps its tables on the stack of the thread that makes it. Measured
 * with rattle-kit-5b, and not again since, on Arm, and for x86-64 under an
 * emulator, over both strands: hornbeamlet_compare
 * and hornbeamlet_need worked on a thread with 924 kB of stack and crashed with
 * 912 kB; hornbeamlet_stopped worked with 860 kB and crashed with 848 kB. On
 * Arm alone: hornbeamlet_compare_indexed worked with 1,288 kB and crashed with
 * 1,284 kB, hornbeamlet_stopped_indexed with 1,160 and 1,156 kB,
 * hornbeamlet_index with 268 and 264 kB. Short sequences take as much as long
 * ones. The calls for frames take less than 20 kB. Too small a stack does no
 * other harm than the crash: it is touched page by page, so the page that guards
 * it is met first.
 *
 * Some systems give less to a thread other than the main one: musl 128 kB,
 * macOS 512 kB. Ask for at least 2 MB, which leaves room for the caller:
 *
 *   pthread_attr_setstacksize(&attributes, 2 * 1024 * 1024);
 *
 * EXAMPLE
 *
 * A whole program: cc -Iinclude example.c native/libhornbeamlet.a. It lends the
 * records that are needed and list room for one entry, and then as much as
 * refusal 8 names. Any other refusal is told by hornbeamlet_compare with its
 * particulars, so that of hornbeamlet_need is passed over.
 *
 *   #include "hornbeamlet.h"
 *
 *   #include <inttypes.h>
 *   #include <stdio.h>
 *   #include <stdlib.h>
 *
 *   enum { K = 13, B = 300, A = 20, M = 20, LIST_SHORT = 8 };
 *
 *   static const uint8_t first[] =
 *       "ACGTTGCAAGTCCATGGATCTTAGCCGATACCGTAAGCTC";
 *   static const uint8_t second[] =
 *       "GAGCTTACGGTATCGGCTAACCacgttgcaagtCCATGGATC";
 *   static const size_t first_len = sizeof first - 1;
 *   static const size_t second_len = sizeof second - 1;
 *
 *   static uint32_t *lend(uint32_t *room, size_t numbers)
 *   {
 *       room = realloc(room, (numbers + 1) * sizeof *room);
 *       if (room == NULL)
 *           exit(2);
 *       return room;
 *   }
 *
 *   static void print_entry(const uint32_t *e)
 *   {
 *       printf("%" PRIu32 " to %" PRIu32 ", ", e[0], e[1]);
 *       printf("%" PRIu32 " to %" PRIu32 ", ", e[2], e[3]);
 *       printf("weight %" PRIu32 ", %s\n", e[4], e[5] ? "reverse" : "forward");
 *   }
 *
 *   int main(void)
 *   {
 *       uint64_t answer[HORNBEAMLET_ANSWER];
 *       uint64_t records = hornbeamlet_need(K, B, A, M, HORNBEAMLET_BOTH,
 *                                           HORNBEAMLET_MASKED_FORM,
 *                                           first, first_len,
 *                                           second, second_len);
 *       size_t work_len = 0, list_len = HORNBEAMLET_ENTRY, i;
 *       uint32_t *work, *list = NULL;
 *
 *       if (records < HORNBEAMLET_REFUSED)
 *           work_len = HORNBEAMLET_RECORD * (size_t)records;
 *       work = lend(NULL, work_len);
 *       for (;;) {
 *           list = lend(list, list_len);
 *           hornbeamlet_compare(K, B, A, M, HORNBEAMLET_BOTH,
 *                               HORNBEAMLET_MASKED_FORM,
 *                               first, first_len, second, second_len,
 *                               work, work_len, list, list_len, answer);
 *           if (answer[0] != LIST_SHORT)
 *               break;
 *           list_len = HORNBEAMLET_ENTRY * (size_t)answer[2];
 *       }
 *       if (answer[0] != 0)
 *           fprintf(stderr, "refusal %" PRIu64 ", sequence %" PRIu64
 *                   ", detail %" PRIu64 "\n", answer[0], answer[1], answer[2]);
 *       for (i = 0; i < answer[3]; i++)
 *           print_entry(list + HORNBEAMLET_ENTRY * i);
 *       free(list);
 *       free(work);
 *       return answer[0] != 0;
 *   }
 *
 * (One number more than needed, since realloc for 0 may give a null pointer.)
 */
#ifndef HORNBEAMLET_H
#define HORNBEAMLET_H

#include <stddef.h>
#include <stdint.h>

#ifdef __cplusplus
extern "C" {
#endif

/* Numbers of work room in one record. */
#define HORNBEAMLET_RECORD 8
/* Numbers of list room in one entry. */
#define HORNBEAMLET_ENTRY 6
/* Numbers in the answer. */
#define HORNBEAMLET_ANSWER 7
/* What hornbeamlet_need and hornbeamlet_write_frame add to the number of a
 * refusal. */
#define HORNBEAMLET_REFUSED UINT64_C(4294967296)
/* The strand for hornbeamlet_need and the compare calls: forward or both. */
#define HORNBEAMLET_FORWARD 0
#define HORNBEAMLET_BOTH 1
/* The strand for the stopped sweeps: HORNBEAMLET_FORWARD or this one. */
#define HORNBEAMLET_REVERSE 1
/* The mask setting: masked letters form k-mers, or break them. */
#define HORNBEAMLET_MASKED_FORM 0
#define HORNBEAMLET_MASKED_BREAK 1
/* The kinds of frames. */
#define HORNBEAMLET_JOB 1
#define HORNBEAMLET_FIRST_PIECE 2
#define HORNBEAMLET_SECOND_PIECE 3
#define HORNBEAMLET_END 4
#define HORNBEAMLET_FORWARD_ENTRY 16
#define HORNBEAMLET_DONE 17
#define HORNBEAMLET_REVERSE_ENTRY 18
#define HORNBEAMLET_REFUSAL 31
/* Values of a frame that is read. */
#define HORNBEAMLET_VALUES 5
/* Bytes of the longest line, with its line feed. */
#define HORNBEAMLET_LINE 135

/*
 * How much work room the job needs. The reply is W, the number of records,
 * over both strands the larger W, so lend HORNBEAMLET_RECORD * W numbers; or
 * HORNBEAMLET_REFUSED plus the number of the refusal, 1 to 6, 9 or 10. A W is
 * always below HORNBEAMLET_REFUSED.
 */
uint64_t hornbeamlet_need(uint32_t k, uint32_t b, uint32_t a, uint32_t m,
                          uint32_t strand, uint32_t mask,
                          const uint8_t *first, size_t first_len,
                          const uint8_t *second, size_t second_len);

/*
 * Compares the two sequences. When done, the list room holds the entries by
 * last place in the first sequence, then last place in the second, and zeros
 * after them; the work room holds zeros. Forward entries come before reverse
 * ones, which are ordered as in their sweep, before they are turned back. If
 * the list room was too short the answer is refusal 8 with the number of
 * entries of all strands compared: lend HORNBEAMLET_ENTRY times that many
 * numbers and call again.
 */
void hornbeamlet_compare(uint32_t k, uint32_t b, uint32_t a, uint32_t m,
                         uint32_t strand, uint32_t mask,
                         const uint8_t *first, size_t first_len,
                         const uint8_t *second, size_t second_len,
                         uint32_t *work, size_t work_len,
                         uint32_t *list, size_t list_len,
                         uint64_t answer[HORNBEAMLET_ANSWER]);

/*
 * Sweeps the rows of one strand up to the given one and stops. When done, the
 * work room holds the records of all matches in that row and the b rows before
 * it, by row and then column, and zeros after them. Row 0 leaves only zeros.
 * On the reverse strand columns stay those of the second sequence turned
 * round. M, W and links are those of the whole strand, and W is what it needs;
 * what hornbeamlet_need replies for both strands is enough for either. m is
 * checked and not used.
 */
void hornbeamlet_stopped(uint32_t k, uint32_t b, uint32_t a, uint32_t m,
                         uint32_t strand, uint32_t mask,
                         const uint8_t *first, size_t first_len,
                         const uint8_t *second, size_t second_len,
                         uint32_t *work, size_t work_len,
                         uint32_t row,
                         uint64_t answer[HORNBEAMLET_ANSWER]);

/*
 * Builds the index of the second sequence for this k and this mask setting.
 * When done, the index room holds the index and zeros after it, and answer[3]
 * is how many places there are in it. As many numbers as the sequence has
 * letters are always enough. If the room was too short the answer is refusal 11
 * with the number of places: lend so many numbers and call again.
 */
void hornbeamlet_index(uint32_t k, uint32_t mask,
                       const uint8_t *second, size_t second_len,
                       uint32_t *index, size_t index_len,
                       uint64_t answer[HORNBEAMLET_ANSWER]);

/*
 * As hornbeamlet_compare, by an index of the second sequence for this k and
 * this mask setting: answer, list room and work room are the same. Any other
 * index is refused with 12, before work room is looked at.
 */
void hornbeamlet_compare_indexed(uint32_t k, uint32_t b, uint32_t a, uint32_t m,
                                 uint32_t strand, uint32_t mask,
                                 const uint8_t *first, size_t first_len,
                                 const uint8_t *second, size_t second_len,
                                 const uint32_t *index, size_t index_len,
                                 uint32_t *work, size_t work_len,
                                 uint32_t *list, size_t list_len,
                                 uint64_t answer[HORNBEAMLET_ANSWER]);

/*
 * As hornbeamlet_stopped, by an index, likewise. On the reverse strand too it
 * is the index of the second sequence as it stands.
 */
void hornbeamlet_stopped_indexed(uint32_t k, uint32_t b, uint32_t a, uint32_t m,
                                 uint32_t strand, uint32_t mask,
                                 const uint8_t *first, size_t first_len,
                                 const uint8_t *second, size_t second_len,
                                 const uint32_t *index, size_t index_len,
                                 uint32_t *work, size_t work_len,
                                 uint32_t row,
                                 uint64_t answer[HORNBEAMLET_ANSWER]);

/*
 * Writes a frame into the front of the line. The reply is its length with the
 * line feed, and bytes behind it stay as they were; or HORNBEAMLET_REFUSED plus
 * 27, and all of the line stays as it was.
 */
uint64_t hornbeamlet_write_frame(uint32_t kind,
                                 const uint64_t *values, size_t values_len,
                                 uint8_t *line, size_t line_len);

/*
 * Reads a line, line feed included, that is to be a frame of kind 16, 17, 18 or
 * 31. The reply is 0, and the values are the frame's, then zeros; or 20, 21,
 * 22, 23 or 25, and the values are zeros.
 */
uint64_t hornbeamlet_read_frame(uint32_t kind,
                                const uint8_t *line, size_t line_len,
                                uint64_t values[HORNBEAMLET_VALUES]);

#ifdef __cplusplus
}
#endif

#endif
