/* P1 and P4 of the document, forward and over both strands, with the first two
 * letters masked, P1 over its index, and its done frame, asked from C through
 * the header alone. */
#include "hornbeamlet.h"

#include <stdio.h>

static const uint8_t first[] = {'a', 'c', 'C', 'G', 'T'};
static const uint8_t second[] = {'A', 'C', 'G', 'G', 'T'};
static uint32_t work[3 * HORNBEAMLET_RECORD];
static uint32_t list[2 * HORNBEAMLET_ENTRY];
static uint32_t places[5];

static void print_numbers(const uint32_t *numbers, int count)
{
    int i;
    for (i = 0; i < count; i++)
        printf(" %u", (unsigned)numbers[i]);
    printf("\n");
}

static void print_answer(const uint64_t answer[HORNBEAMLET_ANSWER])
{
    int i;
    for (i = 0; i < HORNBEAMLET_ANSWER; i++)
        printf("%lu ", (unsigned long)answer[i]);
}

static void print_listing(const uint64_t answer[HORNBEAMLET_ANSWER])
{
    print_answer(answer);
    printf("list");
    print_numbers(list, 2 * HORNBEAMLET_ENTRY);
}

static void print_held(const uint64_t answer[HORNBEAMLET_ANSWER])
{
    print_answer(answer);
    printf("work");
    print_numbers(work + 8, 3);
}

static uint64_t need(uint32_t k, uint32_t strand, uint32_t mask)
{
    return hornbeamlet_need(k, 2, 8, 0, strand, mask, first, sizeof first,
                            second, sizeof second);
}

static void compare(uint32_t strand, uint32_t mask, size_t work_len)
{
    uint64_t answer[HORNBEAMLET_ANSWER];
    hornbeamlet_compare(2, 2, 8, 0, strand, mask, first, sizeof first, second,
                        sizeof second, work, work_len, list,
                        2 * HORNBEAMLET_ENTRY, answer);
    print_listing(answer);
}

static void stopped(uint32_t strand, uint32_t mask)
{
    uint64_t answer[HORNBEAMLET_ANSWER];
    hornbeamlet_stopped(2, 2, 8, 0, strand, mask, first, sizeof first, second,
                        sizeof second, work, 24, 3, answer);
    print_held(answer);
}

static void build(uint32_t k, size_t places_len)
{
    uint64_t answer[HORNBEAMLET_ANSWER];
    hornbeamlet_index(k, HORNBEAMLET_MASKED_FORM, second, sizeof second, places,
                      places_len, answer);
    print_answer(answer);
    printf("index");
    print_numbers(places, 5);
}

static void compare_indexed(uint32_t strand, size_t places_len)
{
    uint64_t answer[HORNBEAMLET_ANSWER];
    hornbeamlet_compare_indexed(2, 2, 8, 0, strand, HORNBEAMLET_MASKED_FORM,
                                first, sizeof first, second, sizeof second,
                                places, places_len, work, 24, list,
                                2 * HORNBEAMLET_ENTRY, answer);
    print_listing(answer);
}

static void stopped_indexed(uint32_t strand)
{
    uint64_t answer[HORNBEAMLET_ANSWER];
    hornbeamlet_stopped_indexed(2, 2, 8, 0, strand, HORNBEAMLET_MASKED_FORM,
                                first, sizeof first, second, sizeof second,
                                places, 5, work, 24, 3, answer);
    print_held(answer);
}

static void read_frame(uint32_t kind, const uint8_t *line, size_t line_len)
{
    uint64_t values[HORNBEAMLET_VALUES];
    int i;
    printf("%lu", (unsigned long)hornbeamlet_read_frame(kind, line, line_len,
                                                        values));
    for (i = 0; i < HORNBEAMLET_VALUES; i++)
        printf(" %lu", (unsigned long)values[i]);
    printf("\n");
}

static void done_frame(void)
{
    static const uint64_t tallies[] = {1, 3, 2, 2};
    uint8_t line[HORNBEAMLET_LINE];
    size_t len = (size_t)hornbeamlet_write_frame(HORNBEAMLET_DONE, tallies, 4,
                                                 line, sizeof line);
    printf("%.*s", (int)len, (const char *)line);
    read_frame(HORNBEAMLET_DONE, line, len);
    read_frame(HORNBEAMLET_FORWARD_ENTRY, line, len);
    printf("%d\n", hornbeamlet_write_frame(HORNBEAMLET_DONE, tallies, 4, line,
                                           len - 1)
                       == HORNBEAMLET_REFUSED + 27);
}

int main(void)
{
    const uint32_t form = HORNBEAMLET_MASKED_FORM;
    const uint32_t broken = HORNBEAMLET_MASKED_BREAK;
    printf("%lu %lu %lu\n", (unsigned long)need(2, HORNBEAMLET_FORWARD, form),
           (unsigned long)need(2, HORNBEAMLET_BOTH, form),
           (unsigned long)need(2, HORNBEAMLET_BOTH, broken));
    printf("%d %d %d\n", need(0, 2, 2) == HORNBEAMLET_REFUSED + 1,
           need(2, 2, 2) == HORNBEAMLET_REFUSED + 9,
           need(2, 1, 2) == HORNBEAMLET_REFUSED + 10);
    compare(HORNBEAMLET_FORWARD, form, 16);
    compare(HORNBEAMLET_FORWARD, form, 15);
    compare(HORNBEAMLET_BOTH, form, 24);
    compare(HORNBEAMLET_BOTH, form, 23);
    compare(HORNBEAMLET_BOTH, broken, 24);
    compare(HORNBEAMLET_BOTH, 2, 24);
    stopped(HORNBEAMLET_FORWARD, form);
    stopped(HORNBEAMLET_REVERSE, form);
    stopped(HORNBEAMLET_REVERSE, broken);
    build(2, 3);
    build(2, 5);
    compare_indexed(HORNBEAMLET_FORWARD, 4);
    compare_indexed(HORNBEAMLET_BOTH, 5);
    compare_indexed(HORNBEAMLET_BOTH, 3);
    stopped_indexed(HORNBEAMLET_FORWARD);
    stopped_indexed(HORNBEAMLET_REVERSE);
    build(0, 5);
    done_frame();
    return 0;
}
