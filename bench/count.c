/* The rows of rows.h, a fixed number of turns on each side, for a tool that counts the instructions inside the calls (bench/count).
 * For each figure it makes two counts, of which the second is to be subtracted, and prints a line: the row, the side, and by how many
 * to divide the difference. The second count of a whole transfer is one of twelve bytes, so that its beginning and end are not in the
 * figure; that of a row that is restored is the restoring, where it calls memcpy or is part of the ring's work. */
enum { LONGEST = 12 + 1536 };
#include "rows.h"
#if __has_include(<valgrind/callgrind.h>)
#include <valgrind/callgrind.h>
#else
#define CALLGRIND_DUMP_STATS
#endif

enum { TURNS = 23 * 12 }; /* all registers from 00 to 16h as often, and all places of the FIFO; a turn that is restored is always the same */

static volatile uint32_t sink;

static uint32_t nothing(long n)
{
    return (uint32_t)n;
}

/* One count. The tool knows this name, and takes what is spent in functions that are not of rows.h and work.h. Callgrind writes two
 * files, of which the second is the count: to write one makes its counters zero, and its own request for that misses some. */
__attribute__((noinline)) void count_turns(uint32_t (*work)(long n), long n)
{
    CALLGRIND_DUMP_STATS;
    sink = work(n);
    CALLGRIND_DUMP_STATS;
}

static void count_whole(const struct side *s, size_t bytes)
{
    whole = bytes;
    s->from();
    count_turns(s->work, 1);
}

/* Gives by how many to divide. */
static long count(const struct row *row, const struct side *s)
{
    if (row->bytes) {
        count_whole(s, LONGEST);
        count_whole(s, 12);
        return LONGEST - 12;
    }
    long turns = s->restoring ? COPIES : TURNS;
    s->from();
    count_turns(s->work, turns);
    count_turns(s->restoring ? s->restoring : nothing, turns);
    return turns;
}

int main(void)
{
    if (!is_ready(LONGEST)) return 1;
    comparing = 0;
    for (int i = 0; i < ROWS; i++)
        for (int k = 0; k < SIDES; k++)
            if (rows[i].sides[k].work) printf("%s\t%s\t%ld\n", rows[i].name, side_names[k], count(&rows[i], &rows[i].sides[k]));
    return 0;
}
