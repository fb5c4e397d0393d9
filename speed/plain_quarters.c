/* A plain trace reader over plain.c: the quarter-hours and days of the trace on standard input, joined second by second. */
#include "plain_reader.h"

enum { QUARTER = 900, DAY = 86400 }; /* seconds */

static uint64_t quarter[23], day[23]; /* what is joined since the last whole one; both are empty at first */

/* The line of a quarter-hour or a day, and it is empty again. */
static void line(char letter, uint64_t seconds, uint64_t s[23])
{
    if (written > sizeof text - 1024) flush();
    put(letter);
    number((s[0] - 1) / seconds);
    for (int i = 0; i < 23; i++) number(s[i]);
    put('\n');
    memset(s, 0, 23 * sizeof *s);
}

/* What was joined of the quarter-hour goes into its day. */
static void close_quarter(void)
{
    if (plain_join(day, quarter, day)) abort();
    line('Q', QUARTER, quarter);
}

/* Of its record the figures of levels are not looked at. */
static void told(const uint32_t record[52])
{
    uint64_t second[23];
    if (plain_summary(record, second) || plain_join(quarter, second, quarter)) abort();
    if (record[0] % QUARTER == 0) close_quarter();
    if (record[0] % DAY == 0) line('D', DAY, day);
}

static void rest(void)
{
    if (quarter[1]) close_quarter();
    if (day[1]) line('D', DAY, day);
}

int main(void)
{
    read_trace(told, rest);
    return 0;
}
