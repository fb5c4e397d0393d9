/* A plain trace reader over plain.c: the listing of the trace on standard input. */
#include "plain_reader.h"

/* The line of a second: the 22 figures, then the five of each level that is provisioned. */
static void line(const uint32_t record[52])
{
    if (written > sizeof text - 1024) flush();
    put('S');
    for (int i = 0; i < 22; i++) number(record[i]);
    for (int i = 0; i < 30; i++)
        if (p.given >> i / 5 & 1) number(record[22 + i]);
    put('\n');
}

int main(void)
{
    read_trace(line, NULL);
    return 0;
}
