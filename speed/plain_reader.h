/* What the trace readers over plain.c share: standard input as records, numbers as text. plain_ledger.c and plain_quarters.c include it and say
 * what becomes of a second. */
#ifndef PLAIN_READER_H
#define PLAIN_READER_H
#include "plain.h"
#include <inttypes.h>
#include <stdio.h>
#include <stdlib.h>
#include <string.h>
#include <unistd.h>

static struct plain p; /* the supervisor that the trace is given to */
static uint8_t buffer[4096];
static size_t from, to;
static char text[65536];
static size_t written;

static void flush(void)
{
    for (size_t done = 0; done < written;) {
        ssize_t n = write(1, text + done, written - done);
        if (n <= 0) exit(2);
        done += (size_t)n;
    }
    written = 0;
}

static void put(char c) { text[written++] = c; }

static void number(uint64_t v)
{
    char digits[20];
    int n = 0;
    do digits[n++] = (char)('0' + v % 10);
    while (v /= 10);
    put(' ');
    while (n) put(digits[--n]);
}

/* At least want bytes in the buffer, or all that is left. */
static size_t have(size_t want)
{
    if (to - from >= want) return to - from;
    memmove(buffer, buffer + from, to - from);
    to -= from, from = 0;
    while (to < want) {
        ssize_t n = read(0, buffer + to, sizeof buffer - to);
        if (n < 0) exit(2);
        if (n == 0) break;
        to += (size_t)n;
    }
    return to - from;
}

static uint32_t word(const uint8_t *b) { return b[0] | b[1] << 8 | b[2] << 16 | (uint32_t)b[3] << 24; }

/* Reads the trace on standard input. told is handed each second that is told, the pending one last; then comes what rest prints, where it
 * is given, and R and E. */
static void read_trace(void (*told)(const uint32_t record[52]), void (*rest)(void))
{
    static const uint8_t lengths[6] = {0, 69, 2, 81, 42, 75}; /* by kind */
    int provisioned = 0;
    unsigned uses = 0; /* the kind of its frames, 1 or 5 */
    uint64_t marks = 0, frames = 0, offset = 0, refused = 0;
    uint32_t record[52];
    size_t left;
    while ((left = have(4)) > 0) {
        if (left < 4) {
            refused = 14;
            break;
        }
        const unsigned length = buffer[from] | buffer[from + 1] << 8, kind = buffer[from + 2] | buffer[from + 3] << 8;
        if (kind < 1 || kind > 5 || length != lengths[kind]) {
            refused = 15;
            break;
        }
        if (have(length + 2) < length + 2) {
            refused = 14;
            break;
        }
        const uint8_t *b = buffer + from + 4;
        if (provisioned == (kind == 3) || (kind == 4 && frames + marks > 0)) {
            refused = 16;
            break;
        }
        if (kind == 1 || kind == 5) {
            if (uses && uses != kind) {
                refused = 19;
                break;
            }
            const uint64_t answer = kind == 1 ? plain_step(&p, b, 64, b[64], b[65], b[66])
                                              : plain_step_levels(&p, b, 64, b[64], b[65], b[66], b + 67);
            if ((refused = answer & 255)) break;
            uses = kind;
            frames++;
        } else if (kind == 2) {
            const uint64_t answer = plain_mark(&p, record);
            if ((refused = answer & 255)) break;
            marks++;
            if (answer & PLAIN_TOLD) told(record);
        } else if (kind == 4) {
            if (b[0] < 1 || b[0] > 6 || p.given >> (b[0] - 1) & 1) {
                refused = 18;
                break;
            }
            if ((refused = plain_level(&p, b[0], word(b + 1), b[5], b[6], b[7], b + 8, 32))) break;
        } else {
            refused = plain_fresh(&p, b[0], word(b + 1), b[5], word(b + 6), b[10], b[11], b[12], b[13], b[14], b + 15, 32, b + 47, 32);
            if (refused) break;
            provisioned = 1;
        }
        from += length + 2;
        offset += length + 2;
    }
    if (plain_pending(&p, record)) told(record);
    if (rest) rest();
    if (written > sizeof text - 1024) flush();
    if (refused) {
        put('R');
        number(refused);
        number(offset);
        put('\n');
    }
    put('E');
    number(marks);
    number(frames);
    put('\n');
    flush();
}
#endif
