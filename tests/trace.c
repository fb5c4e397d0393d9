/* Writes a trace to standard output, a record for each word of the command line:
 *   P           a provisioning: k 1, DEGThr 1, DEGM 2, trace modes 0, TIMActDis 0, names of zeros
 *   L           a tandem level: level 1, and else as P
 *   Z           a frame of zeros
 *   G           a frame with right framing and the next MFAS
 *   N           a frame without framing and the next MFAS
 *   Z5, G5, N5  such frames with the counts of six levels, of kind 5; the others are of kind 1
 *   M           a mark
 *   B:02000200  bytes as they stand
 *   -3          the last 3 bytes are left out
 * A word may end with :NAME=NUMBER,.. for its fields and with *NUMBER to be repeated. Fields of a frame: flags, sm, pm, mfas (which then
 * does not count), stti, sst, ptti, pst (trace and status bytes), of levels 1 to 6 tti1, st1 .. tti6, st6 and the counts t1 .. t6. Of a
 * provisioning: k, sthr, sdegm, pthr, pdegm, smode, pmode, sdis, pdis, sname, pname (the byte of which all names are made). Of a level: level,
 * thr, degm, mode, dis, name. */
#include <stdio.h>
#include <stdlib.h>
#include <string.h>

static unsigned char *out;
static size_t len, room;
static unsigned mfas;

static void byte(unsigned b) {
    if (len == room) {
        room = room ? 2 * room : 65536;
        out = realloc(out, room);
        if (!out) exit(1);
    }
    out[len++] = (unsigned char)b;
}

static void two(unsigned n) { byte(n & 255); byte(n >> 8 & 255); }
static void four(unsigned long n) { two((unsigned)(n & 65535)); two((unsigned)(n >> 16 & 65535)); }
static void fill(unsigned b, int n) { while (n--) byte(b); }

/* The number of a field of the word, or what it is where the word doesn't name it. */
static unsigned long field(const char *word, const char *name, unsigned long otherwise) {
    size_t n = strlen(name);
    for (const char *p = strchr(word, ':'); p; p = strchr(p, ',')) {
        p++;
        if (!strncmp(p, name, n) && p[n] == '=') return strtoul(p + n + 1, 0, 0);
    }
    return otherwise;
}

/* The same of a level: its name ends with the level's number. */
static unsigned of_level(const char *word, const char *name, int level) {
    char whole[8];
    snprintf(whole, sizeof whole, "%s%d", name, level);
    return (unsigned)field(word, whole, 0);
}

static void frame(const char *w) {
    static const int at[7] = {0, 38, 35, 32, 26, 23, 20}; /* a level's trace byte */
    const int counts = w[1] == '5';
    unsigned char o[64] = {0};
    if (w[0] == 'G') { o[0] = o[1] = o[2] = 0xF6; o[3] = o[4] = o[5] = 0x28; }
    if (w[0] != 'Z') {
        unsigned long m = field(w, "mfas", 256);
        if (m < 256) o[6] = (unsigned char)m;
        else o[6] = (unsigned char)(mfas++ & 255);
    }
    o[7] = (unsigned char)field(w, "stti", 0);
    o[9] = (unsigned char)field(w, "sst", 0);
    o[41] = (unsigned char)field(w, "ptti", 0);
    o[43] = (unsigned char)field(w, "pst", 0);
    for (int n = 1; n <= 6; n++) {
        o[at[n]] = (unsigned char)of_level(w, "tti", n);
        o[at[n] + 2] = (unsigned char)of_level(w, "st", n);
    }
    two(counts ? 75 : 69); two(counts ? 5 : 1);
    for (int i = 0; i < 64; i++) byte(o[i]);
    byte((unsigned)field(w, "flags", 0)); byte((unsigned)field(w, "sm", 0)); byte((unsigned)field(w, "pm", 0));
    for (int n = 1; n <= 6 && counts; n++) byte(of_level(w, "t", n));
}

static void provisioning(const char *w) {
    two(81); two(3);
    byte((unsigned)field(w, "k", 1));
    four(field(w, "sthr", 1)); byte((unsigned)field(w, "sdegm", 2));
    four(field(w, "pthr", 1)); byte((unsigned)field(w, "pdegm", 2));
    byte((unsigned)field(w, "smode", 0)); byte((unsigned)field(w, "pmode", 0));
    byte((unsigned)field(w, "sdis", 0)); byte((unsigned)field(w, "pdis", 0));
    fill((unsigned)field(w, "sname", 0), 32); fill((unsigned)field(w, "pname", 0), 32);
}

static void level(const char *w) {
    two(42); two(4);
    byte((unsigned)field(w, "level", 1));
    four(field(w, "thr", 1)); byte((unsigned)field(w, "degm", 2));
    byte((unsigned)field(w, "mode", 0)); byte((unsigned)field(w, "dis", 0));
    fill((unsigned)field(w, "name", 0), 32);
}

int main(int argc, char **argv) {
    for (int i = 1; i < argc; i++) {
        const char *w = argv[i], *star = strchr(w, '*');
        unsigned long times = star ? strtoul(star + 1, 0, 0) : 1;
        while (times--) switch (w[0]) {
            case 'P': provisioning(w); break;
            case 'L': level(w); break;
            case 'Z': case 'G': case 'N': frame(w); break;
            case 'M': two(2); two(2); break;
            case 'B': for (const char *p = w + 2; p[0] && p[1]; p += 2) { char h[3] = {p[0], p[1], 0}; byte((unsigned)strtoul(h, 0, 16)); } break;
            case '-': len -= strtoul(w + 1, 0, 0); break;
            default: fprintf(stderr, "trace: %s?\n", w); return 2;
        }
    }
    return fwrite(out, 1, len, stdout) == len ? 0 : 1;
}
