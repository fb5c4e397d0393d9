// The two engines of the path's causes, one call for each of the 256 choices of their eight inputs: engines WHO ROUNDS, where WHO is table, equations, or none, which
// is handed the inputs and answers 0. As engines check: the status is 1 where the two do not answer alike.
#include <stdbool.h>
#include <stdint.h>
#include <stdlib.h>
#include <string.h>

typedef uint8_t engine(bool ssf, bool ais, bool oci, bool lck, bool tim, bool disabled, bool deg, bool bdi);
engine causes_by_table, causes_by_equations;

__attribute__((noinline)) static uint8_t none(bool ssf, bool ais, bool oci, bool lck, bool tim, bool disabled, bool deg, bool bdi) {
    (void)ssf, (void)ais, (void)oci, (void)lck, (void)tim, (void)disabled, (void)deg, (void)bdi;
    __asm__ volatile("");
    return 0;
}

static uint8_t at(engine *of, unsigned i) {
    return of(i & 1, i >> 1 & 1, i >> 2 & 1, i >> 3 & 1, i >> 4 & 1, i >> 5 & 1, i >> 6 & 1, i >> 7 & 1);
}

int main(int argc, char **argv) {
    if (argc < 2) return 2;
    if (strcmp(argv[1], "check") == 0) {
        for (unsigned i = 0; i < 256; i++)
            if (at(causes_by_table, i) != at(causes_by_equations, i)) return 1;
        return 0;
    }
    engine *of = strcmp(argv[1], "table") == 0 ? causes_by_table : strcmp(argv[1], "equations") == 0 ? causes_by_equations : none;
    volatile uint8_t last;
    for (int rounds = argc > 2 ? atoi(argv[2]) : 1; rounds > 0; rounds--)
        for (unsigned i = 0; i < 256; i++) last = at(of, i);
    (void)last;
    return 0;
}
