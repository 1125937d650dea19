/* The interpreter's loop as a C switch (machine.h): interp TURNS RUNS FILE runs the program that FILE has in hexadecimal
   digits, and prints the nanoseconds of the shortest of TURNS turns of RUNS runs each, and the sum of all answers. Calls
   are left out. */
#include "machine.h"
#include <stdio.h>
#include <time.h>

static void refuse(const char *what) {
    fprintf(stderr, "interp: %s\n", what);
    exit(1);
}

static uint64_t called(void *owner, uint64_t number, uint64_t first, uint64_t second) {
    (void)owner, (void)number, (void)first, (void)second;
    refuse("a call");
    return 0;
}

static uint64_t now(void) {
    struct timespec t;
    clock_gettime(CLOCK_MONOTONIC, &t);
    return (uint64_t)t.tv_sec * 1000000000u + (uint64_t)t.tv_nsec;
}

int main(int words, char **word) {
    static uint8_t bytes[4096];
    static struct operation ops[512];
    uint8_t context[64] = {0};
    size_t count = 0;
    unsigned byte;
    FILE *file = words == 4 ? fopen(word[3], "r") : NULL;
    if (file == NULL)
        refuse("usage: interp TURNS RUNS FILE");
    while (count < sizeof bytes && fscanf(file, "%2x", &byte) == 1)
        bytes[count++] = (uint8_t)byte;
    fclose(file);
    count /= 8;
    decode(bytes, count, ops);
    for (uint8_t i = 4; i < 64; i++)
        context[i] = i;
    context[0] = 1;
    uint64_t least = UINT64_MAX, sum = 0;
    for (long turns = strtol(word[1], NULL, 10); turns > 0; turns--) {
        const uint64_t start = now();
        for (long runs = strtol(word[2], NULL, 10); runs > 0; runs--) {
            sum += run(ops, count, context, NULL);
            __asm__ volatile("" ::: "memory");
        }
        const uint64_t taken = now() - start;
        if (taken < least)
            least = taken;
    }
    printf("%llu %llu\n", (unsigned long long)least, (unsigned long long)sum);
    return 0;
}
