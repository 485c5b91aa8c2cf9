/* Feeds the harness without libFuzzer: seeded random inputs, the same ones in every run.
 *
 *     driver COUNT [SEED]        COUNT inputs
 *     driver FILE..              the inputs of files, as libFuzzer leaves them */
#include <ctype.h>
#include <stdio.h>
#include <stdlib.h>

#include "maker.h"

int LLVMFuzzerTestOneInput(const uint8_t *data, size_t size);
int LLVMFuzzerInitialize(int *count, char ***words);

static void one_file(const char *name) {
    static uint8_t data[1 << 16];
    FILE *file = fopen(name, "rb");
    if (!file) {
        perror(name);
        exit(2);
    }
    size_t size = fread(data, 1, sizeof data, file);
    fclose(file);
    LLVMFuzzerTestOneInput(data, size);
}

static void seeded(unsigned long count, uint64_t seed) {
    uint8_t data[512];
    for (unsigned long i = 0; i < count; i++) {
        size_t size = mixed(seed + i) % sizeof data;
        for (size_t k = 0; k < size; k++) data[k] = (uint8_t)(mixed((seed + i) * 1000003u + k) >> 24);
        LLVMFuzzerTestOneInput(data, size);
    }
}

int main(int count, char **words) {
    LLVMFuzzerInitialize(&count, &words);
    if (count < 2) {
        fprintf(stderr, "usage: driver COUNT [SEED], or driver FILE..\n");
        return 2;
    }
    if (isdigit((unsigned char)words[1][0])) {
        seeded(strtoul(words[1], NULL, 10), count > 2 ? strtoull(words[2], NULL, 10) : 1);
        return 0;
    }
    for (int i = 1; i < count; i++) one_file(words[i]);
    return 0;
}
