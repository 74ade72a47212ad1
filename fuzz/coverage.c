/*
 * Runs the inputs of a folder and prints, for each function of an archive that counts its edges, its address, the edges that
 * ran and all its edges; then the refusals that were not met. `covered` puts the names to the addresses.
 */
#define _POSIX_C_SOURCE 200809L
#include <dirent.h>
#include <stdint.h>
#include <stdio.h>
#include <stdlib.h>

#include "call.h"
#include "inputs.h"

/* What the compiler lays down: a counter for each edge, and beside it an address and whether a function begins there. */
struct edge {
    uintptr_t address;
    uintptr_t begins;
};

static uint8_t *counters;
static const struct edge *edges, *edges_end;

void __sanitizer_cov_8bit_counters_init(uint8_t *start, uint8_t *end);
void __sanitizer_cov_pcs_init(const uintptr_t *start, const uintptr_t *end);

void __sanitizer_cov_8bit_counters_init(uint8_t *start, uint8_t *end) {
    (void)end;
    counters = start;
}

void __sanitizer_cov_pcs_init(const uintptr_t *start, const uintptr_t *end) {
    edges = (const struct edge *)start;
    edges_end = (const struct edge *)end;
}

/* Notes the edges that ran since the last time. A counter has 8 bits, and would come to 0 again if it went on. */
static void note(uint8_t *ran) {
    for (size_t e = 0; e < (size_t)(edges_end - edges); e++) {
        ran[e] |= counters[e] != 0;
        counters[e] = 0;
    }
}

static void run_folder(const char *folder, uint8_t *ran) {
    DIR *entries = opendir(folder);
    if (entries == NULL) {
        perror(folder);
        exit(2);
    }
    for (struct dirent *entry; (entry = readdir(entries)) != NULL;) {
        if (entry->d_name[0] != '.') {
            char name[4096];
            snprintf(name, sizeof name, "%s/%s", folder, entry->d_name);
            run_file(name);
            note(ran);
        }
    }
    closedir(entries);
}

static void print_function(const struct edge *from, const struct edge *to, const uint8_t *ran) {
    int count = 0;
    for (const struct edge *e = from; e < to; e++) {
        count += ran[e - edges];
    }
    printf("%016lx %d %d\n", (unsigned long)from->address, count, (int)(to - from));
}

static void print_functions(const uint8_t *ran) {
    const struct edge *from = edges;
    for (const struct edge *e = edges + 1; e <= edges_end; e++) {
        if (e == edges_end || (e->begins & 1)) {
            print_function(from, e, ran);
            from = e;
        }
    }
}

int main(int argc, char **argv) {
    uint8_t *ran = calloc((size_t)(edges_end - edges) + 1, 1);
    if (argc != 2 || ran == NULL || edges == edges_end) {
        fprintf(stderr, "usage: %s CORPUS, with an archive that counts its edges\n", argv[0]);
        return 2;
    }
    run_folder(argv[1], ran);
    print_functions(ran);
    print_refusals_met();
    free(ran);
    return 0;
}
