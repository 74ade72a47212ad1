/*
 * The harness without a fuzzer.
 *
 *     seeds              runs the seeds, then shows that they find each fault of faults.h
 *     seeds write DIR    writes the first of them as files, for a fuzzer to begin with
 */
#define _POSIX_C_SOURCE 200809L
#include <signal.h>
#include <stdio.h>
#include <stdlib.h>
#include <string.h>
#include <sys/resource.h>
#include <sys/wait.h>
#include <unistd.h>

#include "faults.h"
#include "inputs.h"

enum { SEEDS = 20000, WRITTEN = 500, MOST_SEED = 400 };

struct seed {
    uint8_t bytes[MOST_SEED];
    size_t length;
};

/* Marsaglia's xorshift32: the same seeds everywhere. */
static uint32_t draw(uint32_t *state) {
    *state ^= *state << 13;
    *state ^= *state >> 17;
    *state ^= *state << 5;
    return *state;
}

static void make_seed(uint32_t *state, struct seed *seed) {
    seed->length = draw(state) % (MOST_SEED + 1);
    for (size_t i = 0; i < seed->length; i++) {
        seed->bytes[i] = (uint8_t)(draw(state) >> 11);
    }
}

static void run_seeds(void) {
    uint32_t state = 1;
    struct seed seed;
    for (int i = 0; i < SEEDS; i++) {
        make_seed(&state, &seed);
        LLVMFuzzerTestOneInput(seed.bytes, seed.length);
    }
}

static void stop(const char *what) {
    perror(what);
    exit(2);
}

static void write_seeds(const char *folder) {
    uint32_t state = 1;
    struct seed seed;
    for (int i = 0; i < WRITTEN; i++) {
        char name[4096];
        make_seed(&state, &seed);
        snprintf(name, sizeof name, "%s/%03d", folder, i);
        FILE *file = fopen(name, "wb");
        if (file == NULL || fwrite(seed.bytes, 1, seed.length, file) != seed.length || fclose(file) != 0) {
            stop(name);
        }
    }
}

static const struct {
    const char *name, *message;
} faults[FAULTS_END] = {
#define NAMED(name, message) [name] = {#name, message},
    ALL_FAULTS(NAMED)
#undef NAMED
};

/* Runs the seeds in a process of their own, in which the library has a fault. How it ended; its message, "" if there is none.
 */
static int run_with(enum fault which, char *message, size_t room) {
    int status, ends[2];

    if (pipe(ends) != 0) {
        stop("pipe");
    }
    pid_t child = fork();
    if (child < 0) {
        stop("fork");
    }
    if (child == 0) {
        const struct rlimit no_core = {0, 0};
        setrlimit(RLIMIT_CORE, &no_core);
        dup2(ends[1], STDERR_FILENO);
        fault = which;
        run_seeds();
        _exit(0);
    }
    close(ends[1]);
    FILE *said = fdopen(ends[0], "r");
    if (said == NULL) {
        stop("fdopen");
    }
    if (fgets(message, (int)room, said) == NULL) {
        message[0] = 0;
    }
    message[strcspn(message, "\n")] = 0;
    fclose(said);
    if (waitpid(child, &status, 0) != child) {
        stop("waitpid");
    }
    return status;
}

/* The fault is found where it is looked for: by this message, or by a page that is not to be touched. */
static int is_found(enum fault which) {
    char message[256];
    int status = run_with(which, message, sizeof message);
    const char *expected = faults[which].message;

    if (WIFSIGNALED(status) && WTERMSIG(status) == (expected ? SIGABRT : SIGSEGV) &&
        strcmp(message, expected ? expected : "") == 0) {
        return 1;
    }
    fprintf(stderr, "%s: not found as it should be; status %d, message '%s'\n", faults[which].name, status, message);
    return 0;
}

int main(int argc, char **argv) {
    int missed = 0;

    if (argc == 3 && strcmp(argv[1], "write") == 0) {
        write_seeds(argv[2]);
        return 0;
    }
    run_seeds();
    for (enum fault which = NO_FAULT + 1; which < FAULTS_END; which++) {
        missed += !is_found(which);
    }
    if (missed == 0) {
        printf("%d seeds, and %d faults found\n", SEEDS, FAULTS_END - 1);
    }
    return missed != 0;
}
