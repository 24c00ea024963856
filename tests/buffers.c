/*
 * Runs scripts through both exported runs with buffers of every length that matters, and random bytes through both.
 * Of each run: what is returned, that the bytes written are those of a run with room, and that no other byte changed.
 * Prints how many runs were made; exits 1 at the first that is not as it should be.
 */
#include <stdio.h>
#include <stdlib.h>
#include <string.h>

#include "station.h"

typedef size_t run_fn(const uint8_t *, size_t, uint8_t *, size_t);

static run_fn *const runs[] = {station_run_board, station_run_queue};
static unsigned long made;

static void fail(const char *what, const char *name, size_t room) {
    fprintf(stderr, "%s: %s, with a buffer of %zu bytes\n", name, what, room);
    exit(1);
}

/* The script in memory of its own, so that a sanitizer sees a read past it. */
static void check(run_fn *run, const char *name, const uint8_t *bytes, size_t len, size_t room, const uint8_t *want,
                  size_t want_len) {
    uint8_t *script = malloc(len ? len : 1);
    uint8_t *out = malloc(room ? room : 1);
    memcpy(script, bytes, len);
    memset(out, 0xa5, room);
    size_t got = run(script, len, out, room);
    if (got != want_len) fail("another length was returned", name, room);
    if (memcmp(out, want, got) != 0) fail("other bytes were written", name, room);
    for (size_t i = got; i < room; i++)
        if (out[i] != 0xa5) fail("a byte past the answers was changed", name, room);
    if (memcmp(script, bytes, len) != 0) fail("the script was changed", name, room);
    free(script);
    free(out);
    made++;
}

static size_t lines(const uint8_t *bytes, size_t len) {
    size_t n = 0;
    for (size_t i = 0; i < len; i++) n += bytes[i] == '\n';
    return n;
}

/* A run with just enough room, with less, with more, and with none. */
static void around(run_fn *run, const char *name, const uint8_t *bytes, size_t len) {
    static uint8_t full[65537 * 36];
    size_t want = run(bytes, len, full, sizeof full);
    size_t need = STATION_LINE_ROOM * lines(bytes, len);
    int whole = len > 0 && len <= STATION_SCRIPT_MAX && bytes[len - 1] == '\n';
    if ((want > 0) != whole) fail("it ran, or did not, against the rule", name, sizeof full);
    size_t rooms[] = {0, 1, 17, 18, 35, 36, need / 2, need - (need > 0), need, need + 1, need + 100};
    for (size_t i = 0; i < sizeof rooms / sizeof *rooms; i++)
        check(run, name, bytes, len, rooms[i], full, whole && rooms[i] >= need ? want : 0);
}

static uint64_t state = 0x9e3779b97f4a7c15u;

static uint32_t chance(uint32_t below) {
    state ^= state << 13;
    state ^= state >> 7;
    state ^= state << 17;
    return (uint32_t)(state >> 33) % below;
}

/* Random bytes, and good scripts with some bytes replaced. */
static void random_runs(const uint8_t *good, size_t len, unsigned times) {
    static const char alphabet[] = "call place task value\nopen 3 - 0\nphase\tclose-0123456789\r";
    uint8_t bytes[512];
    for (unsigned t = 0; t < times; t++) {
        size_t n = chance(sizeof bytes);
        if (t % 2 && len > 0 && len <= sizeof bytes) {
            n = len;
            memcpy(bytes, good, len);
            for (unsigned k = chance(4); k-- > 0;) bytes[chance((uint32_t)n)] = (uint8_t)alphabet[chance(sizeof alphabet - 1)];
        } else {
            for (size_t i = 0; i < n; i++)
                bytes[i] = t % 4 ? (uint8_t)alphabet[chance(sizeof alphabet - 1)] : (uint8_t)chance(256);
        }
        for (size_t r = 0; r < 2; r++) around(runs[r], "random bytes", bytes, n);
    }
}

int main(int argc, char **argv) {
    static uint8_t bytes[STATION_SCRIPT_MAX + 2];
    for (int i = 1; i < argc; i++) {
        FILE *file = fopen(argv[i], "rb");
        if (!file) return perror(argv[i]), 1;
        size_t len = fread(bytes, 1, sizeof bytes, file);
        fclose(file);
        for (size_t r = 0; r < 2; r++) around(runs[r], argv[i], bytes, len);
        random_runs(bytes, len, 200);
    }
    /* a script of the greatest length, and of one byte more */
    memset(bytes, 'x', sizeof bytes);
    bytes[STATION_SCRIPT_MAX - 1] = '\n';
    bytes[STATION_SCRIPT_MAX] = '\n';
    for (size_t r = 0; r < 2; r++) {
        around(runs[r], "65,536 bytes", bytes, STATION_SCRIPT_MAX);
        around(runs[r], "65,537 bytes", bytes, STATION_SCRIPT_MAX + 1);
    }
    memset(bytes, '\n', sizeof bytes);
    for (size_t r = 0; r < 2; r++) around(runs[r], "65,536 lines", bytes, STATION_SCRIPT_MAX);
    printf("%lu runs\n", made);
    return 0;
}
