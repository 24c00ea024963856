/* A host: runs the script on its standard input on a board, and prints the answers. */
#include <stdio.h>

#include "station.h"

static uint8_t script[STATION_SCRIPT_MAX + 1];
static uint8_t out[65536];

int main(void) {
    size_t script_len = fread(script, 1, sizeof script, stdin);
    size_t written = station_run_board(script, script_len, out, sizeof out);
    if (written == 0) {
        fputs("the script is too long, does not end with a line feed, or has too many lines\n", stderr);
        return 1;
    }
    return fwrite(out, 1, written, stdout) == written ? 0 : 1;
}
