/*
 * Stations: the run of a script, for a host in C.
 *
 * A script is a text of lines, one call on each; its run makes the calls on a new station, one after another, and
 * writes an answer line for each. docs/RULES.md says what the calls do and how scripts and answers are written.
 *
 * Link target/staticlib/libscript.a, which `tools/build script_c` makes. Nothing is allocated, no state is kept between
 * two runs, and a run of any bytes with a buffer of any length returns.
 */
#ifndef STATION_H
#define STATION_H

#include <stddef.h>
#include <stdint.h>

#ifdef __cplusplus
extern "C" {
#endif

/* The longest script that is run, and the room that the buffer must have for each of its lines. */
#define STATION_SCRIPT_MAX ((size_t)65536)
#define STATION_LINE_ROOM ((size_t)36)

/*
 * Runs the script and returns how many bytes it wrote to the front of `out`. The bytes behind them stay as they were.
 * It returns 0, and writes nothing, where the script is longer than STATION_SCRIPT_MAX, does not end with a line feed,
 * or the buffer has under STATION_LINE_ROOM bytes for each line of the script; every other run writes some bytes.
 *
 * `script` points to `script_len` bytes that may be read, and `out` to `out_len` bytes that may be written; they do not
 * overlap, and neither pointer is null, even where its length is 0.
 */

/* The bell is a board, which knows the tasks 0 to 4,095. */
size_t station_run_board(const uint8_t *script, size_t script_len, uint8_t *out, size_t out_len);

/* The bell is a queue, which knows the tasks 0 to 1,023. */
size_t station_run_queue(const uint8_t *script, size_t script_len, uint8_t *out, size_t out_len);

#ifdef __cplusplus
}
#endif

#endif
