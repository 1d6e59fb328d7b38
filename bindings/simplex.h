/* A run of the Simplex network, for C. Link libsimplex_c.a (`rt lib` in crates/simplex_c) and the kit's heap, as run.sh does. */
#ifndef SIMPLEX_H
#define SIMPLEX_H

#include <stddef.h>
#include <stdint.h>

#ifdef __cplusplus
extern "C" {
#endif

/* Runs the setup and the events that the input says, in the form of docs/INPUT.md, and answers the status of `simplex_net run`:
 * 0 the run is whole, 1 the setup or an event is refused, 3 the input is not of the form, 4 it is longer than 2^26 bytes, 7 there
 * is no memory for it. `*size` gets the length of what that program writes, and `text` its first bytes, as many as there is
 * room for; at status 7 nothing is written, and `*size` is 0.
 *
 * The caller owes: `length` bytes at `input`, `room` bytes at `text`, and a place at `size`, none of which is null or lies in
 * another; and a stack of some megabytes for long inputs. */
uint8_t simplex_run(const uint8_t *input, size_t length, uint8_t *text, size_t room, size_t *size);

#ifdef __cplusplus
}
#endif

#endif
