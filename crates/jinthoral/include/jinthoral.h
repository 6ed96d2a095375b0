/* The cipher workbench, called from C: runs passed under a pile, traces closed and opened.
 *
 * Link with libjinthoral.a. Every slice is a pointer and then a length. No pointer may be null, even where its length is 0, and
 * nothing that a call writes (a key, a run, an output) may overlap anything else that it is given. Nothing else is asked of a
 * caller: every call takes bytes of every length, and answers. No call keeps a pointer, asks for memory or has a state.
 *
 * A key's bytes are zeros after every call, refused or not. A refused call changes nothing else. */
#ifndef JINTHORAL_H
#define JINTHORAL_H

#include <stdbool.h>
#include <stddef.h>
#include <stdint.h>

#ifdef __cplusplus
extern "C" {
#endif

/* What a call came to. `refusal` is 0 where it was done, else the number of its refusal, and `place` the place in what was
 * brought (docs/REFUSALS.md lists both); where it was done, `place` is 0 too. Of several reasons the one with the lowest number
 * is told. `length` is how many bytes of the run or of the output were written. */
typedef struct {
    uint64_t refusal;
    size_t place;
    size_t length;
} jinthoral_reply;

/* The same of a file that was opened, and the label that it bears, or zeros. Axis 0 is right ascension, 1 declination. */
typedef struct {
    jinthoral_reply reply;
    uint32_t axis;
    uint32_t serial;
    uint32_t number;
} jinthoral_opened;

/* Fits a pile by a description and a key, and passes a run under it, block by block, chained from a start of eight bytes. It
 * seals, or opens where `opening` is true. */
jinthoral_reply jinthoral_pass(const uint8_t *description, size_t description_length,
                               uint8_t *key, size_t key_length,
                               bool opening,
                               const uint8_t *start, size_t start_length,
                               uint8_t *run, size_t run_length);

/* Fits a pile, and closes a trace into the first bytes of an output. */
jinthoral_reply jinthoral_close(const uint8_t *description, size_t description_length,
                                uint8_t *key, size_t key_length,
                                uint32_t axis, uint32_t serial, uint32_t number,
                                const uint8_t *start, size_t start_length,
                                const uint8_t *plain, size_t plain_length,
                                uint8_t *output, size_t output_length);

/* Fits a pile, and opens a trace file into the first bytes of an output. */
jinthoral_opened jinthoral_open(const uint8_t *description, size_t description_length,
                                uint8_t *key, size_t key_length,
                                const uint8_t *file, size_t file_length,
                                uint8_t *output, size_t output_length);

#ifdef __cplusplus
}
#endif

#endif
