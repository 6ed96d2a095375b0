/* One block under a new key, called from C: what a key costs by itself.
 *
 * Link with libone_block.a. A key is a pointer and then a length. The pointer may not be null. Nothing else is asked of a caller:
 * every call takes keys of every length, and answers. No call keeps a pointer, asks for memory, has a state or changes the key. */
#ifndef ONE_BLOCK_H
#define ONE_BLOCK_H

#include <stdbool.h>
#include <stddef.h>
#include <stdint.h>

#ifdef __cplusplus
extern "C" {
#endif

/* Each call seals a block under a key, or opens it where `opening` is true. A block is a number, whose highest byte is the first
 * byte of the block. Under a key of another length than the one named here, the answer is 0. */

/* DES; a key of 8 bytes. */
uint64_t one_block_des(const uint8_t *key, size_t key_length, bool opening, uint64_t block);

/* Triple DES with three keys; 24 bytes. */
uint64_t one_block_ede3(const uint8_t *key, size_t key_length, bool opening, uint64_t block);

/* IDEA with eight rounds; 16 bytes. */
uint64_t one_block_idea(const uint8_t *key, size_t key_length, bool opening, uint64_t block);

/* XTEA with 32 cycles; 16 bytes. */
uint64_t one_block_xtea(const uint8_t *key, size_t key_length, bool opening, uint64_t block);

#ifdef __cplusplus
}
#endif

#endif
