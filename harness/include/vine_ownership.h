/*
 * The calls of document 01, from the library that `rt lib` writes in crates/ownership_c.
 * Kept by hand; harness/commands/tests/header.rs compiles it.
 */
#ifndef VINE_OWNERSHIP_H
#define VINE_OWNERSHIP_H

#include <stddef.h>
#include <stdint.h>

#ifdef __cplusplus
extern "C" {
#endif

/*
 * code   0 accepted; else why the image is refused, the first that applies: 2 short, 3 mark, 4 count, 5 length,
 *        6 record, 7 kind, 8 layers
 * place  with code 6 the offset of the first record in file order that breaks its rule, or the image's length if only
 *        a list entry that no record owns remains; else 0
 * kind   1 flat, 2 layered, 0 refused
 */
struct vine_answer {
    uint32_t code;
    uint32_t place;
    uint32_t kind;
};

/*
 * Whether the bytes are an image, and of which kind. Any bytes of any length get an answer, and always the same one.
 *
 * The caller lends `length` bytes that can be read at `bytes` (not NULL, also where length is 0) and that nothing
 * writes before the call returns. The call writes nothing, allocates nothing and keeps no pointer, so several threads
 * may call it at once, on the same bytes too.
 */
struct vine_answer vine_check(const uint8_t *bytes, size_t length);

#ifdef __cplusplus
}
#endif

#endif
