/*
 * The scans of Sulyobak's lower crate (crates/carts_c exports them), for measuring and for tests. The engine's interface is sulyobak.h:
 * a program that uses the engine needs nothing of this.
 *
 * Link with libcarts_c.a (the command `rust/build-archives` writes it to target/staticlib):
 *     cc -std=c99 -Iinclude program.c -Ltarget/staticlib -lcarts_c -o program
 *
 * Any bytes and any lengths have their answer, every call ends, and no call changes anything. It remains the caller's that every pointer is
 * valid for as many bytes as its length says, and not null where the length is 0. A cart and an operation are 80 bytes of the form that
 * sulyobak.h tells.
 */
#ifndef CARTS_H
#define CARTS_H

#include <stdbool.h>
#include <stddef.h>
#include <stdint.h>

#ifdef __cplusplus
extern "C" {
#endif

/* Whether every byte is zero. */
bool carts_all_zero(const uint8_t *bytes, size_t bytes_len);

/* Whether the bytes are those of a copy: 10,240 bytes, 128 carts, each empty or of its form with its place as its number. */
bool carts_is_copy(const uint8_t *copy, size_t copy_len);

/* Whether each operation is of its form. Bytes after the last whole operation are not looked at. */
bool carts_all_operations(const uint8_t *operations, size_t operations_len);

/* What a search answers. */
typedef struct {
    uint32_t kind;    /* one of the four below */
    uint32_t value;   /* one: the cart's number, its place from 1; several: how many there are; none and a wrong length: 0 */
    uint32_t letters; /* the letters counted, as told below, up to 8,192; a wrong length: 0 */
} carts_searched;

/* Kinds of answer. */
#define CARTS_NONE 0         /* no cart has the title */
#define CARTS_ONE 1          /* one cart has it */
#define CARTS_SEVERAL 2      /* two carts or more have it */
#define CARTS_WRONG_LENGTH 3 /* the copy does not have 10,240 bytes, or the title not 1 to 64 */

/* Searches a copy for a title: the carts that are held (byte 0 is 1) and have exactly its length (byte 1) and its letters (bytes 16 on).
 * Lengths are compared first. Counted are, in each held cart of the length asked, the letters up to and including the first that differs,
 * or all if none does; in any other cart none. The copy need not be of the layout, and the title may have any bytes.
 *   copy, copy_len     10,240 bytes
 *   title, title_len   the letters alone, 1 to 64 */
carts_searched carts_search(const uint8_t *copy, size_t copy_len, const uint8_t *title, size_t title_len);

#ifdef __cplusplus
}
#endif

#endif
