/*
 * Tests include/carts.h on libcarts_c.a, as C99 and as C++: the worked examples of request S-5, the wrong lengths, and the other three
 * scans. Ends with 0 if and only if everything held.
 */
#include "carts.h"
#include "hold.h"
#include "sulyobak_util.h"

#include <string.h>

/* A byte more than a copy, so that too long a copy can be lent. */
static uint8_t copy[SULYOBAK_COPY_SIZE + 1];

static const char longest[] = "0123456789012345678901234567890123456789012345678901234567890123";

/* Puts a cart into the copy, and gives its bytes: the operation that makes a cart has the cart's bytes. */
static uint8_t *put(uint32_t number, const char *title)
{
    uint8_t *cart = copy + (number - 1) * SULYOBAK_CART_SIZE;
    HOLD(sulyobak_operation_new(cart, number, title, 1, 1) == SULYOBAK_MADE);
    return cart;
}

static bool answers(carts_searched searched, uint32_t kind, uint32_t value, uint32_t letters)
{
    return searched.kind == kind && searched.value == value && searched.letters == letters;
}

/* The search of the copy for a title. */
static carts_searched search(const char *title)
{
    return carts_search(copy, SULYOBAK_COPY_SIZE, (const uint8_t *)title, strlen(title));
}

static carts_searched search_lengths(size_t copy_len, size_t title_len)
{
    return carts_search(copy, copy_len, (const uint8_t *)longest, title_len);
}

/* No cart of the length: no letter. One cart equal: its length. The title may be the beginning of another, or another of it. */
static void test_lengths_first(void)
{
    memset(copy, 0, sizeof copy);
    HOLD(answers(search("News"), CARTS_NONE, 0, 0));
    put(40, "News bed");
    HOLD(answers(search("News"), CARTS_NONE, 0, 0));
    HOLD(answers(search("News bed 2"), CARTS_NONE, 0, 0));
    HOLD(answers(search("News bed"), CARTS_ONE, 40, 8));
}

/* Two of the length that differ in the first letter: 1 each. */
static void test_first_letter(void)
{
    memset(copy, 0, sizeof copy);
    put(1, "Jingle");
    put(128, "Single");
    HOLD(answers(search("Mingle"), CARTS_NONE, 0, 2));
    HOLD(answers(search("Single"), CARTS_ONE, 128, 7));
}

/* Titles of 64 that differ in the last letter: 64 each. All 128 carts: 8,192. */
static void test_last_letter(void)
{
    char asked[sizeof longest];
    uint32_t number;
    memcpy(asked, longest, sizeof longest);
    asked[SULYOBAK_TITLE_MOST - 1] = 'x';
    memset(copy, 0, sizeof copy);
    put(2, longest);
    put(3, longest);
    HOLD(answers(search(asked), CARTS_NONE, 0, 128));
    HOLD(answers(search(longest), CARTS_SEVERAL, 2, 128));
    for (number = 1; number <= SULYOBAK_CARTS; number++)
        put(number, longest);
    HOLD(answers(search(asked), CARTS_NONE, 0, 8192));
    HOLD(answers(search(longest), CARTS_SEVERAL, 128, 8192));
}

/* Only byte 0 of 1 is a held cart, its number is its place, and the bytes after its title do not matter. */
static void test_carts(void)
{
    uint8_t *cart;
    memset(copy, 0, sizeof copy);
    cart = put(7, "Bed");
    cart[0] = 0;
    HOLD(answers(search("Bed"), CARTS_NONE, 0, 0));
    cart[0] = 2;
    HOLD(answers(search("Bed"), CARTS_NONE, 0, 0));
    cart[0] = 1;
    cart[2] = 8;
    cart[19] = 'x';
    HOLD(answers(search("Bed"), CARTS_ONE, 7, 3));
    put(9, "Bed");
    put(11, "Bet");
    HOLD(answers(search("Bed"), CARTS_SEVERAL, 2, 9));
}

/* A wrong length, of the copy, of the title or of both, is all that is told. */
static void test_wrong_lengths(void)
{
    static const size_t copies[] = {0, SULYOBAK_COPY_SIZE - 1, SULYOBAK_COPY_SIZE, SULYOBAK_COPY_SIZE + 1};
    static const size_t titles[] = {0, 1, 64, 65};
    size_t i, j;
    memset(copy, 0, sizeof copy);
    put(1, longest);
    put(2, "0");
    for (i = 0; i < 4; i++)
        for (j = 0; j < 4; j++)
            if (i != 2 || j == 0 || j == 3)
                HOLD(answers(search_lengths(copies[i], titles[j]), CARTS_WRONG_LENGTH, 0, 0));
    HOLD(answers(search_lengths(SULYOBAK_COPY_SIZE, 64), CARTS_ONE, 1, 64));
    HOLD(answers(search_lengths(SULYOBAK_COPY_SIZE, 1), CARTS_ONE, 2, 1));
}

/* The other scans say yes and no. */
static void test_scans(void)
{
    memset(copy, 0, sizeof copy);
    HOLD(carts_all_zero(copy, sizeof copy) && carts_is_copy(copy, SULYOBAK_COPY_SIZE));
    put(128, longest);
    HOLD(!carts_all_zero(copy, sizeof copy) && carts_is_copy(copy, SULYOBAK_COPY_SIZE) && !carts_is_copy(copy, sizeof copy));
    put(128, longest)[2] = 1;
    HOLD(!carts_is_copy(copy, SULYOBAK_COPY_SIZE));
    put(1, "A");
    put(2, "B");
    HOLD(carts_all_operations(copy, 2 * SULYOBAK_OPERATION_SIZE));
    copy[SULYOBAK_OPERATION_SIZE] = 5;
    HOLD(!carts_all_operations(copy, 2 * SULYOBAK_OPERATION_SIZE));
    HOLD(carts_all_operations(copy, 2 * SULYOBAK_OPERATION_SIZE - 1));
}

int main(void)
{
    test_lengths_first();
    test_first_letter();
    test_last_letter();
    test_carts();
    test_wrong_lengths();
    test_scans();
    printf("carts_test: everything held\n");
    return 0;
}
