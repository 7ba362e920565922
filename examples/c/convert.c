/*
 * Wall files of the thirty-two-character edition, which neighbouring stations still exchange.
 *
 * An old wall of three carts arrives: it is converted to one copy, a cart is printed, and converted back the file has the same bytes. A
 * file that was damaged on the way is refused by 22. Then the station's own wall is to go to the neighbour: a title of 33 letters has no
 * room in an old file, so the conversion is refused by 23 and the cart is named. Once it is retitled, the file is written.
 */
#include "sulyobak_util.h"

#include <stdio.h>
#include <stdlib.h>
#include <string.h>

enum { EDITOR = 1, NEWS = 30, MARK = 6, OLD_CART = 48 };

static uint8_t library_memory[SULYOBAK_LIBRARY_SIZE];
static uint8_t log_memory[SULYOBAK_LOG_SIZE];
static uint8_t session_memory[SULYOBAK_SESSIONS_SIZE];
static sulyobak_control control;

static uint8_t file[SULYOBAK_OLD_FILE_SIZE], file_again[SULYOBAK_OLD_FILE_SIZE];
static uint8_t copy[SULYOBAK_COPY_SIZE];

#define MEMORY library_memory, sizeof library_memory, log_memory, sizeof log_memory, session_memory, sizeof session_memory

static void must(int held, const char *what)
{
    if (!held) {
        printf("convert: FAILED: %s\n", what);
        exit(1);
    }
}

static void say(const char *what, sulyobak_answer answer)
{
    if (answer.kind == SULYOBAK_REFUSED)
        printf("%s: refused %u: %s\n", what, (unsigned)answer.value, sulyobak_refusal_sentence(answer.value));
    else
        printf("%s: %u bytes\n", what, (unsigned)answer.value);
}

static void show(const uint8_t *cart)
{
    char title[SULYOBAK_TITLE_MOST + 1];
    sulyobak_title(cart, title);
    printf("    cart %u \"%s\", audio %u, %u ms\n", (unsigned)sulyobak_cart_number(cart), title, (unsigned)sulyobak_cart_audio(cart),
           (unsigned)sulyobak_cart_milliseconds(cart));
}

/* A cart of the old file: its 48 bytes are the first 48 of a new. */
static void put_old(uint32_t cart, const char *title, uint32_t audio, uint32_t milliseconds)
{
    uint8_t unit[SULYOBAK_OPERATION_SIZE];
    must(sulyobak_operation_new(unit, cart, title, audio, milliseconds) == SULYOBAK_MADE, "the cart");
    must(strlen(title) <= SULYOBAK_OLD_TITLE_MOST, "the title");
    memcpy(file + MARK + OLD_CART * (cart - 1), unit, OLD_CART);
}

/* The neighbour's wall file. */
static void receive(void)
{
    memcpy(file, "CART32", MARK);
    put_old(7, "Top hour A", 501, 8000);
    put_old(NEWS, "News bed", 401, 60000);
    put_old(128, "Good night", 902, 12000);
}

/* A commit of one operation in the station's own system. */
static void commit(const uint8_t *operation)
{
    sulyobak_answer answer = sulyobak_commit(MEMORY, control, EDITOR, operation, SULYOBAK_OPERATION_SIZE);
    control = answer.control;
    must(answer.kind == SULYOBAK_DONE, "commit");
}

/* The carts of a copy whose titles have no room in an old file. */
static void show_long_titles(const uint8_t *carts)
{
    char title[SULYOBAK_TITLE_MOST + 1];
    size_t place;
    for (place = 0; place < SULYOBAK_CARTS; place++)
        if (sulyobak_title(sulyobak_cart_at(carts, place), title) > SULYOBAK_OLD_TITLE_MOST)
            show(sulyobak_cart_at(carts, place));
}

/* The neighbour's wall, converted and converted back; then with a letter damaged. */
static void take_in(void)
{
    receive();
    say("the neighbour's wall", sulyobak_from_old(file, sizeof file, copy, sizeof copy));
    show(sulyobak_cart_at(copy, NEWS - 1));
    say("converted back", sulyobak_to_old(copy, sizeof copy, file_again, sizeof file_again));
    must(memcmp(file, file_again, sizeof file) == 0, "the file has other bytes");
    printf("    the same bytes\n");
    file[MARK + OLD_CART * (NEWS - 1) + 16] = 200;
    say("with a letter damaged", sulyobak_from_old(file, sizeof file, copy, sizeof copy));
}

/* The station's own wall: the head end's copy is the first of library memory. */
static void hand_out(void)
{
    static const uint8_t studios[SULYOBAK_SESSIONS] = {1};
    uint8_t operation[SULYOBAK_OPERATION_SIZE];
    control = sulyobak_setup(MEMORY, 1, studios, sizeof studios).control;
    must(sulyobak_operation_new(operation, 7, "Top of the hour, Sunday, long cut", 501, 8000) == SULYOBAK_MADE, "new");
    commit(operation);
    say("our wall", sulyobak_to_old(library_memory, SULYOBAK_COPY_SIZE, file, sizeof file));
    show_long_titles(library_memory);
    must(sulyobak_operation_retitle(operation, 7, "Top of the hour, Sunday, long") == SULYOBAK_MADE, "retitle");
    commit(operation);
    say("our wall, retitled", sulyobak_to_old(library_memory, SULYOBAK_COPY_SIZE, file, sizeof file));
}

int main(void)
{
    must(sulyobak_version() == SULYOBAK_VERSION, "the linked library is of another version than the header");
    take_in();
    hand_out();
    return 0;
}
