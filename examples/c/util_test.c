/*
 * Tests include/sulyobak_util.h on the engine, as C99 and as C++: what it makes is accepted (a title with a space at an end apart, which a
 * commit refuses), what it does not make is left alone, and what it takes apart is what was put in. Ends with 0 if and only if everything held.
 */
#include "sulyobak_util.h"

#include "hold.h"

#include <stdio.h>
#include <string.h>

static uint8_t library_memory[SULYOBAK_LIBRARY_SIZE];
static uint8_t log_memory[SULYOBAK_LOG_SIZE];
static uint8_t session_memory[SULYOBAK_SESSIONS_SIZE];
static sulyobak_control control;

#define MEMORY library_memory, sizeof library_memory, log_memory, sizeof log_memory, session_memory, sizeof session_memory

static const char longest[] = "0123456789012345678901234567890123456789012345678901234567890123";

static sulyobak_answer keep(sulyobak_answer answer)
{
    control = answer.control;
    return answer;
}

static sulyobak_answer commit(const uint8_t *operations, size_t count)
{
    return keep(sulyobak_commit(MEMORY, control, 1, operations, count * SULYOBAK_OPERATION_SIZE));
}

/* Every misfit is told, and leaves the 80 bytes alone. */
static void test_misfits(void)
{
    uint8_t unit[80], before[80];
    uint32_t carts[33];
    size_t i;
    memset(unit, 9, sizeof unit);
    memset(before, 9, sizeof before);
    for (i = 0; i < 33; i++)
        carts[i] = (uint32_t)i + 97;
    HOLD(sulyobak_operation_new(unit, 0, "A", 1, 1) == SULYOBAK_CART_RANGE);
    HOLD(sulyobak_operation_new(unit, 129, "A", 1, 1) == SULYOBAK_CART_RANGE);
    HOLD(sulyobak_operation_new(unit, 65537, "A", 1, 1) == SULYOBAK_CART_RANGE);
    HOLD(sulyobak_operation_new(unit, 1, "", 1, 1) == SULYOBAK_TITLE_EMPTY);
    HOLD(sulyobak_operation_new(unit, 1, "A\x7f", 1, 1) == SULYOBAK_TITLE_LETTER);
    HOLD(sulyobak_operation_new(unit, 1, "caf\xc3\xa9", 1, 1) == SULYOBAK_TITLE_LETTER);
    HOLD(sulyobak_operation_new(unit, 1, "A", 0, 1) == SULYOBAK_AUDIO_ZERO);
    HOLD(sulyobak_operation_new(unit, 1, "A", 1, 0) == SULYOBAK_MILLISECONDS_ZERO);
    HOLD(sulyobak_operation_retitle(unit, 1, "0123456789012345678901234567890123456789012345678901234567890123x") == SULYOBAK_TITLE_LONG);
    HOLD(sulyobak_operation_retitle(unit, 0, "A") == SULYOBAK_CART_RANGE);
    HOLD(sulyobak_operation_recut(unit, 1, 0, 1) == SULYOBAK_AUDIO_ZERO);
    HOLD(sulyobak_operation_recut(unit, 200, 1, 1) == SULYOBAK_CART_RANGE);
    HOLD(sulyobak_operation_withdraw(unit, 0) == SULYOBAK_CART_RANGE);
    HOLD(sulyobak_request_numbers(unit, carts, 0) == SULYOBAK_COUNT_RANGE);
    HOLD(sulyobak_request_numbers(unit, carts, 33) == SULYOBAK_COUNT_RANGE);
    carts[31] = 129;
    HOLD(sulyobak_request_numbers(unit, carts, 32) == SULYOBAK_CART_RANGE);
    HOLD(sulyobak_request_title(unit, "") == SULYOBAK_TITLE_EMPTY);
    HOLD(memcmp(unit, before, sizeof unit) == 0);
}

/* What is made is accepted by the engine, and read back field by field. */
static void test_operations(void)
{
    uint8_t operations[4 * 80], request[80], output[SULYOBAK_OUTPUT_MOST];
    uint32_t carts[32];
    char title[SULYOBAK_TITLE_MOST + 1];
    sulyobak_answer answer;
    size_t i;
    HOLD(sulyobak_operation_new(operations, 1, longest, 4294967295u, 8000) == SULYOBAK_MADE);
    HOLD(sulyobak_operation_new(operations + 80, 128, "~ ~", 1, 1) == SULYOBAK_MADE);
    HOLD(sulyobak_operation_retitle(operations + 160, 128, "B") == SULYOBAK_MADE);
    HOLD(sulyobak_operation_recut(operations + 240, 128, 7, 70000) == SULYOBAK_MADE);
    HOLD(commit(operations, 4).kind == SULYOBAK_DONE);
    keep(sulyobak_send(MEMORY, control, 1));
    HOLD(keep(sulyobak_refresh(MEMORY, control, 1)).value == 1);
    for (i = 0; i < 32; i++)
        carts[i] = (uint32_t)(i + 97);
    HOLD(sulyobak_request_numbers(request, carts, 32) == SULYOBAK_MADE);
    answer = keep(sulyobak_read(MEMORY, control, 1, request, sizeof request, output, sizeof output));
    HOLD(answer.kind == SULYOBAK_ANSWERED && answer.found == 1);
    HOLD(!sulyobak_cart_is_held(sulyobak_cart_at(output, 0)) && sulyobak_cart_is_held(sulyobak_cart_at(output, 31)));
    HOLD(sulyobak_cart_number(output + 31 * 80) == 128 && sulyobak_cart_audio(output + 31 * 80) == 7);
    HOLD(sulyobak_cart_milliseconds(output + 31 * 80) == 70000);
    HOLD(sulyobak_title(output + 31 * 80, title) == 1 && strcmp(title, "B") == 0);
    HOLD(sulyobak_request_title(request, longest) == SULYOBAK_MADE);
    answer = keep(sulyobak_read(MEMORY, control, 1, request, sizeof request, output, sizeof output));
    HOLD(answer.kind == SULYOBAK_ANSWERED && answer.found == 1 && sulyobak_cart_number(output) == 1);
    HOLD(sulyobak_cart_audio(output) == 4294967295u && sulyobak_title(output, title) == 64 && strcmp(title, longest) == 0);
}

/* A title with a space at an end is made; a commit refuses it, and a read asks for it. */
static void test_spaces(void)
{
    static const char *const titles[] = {" ", " A", "A ", "012345678901234567890123456789012345678901234567890123456789012 "};
    uint8_t operations[2 * 80], request[80], output[80];
    sulyobak_answer answer;
    size_t i;
    for (i = 0; i < sizeof titles / sizeof titles[0]; i++) {
        HOLD(sulyobak_operation_new(operations, 2, "A", 1, 1) == SULYOBAK_MADE);
        HOLD(sulyobak_operation_retitle(operations + 80, 2, titles[i]) == SULYOBAK_MADE);
        answer = commit(operations, 2);
        HOLD(answer.kind == SULYOBAK_REFUSED && answer.value == SULYOBAK_SPACED_TITLE);
        HOLD(sulyobak_request_title(request, titles[i]) == SULYOBAK_MADE);
        answer = keep(sulyobak_read(MEMORY, control, 1, request, sizeof request, output, sizeof output));
        HOLD(answer.kind == SULYOBAK_ANSWERED && answer.found == 0);
    }
}

/* The session that the engine leaves: its number, and the read that it has waiting. */
static void test_sessions(void)
{
    uint8_t operation[80], request[80], output[SULYOBAK_OUTPUT_MOST];
    char title[SULYOBAK_TITLE_MOST + 1];
    static const uint32_t carts[2] = {128, 1};
    const uint8_t *session = sulyobak_session_at(session_memory, 1);
    HOLD(sulyobak_session_at(session_memory, 0) == NULL && sulyobak_session_at(session_memory, 17) == NULL);
    HOLD(sulyobak_session_at(session_memory, 16) == session_memory + 15 * 80);
    HOLD(sulyobak_session_number(session) == 1 && sulyobak_session_waiting(session) == 0 && sulyobak_session_places(session) == 0);
    HOLD(sulyobak_operation_withdraw(operation, 1) == SULYOBAK_MADE && commit(operation, 1).value == 2);
    HOLD(sulyobak_request_numbers(request, carts, 2) == SULYOBAK_MADE);
    HOLD(keep(sulyobak_read(MEMORY, control, 1, request, 80, output, sizeof output)).kind == SULYOBAK_WAITS);
    HOLD(sulyobak_session_number(session) == 2 && sulyobak_session_waiting(session) == SULYOBAK_REQUEST_NUMBERS);
    HOLD(sulyobak_session_places(session) == 2 && sulyobak_session_cart(session, 0) == 128);
    HOLD(sulyobak_session_cart(session, 1) == 1 && sulyobak_session_cart(session, 2) == 0);
    keep(sulyobak_send(MEMORY, control, 1));
    keep(sulyobak_refresh(MEMORY, control, 1));
    HOLD(keep(sulyobak_collect(MEMORY, control, 1, output, 160)).found == 1);
    HOLD(sulyobak_operation_withdraw(operation, 128) == SULYOBAK_MADE && commit(operation, 1).value == 3);
    HOLD(sulyobak_request_title(request, "B") == SULYOBAK_MADE);
    HOLD(keep(sulyobak_read(MEMORY, control, 1, request, 80, output, sizeof output)).kind == SULYOBAK_WAITS);
    HOLD(sulyobak_session_waiting(session) == SULYOBAK_REQUEST_TITLE && sulyobak_session_places(session) == 1);
    HOLD(sulyobak_title(session, title) == 1 && strcmp(title, "B") == 0 && sulyobak_session_cart(session, 0) == 0);
}

/* A commit refused by 8 leaves its session's number at the count of commits. */
static void test_taken(void)
{
    uint8_t operation[80];
    const uint8_t *session = sulyobak_session_at(session_memory, 2);
    sulyobak_answer answer;
    HOLD(sulyobak_session_number(session) == 0 && control.commits == 3);
    HOLD(sulyobak_operation_withdraw(operation, 1) == SULYOBAK_MADE);
    answer = keep(sulyobak_commit(MEMORY, control, 2, operation, sizeof operation));
    HOLD(answer.kind == SULYOBAK_REFUSED && answer.value == SULYOBAK_WRONG_STATE);
    HOLD(sulyobak_session_number(session) == 3 && sulyobak_session_waiting(session) == 0);
}

/* A forward that the head end answers leaves its session's number at the count of commits, and nothing waiting. */
static void test_forward(void)
{
    uint8_t operation[80], request[80], output[SULYOBAK_OUTPUT_MOST];
    static const uint32_t carts[1] = {1};
    const uint8_t *session = sulyobak_session_at(session_memory, 2);
    sulyobak_answer answer;
    HOLD(sulyobak_operation_new(operation, 1, "A", 1, 1) == SULYOBAK_MADE);
    HOLD(keep(sulyobak_commit(MEMORY, control, 2, operation, sizeof operation)).value == 4);
    HOLD(control.applied[0] < 4 && sulyobak_request_numbers(request, carts, 1) == SULYOBAK_MADE);
    answer = keep(sulyobak_forward(MEMORY, control, 2, request, 80, output, 80));
    HOLD(answer.kind == SULYOBAK_ANSWERED && answer.value == 4 && answer.found == 1);
    HOLD(sulyobak_cart_is_held(sulyobak_cart_at(output, 0)) && sulyobak_cart_number(output) == 1);
    HOLD(sulyobak_session_number(session) == 4 && sulyobak_session_waiting(session) == 0);
}

/* An answered read leaves its session's number at the state that it showed; a move leaves session memory alone. */
static void test_move(void)
{
    uint8_t request[80], output[SULYOBAK_OUTPUT_MOST], before[SULYOBAK_SESSIONS_SIZE];
    static const uint32_t carts[1] = {1};
    const uint8_t *session = sulyobak_session_at(session_memory, 3);
    sulyobak_answer answer;
    HOLD(sulyobak_session_number(session) == 0 && control.applied[0] == 2 && control.applied[1] == 0);
    HOLD(sulyobak_request_numbers(request, carts, 1) == SULYOBAK_MADE);
    answer = keep(sulyobak_read(MEMORY, control, 3, request, 80, output, 80));
    HOLD(answer.kind == SULYOBAK_ANSWERED && answer.value == 2 && sulyobak_session_number(session) == 2);
    memcpy(before, session_memory, sizeof before);
    answer = keep(sulyobak_move(MEMORY, control, 3, 2));
    HOLD(answer.kind == SULYOBAK_DONE && answer.value == 2 && control.session_studios[2] == 2);
    HOLD(memcmp(before, session_memory, sizeof before) == 0);
    answer = keep(sulyobak_read(MEMORY, control, 3, request, 80, output, 80));
    HOLD(answer.kind == SULYOBAK_WAITS && answer.value == 2);
    answer = keep(sulyobak_move(MEMORY, control, 3, 1));
    HOLD(answer.kind == SULYOBAK_REFUSED && answer.value == SULYOBAK_READ_WAITING && control.session_studios[2] == 2);
}

/* A message is of the number and the operations that were committed, and a fresh van applies it. */
static void test_messages(void)
{
    static uint8_t copy[SULYOBAK_COPY_SIZE];
    uint8_t message[SULYOBAK_MESSAGE_MOST];
    uint32_t number, applied = 0;
    for (number = 1; number <= control.commits; number++) {
        uint32_t length = keep(sulyobak_van_write(MEMORY, control, number, message, sizeof message)).value;
        sulyobak_van_answer answer = sulyobak_van_receive(copy, sizeof copy, applied, message, length);
        HOLD(sulyobak_message_number(message) == number && sulyobak_message_count(message) == (number == 1 ? 4u : 1u));
        HOLD(length == SULYOBAK_MESSAGE_HEAD + sulyobak_message_count(message) * SULYOBAK_OPERATION_SIZE);
        HOLD(answer.kind == SULYOBAK_DONE && answer.value == number && answer.applied == number);
        applied = answer.applied;
    }
    HOLD(applied == 4 && memcmp(copy, library_memory, sizeof copy) == 0);
}

/* What the calls have left is loaded, and changed by nothing; with another letter in a title it is of the layout and not whole. */
static void test_load(void)
{
    static uint8_t before[SULYOBAK_LIBRARY_SIZE];
    sulyobak_answer answer = sulyobak_load(MEMORY, control);
    HOLD(answer.kind == SULYOBAK_DONE && answer.value == 4 && answer.found == 0);
    HOLD(memcmp(&answer.control, &control, sizeof control) == 0);
    library_memory[16]++;
    memcpy(before, library_memory, sizeof before);
    HOLD(keep(sulyobak_layout(MEMORY, control)).kind == SULYOBAK_DONE);
    answer = sulyobak_load(MEMORY, control);
    HOLD(answer.kind == SULYOBAK_REFUSED && answer.value == SULYOBAK_NOT_WHOLE);
    HOLD(memcmp(&answer.control, &control, sizeof control) == 0 && memcmp(before, library_memory, sizeof before) == 0);
    library_memory[16]--;
    HOLD(keep(sulyobak_load(MEMORY, control)).kind == SULYOBAK_DONE);
}

/* The oldest transaction is retired once both studios have it: its four records are free again, and it is no longer written for a van. */
static void test_retire(void)
{
    uint8_t message[SULYOBAK_MESSAGE_MOST];
    sulyobak_answer answer = keep(sulyobak_retire(MEMORY, control));
    HOLD(answer.kind == SULYOBAK_REFUSED && answer.value == SULYOBAK_NOT_RETIRABLE);
    keep(sulyobak_send(MEMORY, control, 2));
    HOLD(keep(sulyobak_refresh(MEMORY, control, 2)).value == 1 && control.used == 7 && control.oldest == 1);
    answer = keep(sulyobak_retire(MEMORY, control));
    HOLD(answer.kind == SULYOBAK_DONE && answer.value == 1 && control.retired == 1);
    HOLD(control.used == 3 && control.oldest == 5 && control.free_first == 8 && control.free_last == 4);
    answer = keep(sulyobak_van_write(MEMORY, control, 1, message, sizeof message));
    HOLD(answer.kind == SULYOBAK_REFUSED && answer.value == SULYOBAK_RETIRED);
    HOLD(keep(sulyobak_van_write(MEMORY, control, 2, message, sizeof message)).kind == SULYOBAK_DONE);
    HOLD(keep(sulyobak_load(MEMORY, control)).value == 4);
}

/* Every number has a sentence of its own. */
static void test_sentences(void)
{
    uint32_t i, j;
    for (i = 0; i <= 21; i++)
        for (j = i + 1; j <= 22; j++)
            HOLD(strcmp(sulyobak_refusal_sentence(i), sulyobak_refusal_sentence(j)) != 0 || (i == 0 && j == 22));
    for (i = 22; i <= 23; i++) /* a conversion's */
        for (j = 0; j <= 24; j++)
            HOLD(i == j || strcmp(sulyobak_refusal_sentence(i), sulyobak_refusal_sentence(j)) != 0);
    for (i = 0; i <= 7; i++)
        for (j = i + 1; j <= 8; j++)
            HOLD(strcmp(sulyobak_made_sentence((int)i), sulyobak_made_sentence((int)j)) != 0);
}

int main(void)
{
    static const uint8_t studios[SULYOBAK_SESSIONS] = {1, 1, 1};
    HOLD(sulyobak_version() == SULYOBAK_VERSION);
    HOLD(keep(sulyobak_setup(MEMORY, 2, studios, sizeof studios)).kind == SULYOBAK_DONE);
    test_misfits();
    test_operations();
    test_spaces();
    test_sessions();
    test_taken();
    test_forward();
    test_move();
    test_messages();
    test_load();
    test_retire();
    test_sentences();
    printf("util_test: everything held\n");
    return 0;
}
