/*
 * Measures the stack that each call takes on a full system: the call runs on a painted stack of its own, and the bytes that have lost their
 * paint are counted, less those that a function takes that calls nothing. Ends with 0 if and only if load keeps within
 * SULYOBAK_LOAD_STACK_MOST and every other call within SULYOBAK_STACK_MOST.
 */
#define _XOPEN_SOURCE 700
#include "sulyobak_util.h"

#include <stdio.h>
#include <stdlib.h>
#include <string.h>
#include <ucontext.h>

enum { STACK = 1 << 18, PAINT = 0xA5, EDITOR = 1, READER = 2 };

static uint8_t library_memory[SULYOBAK_LIBRARY_SIZE];
static uint8_t log_memory[SULYOBAK_LOG_SIZE];
static uint8_t session_memory[SULYOBAK_SESSIONS_SIZE];
static uint8_t operations[SULYOBAK_OPERATIONS * SULYOBAK_OPERATION_SIZE];
static uint8_t request[SULYOBAK_REQUEST_SIZE];
static uint8_t output[SULYOBAK_OUTPUT_MOST];
static uint8_t message[SULYOBAK_MESSAGE_MOST];
static uint8_t van_copy[SULYOBAK_COPY_SIZE];
static uint8_t old_file[SULYOBAK_OLD_FILE_SIZE];
static const uint8_t studios[SULYOBAK_SESSIONS] = {1, 1};
static sulyobak_answer answer;

#define MEMORY library_memory, sizeof library_memory, log_memory, sizeof log_memory, session_memory, sizeof session_memory

typedef sulyobak_answer call(void);

static sulyobak_answer nothing(void) { return answer; }
static sulyobak_answer setup(void) { return sulyobak_setup(MEMORY, 1, studios, sizeof studios); }
static sulyobak_answer commit_one(void) { return sulyobak_commit(MEMORY, answer.control, EDITOR, operations, 80); }
static sulyobak_answer commit_eight(void) { return sulyobak_commit(MEMORY, answer.control, EDITOR, operations, sizeof operations); }
static sulyobak_answer preview(void) { return sulyobak_preview(MEMORY, answer.control, EDITOR, operations, sizeof operations); }
static sulyobak_answer send(void) { return sulyobak_send(MEMORY, answer.control, 1); }
static sulyobak_answer refresh(void) { return sulyobak_refresh(MEMORY, answer.control, 1); }
static sulyobak_answer read_as(uint32_t session)
{
    return sulyobak_read(MEMORY, answer.control, session, request, sizeof request, output, sizeof output);
}
static sulyobak_answer read(void) { return read_as(READER); }
static sulyobak_answer read_own(void) { return read_as(EDITOR); }
static sulyobak_answer collect(void) { return sulyobak_collect(MEMORY, answer.control, EDITOR, output, sizeof output); }
static sulyobak_answer forward_as(uint32_t session)
{
    return sulyobak_forward(MEMORY, answer.control, session, request, sizeof request, output, sizeof output);
}
static sulyobak_answer forward(void) { return forward_as(READER); }
static sulyobak_answer forward_own(void) { return forward_as(EDITOR); }
static sulyobak_answer move(void) { return sulyobak_move(MEMORY, answer.control, READER, 1); }
static sulyobak_answer layout(void) { return sulyobak_layout(MEMORY, answer.control); }
static sulyobak_answer load(void) { return sulyobak_load(MEMORY, answer.control); }
static sulyobak_answer retire(void) { return sulyobak_retire(MEMORY, answer.control); }
static sulyobak_answer van_write(void)
{
    return sulyobak_van_write(MEMORY, answer.control, answer.control.commits, message, sizeof message);
}
/* The message just written, in a van that has all before it. */
static sulyobak_answer van_receive(void)
{
    answer.kind = sulyobak_van_receive(van_copy, sizeof van_copy, answer.control.commits - 1, message, sizeof message).kind;
    return answer;
}
/* Both hand back a control of zeros: they are measured last. */
static sulyobak_answer from_old(void) { return sulyobak_from_old(old_file, sizeof old_file, van_copy, sizeof van_copy); }
static sulyobak_answer to_old(void) { return sulyobak_to_old(van_copy, sizeof van_copy, old_file, sizeof old_file); }

static void fail(const char *what)
{
    printf("stack: FAILED: %s\n", what);
    exit(1);
}

/* Plays a call that must not be refused. */
static void accept(call *played, const char *what)
{
    answer = played();
    if (answer.kind == SULYOBAK_REFUSED)
        fail(what);
}

static uint8_t stack[STACK];
static call *measured;

static void run_measured(void)
{
    answer = measured();
}

/* How many bytes of a painted stack the call takes. */
static long taken(call *played)
{
    static ucontext_t here, there;
    long clean = 0;
    memset(stack, PAINT, STACK);
    measured = played;
    if (getcontext(&there) != 0)
        fail("getcontext");
    there.uc_stack.ss_sp = stack;
    there.uc_stack.ss_size = STACK;
    there.uc_link = &here;
    makecontext(&there, run_measured, 0);
    if (swapcontext(&here, &there) != 0)
        fail("swapcontext");
    while (clean < STACK && stack[clean] == PAINT)
        clean++;
    return STACK - clean;
}

/* The editor's studio is behind: the head end answers the editor's forwards. */
static void be_behind(void)
{
    if (sulyobak_session_number(sulyobak_session_at(session_memory, EDITOR)) <= answer.control.applied[0])
        fail("the studio is not behind");
}

static void measure_within(long most, const char *what, call *played)
{
    long bytes = taken(played) - taken(nothing);
    if (answer.kind == SULYOBAK_REFUSED)
        fail("a measured call was refused");
    printf("  %-26s %6ld bytes\n", what, bytes);
    if (bytes > most)
        fail("more than the header says");
}

static void measure(const char *what, call *played)
{
    measure_within(SULYOBAK_STACK_MOST, what, played);
}

/* Eight operations, and a commit of the first alone until the log has room for eight more only. */
static void fill(void)
{
    static const char longest[] = "0123456789012345678901234567890123456789012345678901234567890123";
    uint32_t i;
    for (i = 0; i < 8; i++)
        sulyobak_operation_new(operations + 80 * i, i + 1, longest, 1, 1);
    accept(setup, "setup");
    accept(commit_eight, "commit");
    for (i = 0; i < 8; i++)
        sulyobak_operation_retitle(operations + 80 * i, i + 1, longest);
    while (answer.control.used < SULYOBAK_RECORDS - 9)
        accept(commit_one, "commit");
    while (answer.control.applied[0] < answer.control.commits) {
        accept(send, "send");
        accept(refresh, "refresh");
    }
}

/* An old file of 128 carts with the longest titles. The first 48 bytes of a new are those of the cart in an old file. */
static void fill_old(void)
{
    uint8_t unit[SULYOBAK_OPERATION_SIZE];
    uint32_t cart;
    memcpy(old_file, "CART32", 6);
    for (cart = 1; cart <= SULYOBAK_CARTS; cart++) {
        sulyobak_operation_new(unit, cart, "01234567890123456789012345678901", 1, 1);
        memcpy(old_file + 6 + 48 * (cart - 1), unit, 48);
    }
}

int main(void)
{
    uint32_t carts[SULYOBAK_NUMBERS], i;
    for (i = 0; i < SULYOBAK_NUMBERS; i++)
        carts[i] = i + 1;
    printf("Stack that a call takes on a full system\n");
    fill();
    measure("layout", layout);
    measure("preview of 8 operations", preview);
    measure("commit of 1 operation", commit_one);
    memcpy(van_copy, library_memory, sizeof van_copy);
    measure("commit of 8 operations", commit_eight);
    measure("van_write of 8 operations", van_write);
    measure("van_receive of the same", van_receive);
    measure("send", send);
    measure("refresh", refresh);
    measure("move", move);
    measure_within(SULYOBAK_LOAD_STACK_MOST, "load", load);
    measure("retire of 8 operations", retire);
    measure("retire of 1 operation", retire);
    measure_within(SULYOBAK_LOAD_STACK_MOST, "load after retires", load);
    sulyobak_request_numbers(request, carts, SULYOBAK_NUMBERS);
    measure("read of 32 numbers", read);
    measure("forward of 32 numbers", forward);
    be_behind();
    measure("the same, by the head end", forward_own);
    sulyobak_request_title(request, "0123456789012345678901234567890123456789012345678901234567890123");
    measure("read of a title", read);
    measure("forward of a title", forward);
    measure("the same, by the head end", forward_own);
    measure("read that waits", read_own);
    measure("collect that waits", collect);
    accept(send, "send");
    accept(refresh, "refresh");
    measure("collect of a title", collect);
    measure("setup", setup);
    fill_old();
    measure("from_old of 128 carts", from_old);
    measure("to_old of the same", to_old);
    return 0;
}
