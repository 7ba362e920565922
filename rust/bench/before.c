/*
 * Times sulyobak_layout on full memory of the linked version's layout, and prints the best time in nanoseconds. before.sh builds it with two
 * versions of header and library.
 *
 * Full memory: four studios, every copy of 128 carts with titles of 64 letters, 512 records of one transaction each, sixteen waiting reads.
 */
#define _POSIX_C_SOURCE 199309L
#include "sulyobak_util.h"

#include <stdio.h>
#include <stdlib.h>
#include <time.h>

enum { STUDIOS = 4, BATCHES = 300, BATCH = 20 };

static uint8_t library_memory[SULYOBAK_LIBRARY_SIZE];
static uint8_t log_memory[SULYOBAK_LOG_SIZE];
static uint8_t session_memory[SULYOBAK_SESSIONS_SIZE];
static sulyobak_control control;
static const char title[] = "0123456789012345678901234567890123456789012345678901234567890123";

#define MEMORY library_memory, sizeof library_memory, log_memory, sizeof log_memory, session_memory, sizeof session_memory

static void keep(sulyobak_answer answer)
{
    if (answer.kind == SULYOBAK_REFUSED) {
        printf("refused %u\n", (unsigned)answer.value);
        exit(1);
    }
    control = answer.control;
}

/* A commit of one operation: a new cart, then retitles. */
static void commit(uint32_t session)
{
    uint8_t operation[SULYOBAK_OPERATION_SIZE];
    uint32_t cart = control.commits % SULYOBAK_CARTS + 1;
    if (control.commits < SULYOBAK_CARTS)
        sulyobak_operation_new(operation, cart, title, 1, 1);
    else
        sulyobak_operation_retitle(operation, cart, title);
    keep(sulyobak_commit(MEMORY, control, session, operation, sizeof operation));
}

static void catch_up(void)
{
    uint32_t studio;
    for (studio = 1; studio <= STUDIOS; studio++)
        while (control.applied[studio - 1] < control.commits) {
            keep(sulyobak_send(MEMORY, control, studio));
            keep(sulyobak_refresh(MEMORY, control, studio));
        }
}

/* The carts; where there is a sixth copy, it has them too. The last transactions are of one session each, whose read then waits. */
static void fill(void)
{
    static const uint8_t studios[SULYOBAK_SESSIONS] = {1, 2, 3, 4, 1, 2, 3, 4, 1, 2, 3, 4, 1, 2, 3, 4};
    uint8_t request[SULYOBAK_REQUEST_SIZE], output[SULYOBAK_CART_SIZE];
    uint32_t session;
    keep(sulyobak_setup(MEMORY, STUDIOS, studios, sizeof studios));
    while (control.commits < SULYOBAK_CARTS)
        commit(1);
    catch_up();
#if SULYOBAK_VERSION >= 9
    while (control.retired < control.commits)
        keep(sulyobak_retire(MEMORY, control));
#endif
    while (control.used < SULYOBAK_RECORDS - SULYOBAK_SESSIONS)
        commit(1);
    catch_up();
    sulyobak_request_title(request, title);
    for (session = 1; session <= SULYOBAK_SESSIONS; session++) {
        commit(session);
        keep(sulyobak_read(MEMORY, control, session, request, sizeof request, output, sizeof output));
    }
}

static double now(void)
{
    struct timespec time;
    clock_gettime(CLOCK_MONOTONIC, &time);
    return 1e9 * (double)time.tv_sec + (double)time.tv_nsec;
}

int main(void)
{
    double best = 1e18;
    int batch, i;
    fill();
    for (batch = 0; batch < BATCHES; batch++) {
        double began = now(), each;
        for (i = 0; i < BATCH; i++)
            keep(sulyobak_layout(MEMORY, control));
        each = (now() - began) / BATCH;
        best = each < best ? each : best;
    }
    printf("%.0f\n", best);
    return 0;
}
