/*
 * A week at a busy station: more edits than the log has records.
 *
 * The editor re-cuts the traffic jingle again and again. Without retiring, the commit after the log's 512 records is refused by 7. The
 * oldest transaction can be retired once every studio has applied it; while the second studio is behind it is still needed (20). Then the
 * studios keep up and what they have is retired before each edit, so the log never fills again. A van that has slept cannot be written the
 * retired messages any more (21). The system is tested as after a restart at the end.
 */
#include "sulyobak_util.h"

#include <stdio.h>
#include <stdlib.h>

enum { EDITOR = 1, STUDIOS = 2, JINGLE = 40, WEEK = 2000 };

static uint8_t library_memory[SULYOBAK_LIBRARY_SIZE];
static uint8_t log_memory[SULYOBAK_LOG_SIZE];
static uint8_t session_memory[SULYOBAK_SESSIONS_SIZE];
static sulyobak_control control;

#define MEMORY library_memory, sizeof library_memory, log_memory, sizeof log_memory, session_memory, sizeof session_memory

/* Keeps the control for the next call. */
static sulyobak_answer keep(sulyobak_answer answer)
{
    control = answer.control;
    return answer;
}

static void must(int held, const char *what)
{
    if (!held) {
        printf("retire: FAILED: %s\n", what);
        exit(1);
    }
}

static void say(const char *what, sulyobak_answer answer)
{
    if (answer.kind == SULYOBAK_REFUSED)
        printf("%s: refused %u: %s\n", what, (unsigned)answer.value, sulyobak_refusal_sentence(answer.value));
    else
        printf("%s: %u\n", what, (unsigned)answer.value);
}

static void show_log(void)
{
    printf("    commits %u, retired %u, records used %u, free %u\n", (unsigned)control.commits, (unsigned)control.retired,
           (unsigned)control.used, (unsigned)(SULYOBAK_RECORDS - control.used));
}

/* Each edit has its own audio: the number that its commit gets. */
static sulyobak_answer edit(void)
{
    uint8_t operation[SULYOBAK_OPERATION_SIZE];
    uint32_t audio = control.commits + 1;
    int why = audio == 1 ? sulyobak_operation_new(operation, JINGLE, "Traffic jingle", audio, 9000)
                         : sulyobak_operation_recut(operation, JINGLE, audio, 9000);
    must(why == SULYOBAK_MADE, "the operation");
    return keep(sulyobak_commit(MEMORY, control, EDITOR, operation, sizeof operation));
}

/* Sends and applies everything that a studio does not have yet. */
static void catch_up(uint32_t studio)
{
    while (control.applied[studio - 1] < control.commits) {
        must(keep(sulyobak_send(MEMORY, control, studio)).kind == SULYOBAK_DONE, "send");
        must(keep(sulyobak_refresh(MEMORY, control, studio)).kind == SULYOBAK_DONE, "refresh");
    }
}

/* Retires all that every studio has. Returns the answer that ends it. */
static sulyobak_answer retire_all(void)
{
    sulyobak_answer answer;
    do
        answer = keep(sulyobak_retire(MEMORY, control));
    while (answer.kind == SULYOBAK_DONE);
    return answer;
}

/* The rest of the week: the studios keep up, and what they have is retired before each edit. */
static void go_on(void)
{
    uint32_t studio;
    while (control.commits < WEEK) {
        for (studio = 1; studio <= STUDIOS; studio++)
            catch_up(studio);
        must(retire_all().value == SULYOBAK_NOT_RETIRABLE, "retire");
        must(edit().kind == SULYOBAK_DONE, "commit");
    }
}

int main(void)
{
    static const uint8_t studios[SULYOBAK_SESSIONS] = {1};
    uint8_t message[SULYOBAK_MESSAGE_MOST];
    const uint8_t *jingle = sulyobak_cart_at(library_memory, JINGLE - 1);
    must(sulyobak_version() == SULYOBAK_VERSION, "the linked library is of another version than the header");
    must(keep(sulyobak_setup(MEMORY, STUDIOS, studios, sizeof studios)).kind == SULYOBAK_DONE, "setup");
    while (control.used < SULYOBAK_RECORDS)
        must(edit().kind == SULYOBAK_DONE, "commit");
    say("an edit more than the log holds", edit());
    show_log();

    catch_up(1);
    say("retire, with studio 2 behind", keep(sulyobak_retire(MEMORY, control)));
    catch_up(2);
    say("retire, once both studios have it", keep(sulyobak_retire(MEMORY, control)));
    say("the edit, in the record that is free again", edit());
    show_log();

    go_on();
    printf("the week is over\n");
    show_log();
    say("message 1 for the van", keep(sulyobak_van_write(MEMORY, control, 1, message, sizeof message)));
    say("load", keep(sulyobak_load(MEMORY, control)));
    printf("cart %u has audio %u\n", (unsigned)sulyobak_cart_number(jingle), (unsigned)sulyobak_cart_audio(jingle));
    return 0;
}
