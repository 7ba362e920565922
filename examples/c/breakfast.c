/*
 * Breakfast at a local station, with the engine linked into C.
 *
 * Part one: two versions of a jingle have long titles that differ in the last letter. Imported by title and by cart number, the
 * playlist gets the same carts. Part two: a producer re-cuts the sponsor's jingle and reads it in the same chair while the studio's
 * copy is two edits behind. The read waits, and is collected with the new cut. One chair is one session: a second session in the
 * producer's chair has edited nothing, so its read is answered at once with the old cut. Part three: the producer tries an edit of two
 * steps before making it, is told what is wrong with it, mends it and commits it. Part four: the presenter is told that the cart of that
 * edit is taken. The studio's copy still has it empty, so the presenter's read of it waits, and is collected with what is there. Part
 * five: ten seconds before the hour the presenter re-cuts the news bed and cannot wait for the studio. The read is forwarded, and the head
 * end shows the new cut. A plain read then waits until the studio's copy has all that the head end had shown. Part six: a van at the fair
 * has a copy of its own, beyond a radio link that loses, repeats and reorders messages. The van applies each transaction in its turn and
 * once, so its presenter sees the carts of one moment, and at last those of the head end. Part seven: the presenter is shown in the studio
 * that take B is gone, and walks to the other studio, whose copy still has it. The read there waits until that copy has all that the
 * presenter was shown, and is collected.
 */
#include "sulyobak_util.h"

#include <stdio.h>
#include <stdlib.h>
#include <string.h>

enum { MANAGER = 1, PRODUCER = 2, PRESENTER = 3, SECOND = 4 }; /* sessions, all of them in studio 1 at first; the last one by mistake */
enum { STUDIO = 1, OTHER = 2 };
enum { JINGLE_A = 11, JINGLE_B = 12, SPONSOR = 20, NEWS = 30, WEATHER = 31 }; /* carts */

/* The system: three memories, and the control that the last call handed back. */
static uint8_t library_memory[SULYOBAK_LIBRARY_SIZE];
static uint8_t log_memory[SULYOBAK_LOG_SIZE];
static uint8_t session_memory[SULYOBAK_SESSIONS_SIZE];
static sulyobak_control control;

#define MEMORY library_memory, sizeof library_memory, log_memory, sizeof log_memory, session_memory, sizeof session_memory

/* What the last read wrote. */
static uint8_t output[SULYOBAK_OUTPUT_MOST];

/* The van: its copy, and how many transactions it has applied. */
static uint8_t van_copy[SULYOBAK_COPY_SIZE];
static uint32_t van_applied;

/* For operations and requests that are made of fixed words: they fit. */
static void made(int why)
{
    if (why != SULYOBAK_MADE) {
        printf("%s\n", sulyobak_made_sentence(why));
        exit(1);
    }
}

/* Keeps the control for the next call, and says what was answered. */
static void say(const char *what, sulyobak_answer answer)
{
    control = answer.control;
    printf("%-66s ", what);
    switch (answer.kind) {
    case SULYOBAK_REFUSED:
        printf("refused %u\n    %s\n", (unsigned)answer.value, sulyobak_refusal_sentence(answer.value));
        break;
    case SULYOBAK_DONE:
        printf("done %u\n", (unsigned)answer.value);
        break;
    case SULYOBAK_ANSWERED:
        printf("state %u, found %u\n", (unsigned)answer.value, (unsigned)answer.found);
        break;
    case SULYOBAK_WAITS:
        printf("waits for %u\n", (unsigned)answer.value);
        break;
    default:
        printf("kind %u?\n", (unsigned)answer.kind);
        exit(1);
    }
}

static void show_cart(const uint8_t *cart)
{
    char title[SULYOBAK_TITLE_MOST + 1];
    sulyobak_title(cart, title);
    if (!sulyobak_cart_is_held(cart))
        printf("    empty\n");
    else
        printf("    cart %u, audio %u, %u ms: %s\n", (unsigned)sulyobak_cart_number(cart), (unsigned)sulyobak_cart_audio(cart),
               (unsigned)sulyobak_cart_milliseconds(cart), title);
}

static void show(size_t place)
{
    show_cart(sulyobak_cart_at(output, place));
}

static void commit(const char *what, uint32_t session, const uint8_t *operations, size_t count)
{
    say(what, sulyobak_commit(MEMORY, control, session, operations, count * SULYOBAK_OPERATION_SIZE));
}

/* What a commit would answer; nothing is changed, whatever it is. */
static void preview(const char *what, uint32_t session, const uint8_t *operations, size_t count)
{
    say(what, sulyobak_preview(MEMORY, control, session, operations, count * SULYOBAK_OPERATION_SIZE));
}

static void read_title(const char *what, uint32_t session, const char *title)
{
    uint8_t request[SULYOBAK_REQUEST_SIZE];
    made(sulyobak_request_title(request, title));
    say(what, sulyobak_read(MEMORY, control, session, request, sizeof request, output, sizeof output));
}

static void read_numbers(const char *what, uint32_t session, const uint32_t *carts, size_t count)
{
    uint8_t request[SULYOBAK_REQUEST_SIZE];
    made(sulyobak_request_numbers(request, carts, count));
    say(what, sulyobak_read(MEMORY, control, session, request, sizeof request, output, sizeof output));
}

/* A read that does not wait: where the studio's copy is behind the session's number, the head end answers. */
static void forward_numbers(const char *what, uint32_t session, const uint32_t *carts, size_t count)
{
    uint8_t request[SULYOBAK_REQUEST_SIZE];
    made(sulyobak_request_numbers(request, carts, count));
    say(what, sulyobak_forward(MEMORY, control, session, request, sizeof request, output, sizeof output));
}

static void catch_up(uint32_t studio)
{
    say("  the line sends one transaction to the studio", sulyobak_send(MEMORY, control, studio));
    say("  the studio's copy takes it", sulyobak_refresh(MEMORY, control, studio));
}

/* A studio's copy takes so many transactions more; nothing is said of each. */
static void take(uint32_t studio, uint32_t count)
{
    for (; count > 0; count--) {
        control = sulyobak_send(MEMORY, control, studio).control;
        control = sulyobak_refresh(MEMORY, control, studio).control;
    }
}

/* The head end writes the message of a transaction, and the link brings it to the van. */
static void bring(const char *what, uint32_t number)
{
    uint8_t message[SULYOBAK_MESSAGE_MOST];
    sulyobak_answer written = sulyobak_van_write(MEMORY, control, number, message, sizeof message);
    sulyobak_van_answer answer;
    if (written.kind == SULYOBAK_REFUSED) {
        printf("%s\n", sulyobak_refusal_sentence(written.value));
        exit(1);
    }
    answer = sulyobak_van_receive(van_copy, sizeof van_copy, van_applied, message, written.value);
    van_applied = answer.applied;
    printf("%-66s ", what);
    if (answer.kind == SULYOBAK_REFUSED)
        printf("refused %u\n    message %u: %s\n", (unsigned)answer.value, (unsigned)sulyobak_message_number(message),
               sulyobak_refusal_sentence(answer.value));
    else
        printf("%s %u\n", answer.kind == SULYOBAK_HELD ? "held" : "applied", (unsigned)answer.value);
}

static void the_title_column(void)
{
    static const char version_a[] = "Good morning, good morning, it is breakfast time in town, take A";
    static const char version_b[] = "Good morning, good morning, it is breakfast time in town, take B";
    static const char too_long[] = "Good morning, good morning, it is breakfast time in town, take A2";
    static const uint32_t both[2] = {JINGLE_A, JINGLE_B};
    uint8_t operations[3 * SULYOBAK_OPERATION_SIZE];
    uint8_t by_title[2 * SULYOBAK_CART_SIZE];

    printf("\nThe title column\n");
    made(sulyobak_operation_new(operations, JINGLE_A, version_a, 101, 8000));
    made(sulyobak_operation_new(operations + 80, JINGLE_B, version_b, 102, 8000));
    made(sulyobak_operation_new(operations + 160, SPONSOR, "Sponsor: Kovacs bakery", 301, 15000));
    commit("the manager commits two jingles and the sponsor's", MANAGER, operations, 3);
    printf("a title of 65 letters: %s\n", sulyobak_made_sentence(sulyobak_operation_retitle(operations, JINGLE_A, too_long)));
    catch_up(STUDIO);
    read_title("the presenter imports take A by title", PRESENTER, version_a);
    show(0);
    memcpy(by_title, output, SULYOBAK_CART_SIZE);
    read_title("the presenter imports take B by title", PRESENTER, version_b);
    show(0);
    memcpy(by_title + SULYOBAK_CART_SIZE, output, SULYOBAK_CART_SIZE);
    read_numbers("the presenter imports both by number", PRESENTER, both, 2);
    show(0);
    show(1);
    printf("by title and by number: %s\n", memcmp(by_title, output, sizeof by_title) == 0 ? "the same carts" : "DIFFERENT carts");
}

static void the_sponsors_jingle(void)
{
    static const uint32_t sponsor[1] = {SPONSOR};
    uint8_t operation[SULYOBAK_OPERATION_SIZE];

    printf("\nThe sponsor's jingle\n");
    made(sulyobak_operation_new(operation, NEWS, "News bed", 401, 60000));
    commit("the manager commits a news bed", MANAGER, operation, 1);
    made(sulyobak_operation_recut(operation, SPONSOR, 302, 14000));
    commit("the producer re-cuts the sponsor's jingle", PRODUCER, operation, 1);
    printf("commits %u, the studio's copy has taken %u\n", (unsigned)control.commits, (unsigned)control.applied[STUDIO - 1]);
    read_numbers("the producer reads it in the same chair", PRODUCER, sponsor, 1);
    read_numbers("a second session in that chair reads the old cut", SECOND, sponsor, 1);
    show(0);
    commit("the producer edits on, with a read waiting", PRODUCER, operation, 1);
    catch_up(STUDIO);
    say("the producer collects", sulyobak_collect(MEMORY, control, PRODUCER, output, sizeof output));
    catch_up(STUDIO);
    say("the producer collects", sulyobak_collect(MEMORY, control, PRODUCER, output, sizeof output));
    show(0);
    say("nothing more is waiting", sulyobak_collect(MEMORY, control, PRODUCER, output, sizeof output));
}

static void the_weather_bed(void)
{
    uint8_t operations[2 * SULYOBAK_OPERATION_SIZE];

    printf("\nThe weather bed\n");
    made(sulyobak_operation_retitle(operations, SPONSOR, "Sponsor: Kovacs bakery, winter"));
    made(sulyobak_operation_new(operations + 80, NEWS, "Weather bed", 402, 30000));
    preview("the producer tries an edit that puts it where the news bed is", PRODUCER, operations, 2);
    made(sulyobak_operation_new(operations + 80, WEATHER, "Weather bed", 402, 30000));
    preview("the producer tries the edit with the next cart", PRODUCER, operations, 2);
    printf("commits %u, as before\n", (unsigned)control.commits);
    commit("the producer commits it", PRODUCER, operations, 2);
}

static void the_taken_cart(void)
{
    static const uint32_t weather[1] = {WEATHER};
    const uint8_t *presenter = sulyobak_session_at(session_memory, PRESENTER);
    uint8_t operation[SULYOBAK_OPERATION_SIZE];

    printf("\nThe taken cart\n");
    read_numbers("the presenter looks for a free cart", PRESENTER, weather, 1);
    show(0);
    made(sulyobak_operation_new(operation, WEATHER, "Travel bed", 403, 45000));
    commit("the presenter commits a travel bed there", PRESENTER, operation, 1);
    printf("the presenter's number is %u now: the refusal spoke of %u commits\n", (unsigned)sulyobak_session_number(presenter),
           (unsigned)control.commits);
    read_numbers("the presenter reads the cart, which the studio's copy has empty", PRESENTER, weather, 1);
    catch_up(STUDIO);
    say("the presenter collects", sulyobak_collect(MEMORY, control, PRESENTER, output, sizeof output));
    show(0);
}

static void ten_seconds_before_the_hour(void)
{
    static const uint32_t news[1] = {NEWS};
    uint8_t operation[SULYOBAK_OPERATION_SIZE];

    printf("\nTen seconds before the hour\n");
    made(sulyobak_operation_recut(operation, NEWS, 404, 58000));
    commit("the presenter re-cuts the news bed", PRESENTER, operation, 1);
    made(sulyobak_operation_retitle(operation, NEWS, "News bed at the hour"));
    commit("the manager retitles it", MANAGER, operation, 1);
    forward_numbers("the presenter cannot wait, and the head end answers", PRESENTER, news, 1);
    show(0);
    printf("commits %u, the studio's copy has taken %u\n", (unsigned)control.commits, (unsigned)control.applied[STUDIO - 1]);
    read_numbers("a plain read waits for what the head end has shown", PRESENTER, news, 1);
    forward_numbers("the presenter forwards again, with a read waiting", PRESENTER, news, 1);
    catch_up(STUDIO);
    say("the presenter collects", sulyobak_collect(MEMORY, control, PRESENTER, output, sizeof output));
    catch_up(STUDIO);
    say("the presenter collects", sulyobak_collect(MEMORY, control, PRESENTER, output, sizeof output));
    show(0);
    forward_numbers("the studio has caught up, and answers a forward itself", PRESENTER, news, 1);
    say("control and memory are of the layout", sulyobak_layout(MEMORY, control));
}

static void the_van(void)
{
    const uint8_t *news = sulyobak_cart_at(van_copy, NEWS - 1);
    uint8_t operation[SULYOBAK_OPERATION_SIZE];

    printf("\nThe van\n");
    bring("the link brings the first edit", 1);
    bring("the second is lost; the third comes", 3);
    bring("the first comes once more", 1);
    bring("the second is sent again", 2);
    printf("the van has applied %u of %u; its presenter looks at the news bed\n", (unsigned)van_applied, (unsigned)control.commits);
    show_cart(news);
    made(sulyobak_operation_withdraw(operation, JINGLE_B));
    commit("meanwhile the manager withdraws take B", MANAGER, operation, 1);
    bring("the third is sent again", 3);
    bring("the fifth comes before the fourth", 5);
    bring("the fourth comes", 4);
    bring("the fifth is sent again", 5);
    bring("the sixth comes", 6);
    bring("the second comes once more", 2);
    bring("the manager's comes", 7);
    printf("the van has applied %u of %u; its presenter looks at the news bed\n", (unsigned)van_applied, (unsigned)control.commits);
    show_cart(news);
    printf("in the van and at the head end: %s\n",
           memcmp(van_copy, library_memory, sizeof van_copy) == 0 ? "the same carts" : "DIFFERENT carts");
}

static void the_other_studio(void)
{
    static const uint32_t take_b[1] = {JINGLE_B};
    const uint8_t *presenter = sulyobak_session_at(session_memory, PRESENTER);

    printf("\nThe other studio\n");
    take(OTHER, 6);
    catch_up(STUDIO);
    printf("the studio's copy has taken %u, the other studio's %u\n", (unsigned)control.applied[STUDIO - 1],
           (unsigned)control.applied[OTHER - 1]);
    read_numbers("the presenter looks for take B in the studio", PRESENTER, take_b, 1);
    show(0);
    printf("the presenter's number is %u now: the read has shown so many commits\n", (unsigned)sulyobak_session_number(presenter));
    say("the presenter walks to the other studio", sulyobak_move(MEMORY, control, PRESENTER, OTHER));
    read_numbers("the presenter looks for take B, which the copy there still has", PRESENTER, take_b, 1);
    say("the presenter walks back, with a read waiting", sulyobak_move(MEMORY, control, PRESENTER, STUDIO));
    catch_up(OTHER);
    say("the presenter collects", sulyobak_collect(MEMORY, control, PRESENTER, output, sizeof output));
    show(0);
    say("the presenter walks back", sulyobak_move(MEMORY, control, PRESENTER, STUDIO));
    say("control and memory are of the layout", sulyobak_layout(MEMORY, control));
}

int main(void)
{
    static const uint8_t studios[SULYOBAK_SESSIONS] = {STUDIO, STUDIO, STUDIO, STUDIO};
    if (sulyobak_version() != SULYOBAK_VERSION) {
        printf("the linked library is of version %u, the header of %d\n", (unsigned)sulyobak_version(), SULYOBAK_VERSION);
        return 1;
    }
    say("set up two studios; three chairs, one of them with two sessions", sulyobak_setup(MEMORY, 2, studios, sizeof studios));
    the_title_column();
    the_sponsors_jingle();
    the_weather_bed();
    the_taken_cart();
    ten_seconds_before_the_hour();
    the_van();
    the_other_studio();
    return 0;
}
