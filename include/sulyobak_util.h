/*
 * Helpers for sulyobak.h: they make the bytes of operations and requests, and take carts, sessions and messages apart. Everything is static
 * inline, for C99 and C++; nothing is allocated, and nothing but sulyobak.h is needed. The engine tests all of it again.
 */
#ifndef SULYOBAK_UTIL_H
#define SULYOBAK_UTIL_H

#include "sulyobak.h"

/*
 * MAKING OPERATIONS AND REQUESTS. Each function writes 80 bytes and returns SULYOBAK_MADE, or leaves them alone and returns one of the other
 * numbers. A title ends with a zero byte, as in C, and is taken whole or not at all. One that begins or ends with a space is made too: a
 * commit refuses it (SULYOBAK_SPACED_TITLE), a read or forward may ask for it.
 */
#define SULYOBAK_MADE 0
#define SULYOBAK_TITLE_EMPTY 1       /* The title has no letter. */
#define SULYOBAK_TITLE_LONG 2        /* The title has more than 64 bytes. */
#define SULYOBAK_TITLE_LETTER 3      /* A byte of the title is outside 32 to 126. */
#define SULYOBAK_CART_RANGE 4        /* A cart number is outside 1 to 128. */
#define SULYOBAK_AUDIO_ZERO 5        /* The audio number is 0. */
#define SULYOBAK_MILLISECONDS_ZERO 6 /* The length in milliseconds is 0. */
#define SULYOBAK_COUNT_RANGE 7       /* A read asks for 1 to 32 cart numbers. */

static inline void sulyobak_put(uint8_t *at, uint32_t value, unsigned bytes)
{
    unsigned i;
    for (i = 0; i < bytes; i++)
        at[i] = (uint8_t)(value >> (8 * i));
}

static inline uint32_t sulyobak_get(const uint8_t *at, unsigned bytes)
{
    uint32_t value = 0;
    unsigned i;
    for (i = 0; i < bytes; i++)
        value |= (uint32_t)at[i] << (8 * i);
    return value;
}

/* Whether letters fit as a title: SULYOBAK_MADE, or why not. No byte after the 65th is looked at. */
static inline int sulyobak_title_test(const char *title)
{
    unsigned i;
    for (i = 0; i <= SULYOBAK_TITLE_MOST && title[i] != 0; i++)
        if (title[i] < 32 || title[i] > 126)
            return SULYOBAK_TITLE_LETTER;
    if (i > SULYOBAK_TITLE_MOST)
        return SULYOBAK_TITLE_LONG;
    return i == 0 ? SULYOBAK_TITLE_EMPTY : SULYOBAK_MADE;
}

/* The 80 bytes that operations and requests have in common; a title of NULL is none. Nothing is tested. */
static inline void sulyobak_put_unit(uint8_t *unit, uint8_t kind, uint32_t cart, const char *title, uint32_t audio, uint32_t milliseconds)
{
    unsigned i;
    for (i = 0; i < SULYOBAK_OPERATION_SIZE; i++)
        unit[i] = 0;
    unit[0] = kind;
    sulyobak_put(unit + 2, cart, 2);
    sulyobak_put(unit + 4, audio, 4);
    sulyobak_put(unit + 8, milliseconds, 4);
    for (i = 0; title != NULL && title[i] != 0; i++)
        unit[16 + i] = (uint8_t)title[i];
    unit[1] = (uint8_t)(title != NULL ? i : 0);
}

static inline int sulyobak_cart_test(uint32_t cart)
{
    return cart >= 1 && cart <= SULYOBAK_CARTS ? SULYOBAK_MADE : SULYOBAK_CART_RANGE;
}

static inline int sulyobak_audio_test(uint32_t audio, uint32_t milliseconds)
{
    if (audio == 0)
        return SULYOBAK_AUDIO_ZERO;
    return milliseconds == 0 ? SULYOBAK_MILLISECONDS_ZERO : SULYOBAK_MADE;
}

/* An operation that makes an empty cart held. */
static inline int sulyobak_operation_new(uint8_t *operation, uint32_t cart, const char *title, uint32_t audio, uint32_t milliseconds)
{
    int why = sulyobak_cart_test(cart);
    if (why == SULYOBAK_MADE)
        why = sulyobak_title_test(title);
    if (why == SULYOBAK_MADE)
        why = sulyobak_audio_test(audio, milliseconds);
    if (why == SULYOBAK_MADE)
        sulyobak_put_unit(operation, SULYOBAK_OPERATION_NEW, cart, title, audio, milliseconds);
    return why;
}

/* An operation that gives a held cart another title. */
static inline int sulyobak_operation_retitle(uint8_t *operation, uint32_t cart, const char *title)
{
    int why = sulyobak_cart_test(cart);
    if (why == SULYOBAK_MADE)
        why = sulyobak_title_test(title);
    if (why == SULYOBAK_MADE)
        sulyobak_put_unit(operation, SULYOBAK_OPERATION_RETITLE, cart, title, 0, 0);
    return why;
}

/* An operation that gives a held cart other audio. */
static inline int sulyobak_operation_recut(uint8_t *operation, uint32_t cart, uint32_t audio, uint32_t milliseconds)
{
    int why = sulyobak_cart_test(cart);
    if (why == SULYOBAK_MADE)
        why = sulyobak_audio_test(audio, milliseconds);
    if (why == SULYOBAK_MADE)
        sulyobak_put_unit(operation, SULYOBAK_OPERATION_RECUT, cart, NULL, audio, milliseconds);
    return why;
}

/* An operation that makes a held cart empty. */
static inline int sulyobak_operation_withdraw(uint8_t *operation, uint32_t cart)
{
    int why = sulyobak_cart_test(cart);
    if (why == SULYOBAK_MADE)
        sulyobak_put_unit(operation, SULYOBAK_OPERATION_WITHDRAW, cart, NULL, 0, 0);
    return why;
}

/* A request for 1 to 32 carts by their numbers. */
static inline int sulyobak_request_numbers(uint8_t *request, const uint32_t *carts, size_t count)
{
    size_t i;
    if (count < 1 || count > SULYOBAK_NUMBERS)
        return SULYOBAK_COUNT_RANGE;
    for (i = 0; i < count; i++)
        if (sulyobak_cart_test(carts[i]) != SULYOBAK_MADE)
            return SULYOBAK_CART_RANGE;
    sulyobak_put_unit(request, SULYOBAK_REQUEST_NUMBERS, 0, NULL, 0, 0);
    request[1] = (uint8_t)count;
    for (i = 0; i < count; i++)
        sulyobak_put(request + 16 + 2 * i, carts[i], 2);
    return SULYOBAK_MADE;
}

/* A request for the one cart that has exactly this title. */
static inline int sulyobak_request_title(uint8_t *request, const char *title)
{
    int why = sulyobak_title_test(title);
    if (why == SULYOBAK_MADE)
        sulyobak_put_unit(request, SULYOBAK_REQUEST_TITLE, 0, title, 0, 0);
    return why;
}

/*
 * A CART, in output or in a copy: 80 bytes. The fields of an empty cart are 0.
 */

/* The cart at a place of output or of a copy, counted from 0. */
static inline const uint8_t *sulyobak_cart_at(const uint8_t *carts, size_t place)
{
    return carts + SULYOBAK_CART_SIZE * place;
}

static inline int sulyobak_cart_is_held(const uint8_t *cart)
{
    return cart[0] == 1;
}

static inline uint32_t sulyobak_cart_number(const uint8_t *cart)
{
    return sulyobak_get(cart + 2, 2);
}

static inline uint32_t sulyobak_cart_audio(const uint8_t *cart)
{
    return sulyobak_get(cart + 4, 4);
}

static inline uint32_t sulyobak_cart_milliseconds(const uint8_t *cart)
{
    return sulyobak_get(cart + 8, 4);
}

/* Writes the title of a cart, or of a read by title that a session has waiting, with a zero byte after it: text has 65 bytes.
 * Returns how many letters there are. */
static inline size_t sulyobak_title(const uint8_t *unit, char *text)
{
    size_t length = unit[1] <= SULYOBAK_TITLE_MOST ? unit[1] : SULYOBAK_TITLE_MOST;
    size_t i;
    for (i = 0; i < length; i++)
        text[i] = (char)unit[16 + i];
    text[length] = 0;
    return length;
}

/*
 * A SESSION, in session memory: 80 bytes.
 */

/* The session with a number from 1 to 16; NULL for another number. */
static inline const uint8_t *sulyobak_session_at(const uint8_t *sessions, uint32_t session)
{
    return session >= 1 && session <= SULYOBAK_SESSIONS ? sessions + 80 * (session - 1) : NULL;
}

/* The session's number: that of its last commit, what was committed when the head end refused it a commit by 8 or answered its forward, or
 * the state that a read showed it, whichever is highest; 0 before the first. Its reads wait until its studio's copy has taken so many. */
static inline uint32_t sulyobak_session_number(const uint8_t *session)
{
    return sulyobak_get(session + 2, 2);
}

/* The read that the session has waiting: 0 for none, SULYOBAK_REQUEST_NUMBERS, or SULYOBAK_REQUEST_TITLE (sulyobak_title has it). */
static inline int sulyobak_session_waiting(const uint8_t *session)
{
    return session[0];
}

/* How many places of 80 bytes the waiting read asks of output: the count of numbers, 1 for a title, 0 where none is waiting. */
static inline size_t sulyobak_session_places(const uint8_t *session)
{
    if (session[0] == SULYOBAK_REQUEST_NUMBERS)
        return session[1];
    return session[0] == SULYOBAK_REQUEST_TITLE ? 1 : 0;
}

/* The cart number at a place of a waiting read by numbers, counted from 0; 0 past the last. */
static inline uint32_t sulyobak_session_cart(const uint8_t *session, size_t place)
{
    int there = session[0] == SULYOBAK_REQUEST_NUMBERS && place < session[1] && place < SULYOBAK_NUMBERS;
    return there ? sulyobak_get(session + 16 + 2 * place, 2) : 0;
}

/*
 * A MESSAGE to a van: at least its first four bytes must be there.
 */

/* The number of its transaction. */
static inline uint32_t sulyobak_message_number(const uint8_t *message)
{
    return sulyobak_get(message, 2);
}

/* How many operations it has; its length is SULYOBAK_MESSAGE_HEAD + SULYOBAK_OPERATION_SIZE x so many bytes. */
static inline uint32_t sulyobak_message_count(const uint8_t *message)
{
    return message[2];
}

/*
 * SENTENCES for people. Each is a string that lasts.
 */

/* What a refusal's number says. */
static inline const char *sulyobak_refusal_sentence(uint32_t refusal)
{
    switch (refusal) {
    case SULYOBAK_BAD_LENGTHS: return "one of the three memories does not have its exact length";
    case SULYOBAK_BAD_LAYOUT: return "control and memory are not of the layout: damaged, mixed up, or never set up";
    case SULYOBAK_NOBODY: return "there is no such session in use, or no such studio";
    case SULYOBAK_READ_WAITING: return "the session has a read waiting; collect it first";
    case SULYOBAK_BAD_SIZE: return "a commit takes 1 to 8 operations";
    case SULYOBAK_BAD_OPERATION:
        return "an operation is out of form: cart number 1 to 128, audio and length at least 1, title of 1 to 64 letters";
    case SULYOBAK_LOG_FULL:
        return "the log has fewer free records than there are operations (retire makes room), or 65,535 transactions were committed";
    case SULYOBAK_WRONG_STATE: return "a new cart is there already, or the cart to retitle, re-cut or withdraw is empty";
    case SULYOBAK_ALL_SENT: return "every committed transaction was sent to this studio";
    case SULYOBAK_WINDOW_FULL: return "32 transactions were sent to this studio and not yet applied; refresh it first";
    case SULYOBAK_ALL_APPLIED: return "everything that was sent to this studio is applied";
    case SULYOBAK_BAD_REQUEST: return "the request is out of form: 1 to 32 cart numbers from 1 to 128, or a title of 1 to 64 letters";
    case SULYOBAK_SHORT_OUTPUT: return "output is shorter than 80 bytes for each number asked, or 80 for a title";
    case SULYOBAK_NOTHING_WAITING: return "the session has no read waiting";
    case SULYOBAK_BAD_STUDIOS: return "studios are 1 to 4, with a studio for each of 16 sessions, none above the number of studios";
    case SULYOBAK_SPACED_TITLE: return "the title begins or ends with a space";
    case SULYOBAK_BAD_MESSAGE:
        return "no such transaction, or output shorter than its message; in the van: a message out of form, or a copy not of the layout";
    case SULYOBAK_MESSAGE_AHEAD: return "the message comes too soon: a transaction before it has not been applied yet";
    case SULYOBAK_NOT_WHOLE:
        return "a copy is not what the log makes, or a logged operation met its cart in the wrong state: damaged, or not saved together";
    case SULYOBAK_NOT_RETIRABLE: return "a studio has not applied the oldest transaction of the log yet, or the log has none";
    case SULYOBAK_RETIRED: return "the transaction is retired, and no longer in the log";
    case SULYOBAK_NOT_CONVERTIBLE: return "the input is not of its length or form, or the output is not of its length";
    case SULYOBAK_LONG_TITLE: return "a title has more than 32 letters, and an old file has no room for it";
    default: return "a number that this version does not have";
    }
}

/* Why an operation or a request was not made. */
static inline const char *sulyobak_made_sentence(int why)
{
    switch (why) {
    case SULYOBAK_MADE: return "made";
    case SULYOBAK_TITLE_EMPTY: return "the title is empty";
    case SULYOBAK_TITLE_LONG: return "the title has more than 64 letters, and it is not cut";
    case SULYOBAK_TITLE_LETTER: return "a letter of the title is not printable ASCII";
    case SULYOBAK_CART_RANGE: return "a cart number is outside 1 to 128";
    case SULYOBAK_AUDIO_ZERO: return "the audio number is 0";
    case SULYOBAK_MILLISECONDS_ZERO: return "the length in milliseconds is 0";
    case SULYOBAK_COUNT_RANGE: return "a read asks for 1 to 32 cart numbers";
    default: return "a number that this version does not have";
    }
}

#endif
