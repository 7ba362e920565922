/*
 * Sulyobak: a replication engine for radio cart libraries.
 *
 * One head end commits edits to its copy of the library and to a log. Up to four studios are sent the committed transactions and apply
 * them, in order, to copies of their own. A session is at one studio at a time and reads that studio's copy; a session's read is answered
 * once the copy has reached the session's number, and waits until then; where it cannot wait, the read is forwarded to the head end. The
 * number is the highest of what the session knows of: its last commit, the count of commits at which the head end refused it one
 * because of a cart's state (8) or answered it, and the state that a read showed it. So nobody is handed an old cut that they have just
 * replaced, or told or shown what the head end or a studio has and then shown a copy from before, also after a move to another studio. A
 * copy beyond a line that loses, repeats and reorders (an outside-broadcast van) is kept by messages, one for each transaction:
 * sulyobak_van_write and sulyobak_van_receive. Wall files of the thirty-two-character edition become one copy, and a copy such a file:
 * sulyobak_from_old and sulyobak_to_old.
 *
 * ONE CHAIR IS ONE SESSION. The wait goes by the session's own number, so whoever edits must read in the session that committed. With two
 * sessions in one chair, an edit committed in the first does not raise the second's number: a read in the second is answered at once from
 * the copy as it is, with the old cut. That is right by the rules; it is the caller who keeps a person to one session.
 *
 * Link with libsulyobak.a (the command `rust/build-archives` writes it to target/staticlib):
 *     cc -std=c99 -Iinclude program.c -Ltarget/staticlib -lsulyobak -o program
 * It needs memcpy and memset and no other function, allocates nothing, keeps nothing between calls, and runs on x86-64 Linux.
 * sulyobak_util.h has functions that make operations and requests and take carts, sessions and messages apart.
 *
 * WHAT THE ENGINE LOOKS AFTER. Every byte and every number passed in is tested: any control, any bytes and any argument have their
 * answer. A refused call returns its number and changes no byte of your memory, with one exception: a commit refused by 8 raises its
 * session's number (sulyobak_commit says why). Every call ends. Each function here is proved to answer, and to leave in memory,
 * exactly what the specification gives (crates/sulyobak/src/lib.rt has the contracts).
 *
 * WHAT REMAINS THE CALLER'S. No library can test these:
 *   - every pointer is valid for as many bytes as its length says, and not null where the length is 0; what is not const is writable;
 *   - the buffers of one call do not overlap: the three memories, output, the van's copy, an old file and the copy that it is converted to
 *     or from, and what is read (operations, request, message, session_studios);
 *   - one call at a time on the same memory, and nobody else reads or writes it while a call runs (calls on different memories may
 *     run at the same time, and so may previews, layout tests, loads and van_writes, each with an output of its own, of one memory: they
 *     change neither memory nor control);
 *   - the control that the last call handed back goes into the next one, and memory is kept as that call left it. (Where control
 *     or memory are damaged so that they are no longer of the layout, each call that is passed them says so with the number 2. That the
 *     copies are what the log makes is tested by sulyobak_load alone.)
 *
 * SAVING. Save the three memories and control together, as one call left them, with the version that wrote them, so that a stop in the
 * middle leaves the last whole save (write another file, then rename it). After reading them back call sulyobak_load once, before any
 * other call. A save that is whole is accepted and goes on exactly as if the system had never stopped: sessions keep their numbers and
 * their waiting reads. A save that is torn is refused where copies, log and control do not fit each other: sulyobak_load says what a torn
 * save gives. examples/c/restart.c saves, reads back, loads and goes on.
 *
 * Numbers inside the memories, operations, requests, messages and carts are little-endian.
 */
#ifndef SULYOBAK_H
#define SULYOBAK_H

#include <stddef.h>
#include <stdint.h>

#ifdef __cplusplus
extern "C" {
#endif

/* The version of this interface: functions, structs, numbers and layout of memory. sulyobak_control and sulyobak_answer may change
 * with it, so a header and a library go together (compare the macro with sulyobak_version() at the program's start), and control is stored
 * together with the version that wrote it. docs/FORMAT.md says which versions have the same control and layout. */
#define SULYOBAK_VERSION 9

/* Stack that a call keeps within, in bytes: SULYOBAK_LOAD_STACK_MOST for sulyobak_load, which works out each copy in one of its own on the
 * stack (SULYOBAK_COPY_SIZE, 10,240 bytes), SULYOBAK_STACK_MOST for every other call. Measured on a full system, not proved: examples/run
 * runs examples/c/stack.c, which fails where a call takes more. */
#define SULYOBAK_STACK_MOST 4096
#define SULYOBAK_LOAD_STACK_MOST 14336

/* Sizes of the memories that a caller lends, in bytes: exactly these. */
#define SULYOBAK_LIBRARY_SIZE 61440 /* six copies of 128 carts: the head end's, studios 1 to 4, what is retired */
#define SULYOBAK_LOG_SIZE 40960     /* 512 records */
#define SULYOBAK_SESSIONS_SIZE 1280 /* 16 sessions */

/* Sizes of what is passed in and out, in bytes. */
#define SULYOBAK_CART_SIZE 80       /* a cart in a copy or in output */
#define SULYOBAK_OPERATION_SIZE 80  /* an operation of a commit */
#define SULYOBAK_REQUEST_SIZE 80    /* what a read or forward asks for */
#define SULYOBAK_COPY_SIZE 10240    /* one copy of the library */
#define SULYOBAK_OUTPUT_MOST 2560   /* output of this size is long enough for every read and forward */
#define SULYOBAK_MESSAGE_HEAD 4     /* what stands before the operations of a message */
#define SULYOBAK_MESSAGE_MOST 644   /* a message of 8 operations; output of this size is long enough for every message */
#define SULYOBAK_OLD_FILE_SIZE 6150 /* a wall file of the thirty-two-character edition */

/* How many there are at most. */
#define SULYOBAK_STUDIOS 4      /* studios, numbered from 1 */
#define SULYOBAK_SESSIONS 16    /* sessions, numbered from 1 */
#define SULYOBAK_CARTS 128      /* carts, numbered from 1 */
#define SULYOBAK_TITLE_MOST 64  /* letters of a title: it is kept whole, or the commit is refused */
#define SULYOBAK_OLD_TITLE_MOST 32 /* letters of a title in an old file: it is kept whole, or the conversion is refused */
#define SULYOBAK_OPERATIONS 8   /* operations in one commit */
#define SULYOBAK_NUMBERS 32     /* cart numbers in one read or forward */
#define SULYOBAK_RECORDS 512    /* operations in the log; retired ones make room (sulyobak_retire) */
#define SULYOBAK_COMMITS 65535  /* transactions ever committed */
#define SULYOBAK_WINDOW 32      /* transactions sent to a studio and not yet applied there */

/*
 * An OPERATION is 80 bytes, as is a CART in output:
 *   byte 0        operation: 1 new, 2 retitle, 3 re-cut, 4 withdraw; cart: 1 (an empty cart is 80 zero bytes)
 *   byte 1        length of the title, 1 to 64
 *   bytes 2-3     cart number, 1 to 128
 *   bytes 4-7     audio number, at least 1
 *   bytes 8-11    length in milliseconds, at least 1
 *   bytes 12-15   zero
 *   bytes 16-79   the title, each letter a byte from 32 to 126, then zeros
 * New has every field. Retitle has audio number and length zero. Re-cut has title length and title zero. Withdraw has the cart number only.
 * A title that begins or ends with a space (byte 32) is of this form, and a commit that would write it is refused by 16: on the wall it
 * could not be told from the title without. Carts that have such a title from before are kept, shown, found by it and retitled.
 *
 * A REQUEST is 80 bytes:
 *   byte 0        1 by cart numbers, 2 by title
 *   byte 1        how many numbers, 1 to 32; or the length of the title, 1 to 64
 *   bytes 2-15    zero
 *   bytes 16-79   the cart numbers, two bytes each, 1 to 128; or the title; then zeros
 *
 * A MESSAGE to a van is 4 + 80 x count bytes, exactly:
 *   bytes 0-1     number of the transaction, at least 1
 *   byte 2        count of its operations, 1 to 8
 *   byte 3        zero
 *   bytes 4-      the operations, 80 bytes each, of the form above (a title may begin or end with a space: the log may have such titles)
 *
 * An OLD FILE, a wall file of the thirty-two-character edition, is 6,150 bytes, exactly: the six bytes CART32, then 128 carts of 48 bytes,
 * cart c from byte 6 + 48 x (c - 1) on. An empty cart is 48 zero bytes; a held one is
 *   byte 0        1
 *   byte 1        length of the title, 1 to 32
 *   bytes 2-3     cart number, c
 *   bytes 4-7     audio number, at least 1
 *   bytes 8-11    length in milliseconds, at least 1
 *   bytes 12-15   zero
 *   bytes 16-47   the title, each letter a byte from 32 to 126, then zeros (a title may begin or end with a space)
 */
#define SULYOBAK_OPERATION_NEW 1
#define SULYOBAK_OPERATION_RETITLE 2
#define SULYOBAK_OPERATION_RECUT 3
#define SULYOBAK_OPERATION_WITHDRAW 4
#define SULYOBAK_REQUEST_NUMBERS 1
#define SULYOBAK_REQUEST_TITLE 2

/* The counts of a system: passed in and handed back as a value. Keep the one that the last call handed back. */
typedef struct {
    uint32_t studios;             /* how many studios, 1 to 4 */
    uint32_t session_studios[16]; /* the studio at which each session is; 0 for a session that is not in use */
    uint32_t used;                /* records of the log that hold operations, up to 512; the others are free */
    uint32_t commits;             /* transactions committed, retired ones included, up to 65,535 */
    uint32_t sent[4];             /* for each studio, how many transactions were sent to it */
    uint32_t applied[4];          /* for each studio, how many of these its copy has taken */
    uint32_t retired;             /* transactions retired: the first ones, no longer in the log; the sixth copy is what they made */
    uint32_t oldest;              /* first record of the oldest transaction that is in the log; 0 for none */
    uint32_t free_first;          /* first record of the chain of free ones; 0 for none */
    uint32_t free_last;           /* last record of that chain; 0 for none */
} sulyobak_control;

/* What a call answers. Words that have no meaning for the kind are 0. */
typedef struct {
    uint32_t kind;  /* refused, done, answered or waits: below */
    uint32_t value; /* refused: the number, below; done: what the call counts; answered: the state; waits: the session's number */
    uint32_t found; /* answered: how many carts were found */
    sulyobak_control control; /* control for the next call; unchanged where the call was refused (setup's apart), and by preview, read,
                               * collect, forward, layout, load and van_write; all zero from from_old and to_old, which are passed none */
} sulyobak_answer;

/* What sulyobak_van_receive answers. */
typedef struct {
    uint32_t kind;    /* refused, done (the message is applied) or held */
    uint32_t value;   /* refused: the number, below; done and held: the message's number */
    uint32_t applied; /* applied for the next call: the message's number where it is applied, else as it was passed */
} sulyobak_van_answer;

/* Kinds of answer. */
#define SULYOBAK_REFUSED 0  /* value says why; nothing was done, no byte was changed (but a session's number, by a commit refused by 8) */
#define SULYOBAK_DONE 1     /* done; value: the commit's number (of a preview the one it would have), sent, applied, the studio moved to, a
                             * message's length, the number of a message that a van applied, the commits of a load, the count
                             * retired, or the bytes that a conversion wrote; 0 for setup and layout */
#define SULYOBAK_ANSWERED 2 /* the read or forward is answered; value: transactions that the copy had taken; found; carts are in output */
#define SULYOBAK_WAITS 3    /* the read is kept in the session; value: the number that the studio's copy has to reach first */
#define SULYOBAK_HELD 4     /* the van holds this message's transaction already; nothing was changed */

/* Why a call was refused. They are tested in the order in which each function below lists them. */
#define SULYOBAK_BAD_LENGTHS 1      /* One of the three memories does not have its exact length. */
#define SULYOBAK_BAD_LAYOUT 2       /* Control and memory are not of the layout: damaged, mixed up, or never set up. */
#define SULYOBAK_NOBODY 3           /* There is no such session in use (1 to 16), or no such studio (1 to control.studios). */
#define SULYOBAK_READ_WAITING 4     /* The session has a read waiting: collect it first. */
#define SULYOBAK_BAD_SIZE 5         /* A commit takes 1 to 8 operations: 80 to 640 bytes, in steps of 80. */
#define SULYOBAK_BAD_OPERATION 6    /* An operation is out of form, for example with a title that is empty or too long. */
#define SULYOBAK_LOG_FULL 7         /* The log has fewer free records than there are operations (retire makes room), or 65,535 transactions
                                     * were committed. */
#define SULYOBAK_WRONG_STATE 8      /* A new cart is there already, or the cart to retitle, re-cut or withdraw is empty. */
#define SULYOBAK_ALL_SENT 9         /* Every committed transaction was sent to this studio. */
#define SULYOBAK_WINDOW_FULL 10     /* 32 transactions were sent to this studio and not yet applied: refresh it first. */
#define SULYOBAK_ALL_APPLIED 11     /* Everything that was sent to this studio is applied. */
#define SULYOBAK_BAD_REQUEST 12     /* The request is not 80 bytes of the form above. */
#define SULYOBAK_SHORT_OUTPUT 13    /* Output is shorter than 80 bytes for each number asked (80 for a title). */
#define SULYOBAK_NOTHING_WAITING 14 /* The session has no read waiting. */
#define SULYOBAK_BAD_STUDIOS 15     /* Studios are 1 to 4, with one byte for each of 16 sessions, none above the number of studios. */
#define SULYOBAK_SPACED_TITLE 16    /* The title of a new or retitle begins or ends with a space. */
#define SULYOBAK_BAD_MESSAGE 17     /* van_receive: the message is out of form, or the copy is not 10,240 bytes of the layout.
                                     * van_write: no such transaction (1 to control.commits), or output is shorter than its message. */
#define SULYOBAK_MESSAGE_AHEAD 18   /* The message's number is above applied + 1: one before it has not been applied yet. */
#define SULYOBAK_NOT_WHOLE 19       /* A copy is not what the log makes, or a logged operation met its cart in the wrong state: damaged, or
                                     * not saved together. */
#define SULYOBAK_NOT_RETIRABLE 20   /* A studio has not applied the oldest transaction of the log yet, or the log has none. */
#define SULYOBAK_RETIRED 21         /* van_write: the transaction is retired, and no longer in the log. */
#define SULYOBAK_NOT_CONVERTIBLE 22 /* from_old, to_old: the input is not of its length or form, or the output is not of its length. */
#define SULYOBAK_LONG_TITLE 23      /* to_old: a title has more than 32 letters, and an old file has no room for it. */

/* The version of the linked library: SULYOBAK_VERSION of the header that it was made with. */
uint32_t sulyobak_version(void);

/* Every call but sulyobak_van_receive, sulyobak_from_old and sulyobak_to_old is lent the three memories. They must be of the sizes above;
 * the engine tests the lengths passed. What a call does not change it takes as const.
 *   library, library_len     SULYOBAK_LIBRARY_SIZE bytes: changed by setup, commit, refresh, retire
 *   log, log_len             SULYOBAK_LOG_SIZE bytes: changed by setup, commit, retire
 *   sessions, sessions_len   SULYOBAK_SESSIONS_SIZE bytes: changed by setup, commit, read, collect, forward */

/* Sets up a fresh system: every cart empty, nothing waiting, every record of the log free, in order from 1 to 512, all counts zero.
 *   studios               how many studios, 1 to 4
 *   session_studios       16 bytes: the studio of each session, 1 to studios, or 0 for a session that is not in use
 *   session_studios_len   16
 * Answers done (value 0), or refused 1, 15. A refused setup leaves memory as it was and hands back a control of zeros, with which every
 * other call is refused by 2: keep your earlier control until setup is done. */
sulyobak_answer sulyobak_setup(uint8_t *library, size_t library_len, uint8_t *log, size_t log_len, uint8_t *sessions, size_t sessions_len,
                               uint32_t studios, const uint8_t *session_studios, size_t session_studios_len);

/* Commits a transaction at the head end: all its operations, in their order, or none.
 *   control                       as the last call handed it back
 *   session                       whose commit this is, 1 to 16; the session's later reads wait until its studio has taken this commit
 *   operations, operations_len    1 to 8 operations of 80 bytes, one after the other
 * Answers done (value: the commit's number, from 1), or refused 1, 2, 3, 4, 5, 6, 16, 7, 8 (in this order).
 * The operations take the first free records of the log: 7 tells that there are fewer than operations, or that 65,535 transactions were
 * committed.
 * Refused by 8, the session has been told of the library at the head end: its number becomes control.commits (bytes 2 and 3 of its 80
 * bytes, no other byte, and control comes back as it was passed), so its later reads wait until its studio has taken everything that
 * was committed by then: none of them shows a copy from before the refusal. Every other refusal changes no byte. */
sulyobak_answer sulyobak_commit(uint8_t *library, size_t library_len, uint8_t *log, size_t log_len, uint8_t *sessions, size_t sessions_len,
                                sulyobak_control control, uint32_t session, const uint8_t *operations, size_t operations_len);

/* Previews a commit: answers what sulyobak_commit would answer for the same input, and makes no edit. Changes no memory, hands control
 * back as it was passed, and raises no session's number, also where it answers 8. As long as control and memory stay as they are, the
 * commit gives this answer.
 *   control                       as the last call handed it back
 *   session                       whose commit it would be, 1 to 16
 *   operations, operations_len    1 to 8 operations of 80 bytes, one after the other
 * Answers done (value: the number that the commit would have), or refused 1, 2, 3, 4, 5, 6, 16, 7, 8, as commit would. */
sulyobak_answer sulyobak_preview(const uint8_t *library, size_t library_len, const uint8_t *log, size_t log_len,
                                 const uint8_t *sessions, size_t sessions_len, sulyobak_control control, uint32_t session,
                                 const uint8_t *operations, size_t operations_len);

/* Counts the next committed transaction as sent to a studio. Changes no memory.
 *   control   as the last call handed it back
 *   studio    1 to control.studios
 * Answers done (value: how many were sent to the studio by now), or refused 1, 2, 3, 9, 10. */
sulyobak_answer sulyobak_send(const uint8_t *library, size_t library_len, const uint8_t *log, size_t log_len,
                              const uint8_t *sessions, size_t sessions_len, sulyobak_control control, uint32_t studio);

/* Applies the next transaction that was sent to a studio, whole, to the studio's copy.
 *   control   as the last call handed it back
 *   studio    1 to control.studios
 * Answers done (value: how many the copy has taken by now), or refused 1, 2, 3, 11. */
sulyobak_answer sulyobak_refresh(uint8_t *library, size_t library_len, const uint8_t *log, size_t log_len,
                                 const uint8_t *sessions, size_t sessions_len, sulyobak_control control, uint32_t studio);

/* Reads carts from the copy of the session's studio, or waits if that copy is behind the session's number.
 *   control               as the last call handed it back
 *   session               1 to 16
 *   request, request_len  80 bytes of the form above
 *   output, output_len    where the carts are written, from its start: 80 bytes for each number asked, zeros for an empty cart; for a title
 *                         80 bytes, the one cart with exactly that title, or zeros where none or several have it. Bytes after these
 *                         are left alone.
 * Answers answered (value: how many transactions the copy had taken; found: how many of the places asked hold a cart, or how many carts
 * have the title), or waits (value: the session's number; the request is kept, output is left alone: call collect later), or
 * refused 1, 2, 3, 4, 12, 13.
 * Answered, the session has seen that state: its number becomes value where it was lower (bytes 2 and 3 of its 80 bytes), so that after a
 * move none of its reads shows a copy from before. */
sulyobak_answer sulyobak_read(const uint8_t *library, size_t library_len, const uint8_t *log, size_t log_len,
                              uint8_t *sessions, size_t sessions_len, sulyobak_control control, uint32_t session, const uint8_t *request,
                              size_t request_len, uint8_t *output, size_t output_len);

/* Collects the read that a session has waiting: answered, as by read, once the studio's copy has caught up; else it waits on.
 *   control               as the last call handed it back
 *   session               1 to 16
 *   output, output_len    as for read
 * Answers answered or waits, as read does, or refused 1, 2, 3, 14, 13 (in this order). Answered, it clears the request and raises the
 * session's number as read does. */
sulyobak_answer sulyobak_collect(const uint8_t *library, size_t library_len, const uint8_t *log, size_t log_len,
                                 uint8_t *sessions, size_t sessions_len, sulyobak_control control, uint32_t session, uint8_t *output,
                                 size_t output_len);

/* Reads carts now, where a session cannot wait: from the copy of the session's studio, exactly as sulyobak_read does, where that copy has
 * reached the session's number; else from the head end's copy, and the session's number becomes control.commits. It never waits and keeps
 * no request. After an answer of the head end the session's later reads wait until its studio has taken everything that was committed by
 * then (a read straight afterwards waits), or are forwarded too: none of them shows a copy from before.
 *   control               as the last call handed it back
 *   session               1 to 16
 *   request, request_len  as for read
 *   output, output_len    as for read
 * Answers answered (value: how many transactions the copy that answered had taken: of the head end's, control.commits; found, as for
 * read), or refused 1, 2, 3, 4, 12, 13, as read. A session that has a read waiting is refused by 4, and that read waits on. */
sulyobak_answer sulyobak_forward(const uint8_t *library, size_t library_len, const uint8_t *log, size_t log_len,
                                 uint8_t *sessions, size_t sessions_len, sulyobak_control control, uint32_t session, const uint8_t *request,
                                 size_t request_len, uint8_t *output, size_t output_len);

/* Moves a session to another studio: control's studio of that session becomes it. Changes no memory, and so not the session's number: at
 * a studio whose copy is behind what the session has committed, or been told or shown, its reads wait (or are forwarded). A move to
 * the studio where the session is already is done, and changes nothing.
 *   control   as the last call handed it back
 *   session   1 to 16
 *   studio    1 to control.studios
 * Answers done (value: the studio), or refused 1, 2, 3, 4. A session that has a read waiting is refused by 4: collect it first. */
sulyobak_answer sulyobak_move(const uint8_t *library, size_t library_len, const uint8_t *log, size_t log_len,
                              const uint8_t *sessions, size_t sessions_len, sulyobak_control control, uint32_t session, uint32_t studio);

/* Tests memory and control alone, as every call that is passed both does first. Changes no memory. For memory that was read back after a
 * restart call sulyobak_load, which tests more: this one does not tell whether a copy is what the log makes.
 *   control   as the last call handed it back
 * It tells whether every field is within its rule, the log's chain has the transactions and records that control counts, and the counts
 * agree with each other.
 * Answers done (value 0), or refused 1, 2. */
sulyobak_answer sulyobak_layout(const uint8_t *library, size_t library_len, const uint8_t *log, size_t log_len,
                                const uint8_t *sessions, size_t sessions_len, sulyobak_control control);

/* Loads a system that was saved: tests memory and control as they were read back. Changes no memory and hands control back as it was
 * passed. Beyond the layout it works out from the log what its transactions make, from the sixth copy, one after the other: the head end's
 * copy must be what all of them make (control.commits), the copy of each studio, 1 to control.studios, what the first ones make, up to the
 * number that control.applied has for it, and each operation in the log must have met its cart in the right state when it acted. What a list of calls
 * leaves, from a fresh or a loaded system, is always accepted, so a restart is safe at any moment. From what is accepted every list of
 * calls is answered as from a fresh system: as by one single library, which began as the sixth copy, with the retired transactions played, and
 * took the log's transactions first.
 *   control   as it was saved
 * WHAT A TORN SAVE GIVES. A library, a log and a control of different moments are refused by 2 or 19 wherever a copy then differs from what
 * log and control make of it. What cannot be told, and is accepted: sessions of another moment (a number too low shows its session an
 * earlier copy: save them with the rest); in control, counts of sent and studios of sessions from another moment; a byte of the log that no
 * copy depends on any more, as a title that was replaced later; a sixth copy that is not what the retired transactions made, where all the
 * other copies fit it; and a whole system of an earlier moment. Copies of studios above
 * control.studios, and sessions, are tested by the layout alone.
 * Answers done (value: control.commits), or refused 1, 2, 19. Nobody is obliged to load: the other calls go by the layout alone. */
sulyobak_answer sulyobak_load(const uint8_t *library, size_t library_len, const uint8_t *log, size_t log_len,
                              const uint8_t *sessions, size_t sessions_len, sulyobak_control control);

/* Retires the oldest transaction of the log, once every studio, 1 to control.studios, has applied it: it acts on the sixth copy, and its
 * records join the end of the free ones, so that later commits find room. Commit numbers, the other copies and the sessions stay as they
 * are. Call it at any moment, for example until it is refused by 20: a system whose studios keep up never fills its log, until 65,535
 * transactions were committed. A retired transaction can no longer be written for a van (21).
 *   control   as the last call handed it back
 * Answers done (value: how many are retired by now, control.retired), or refused 1, 2, 20. */
sulyobak_answer sulyobak_retire(uint8_t *library, size_t library_len, uint8_t *log, size_t log_len,
                                const uint8_t *sessions, size_t sessions_len, sulyobak_control control);

/* Writes the message of a committed transaction, for a van. Changes no memory and hands control back as it was passed. The same number
 * gives the same message until the transaction is retired, whatever is called in between: write it again where it was lost. A van that lags
 * behind what is retired can only be given a fresh start: keep transactions that a van may still need.
 *   control              as the last call handed it back
 *   number               of the transaction, control.retired + 1 to control.commits; it need not have been sent to any studio
 *   output, output_len   where the message is written, from its start. Bytes after it are left alone.
 * Answers done (value: the message's length), or refused 1, 2, 21, 17 (in this order). */
sulyobak_answer sulyobak_van_write(const uint8_t *library, size_t library_len, const uint8_t *log, size_t log_len,
                                   const uint8_t *sessions, size_t sessions_len, sulyobak_control control, uint32_t number,
                                   uint8_t *output, size_t output_len);

/* Receives a message in the van. A fresh van has a copy of 10,240 zero bytes and applied 0; nothing else of the head end is needed.
 * Messages may be lost, repeated and come in any order (they may not be damaged: a damaged one that is still of the form cannot be told).
 * The transaction after the applied ones acts on the copy; one that is held already changes nothing, and so does one that comes too soon
 * (18): have it sent again after those before it. So with messages of one log, from a fresh van on, the copy is always that of the log's
 * first `applied` transactions.
 *   copy, copy_len         SULYOBAK_COPY_SIZE bytes: the van's copy
 *   applied                as the last call handed it back; 0 for a fresh van
 *   message, message_len   as sulyobak_van_write wrote it
 * Answers done (value: the message's number, which is applied now), held (value: the message's number, up to applied), or refused 17, 18.
 * Where it is not done, no byte of the copy is changed and applied comes back as it was passed. */
sulyobak_van_answer sulyobak_van_receive(uint8_t *copy, size_t copy_len, uint32_t applied, const uint8_t *message, size_t message_len);

/* Converts an old file to one copy of ours. Each cart keeps its place, audio number, length and title, letter for letter. Every byte of the
 * copy is written, whatever stood there; the carts are in no log, so a system whose copy it were laid over would no longer load.
 *   file, file_len   SULYOBAK_OLD_FILE_SIZE bytes of the form above
 *   copy, copy_len   SULYOBAK_COPY_SIZE bytes, exactly: where the copy is written
 * Answers done (value: the bytes written, 10,240), or refused 22: no byte of the copy is changed. Converted back by sulyobak_to_old, the
 * copy is never refused and gives the same file. */
sulyobak_answer sulyobak_from_old(const uint8_t *file, size_t file_len, uint8_t *copy, size_t copy_len);

/* Converts one copy of ours to an old file, where every title has room there: nothing is cut. Every byte of the file is written.
 *   copy, copy_len   SULYOBAK_COPY_SIZE bytes: 128 carts of the form above, each at its place, for example 10,240 bytes of library memory
 *   file, file_len   SULYOBAK_OLD_FILE_SIZE bytes, exactly: where the file is written
 * Answers done (value: the bytes written, 6,150), or refused 22, 23 (in this order: 23 is told of a copy of the form and a file of its
 * length only): no byte of the file is changed. Converted back by sulyobak_from_old, the file gives the same copy. */
sulyobak_answer sulyobak_to_old(const uint8_t *copy, size_t copy_len, uint8_t *file, size_t file_len);

#ifdef __cplusplus
}
#endif

#endif
