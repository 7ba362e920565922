/*
 * Saves a system to a file and takes it up again, as a program does that is stopped and started.
 *
 * The file is written anew beside the old one, synced, renamed over it, and the folder is synced: whenever the machine stops, the file
 * holds the old system whole or the new one whole. It has the version, the 31 words of control and the three memories, numbers
 * little-endian (examples/rust/restart.rs writes the same). Version and length are tested, and all the rest by sulyobak_load, before
 * anything is taken over. A read that waited before the stop is collected after the start. Then come files that are damaged, and files that
 * are torn, as by a program that writes each part in its place and is stopped in between: what load tells of each, and what it cannot.
 *
 * Usage: restart FILE
 */
#define _POSIX_C_SOURCE 200809L
#include "sulyobak_util.h"

#include <fcntl.h>
#include <libgen.h>
#include <stdio.h>
#include <stdlib.h>
#include <string.h>
#include <unistd.h>

enum { EDITOR = 1, STUDIO = 1, JINGLE = 7, WORDS = 31 };

/* The oldest version whose control and memory are laid out as this version's (docs/FORMAT.md): files from it on are taken over. */
enum { OLDEST = 9 };

#define CONTROL_AT 4
#define LIBRARY_AT (CONTROL_AT + 4 * WORDS)
#define LOG_AT (LIBRARY_AT + SULYOBAK_LIBRARY_SIZE)
#define SESSIONS_AT (LOG_AT + SULYOBAK_LOG_SIZE)
#define FILE_SIZE (SESSIONS_AT + SULYOBAK_SESSIONS_SIZE)

typedef struct {
    uint8_t library[SULYOBAK_LIBRARY_SIZE];
    uint8_t log[SULYOBAK_LOG_SIZE];
    uint8_t sessions[SULYOBAK_SESSIONS_SIZE];
    sulyobak_control control;
} station;

#define MEMORY(s) (s)->library, sizeof (s)->library, (s)->log, sizeof (s)->log, (s)->sessions, sizeof (s)->sessions

static uint8_t bytes[FILE_SIZE];

static void stop(const char *what)
{
    printf("restart: FAILED: %s\n", what);
    exit(1);
}

static void must(int held, const char *what)
{
    if (!held)
        stop(what);
}

/* A word of control, counted in its order from 0. */
static uint32_t *word(sulyobak_control *control, unsigned at)
{
    if (at == 0)
        return &control->studios;
    if (at <= 16)
        return &control->session_studios[at - 1];
    if (at == 17)
        return &control->used;
    if (at == 18)
        return &control->commits;
    if (at <= 22)
        return &control->sent[at - 19];
    if (at <= 26)
        return &control->applied[at - 23];
    if (at == 27)
        return &control->retired;
    if (at == 28)
        return &control->oldest;
    return at == 29 ? &control->free_first : &control->free_last;
}

static void put_station(const station *from)
{
    sulyobak_control control = from->control;
    unsigned i;
    sulyobak_put(bytes, SULYOBAK_VERSION, 4);
    for (i = 0; i < WORDS; i++)
        sulyobak_put(bytes + CONTROL_AT + 4 * i, *word(&control, i), 4);
    memcpy(bytes + LIBRARY_AT, from->library, sizeof from->library);
    memcpy(bytes + LOG_AT, from->log, sizeof from->log);
    memcpy(bytes + SESSIONS_AT, from->sessions, sizeof from->sessions);
}

static void sync_folder_of(const char *file)
{
    char path[4096];
    int folder;
    must(strlen(file) < sizeof path, "the file's name is too long");
    strcpy(path, file);
    folder = open(dirname(path), O_RDONLY);
    must(folder >= 0 && fsync(folder) == 0 && close(folder) == 0, "the folder could not be synced");
}

/* Writes bytes to a new file, syncs it, renames it over the old one, and syncs the folder. */
static void write_whole(const char *file, size_t size)
{
    char fresh[4096];
    size_t done = 0;
    int out;
    must(snprintf(fresh, sizeof fresh, "%s.new", file) < (int)sizeof fresh, "the file's name is too long");
    out = open(fresh, O_WRONLY | O_CREAT | O_TRUNC, 0600);
    must(out >= 0, "the new file could not be made");
    while (done < size) {
        ssize_t now = write(out, bytes + done, size - done);
        must(now > 0, "the new file could not be written");
        done += (size_t)now;
    }
    must(fsync(out) == 0 && close(out) == 0, "the new file could not be synced");
    must(rename(fresh, file) == 0, "the new file could not be renamed");
    sync_folder_of(file);
}

static void save(const station *from, const char *file)
{
    put_station(from);
    write_whole(file, FILE_SIZE);
}

/* Reads the file into bytes. Returns its size, or one more than FILE_SIZE for any longer one. */
static size_t read_whole(const char *file)
{
    size_t size;
    FILE *in = fopen(file, "rb");
    must(in != NULL, "the file could not be opened");
    size = fread(bytes, 1, FILE_SIZE, in);
    if (size == FILE_SIZE && fgetc(in) != EOF)
        size++;
    must(!ferror(in), "the file could not be read");
    fclose(in);
    return size;
}

/* Takes a station over from the file, or says why not and leaves it as it was. */
static int load(station *to, const char *file)
{
    static station loaded;
    sulyobak_answer answer;
    unsigned i;
    size_t size = read_whole(file);
    uint32_t version = size < 4 ? 0 : sulyobak_get(bytes, 4);
    if (version < OLDEST || version > SULYOBAK_VERSION) {
        printf("not loaded: the file is of another version\n");
        return 0;
    }
    if (size != FILE_SIZE) {
        printf("not loaded: the file has another length\n");
        return 0;
    }
    for (i = 0; i < WORDS; i++)
        *word(&loaded.control, i) = sulyobak_get(bytes + CONTROL_AT + 4 * i, 4);
    memcpy(loaded.library, bytes + LIBRARY_AT, sizeof loaded.library);
    memcpy(loaded.log, bytes + LOG_AT, sizeof loaded.log);
    memcpy(loaded.sessions, bytes + SESSIONS_AT, sizeof loaded.sessions);
    answer = sulyobak_load(MEMORY(&loaded), loaded.control);
    if (answer.kind == SULYOBAK_REFUSED) {
        printf("not loaded: %s\n", sulyobak_refusal_sentence(answer.value));
        return 0;
    }
    *to = loaded;
    return 1;
}

/* The work before the stop: a jingle is committed, and its editor's read waits. */
static void work(station *s)
{
    static const uint8_t studios[SULYOBAK_SESSIONS] = {STUDIO};
    static const uint32_t jingle[1] = {JINGLE};
    uint8_t operation[SULYOBAK_OPERATION_SIZE], request[SULYOBAK_REQUEST_SIZE], output[SULYOBAK_CART_SIZE];
    s->control = sulyobak_setup(MEMORY(s), 1, studios, sizeof studios).control;
    must(sulyobak_operation_new(operation, JINGLE, "Top hour A", 501, 8000) == SULYOBAK_MADE, "the operation");
    s->control = sulyobak_commit(MEMORY(s), s->control, EDITOR, operation, sizeof operation).control;
    must(sulyobak_request_numbers(request, jingle, 1) == SULYOBAK_MADE, "the request");
    s->control = sulyobak_read(MEMORY(s), s->control, EDITOR, request, sizeof request, output, sizeof output).control;
}

/* The work after the start: the transaction is sent and applied, the waiting read is collected, the editor re-cuts the jingle, and the
 * transaction that the studio has is retired. */
static void work_on(station *s)
{
    uint8_t cart[SULYOBAK_CART_SIZE], operation[SULYOBAK_OPERATION_SIZE];
    char title[SULYOBAK_TITLE_MOST + 1];
    sulyobak_answer answer;
    s->control = sulyobak_send(MEMORY(s), s->control, STUDIO).control;
    s->control = sulyobak_refresh(MEMORY(s), s->control, STUDIO).control;
    answer = sulyobak_collect(MEMORY(s), s->control, EDITOR, cart, sizeof cart);
    s->control = answer.control;
    must(answer.kind == SULYOBAK_ANSWERED && answer.found == 1, "the read is not answered");
    sulyobak_title(cart, title);
    printf("collected at state %u: cart %u, %s\n", (unsigned)answer.value, (unsigned)sulyobak_cart_number(cart), title);
    must(sulyobak_operation_recut(operation, JINGLE, 502, 9000) == SULYOBAK_MADE, "the operation");
    answer = sulyobak_commit(MEMORY(s), s->control, EDITOR, operation, sizeof operation);
    s->control = answer.control;
    must(answer.kind == SULYOBAK_DONE, "the commit is refused");
    printf("committed after the restart: %u\n", (unsigned)answer.value);
    answer = sulyobak_retire(MEMORY(s), s->control);
    s->control = answer.control;
    must(answer.kind == SULYOBAK_DONE, "the retire is refused");
    printf("retired: %u\n", (unsigned)answer.value);
}

/* Saves the station with one byte changed, or cut to a size. */
static void save_changed(const station *from, const char *file, size_t at, uint8_t value, size_t size)
{
    put_station(from);
    bytes[at] = value;
    write_whole(file, size);
}

/* Saves the station so, and sees that it is not loaded. */
static void try_damaged(station *s, const char *file, const char *what, size_t at, uint8_t value, size_t size)
{
    printf("%s: ", what);
    save_changed(s, file, at, value, size);
    must(!load(s, file), "a damaged file was loaded");
}

/* Saves parts of before the restart and of after it as one file, and sees that it is not loaded. */
static void try_torn(const char *file, const char *what, const station *library, const station *log, const station *rest)
{
    static station torn;
    printf("%s: ", what);
    torn = *rest;
    memcpy(torn.library, library->library, sizeof torn.library);
    memcpy(torn.log, log->log, sizeof torn.log);
    save(&torn, file);
    must(!load(&torn, file), "a torn file was loaded");
}

/* What load cannot tell: sessions of before the restart could be those of after it. Their reads then go by the numbers of before. */
static void load_older_sessions(const station *before, const station *after, const char *file)
{
    static station torn;
    unsigned older, number = sulyobak_session_number(sulyobak_session_at(after->sessions, EDITOR));
    torn = *after;
    memcpy(torn.sessions, before->sessions, sizeof torn.sessions);
    save(&torn, file);
    must(load(&torn, file), "the file was not loaded");
    older = sulyobak_session_number(sulyobak_session_at(torn.sessions, EDITOR));
    printf("sessions of before, the rest of after: loaded (it cannot be told): session %d has number %u, not %u\n", EDITOR, older, number);
}

/* Files that are not what was saved. */
static void try_files(station *before, station *after, const char *file)
{
    try_damaged(after, file, "a byte of a cart damaged", LIBRARY_AT, 9, FILE_SIZE);
    try_damaged(after, file, "a letter of a title damaged", LIBRARY_AT + SULYOBAK_CART_SIZE * (JINGLE - 1) + 16, 'H', FILE_SIZE);
    try_damaged(after, file, "a later version", 0, SULYOBAK_VERSION + 1, FILE_SIZE);
    try_damaged(after, file, "a version of another layout", 0, OLDEST - 1, FILE_SIZE);
    try_damaged(after, file, "the last byte missing", 0, SULYOBAK_VERSION, FILE_SIZE - 1);
    try_torn(file, "library of before, log and control of after", before, after, after);
    try_torn(file, "library of after, log and control of before", after, before, before);
    try_torn(file, "log of before, library and control of after", after, before, after);
    load_older_sessions(before, after, file);
}

int main(int count, char **words)
{
    static station before, after, again;
    const uint8_t *editor = sulyobak_session_at(after.sessions, EDITOR);
    must(count == 2, "usage: restart FILE");
    must(sulyobak_version() == SULYOBAK_VERSION, "the linked library is of another version than the header");
    work(&before);
    save(&before, words[1]);
    printf("saved: commits %u, applied %u\n", (unsigned)before.control.commits, (unsigned)before.control.applied[STUDIO - 1]);

    must(load(&after, words[1]), "the file was not loaded");
    must(memcmp(&before, &after, sizeof after) == 0, "what was loaded is not what was saved");
    printf("loaded: commits %u, session %d waits for %u\n", (unsigned)after.control.commits, EDITOR,
           (unsigned)sulyobak_session_number(editor));
    work_on(&after);

    try_files(&before, &after, words[1]);
    save(&after, words[1]);
    must(load(&again, words[1]), "the file was not loaded");
    printf("saved and loaded again: commits %u, applied %u\n", (unsigned)again.control.commits,
           (unsigned)again.control.applied[STUDIO - 1]);
    return 0;
}
