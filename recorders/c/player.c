/* Makes the calls that it is told on its standard input, with the recorder for C: see recorders/cases/README.md. */
#define _POSIX_C_SOURCE 200809L

#include "monitor_recorder.h"

#include <inttypes.h>
#include <pthread.h>
#include <signal.h>
#include <stdbool.h>
#include <stdio.h>
#include <stdlib.h>
#include <string.h>

enum { WORDS = 40, THREADS = 20, ROOM = 1 << 21 };

typedef struct {
    int number, turns;
    bool is_done;
} work;

static monitor_recorder *recorder;
static int total;
static const char *refusal = ""; /* the text of the last one */
static const char *said; /* the text of the note of the call, if it has one */

/* The recorder of the process and those of its strands, with the names by which they are called. */
static struct {
    char name[WORDS];
    monitor_recorder *recorder;
} named[THREADS];
static size_t named_count;

static monitor_recorder *find_named(const char *name)
{
    for (size_t i = 0; i < named_count; i++)
        if (strcmp(named[i].name, name) == 0)
            return named[i].recorder;
    return NULL;
}

/* Keeps the recorder by this name, if there is one. */
static void keep_named(const char *name, monitor_recorder *made)
{
    if (made == NULL || named_count == THREADS)
        return;
    snprintf(named[named_count].name, sizeof named[0].name, "%s", name);
    named[named_count++].recorder = made;
}

/* The text for which a word stands, in its place: `%` and two digits are a byte, and `%` alone is no text at all. */
static char *text_of(char *word)
{
    char *to = word;
    for (const char *from = word; *from != '\0'; from++) {
        unsigned byte;
        if (sscanf(from, "%%%2x", &byte) == 1) {
            *to++ = (char)byte;
            from += 2;
        } else if (strcmp(word, "%") != 0) {
            *to++ = *from;
        }
    }
    *to = '\0';
    return word;
}

/* Whether the word is a value that C can say, which is put into `value`. */
static bool is_value(const char *word, int64_t *value)
{
    char written[24];
    bool is_true = strcmp(word, "true") == 0;
    if (is_true || strcmp(word, "false") == 0) {
        *value = is_true;
        return true;
    }
    *value = strtoll(word, NULL, 10);
    snprintf(written, sizeof written, "%" PRId64, *value);
    return strcmp(word, written) == 0;
}

/* Whether each of the words is a setting that C can say; they are put into `settings`. */
static bool are_settings(char **words, size_t count, monitor_setting *settings)
{
    for (size_t i = 0; i < count; i++) {
        char *value = strrchr(words[i], '=');
        *value++ = '\0';
        settings[i].name = text_of(words[i]);
        if (!is_value(value, &settings[i].value))
            return false;
    }
    return true;
}

/* Prints the answer in one piece, since other threads print too. */
static void answer(const char *text, const char *id)
{
    printf("%s%s%s\n", text, id[0] == '\0' ? "" : " ", id);
    fflush(stdout);
}

static void answer_status(monitor_status status, const char *id)
{
    static const char *const texts[] = {
        [MONITOR_RECORDED] = "recorded", [MONITOR_PROCESS_NAME] = "refused process-name",
        [MONITOR_VARIABLE_NAME] = "refused variable-name", [MONITOR_VARIABLES] = "refused variables",
        [MONITOR_EVENTS] = "refused events", [MONITOR_ID] = "refused id", [MONITOR_ID_TWICE] = "refused id-twice",
        [MONITOR_FORK] = "refused fork", [MONITOR_BROKEN] = "refused broken", [MONITOR_SYSTEM] = "failed",
        [MONITOR_ENDED] = "refused ended", [MONITOR_NAME_TWICE] = "refused name-twice",
        [MONITOR_PROCESSES] = "refused processes", [MONITOR_NO_PLACE] = "refused no-place",
        [MONITOR_NOT_ENDED] = "refused not-ended", [MONITOR_NO_NOTES] = "refused notes",
        [MONITOR_WHERE] = "refused place", [MONITOR_RUNNING] = "refused running",
        [MONITOR_NOT_AGAIN] = "refused again", [MONITOR_NOT_LONG] = "refused long",
        [MONITOR_TOKEN] = "refused token"};
    if (status != MONITOR_RECORDED && status != MONITOR_SYSTEM)
        refusal = monitor_text(status);
    answer(texts[status], status == MONITOR_RECORDED ? id : "");
}

static void *take_turns(void *argument)
{
    work *mine = argument;
    char id[MONITOR_ID_ROOM], x[8], y[8], received[32];
    snprintf(x, sizeof x, "x%d", mine->number);
    snprintf(y, sizeof y, "y%d", mine->number);
    for (int turn = 0; turn < mine->turns; turn++) {
        snprintf(received, sizeof received, "m%d-%d", mine->number, turn);
        if (monitor_send(recorder, id, MONITOR_SET({x, turn})) != MONITOR_RECORDED ||
            monitor_event(recorder, MONITOR_SET({y, atoi(strrchr(id, '-') + 1)})) != MONITOR_RECORDED ||
            monitor_receive(recorder, received, MONITOR_NOTHING) != MONITOR_RECORDED)
            return NULL;
        monitor_lock(recorder);
        total++;
        monitor_status status = monitor_event(recorder, MONITOR_SET({"total", total}));
        monitor_unlock(recorder);
        if (status != MONITOR_RECORDED)
            return NULL;
    }
    mine->is_done = true;
    return NULL;
}

static void *send_all(void *argument)
{
    work *mine = argument;
    char id[MONITOR_ID_ROOM];
    while (monitor_send(recorder, id, MONITOR_NOTHING) == MONITOR_RECORDED)
        answer("sent", id);
    mine->is_done = true;
    return NULL;
}

/* Of which each thread takes one. */
static monitor_recorder **taken;

static void *take_strand(void *argument)
{
    work *mine = argument;
    monitor_recorder *strand = taken[mine->number];
    bool is_done = true;
    for (int turn = 0; turn < mine->turns; turn++)
        is_done = monitor_event(strand, MONITOR_SET({"x", turn})) == MONITOR_RECORDED && is_done;
    mine->is_done = monitor_close(strand) == MONITOR_RECORDED && is_done;
    return NULL;
}

static monitor_mutex *contended; /* by which strands go inside by turns, if there is one */

static void *go_inside(void *argument)
{
    work *mine = argument;
    monitor_recorder *strand = taken[mine->number];
    bool is_done = true;
    for (int turn = 0; turn < mine->turns && is_done; turn++) {
        if (contended != NULL)
            is_done = monitor_mutex_lock(contended, strand) == MONITOR_RECORDED;
        is_done = is_done && monitor_event(strand, MONITOR_SET({"x", 1})) == MONITOR_RECORDED &&
                  monitor_event(strand, MONITOR_SET({"x", 0})) == MONITOR_RECORDED;
        if (contended != NULL)
            is_done = monitor_mutex_unlock(contended, strand) == MONITOR_RECORDED && is_done;
    }
    mine->is_done = monitor_close(strand) == MONITOR_RECORDED && is_done;
    return NULL;
}

/* Runs so many threads, and says whether each did its work. */
static bool run(void *(*work_of)(void *), int count, int turns)
{
    bool is_done = true;
    pthread_t threads[THREADS];
    work works[THREADS];
    total = 0;
    for (int i = 0; i < count; i++) {
        works[i] = (work){i, turns, false};
        if (pthread_create(&threads[i], NULL, work_of, &works[i]) != 0)
            abort();
    }
    for (int i = 0; i < count; i++) {
        pthread_join(threads[i], NULL);
        is_done = is_done && works[i].is_done;
    }
    return is_done;
}

static monitor_mutex door = MONITOR_MUTEX_INITIALIZER; /* the lock of which the cases tell */

/* Makes a recorder to where MONITOR_TO says, which is the place of the call. */
static monitor_status to_place(char **words, int options)
{
    setenv("MONITOR_TO", text_of(words[2]), 1);
    return monitor_from_environment_with(text_of(words[1]), options, &recorder);
}

/* Makes a call that begins a recording, or ends it. The strands of a process are gone with it. */
static bool open_or_close(char **words)
{
    monitor_status status = MONITOR_RECORDED;
    bool is_strand = recorder != NULL && named_count > 0 && recorder != named[0].recorder;
    if (strcmp(words[0], "file") == 0) {
        status = monitor_to_file(text_of(words[1]), text_of(words[2]), &recorder);
    } else if (strcmp(words[0], "noted") == 0) {
        status = monitor_to_file_with(text_of(words[1]), text_of(words[2]), MONITOR_NOTES, &recorder);
    } else if (strcmp(words[0], "replaced") == 0) {
        status = monitor_to_file_with(text_of(words[1]), text_of(words[2]), MONITOR_REPLACE, &recorder);
    } else if (strcmp(words[0], "again") == 0) {
        status = monitor_to_file_with(text_of(words[1]), text_of(words[2]), MONITOR_AGAIN, &recorder);
    } else if (strcmp(words[0], "noted-again") == 0) {
        status = monitor_to_file_with(text_of(words[1]), text_of(words[2]), MONITOR_NOTES | MONITOR_AGAIN, &recorder);
    } else if (strcmp(words[0], "long") == 0) {
        status = monitor_to_file_with(text_of(words[1]), text_of(words[2]), MONITOR_LONG, &recorder);
    } else if (strcmp(words[0], "place") == 0) {
        status = to_place(words, 0);
    } else if (strcmp(words[0], "again-at") == 0) {
        status = to_place(words, MONITOR_AGAIN);
    } else if (strcmp(words[0], "long-at") == 0) {
        status = to_place(words, MONITOR_LONG);
    } else if (strcmp(words[0], "port") == 0) {
        status = monitor_to_port(text_of(words[1]), (uint16_t)atoi(words[2]), atof(words[3]), &recorder);
    } else if (strcmp(words[0], "token-port") == 0) {
        status = monitor_to_port_with(text_of(words[1]), (uint16_t)atoi(words[2]), atof(words[3]), text_of(words[4]),
                                      &recorder);
    } else if (strcmp(words[0], "close") == 0) {
        if (recorder != NULL)
            monitor_abandon(recorder);
        recorder = NULL;
    } else if (strcmp(words[0], "end") == 0 && recorder != NULL) {
        status = monitor_close(recorder);
        recorder = NULL;
    } else {
        return false;
    }
    answer_status(status, "");
    if (!is_strand) {
        named_count = 0;
        monitor_mutex_init(&door);
    }
    if (recorder != NULL)
        keep_named(words[1], recorder);
    return true;
}

/* Runs so many threads, each with a strand of its own, and says whether all was recorded. */
static bool with_strands(void *(*work_of)(void *), int count, int turns)
{
    monitor_recorder *strands[THREADS];
    char name[24];
    for (int i = 0; i < count; i++) {
        snprintf(name, sizeof name, "strand%d", i);
        if (monitor_strand(recorder, name, &strands[i]) != MONITOR_RECORDED)
            return false;
    }
    taken = strands;
    bool is_done = run(work_of, count, turns);
    for (int i = 0; i < count; i++)
        is_done = monitor_join(recorder, strands[i], MONITOR_NOTHING) == MONITOR_RECORDED && is_done;
    return is_done;
}

/* Makes a call that begins or joins a strand. */
static bool begin_or_join(char **words, size_t count)
{
    monitor_setting settings[WORDS];
    if (strcmp(words[0], "strand") == 0) {
        char name[WORDS];
        monitor_recorder *strand;
        snprintf(name, sizeof name, "%s", words[1]);
        monitor_status status = monitor_strand(recorder, text_of(words[1]), &strand);
        keep_named(name, strand);
        answer_status(status, "");
    } else if (strcmp(words[0], "join") == 0 && are_settings(words + 2, count - 2, settings)) {
        monitor_recorder *strand = find_named(words[1]);
        answer_status(said != NULL ? monitor_join_at(MONITOR_NOTE(said), recorder, strand, settings, count - 2)
                                   : monitor_join(recorder, strand, settings, count - 2), "");
    } else {
        return false;
    }
    return true;
}

/* Whether C has no such call: its send puts a text into its place, and takes none, and no queue is recorded. */
static bool is_lacking(const char *call)
{
    static const char *const lacking[] = {"send-text", "put", "take"};
    for (size_t i = 0; i < sizeof lacking / sizeof lacking[0]; i++)
        if (strcmp(call, lacking[i]) == 0)
            return true;
    return false;
}

static bool lock_or_unlock(const char *call)
{
    if (strcmp(call, "lock") == 0)
        answer_status(monitor_mutex_lock(&door, recorder), "");
    else if (strcmp(call, "unlock") == 0)
        answer_status(monitor_mutex_unlock(&door, recorder), "");
    else
        return false;
    return true;
}

/* Makes a call that records an event, and gives a text for its note. */
static monitor_status record_noted(char **words, char *id, const monitor_setting *settings, size_t count)
{
    if (strcmp(words[0], "event") == 0)
        return monitor_event_at(MONITOR_NOTE(said), recorder, settings, count);
    if (strcmp(words[0], "send") == 0)
        return monitor_send_at(MONITOR_NOTE(said), recorder, id, settings, count);
    if (strcmp(words[0], "send-as") == 0)
        return monitor_send_as_at(MONITOR_NOTE(said), recorder, text_of(words[1]), settings, count);
    return monitor_receive_at(MONITOR_NOTE(said), recorder, text_of(words[1]), settings, count);
}

static void record(char **words, size_t count)
{
    char id[MONITOR_ID_ROOM] = "";
    monitor_setting settings[WORDS];
    bool has_id = strcmp(words[0], "send-as") == 0 || strcmp(words[0], "receive") == 0;
    size_t first = has_id ? 2 : 1;
    if (is_lacking(words[0]) || !are_settings(words + first, count - first, settings)) {
        answer("cannot", "");
        return;
    }
    if (said != NULL)
        answer_status(record_noted(words, id, settings, count - first), id);
    else if (strcmp(words[0], "event") == 0)
        answer_status(monitor_event(recorder, settings, count - first), "");
    else if (strcmp(words[0], "send") == 0)
        answer_status(monitor_send(recorder, id, settings, count - first), id);
    else if (strcmp(words[0], "send-as") == 0)
        answer_status(monitor_send_as(recorder, text_of(words[1]), settings, count - first), "");
    else
        answer_status(monitor_receive(recorder, text_of(words[1]), settings, count - first), "");
}

static void do_nothing(int number)
{
    (void)number;
}

/* Has SIGWINCH interrupt calls of the system that the recorder makes: none is made again by the system. */
static bool handle_signals(void)
{
    struct sigaction action = {.sa_handler = do_nothing};
    return sigaction(SIGWINCH, &action, NULL) == 0;
}

static void let_signals(int how)
{
    sigset_t handled;
    sigemptyset(&handled);
    sigaddset(&handled, SIGWINCH);
    pthread_sigmask(how, &handled, NULL);
}

static void make(char **words, size_t count)
{
    char text[24];
    if (strcmp(words[0], "in") == 0) {
        monitor_recorder *process = recorder;
        recorder = find_named(words[1]);
        make(words + 2, count - 2);
        recorder = process;
        return;
    }
    if (strcmp(words[0], "note") == 0) {
        said = text_of(words[1]);
        make(words + 2, count - 2);
        said = NULL;
        return;
    }
    if (strcmp(words[0], "signals") == 0) {
        answer(handle_signals() ? "recorded" : "failed", "");
        return;
    }
    if (strcmp(words[0], "said") == 0) {
        answer("recorded", refusal);
        return;
    }
    if (open_or_close(words))
        return;
    if (recorder == NULL) { /* it is gone with its end */
        answer("cannot", "");
    } else if (strcmp(words[0], "events") == 0) {
        snprintf(text, sizeof text, "%zu", monitor_events(recorder));
        answer("recorded", text);
    } else if (strcmp(words[0], "threads") == 0) {
        answer(run(take_turns, atoi(words[1]), atoi(words[2])) ? "recorded" : "failed", "");
    } else if (strcmp(words[0], "flood") == 0) {
        answer(run(send_all, atoi(words[1]), 0) ? "recorded" : "failed", "");
    } else if (strcmp(words[0], "strands") == 0) {
        answer(with_strands(take_strand, atoi(words[1]), atoi(words[2])) ? "recorded" : "failed", "");
    } else if (strcmp(words[0], "locked") == 0 || strcmp(words[0], "unlocked") == 0) {
        monitor_mutex mutex = MONITOR_MUTEX_INITIALIZER;
        contended = strcmp(words[0], "locked") == 0 ? &mutex : NULL;
        answer(with_strands(go_inside, atoi(words[1]), atoi(words[2])) ? "recorded" : "failed", "");
    } else if (!lock_or_unlock(words[0]) && !begin_or_join(words, count)) {
        record(words, count);
    }
}

int main(void)
{
    static char line[ROOM];
    let_signals(SIG_BLOCK); /* what reads the calls would end by one */
    while (fgets(line, sizeof line, stdin) != NULL) {
        char *words[WORDS], *rest;
        size_t count = 0;
        for (char *word = strtok_r(line, " \n", &rest); word != NULL; word = strtok_r(NULL, " \n", &rest))
            if (count < WORDS)
                words[count++] = word;
        let_signals(SIG_UNBLOCK);
        make(words, count);
        let_signals(SIG_BLOCK);
    }
    return 0;
}
