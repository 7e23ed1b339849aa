/* Tests of monitor_recorder that the shared cases can't say, in the folder that the argument names: see test.sh. */
#define _POSIX_C_SOURCE 200809L

#include "monitor_recorder.h"

#include <arpa/inet.h>
#include <errno.h>
#include <fcntl.h>
#include <netinet/in.h>
#include <pthread.h>
#include <signal.h>
#include <stdbool.h>
#include <stdio.h>
#include <stdlib.h>
#include <string.h>
#include <sys/resource.h>
#include <sys/socket.h>
#include <sys/wait.h>
#include <unistd.h>

static int failures;

#define CHECK(condition) \
    ((condition) ? (void)0 : (void)(failures++, printf("%s:%d: not so: %s\n", __FILE__, __LINE__, #condition)))
#define RECORDED(call) CHECK((call) == MONITOR_RECORDED)

static const char *path_of(const char *name)
{
    static char path[256];
    snprintf(path, sizeof path, "%s", name);
    unlink(path);
    return path;
}

static monitor_recorder *opened(const char *process, const char *name)
{
    monitor_recorder *recorder = NULL;
    monitor_status status = monitor_to_file(process, path_of(name), &recorder);
    if (status != MONITOR_RECORDED) {
        printf("%s: %s: %s\n", name, monitor_text(status), strerror(errno));
        exit(1);
    }
    return recorder;
}

/* The whole file, which the caller frees. */
static char *text_of(const char *name)
{
    size_t size = 0, room = 1 << 24;
    char *text = malloc(room);
    FILE *file = fopen(name, "rb");
    if (text == NULL || file == NULL) {
        perror(name);
        exit(1);
    }
    size = fread(text, 1, room - 1, file);
    text[size] = '\0';
    fclose(file);
    return text;
}

static bool has_text(const char *name, const char *wanted)
{
    char *text = text_of(name);
    bool is_equal = strcmp(text, wanted) == 0;
    if (!is_equal)
        printf("%s has\n%s\n", name, text);
    free(text);
    return is_equal;
}

static void test_refused_ids(void)
{
    static const char *const refused[] = {
        "", NULL, "\x80", "\xc3", "\xc0\xaf", "\xe0\x9f\xbf", "\xed\xa0\x80", "\xf0\x8f\xbf\xbf", "\xf4\x90\x80\x80",
        "\xf5\x80\x80\x80", "\xff", "a\xe2\x82", "12345678901234567890123456789012345678901234567890123456789012345",
        "123456789012345678901234567890123456789012345678901234567890123\xc3\xa9"};
    monitor_recorder *recorder = opened("left", "left");
    for (size_t i = 0; i < sizeof refused / sizeof refused[0]; i++) {
        CHECK(monitor_send_as(recorder, refused[i], MONITOR_NOTHING) == MONITOR_ID);
        CHECK(monitor_receive(recorder, refused[i], MONITOR_NOTHING) == MONITOR_ID);
    }
    RECORDED(monitor_send_as(recorder, "one", MONITOR_NOTHING));
    RECORDED(monitor_receive(recorder, "two", MONITOR_NOTHING));
    CHECK(monitor_send_as(recorder, "one", MONITOR_NOTHING) == MONITOR_ID_TWICE);
    CHECK(monitor_send_as(recorder, "two", MONITOR_NOTHING) == MONITOR_ID_TWICE);
    CHECK(monitor_receive(recorder, "one", MONITOR_NOTHING) == MONITOR_ID_TWICE);
    CHECK(monitor_receive(recorder, "two", MONITOR_NOTHING) == MONITOR_ID_TWICE);
    CHECK(monitor_events(recorder) == 2);
    monitor_abandon(recorder);
    CHECK(has_text("left", "{\"process\":\"left\"}\n{\"send\":\"one\"}\n{\"recv\":\"two\"}\n"));
}

static void test_refused_names(void)
{
    static const char *const refused[] = {NULL, "", "and", "\xc3\xa9"};
    char id[MONITOR_ID_ROOM] = "none";
    monitor_recorder *none, *recorder = opened("left", "left");
    path_of("none");
    for (size_t i = 0; i < sizeof refused / sizeof refused[0]; i++) {
        CHECK(monitor_event(recorder, MONITOR_SET({"x", 1}, {refused[i], 1})) == MONITOR_VARIABLE_NAME);
        CHECK(monitor_to_file(refused[i], "none", &none) == MONITOR_PROCESS_NAME && none == NULL);
    }
    CHECK(access("none", F_OK) != 0);
    CHECK(monitor_event(recorder, MONITOR_SET({"x", 1}, {"x", 1})) == MONITOR_VARIABLE_NAME);
    CHECK(monitor_send(recorder, id, MONITOR_SET({"1", 0})) == MONITOR_VARIABLE_NAME && id[0] == '\0');
    monitor_abandon(recorder);
    CHECK(has_text("left", "{\"process\":\"left\"}\n"));
}

static void test_files(void)
{
    monitor_recorder *recorder = opened("left", "left"), *other;
    CHECK(monitor_to_file("left", "left", &other) == MONITOR_SYSTEM && errno == EEXIST && other == NULL);
    RECORDED(monitor_close(recorder));
    CHECK(has_text("left", "{\"process\":\"left\"}\n{\"end\":true}\n"));
    CHECK(monitor_to_file("left", "none/left", &other) == MONITOR_SYSTEM && errno == ENOENT && other == NULL);
    CHECK(monitor_to_descriptor("left", -1, &other) == MONITOR_SYSTEM && errno == EBADF && other == NULL);
    int full = open("/dev/full", O_WRONLY);
    CHECK(monitor_to_descriptor("left", full, &other) == MONITOR_SYSTEM && errno == ENOSPC && other == NULL);
    close(full);
}

/* To a descriptor, which the environment may say too. */
static void test_long_recordings(void)
{
    char id[MONITOR_LONG_ID_BYTE_LIMIT + 2] = "";
    monitor_recorder *recorder, *strand;
    memset(id, 'x', MONITOR_LONG_ID_BYTE_LIMIT);
    for (int is_by_environment = 0; is_by_environment < 2; is_by_environment++) {
        int options = is_by_environment ? 0 : MONITOR_LONG;
        setenv("MONITOR_LONG", is_by_environment ? "1" : "", 1);
        int descriptor = open(path_of("long"), O_WRONLY | O_CREAT, 0666);
        RECORDED(monitor_to_descriptor_with("left", descriptor, options, &recorder));
        RECORDED(monitor_receive(recorder, id, MONITOR_NOTHING));
        CHECK(monitor_receive(recorder, id, MONITOR_NOTHING) == MONITOR_ID_TWICE);
        CHECK(monitor_strand(recorder, "worker", &strand) == MONITOR_NO_PLACE);
        RECORDED(monitor_close(recorder));
    }
    setenv("MONITOR_LONG", "2", 1);
    CHECK(monitor_to_descriptor("left", 1, &recorder) == MONITOR_NOT_LONG && recorder == NULL);
    CHECK(monitor_to_port("left", 7411, 0, &recorder) == MONITOR_NOT_LONG && recorder == NULL);
    CHECK(monitor_to_file("not", "none/left", &recorder) == MONITOR_PROCESS_NAME && recorder == NULL);
    unsetenv("MONITOR_LONG");
    recorder = opened("left", "left");
    CHECK(monitor_receive(recorder, id, MONITOR_NOTHING) == MONITOR_ID);
    monitor_abandon(recorder);
}

/* However many there are, each is known. */
static void test_many_ids(void)
{
    enum { MANY = 9000 };
    char id[MONITOR_ID_ROOM];
    monitor_recorder *recorder = opened("left", "left");
    for (int i = 0; i < MANY; i++) {
        snprintf(id, sizeof id, "%d", i);
        RECORDED(monitor_receive(recorder, id, MONITOR_NOTHING));
    }
    for (int i = 0; i < MANY; i++) {
        snprintf(id, sizeof id, "%d", i);
        CHECK(monitor_send_as(recorder, id, MONITOR_NOTHING) == MONITOR_ID_TWICE);
    }
    CHECK(monitor_events(recorder) == MANY);
    RECORDED(monitor_close(recorder));
}

static void test_a_fork_does_not_record(void)
{
    char id[MONITOR_ID_ROOM];
    monitor_recorder *recorder = opened("left", "left");
    fflush(stdout);
    pid_t child = fork();
    if (child == 0) {
        bool is_refused = monitor_event(recorder, MONITOR_NOTHING) == MONITOR_FORK &&
                          monitor_send(recorder, id, MONITOR_NOTHING) == MONITOR_FORK &&
                          monitor_receive(recorder, "m", MONITOR_NOTHING) == MONITOR_FORK &&
                          monitor_close(recorder) == MONITOR_FORK;
        _exit(is_refused ? 7 : 0);
    }
    int status;
    waitpid(child, &status, 0);
    CHECK(WIFEXITED(status) && WEXITSTATUS(status) == 7);
    RECORDED(monitor_event(recorder, MONITOR_NOTHING));
    RECORDED(monitor_close(recorder));
    CHECK(has_text("left", "{\"process\":\"left\"}\n{}\n{\"end\":true}\n"));
}

static void test_a_peer_that_is_gone(void)
{
    int ends[2];
    monitor_recorder *recorder;
    CHECK(socketpair(AF_UNIX, SOCK_STREAM, 0, ends) == 0);
    RECORDED(monitor_to_descriptor("left", ends[0], &recorder));
    close(ends[1]);
    CHECK(monitor_event(recorder, MONITOR_NOTHING) == MONITOR_SYSTEM && errno == EPIPE);
    CHECK(monitor_event(recorder, MONITOR_NOTHING) == MONITOR_BROKEN);
    CHECK(monitor_events(recorder) == 0);
    CHECK(monitor_close(recorder) == MONITOR_BROKEN);
}

static bool is_pending(int number)
{
    sigset_t pending;
    return sigpending(&pending) == 0 && sigismember(&pending, number) == 1;
}

/* A write that the system answers with a signal too: the call says so, no signal comes, and one that was there stays. */
static void test_no_signal_comes(void)
{
    int ends[2];
    monitor_recorder *recorder;
    sigset_t both, before;
    struct rlimit limit, low = {.rlim_cur = 30};
    CHECK(pipe(ends) == 0);
    RECORDED(monitor_to_descriptor("left", ends[1], &recorder));
    close(ends[0]);
    CHECK(monitor_event(recorder, MONITOR_NOTHING) == MONITOR_SYSTEM && errno == EPIPE && !is_pending(SIGPIPE));
    monitor_abandon(recorder);
    recorder = opened("left", "left");
    sigemptyset(&both);
    sigaddset(&both, SIGPIPE);
    sigaddset(&both, SIGXFSZ);
    pthread_sigmask(SIG_BLOCK, &both, &before);
    raise(SIGXFSZ);
    CHECK(getrlimit(RLIMIT_FSIZE, &limit) == 0);
    low.rlim_max = limit.rlim_max;
    CHECK(setrlimit(RLIMIT_FSIZE, &low) == 0);
    CHECK(monitor_event(recorder, MONITOR_SET({"x", 1})) == MONITOR_SYSTEM && errno == EFBIG);
    CHECK(setrlimit(RLIMIT_FSIZE, &limit) == 0);
    CHECK(is_pending(SIGXFSZ) && !is_pending(SIGPIPE));
    signal(SIGXFSZ, SIG_IGN);
    pthread_sigmask(SIG_SETMASK, &before, NULL);
    signal(SIGXFSZ, SIG_DFL);
    monitor_abandon(recorder);
    CHECK(has_text("left", "{\"process\":\"left\"}\n{\"set\":{\"x\"")); /* the 30 bytes that there was room for */
}

static void test_a_port_on_which_nobody_listens(void)
{
    struct sockaddr_in address = {.sin_family = AF_INET};
    socklen_t size = sizeof address;
    monitor_recorder *recorder;
    address.sin_addr.s_addr = htonl(INADDR_LOOPBACK);
    int bound = socket(AF_INET, SOCK_STREAM, 0);
    CHECK(bind(bound, (struct sockaddr *)&address, size) == 0);
    CHECK(getsockname(bound, (struct sockaddr *)&address, &size) == 0);
    uint16_t port = ntohs(address.sin_port);
    CHECK(monitor_to_port("left", port, 0.1, &recorder) == MONITOR_SYSTEM && errno == ECONNREFUSED);
    CHECK(recorder == NULL && monitor_to_port("and", port, 0, &recorder) == MONITOR_PROCESS_NAME);
    close(bound);
}

static void test_a_place_that_the_environment_names(void)
{
    static const char *const hosts[] = {"", "localhost", "127.0.0.1"};
    static const char *const wrong[] = {"", ":0", ":65535", "localhost:99999"};
    struct sockaddr_in address = {.sin_family = AF_INET};
    socklen_t size = sizeof address;
    monitor_recorder *recorder;
    char place[64], text[64] = {0};
    unlink("into/left.stream");
    setenv("MONITOR_TO", "into", 1);
    for (int i = 0; i < 2; i++) {
        unlink("into/left.stream");
        RECORDED(monitor_from_environment("left", &recorder));
        RECORDED(monitor_close(recorder));
    }
    CHECK(has_text("into/left.stream", "{\"process\":\"left\"}\n{\"end\":true}\n"));
    CHECK(monitor_from_environment("left", &recorder) == MONITOR_SYSTEM && errno == EEXIST && recorder == NULL);
    address.sin_addr.s_addr = htonl(INADDR_LOOPBACK);
    int bound = socket(AF_INET, SOCK_STREAM, 0);
    CHECK(bind(bound, (struct sockaddr *)&address, size) == 0 && listen(bound, 4) == 0);
    CHECK(getsockname(bound, (struct sockaddr *)&address, &size) == 0);
    for (size_t i = 0; i < sizeof hosts / sizeof *hosts; i++) {
        snprintf(place, sizeof place, "%s:%d", hosts[i], ntohs(address.sin_port));
        setenv("MONITOR_TO", place, 1);
        RECORDED(monitor_from_environment("left", &recorder));
        int accepted = accept(bound, NULL, NULL);
        RECORDED(monitor_close(recorder));
        ssize_t count, at = 0;
        while ((count = read(accepted, text + at, sizeof text - 1 - (size_t)at)) > 0)
            at += count;
        text[at] = '\0';
        CHECK(strcmp(text, "{\"process\":\"left\"}\n{\"end\":true}\n") == 0);
        close(accepted);
    }
    close(bound);
    for (size_t i = 0; i < sizeof wrong / sizeof *wrong; i++) {
        setenv("MONITOR_TO", wrong[i], 1);
        CHECK(monitor_from_environment("left", &recorder) == MONITOR_WHERE && recorder == NULL);
    }
    CHECK(monitor_from_environment("and", &recorder) == MONITOR_PROCESS_NAME);
    unsetenv("MONITOR_TO");
    CHECK(monitor_from_environment("left", &recorder) == MONITOR_WHERE);
}

/* Sees that the file has so many notes of this process, and that the last one has this text and this line. */
#define NOTES(file, process, count, text, line) see_notes(file, process, count, text, line, __LINE__)

static void see_notes(const char *file, const char *process, int count, const char *text, int line, int here)
{
    char head[512], *notes = text_of(file), *last = notes;
    int found = 0;
    for (char *next = notes; *next != '\0'; next = strchr(next, '\n') + 1, found++)
        last = next;
    snprintf(head, sizeof head, "{\"process\": \"%s\", \"event\": %d, \"text\": \"%s\", \"place\": \"%s%s%.0d", process,
             count, text, line == 0 ? "" : __FILE__, line == 0 ? "" : ":", line);
    bool is_so = found == count && strncmp(last, head, strlen(head)) == 0 &&
                 strncmp(last + strlen(head), "\", \"clock\": ", 12) == 0;
    if (!is_so) {
        failures++;
        printf("%s:%d: not so: the notes are\n%sand the last one doesn't begin\n%s\n", __FILE__, here, notes, head);
    }
    free(notes);
}

static bool is_there(const char *name)
{
    return access(name, F_OK) == 0;
}

static monitor_recorder *opened_with(const char *name, int options)
{
    monitor_recorder *recorder = NULL;
    RECORDED(monitor_to_file_with("left", name, options | MONITOR_REPLACE, &recorder));
    return recorder;
}

static void test_notes(void)
{
    monitor_recorder *worker, *left = opened_with("left.stream", MONITOR_NOTES);
    char id[MONITOR_ID_ROOM];
    RECORDED(monitor_event_at(MONITOR_NOTE("said \xff\xc3"), left, MONITOR_SET({"x", 1}, {"y", 2})));
    NOTES("left.notes.jsonl", "left", 1, "said \xef\xbf\xbd\xef\xbf\xbd", __LINE__ - 1);
    RECORDED(monitor_send(left, id, MONITOR_NOTHING));
    NOTES("left.notes.jsonl", "left", 2, "", __LINE__ - 1);
    RECORDED((monitor_send_as)(left, "own", MONITOR_NOTHING));
    NOTES("left.notes.jsonl", "left", 3, "", 0);
    RECORDED(monitor_receive_at(&(monitor_note){NULL, 7, "came"}, left, "other", MONITOR_NOTHING));
    NOTES("left.notes.jsonl", "left", 4, "came", 0);
    RECORDED(monitor_strand(left, "worker", &worker));
    NOTES("left.notes.jsonl", "left", 5, "", __LINE__ - 1);
    NOTES("worker.notes.jsonl", "worker", 1, "", __LINE__ - 2);
    monitor_abandon(worker);
    NOTES("worker.notes.jsonl", "worker", 2, "", __LINE__ - 1);
    RECORDED(monitor_join(left, worker, MONITOR_NOTHING));
    NOTES("left.notes.jsonl", "left", 6, "", __LINE__ - 1);
    CHECK(monitor_event_at(MONITOR_NOTE("refused"), left, MONITOR_SET({"1", 1})) == MONITOR_VARIABLE_NAME);
    NOTES("left.notes.jsonl", "left", 6, "", __LINE__ - 3);
    RECORDED(monitor_close(left));
    NOTES("left.notes.jsonl", "left", 6, "", __LINE__ - 5);
}

static void test_files_that_are_replaced(void)
{
    monitor_recorder *recorder;
    CHECK(monitor_to_file_with("left", "left.txt", MONITOR_NOTES, &recorder) == MONITOR_NO_NOTES && recorder == NULL);
    CHECK(monitor_to_file_with("left", "stream", MONITOR_NOTES, &recorder) == MONITOR_NO_NOTES);
    RECORDED(monitor_close(opened_with("left.stream", MONITOR_NOTES)));
    CHECK(is_there("left.notes.jsonl"));
    unlink("left.stream");
    CHECK(monitor_to_file_with("left", "left.stream", MONITOR_NOTES, &recorder) == MONITOR_SYSTEM && errno == EEXIST);
    CHECK(is_there("left.notes.jsonl") && !is_there("left.stream"));
    recorder = opened_with("left.stream", 0);
    CHECK(!is_there("left.notes.jsonl"));
    monitor_recorder *strand;
    RECORDED(monitor_strand(recorder, "worker", &strand));
    CHECK(!is_there("worker.notes.jsonl"));
    RECORDED(monitor_close(recorder));
    CHECK(has_text("left.stream", "{\"process\":\"left\"}\n{\"send\":\"left-1\"}\n{\"end\":true}\n"));
    RECORDED(monitor_to_file_with("other", "left.stream", MONITOR_REPLACE, &recorder));
    CHECK(monitor_strand(recorder, "left", &strand) == MONITOR_SYSTEM && errno == EEXIST);
    RECORDED(monitor_close(recorder));
    unlink("left.notes.jsonl");
    CHECK(symlink("/dev/full", "left.notes.jsonl") == 0);
    recorder = opened_with("left.stream", MONITOR_NOTES);
    CHECK(monitor_event(recorder, MONITOR_NOTHING) == MONITOR_SYSTEM && errno == ENOSPC);
    CHECK(monitor_event(recorder, MONITOR_NOTHING) == MONITOR_BROKEN);
    monitor_abandon(recorder);
    CHECK(has_text("left.stream", "{\"process\":\"left\"}\n"));
    unlink("left.notes.jsonl");
}

static void test_notes_of_the_environment(void)
{
    monitor_recorder *recorder;
    for (int i = 0; i < 3; i++) {
        setenv("MONITOR_TO", "into", 1);
        setenv("MONITOR_NOTES", i == 0 ? "1" : i == 1 ? "0" : "", 1);
        RECORDED(monitor_from_environment_with("left", MONITOR_REPLACE, &recorder));
        RECORDED(monitor_close(recorder));
        CHECK(is_there("into/left.notes.jsonl") == (i == 0));
    }
    setenv("MONITOR_NOTES", "yes", 1);
    CHECK(monitor_from_environment("other", &recorder) == MONITOR_NO_NOTES && recorder == NULL);
    setenv("MONITOR_NOTES", "1", 1);
    setenv("MONITOR_TO", ":7411", 1);
    CHECK(monitor_from_environment("other", &recorder) == MONITOR_NO_NOTES);
    unsetenv("MONITOR_NOTES");
    unsetenv("MONITOR_TO");
}

static void test_a_mutex(void)
{
    monitor_mutex mutex;
    monitor_recorder *a, *b, *left = opened_with("left.stream", 0);
    RECORDED(monitor_strand(left, "a", &a));
    RECORDED(monitor_strand(left, "b", &b));
    RECORDED(monitor_mutex_init(&mutex));
    RECORDED(monitor_mutex_lock(&mutex, a));
    CHECK(monitor_mutex_trylock(&mutex, b) == MONITOR_SYSTEM && errno == EBUSY);
    RECORDED(monitor_mutex_unlock(&mutex, a));
    RECORDED(monitor_mutex_trylock(&mutex, a)); /* no receipt of its own */
    RECORDED(monitor_mutex_unlock(&mutex, NULL));
    RECORDED(monitor_close(b));
    CHECK(monitor_mutex_lock(&mutex, b) == MONITOR_ENDED);
    RECORDED(monitor_mutex_lock(&mutex, NULL)); /* so it is free, */
    CHECK(monitor_mutex_unlock(&mutex, b) == MONITOR_ENDED);
    RECORDED(monitor_mutex_lock(&mutex, left)); /* and the message is there still */
    RECORDED(monitor_mutex_unlock(&mutex, left));
    RECORDED(monitor_mutex_destroy(&mutex));
    RECORDED(monitor_close(left));
    CHECK(has_text("a.stream", "{\"process\":\"a\"}\n{\"recv\":\"left-1\"}\n{\"send\":\"a-1\"}\n{\"end\":true}\n"));
    CHECK(has_text("left.stream", "{\"process\":\"left\"}\n{\"send\":\"left-1\"}\n{\"send\":\"left-2\"}\n"
                                  "{\"recv\":\"a-1\"}\n{\"send\":\"left-3\"}\n{\"end\":true}\n"));
}

static monitor_recorder *strand_of(monitor_recorder *recorder, const char *name, const char *file)
{
    monitor_recorder *strand = NULL;
    path_of(file);
    monitor_status status = monitor_strand(recorder, name, &strand);
    if (status != MONITOR_RECORDED) {
        printf("%s: %s: %s\n", name, monitor_text(status), strerror(errno));
        exit(1);
    }
    return strand;
}

static void *record_100(void *strand)
{
    for (int turn = 0; turn < 100; turn++)
        RECORDED(monitor_event(strand, MONITOR_NOTHING));
    RECORDED(monitor_close(strand));
    return NULL;
}

static void test_threads_with_a_strand_each(void)
{
    pthread_t threads[8];
    monitor_recorder *recorder = opened("left", "left"), *strands[8];
    for (int i = 0; i < 8; i++) {
        char name[8], file[24];
        snprintf(name, sizeof name, "s%d", i % 8);
        snprintf(file, sizeof file, "%s.stream", name);
        strands[i] = strand_of(recorder, name, file);
        CHECK(pthread_create(&threads[i], NULL, record_100, strands[i]) == 0);
    }
    for (int i = 0; i < 8; i++) {
        pthread_join(threads[i], NULL);
        RECORDED(monitor_join(recorder, strands[i], MONITOR_SET({"x", i})));
        CHECK(monitor_events(strands[i]) == 102);
    }
    RECORDED(monitor_close(recorder));
    char *text = text_of("left");
    CHECK(strstr(text, "{\"recv\":\"s6-1\",\"set\":{\"x\":6}}\n{\"recv\":\"s7-1\",\"set\":{\"x\":7}}\n"
                       "{\"end\":true}\n") != NULL);
    free(text);
}

static void test_strands_end_with_their_process(void)
{
    monitor_recorder *none, *recorder = opened("left", "left");
    monitor_recorder *worker = strand_of(recorder, "worker", "worker.stream");
    CHECK(monitor_join(recorder, worker, MONITOR_NOTHING) == MONITOR_NOT_ENDED);
    CHECK(monitor_join(recorder, recorder, MONITOR_NOTHING) == MONITOR_NOT_ENDED);
    CHECK(monitor_join(recorder, NULL, MONITOR_NOTHING) == MONITOR_NOT_ENDED);
    CHECK(monitor_strand(recorder, NULL, &none) == MONITOR_PROCESS_NAME && none == NULL);
    CHECK(monitor_strand(worker, "left", &none) == MONITOR_NAME_TWICE && none == NULL);
    monitor_recorder *ended = strand_of(recorder, "ended", "ended.stream");
    monitor_abandon(ended);
    RECORDED(monitor_close(ended));
    CHECK(monitor_event(ended, MONITOR_NOTHING) == MONITOR_ENDED);
    CHECK(monitor_strand(ended, "more", &none) == MONITOR_ENDED && none == NULL);
    RECORDED(monitor_close(recorder));
    CHECK(has_text("worker.stream", "{\"process\":\"worker\"}\n{\"recv\":\"left-1\"}\n{\"end\":true}\n"));
    CHECK(has_text("ended.stream", "{\"process\":\"ended\"}\n{\"recv\":\"left-2\"}\n{\"send\":\"ended-1\"}\n"
                                   "{\"end\":true}\n"));
    recorder = opened("left", "left");
    strand_of(recorder, "worker", "worker.stream");
    monitor_abandon(recorder);
    CHECK(has_text("worker.stream", "{\"process\":\"worker\"}\n{\"recv\":\"left-1\"}\n"));
}

static void test_the_working_directory_may_change(void)
{
    char before[4096];
    monitor_recorder *recorder = opened("left", "left"), *worker;
    path_of("worker.stream");
    CHECK(getcwd(before, sizeof before) != NULL && chdir("/") == 0);
    RECORDED(monitor_strand(recorder, "worker", &worker));
    CHECK(chdir(before) == 0);
    RECORDED(monitor_close(recorder));
    CHECK(has_text("worker.stream", "{\"process\":\"worker\"}\n{\"recv\":\"left-1\"}\n{\"end\":true}\n"));
}

static void test_strands_that_cannot_be_opened(void)
{
    monitor_recorder *recorder = opened("left", "left"), *none, *given;
    close(open(path_of("worker.stream"), O_WRONLY | O_CREAT, 0600));
    CHECK(monitor_strand(recorder, "worker", &none) == MONITOR_SYSTEM && errno == EEXIST && none == NULL);
    RECORDED(monitor_close(strand_of(recorder, "worker", "worker.stream")));
    RECORDED(monitor_close(recorder));
    CHECK(has_text("left", "{\"process\":\"left\"}\n{\"send\":\"left-1\"}\n{\"end\":true}\n"));
    RECORDED(monitor_to_descriptor("left", open("left", O_WRONLY), &given));
    CHECK(monitor_strand(given, "worker", &none) == MONITOR_NO_PLACE && none == NULL);
    RECORDED(monitor_close(given));
}

static void test_a_fork_does_not_record_to_strands(void)
{
    monitor_recorder *none, *recorder = opened("left", "left");
    monitor_recorder *worker = strand_of(recorder, "worker", "worker.stream");
    fflush(stdout);
    pid_t child = fork();
    if (child == 0) {
        bool is_refused = monitor_event(worker, MONITOR_NOTHING) == MONITOR_FORK &&
                          monitor_strand(recorder, "more", &none) == MONITOR_FORK &&
                          monitor_join(recorder, worker, MONITOR_NOTHING) == MONITOR_FORK &&
                          monitor_close(worker) == MONITOR_FORK && monitor_close(recorder) == MONITOR_FORK;
        _exit(is_refused ? 7 : 0);
    }
    int status;
    waitpid(child, &status, 0);
    CHECK(WIFEXITED(status) && WEXITSTATUS(status) == 7);
    RECORDED(monitor_close(recorder));
    CHECK(has_text("worker.stream", "{\"process\":\"worker\"}\n{\"recv\":\"left-1\"}\n{\"end\":true}\n"));
}

int main(int count, char **arguments)
{
    if (count < 2 || chdir(arguments[1]) != 0) {
        fprintf(stderr, "test_monitor_recorder FOLDER\n");
        return 2;
    }
    test_refused_ids();
    test_refused_names();
    test_files();
    test_long_recordings();
    test_many_ids();
    test_a_fork_does_not_record();
    test_a_peer_that_is_gone();
    test_no_signal_comes();
    test_a_port_on_which_nobody_listens();
    test_a_place_that_the_environment_names();
    test_threads_with_a_strand_each();
    test_strands_end_with_their_process();
    test_the_working_directory_may_change();
    test_strands_that_cannot_be_opened();
    test_a_fork_does_not_record_to_strands();
    test_notes();
    test_files_that_are_replaced();
    test_notes_of_the_environment();
    test_a_mutex();
    return failures > 0;
}
