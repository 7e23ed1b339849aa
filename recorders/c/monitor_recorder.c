/* See monitor_recorder.h. */
#undef _POSIX_C_SOURCE
#define _POSIX_C_SOURCE 200809L

#include "monitor_recorder.h"

#include <arpa/inet.h>
#include <errno.h>
#include <fcntl.h>
#include <inttypes.h>
#include <netdb.h>
#include <netinet/in.h>
#include <netinet/tcp.h>
#include <poll.h>
#include <pthread.h>
#include <signal.h>
#include <stdbool.h>
#include <stdio.h>
#include <stdlib.h>
#include <string.h>
#include <sys/socket.h>
#include <sys/stat.h>
#include <sys/un.h>
#include <time.h>
#include <unistd.h>

/* A line with 16 settings and an id of 64 control characters has 1,301 bytes. So 10,000 of them stay below the
 * 16,777,216 bytes that monitor takes of a stream, and each below the 65,536 of a line, as does one of a long
 * recording, whose id may have 1,024. */
#define LINE_ROOM 7200

_Static_assert(9 + 6 * MONITOR_LONG_ID_BYTE_LIMIT + 9 + MONITOR_VARIABLE_LIMIT * (MONITOR_NAME_BYTE_LIMIT + 24) + 3
                   <= LINE_ROOM,
               "each line has room: the id and what is around it, each setting, and the end");

/* A note has a text and a file, of which each byte may take six, and some fields. */
#define NOTE_ROOM (2 * 6 * MONITOR_NOTE_BYTE_LIMIT + 256)

/* So many slots for ids there are at first: a power of two. */
#define SLOTS 1024

static const char ending[] = ".stream", notes_ending[] = ".notes.jsonl";

/* Where a monitor listens: at a port, in digits, of a host; or, without a port, by a socket with a path. */
typedef struct {
    char host[256];
    char port[6];
    double seconds; /* for which somebody is waited for who listens there */
    char *token;    /* with which a connection begins, and its LF; NULL if there is none */
} listener;

/* A line, in an array that has room for it. */
typedef struct {
    char *bytes;
    size_t size;
} line_text;

/* Ids: their bytes, each with a NUL, and in the slot that its hash leads to the place of one and 1, or 0. At most half
 * of the slots are used. */
typedef struct {
    size_t count, size, room, slot_count;
    char *bytes;
    size_t *slots;
} id_set;

struct monitor_recorder {
    pthread_mutex_t lock;
    pid_t owner;
    int descriptor;
    int notes; /* the descriptor of the notes of the events, or -1 if they have none */
    bool is_socket;
    bool is_broken;
    bool is_ended;          /* only of a strand: otherwise it is gone then */
    monitor_recorder *root; /* the recorder of the process; NULL if this is it */
    size_t events;
    size_t sends;
    char process[MONITOR_NAME_BYTE_LIMIT + 1];
    char last[MONITOR_ID_ROOM]; /* the id of the message by which a strand has ended, or no text */
    /* The strands of the process, and where their streams are: in a folder, whose name ends with a slash, or where a
     * monitor listens. The lock is taken after that of a recorder, and no other one after it. */
    pthread_mutex_t family;
    size_t strand_count, strand_room;
    monitor_recorder **strands;
    char *folder;
    int options; /* of a strand those of its process count */
    listener where;
    size_t variable_count;
    char variables[MONITOR_VARIABLE_LIMIT][MONITOR_NAME_BYTE_LIMIT + 1];
    id_set ids; /* that were sent or received */
};

/* Whether it is a long recording, or a strand of one. */
static bool is_long(const monitor_recorder *recorder)
{
    return ((recorder->root == NULL ? recorder : recorder->root)->options & MONITOR_LONG) != 0;
}

/* The texts of lines */

static void put_bytes(line_text *line, const char *bytes, size_t size)
{
    memcpy(line->bytes + line->size, bytes, size);
    line->size += size;
}

static void put(line_text *line, const char *text)
{
    put_bytes(line, text, strlen(text));
}

/* The text as JSON has it between quotes: as short as it can be. */
static void put_quoted(line_text *line, const char *text)
{
    static const char escaped[] = "\"\\\b\f\n\r\t", letters[] = "\"\\bfnrt";
    put(line, "\"");
    for (const char *next = text; *next != '\0'; next++) {
        const char *found = strchr(escaped, *next);
        if (found != NULL) {
            put(line, "\\");
            put_bytes(line, letters + (found - escaped), 1);
        } else if ((unsigned char)*next < 0x20) {
            char escape[8];
            snprintf(escape, sizeof escape, "\\u%04x", (unsigned)(unsigned char)*next);
            put(line, escape);
        } else {
            put_bytes(line, next, 1);
        }
    }
    put(line, "\"");
}

/* `{`, the field with the id if there is one, the settings if there are some, `}` and the LF. */
static void put_event(line_text *line, const char *field, const char *id, const monitor_setting *settings, size_t count)
{
    put(line, "{");
    if (id != NULL) {
        put_quoted(line, field);
        put(line, ":");
        put_quoted(line, id);
    }
    for (size_t i = 0; i < count; i++) {
        char value[24];
        put(line, i > 0 ? "," : id != NULL ? ",\"set\":{" : "\"set\":{");
        put_quoted(line, settings[i].name);
        snprintf(value, sizeof value, ":%" PRId64, settings[i].value);
        put(line, value);
    }
    put(line, count > 0 ? "}}\n" : "}\n");
}

/* Whether the signal waits for this thread to let it through. */
static bool waits(int number)
{
    sigset_t pending;
    return sigpending(&pending) == 0 && sigismember(&pending, number) == 1;
}

/* Writes to a file or a pipe. Of a file at the limit of its size, and of a pipe that nobody reads, the system says so by
 * errno, and by a signal to this thread that would end the process: that one is held back, and taken. */
static ssize_t write_without_signal(int descriptor, const char *bytes, size_t size)
{
    sigset_t both, before;
    int number;
    bool is_old[] = {waits(SIGXFSZ), waits(SIGPIPE)};
    sigemptyset(&both);
    sigaddset(&both, SIGXFSZ);
    sigaddset(&both, SIGPIPE);
    pthread_sigmask(SIG_BLOCK, &both, &before);
    ssize_t taken = write(descriptor, bytes, size);
    int reason = errno;
    if (taken < 0 && (reason == EFBIG || reason == EPIPE)) {
        bool is_size = reason == EFBIG;
        sigdelset(&both, is_size ? SIGPIPE : SIGXFSZ);
        if (!is_old[is_size ? 0 : 1] && waits(is_size ? SIGXFSZ : SIGPIPE))
            sigwait(&both, &number);
    }
    pthread_sigmask(SIG_SETMASK, &before, NULL);
    errno = reason;
    return taken;
}

/* Closes the descriptor, which is closed too if a signal comes meanwhile: all was written before. */
static int close_once(int descriptor)
{
    return close(descriptor) == 0 || errno == EINTR ? 0 : -1;
}

/* Hands the whole line to the system. If that fails, nothing more is written later. */
static monitor_status write_to(monitor_recorder *recorder, int descriptor, bool is_socket, const line_text *line)
{
    size_t done = 0;
    recorder->is_broken = true;
    while (done < line->size) {
        const char *rest = line->bytes + done;
        size_t size = line->size - done;
        ssize_t taken = is_socket ? send(descriptor, rest, size, MSG_NOSIGNAL)
                                  : write_without_signal(descriptor, rest, size);
        if (taken < 0 && errno == EINTR)
            continue;
        if (taken == 0)
            errno = EIO;
        if (taken <= 0)
            return MONITOR_SYSTEM;
        done += (size_t)taken;
    }
    recorder->is_broken = false;
    return MONITOR_RECORDED;
}

static monitor_status write_line(monitor_recorder *recorder, const line_text *line)
{
    return write_to(recorder, recorder->descriptor, recorder->is_socket, line);
}

/* Names and ids */

static bool is_letter(char c)
{
    return (c >= 'A' && c <= 'Z') || (c >= 'a' && c <= 'z') || c == '_';
}

static bool is_name(const char *name)
{
    static const char *const reserved[] = {"and", "or", "not", "true", "false"};
    size_t size = 0;
    if (name == NULL || !is_letter(name[0]))
        return false;
    while (is_letter(name[size]) || (name[size] >= '0' && name[size] <= '9'))
        if (++size > MONITOR_NAME_BYTE_LIMIT)
            return false;
    if (name[size] != '\0')
        return false;
    for (size_t i = 0; i < sizeof reserved / sizeof reserved[0]; i++)
        if (strcmp(name, reserved[i]) == 0)
            return false;
    return true;
}

/* How many bytes the character has with which the text begins; 0 if that isn't UTF-8. The text ends with a NUL. */
static size_t character_size(const unsigned char *text)
{
    unsigned char first = text[0];
    size_t size = first < 0x80 ? 1 : first < 0xc2 ? 0 : first < 0xe0 ? 2 : first < 0xf0 ? 3 : first < 0xf5 ? 4 : 0;
    for (size_t i = 1; i < size; i++)
        if ((text[i] & 0xc0) != 0x80)
            return 0;
    bool is_overlong = (first == 0xe0 && text[1] < 0xa0) || (first == 0xf0 && text[1] < 0x90);
    bool is_surrogate = first == 0xed && text[1] >= 0xa0;
    bool is_too_large = first == 0xf4 && text[1] >= 0x90;
    return is_overlong || is_surrogate || is_too_large ? 0 : size;
}

/* The text as JSON has it between quotes, but without these. Besides what JSON escapes these are: a terminal takes some
 * for commands, and what reads lines others for their ends. A byte that is no UTF-8 is U+FFFD, and what is too long is
 * cut. */
static void put_note_text(line_text *line, const char *text)
{
    static const char escaped[] = "\"\\\b\f\n\r\t", letters[] = "\"\\bfnrt";
    size_t kept = 0;
    while (*text != '\0') {
        const unsigned char *next = (const unsigned char *)text;
        size_t size = character_size(next);
        size_t written = size == 0 ? 3 : size;
        const char *found = size == 1 ? strchr(escaped, *text) : NULL;
        bool is_control = size == 1 ? *next < 0x20 || *next == 0x7f : size == 2 && *next == 0xc2 && next[1] < 0xa0;
        bool is_separator = size == 3 && *next == 0xe2 && next[1] == 0x80 && (next[2] == 0xa8 || next[2] == 0xa9);
        kept += written;
        if (kept > MONITOR_NOTE_BYTE_LIMIT)
            return;
        if (size == 0) {
            put(line, "\xef\xbf\xbd");
        } else if (found != NULL) {
            put(line, "\\");
            put_bytes(line, letters + (found - escaped), 1);
        } else if (is_control || is_separator) {
            char escape[8];
            unsigned point = size == 1 ? *next : size == 2 ? next[1] : 0x2000u + (next[2] & 0x3fu);
            snprintf(escape, sizeof escape, "\\u%04x", point);
            put(line, escape);
        } else {
            put_bytes(line, text, size);
        }
        text += size == 0 ? 1 : size;
    }
}

/* The note of an event with this number. */
static void put_note(line_text *line, const char *process, size_t event, const monitor_note *note)
{
    char number[64];
    struct timespec now;
    clock_gettime(CLOCK_REALTIME, &now);
    put(line, "{\"process\": \"");
    put(line, process);
    snprintf(number, sizeof number, "\", \"event\": %zu, \"text\": \"", event);
    put(line, number);
    if (note != NULL && note->text != NULL)
        put_note_text(line, note->text);
    put(line, "\", \"place\": \"");
    if (note != NULL && note->file != NULL) {
        put_note_text(line, note->file);
        snprintf(number, sizeof number, ":%d", note->line);
        put(line, number);
    }
    snprintf(number, sizeof number, "\", \"clock\": %" PRIdMAX ".%06ld}\n", (intmax_t)now.tv_sec, now.tv_nsec / 1000);
    put(line, number);
}

/* Writes the note of the event whose line is written next, if the events have notes: so each event of a stream has its
 * note. */
static monitor_status write_note(monitor_recorder *recorder, const monitor_note *note)
{
    char room[NOTE_ROOM];
    line_text line = {room, 0};
    if (recorder->notes < 0)
        return MONITOR_RECORDED;
    put_note(&line, recorder->process, recorder->events + 1, note);
    return write_to(recorder, recorder->notes, false, &line);
}

static bool is_id(const char *id, size_t limit)
{
    if (id == NULL || id[0] == '\0')
        return false;
    size_t size = 0;
    while (id[size] != '\0') {
        size_t step = character_size((const unsigned char *)id + size);
        size += step;
        if (step == 0 || size > limit)
            return false;
    }
    return true;
}

/* The slot in which the id stands, or the empty one into which it may be put. There are slots. */
static size_t *slot_of(const id_set *ids, const char *id)
{
    uint64_t hash = 14695981039346656037u;
    for (const char *next = id; *next != '\0'; next++)
        hash = (hash ^ (unsigned char)*next) * 1099511628211u;
    size_t place = (size_t)(hash ^ hash >> 32) % ids->slot_count;
    while (ids->slots[place] != 0 && strcmp(ids->bytes + ids->slots[place] - 1, id) != 0)
        place = (place + 1) % ids->slot_count;
    return &ids->slots[place];
}

static bool has_id(const id_set *ids, const char *id)
{
    return ids->slot_count > 0 && *slot_of(ids, id) != 0;
}

/* Has twice as many slots; false with errno if there is no memory. */
static bool add_slots(id_set *ids)
{
    size_t slot_count = ids->slot_count == 0 ? SLOTS : 2 * ids->slot_count;
    size_t *slots = calloc(slot_count, sizeof *slots);
    if (slots == NULL)
        return false;
    free(ids->slots);
    ids->slots = slots;
    ids->slot_count = slot_count;
    for (size_t place = 0; place < ids->size; place += strlen(ids->bytes + place) + 1)
        *slot_of(ids, ids->bytes + place) = place + 1;
    return true;
}

/* Makes room for the id; false with errno if there is no memory. */
static bool reserve_id(id_set *ids, const char *id)
{
    size_t size = ids->size + strlen(id) + 1;
    if (size > ids->room) {
        char *bytes = realloc(ids->bytes, 2 * size);
        if (bytes == NULL)
            return false;
        ids->bytes = bytes;
        ids->room = 2 * size;
    }
    return 2 * (ids->count + 1) <= ids->slot_count || add_slots(ids);
}

/* Keeps the id, for which there is room. */
static void keep_id(id_set *ids, const char *id)
{
    *slot_of(ids, id) = ids->size + 1;
    strcpy(ids->bytes + ids->size, id);
    ids->size += strlen(id) + 1;
    ids->count++;
}

static void forget_ids(id_set *ids)
{
    int reason = errno;
    free(ids->bytes);
    free(ids->slots);
    *ids = (id_set){0};
    errno = reason;
}

static bool has_variable(const monitor_recorder *recorder, const char *name)
{
    for (size_t i = 0; i < recorder->variable_count; i++)
        if (strcmp(recorder->variables[i], name) == 0)
            return true;
    return false;
}

/* What is wrong with the settings. */
static monitor_status check_settings(const monitor_recorder *recorder, const monitor_setting *settings, size_t count)
{
    size_t added = 0;
    if (count > MONITOR_VARIABLE_LIMIT)
        return MONITOR_VARIABLES;
    for (size_t i = 0; i < count; i++) {
        if (!is_name(settings[i].name))
            return MONITOR_VARIABLE_NAME;
        for (size_t j = 0; j < i; j++)
            if (strcmp(settings[i].name, settings[j].name) == 0)
                return MONITOR_VARIABLE_NAME;
        added += !has_variable(recorder, settings[i].name);
    }
    return recorder->variable_count + added > MONITOR_VARIABLE_LIMIT ? MONITOR_VARIABLES : MONITOR_RECORDED;
}

static void keep_variables(monitor_recorder *recorder, const monitor_setting *settings, size_t count)
{
    for (size_t i = 0; i < count; i++)
        if (!has_variable(recorder, settings[i].name))
            strcpy(recorder->variables[recorder->variable_count++], settings[i].name);
}

/* Recorders */

static pthread_mutex_t *new_lock(pthread_mutex_t *lock)
{
    pthread_mutexattr_t attributes;
    if ((errno = pthread_mutexattr_init(&attributes)) != 0)
        return NULL;
    errno = pthread_mutexattr_settype(&attributes, PTHREAD_MUTEX_RECURSIVE);
    if (errno == 0)
        errno = pthread_mutex_init(lock, &attributes);
    pthread_mutexattr_destroy(&attributes);
    return errno == 0 ? lock : NULL;
}

/* Adds MONITOR_LONG to the options if the environment says so; false if it says what it can't. */
static bool add_long(int *options)
{
    const char *text = getenv("MONITOR_LONG");
    if (text == NULL || text[0] == '\0' || strcmp(text, "0") == 0)
        return true;
    *options |= MONITOR_LONG;
    return strcmp(text, "1") == 0;
}

/* Records to what is open for writing. */
static monitor_status over_descriptor(const char *process, int descriptor, monitor_recorder **made)
{
    struct stat kind;
    *made = NULL;
    if (!is_name(process))
        return MONITOR_PROCESS_NAME;
    if (fstat(descriptor, &kind) != 0)
        return MONITOR_SYSTEM;
    monitor_recorder *recorder = calloc(1, sizeof *recorder);
    if (recorder == NULL)
        return MONITOR_SYSTEM;
    if (new_lock(&recorder->lock) == NULL) {
        free(recorder);
        return MONITOR_SYSTEM;
    }
    if (new_lock(&recorder->family) == NULL) {
        pthread_mutex_destroy(&recorder->lock);
        free(recorder);
        return MONITOR_SYSTEM;
    }
    strcpy(recorder->process, process);
    recorder->owner = getpid();
    recorder->descriptor = descriptor;
    recorder->notes = -1;
    recorder->is_socket = S_ISSOCK(kind.st_mode);
    char room[LINE_ROOM];
    line_text line = {room, 0};
    put_event(&line, "process", process, NULL, 0);
    if (write_line(recorder, &line) != MONITOR_RECORDED) {
        int reason = errno;
        pthread_mutex_destroy(&recorder->family);
        pthread_mutex_destroy(&recorder->lock);
        free(recorder);
        errno = reason;
        return MONITOR_SYSTEM;
    }
    *made = recorder;
    return MONITOR_RECORDED;
}

monitor_status monitor_to_descriptor_with(const char *process, int descriptor, int options, monitor_recorder **made)
{
    *made = NULL;
    if (!is_name(process))
        return MONITOR_PROCESS_NAME;
    if (!add_long(&options))
        return MONITOR_NOT_LONG;
    monitor_status status = over_descriptor(process, descriptor, made);
    if (status == MONITOR_RECORDED)
        (*made)->options = options & MONITOR_LONG;
    return status;
}

monitor_status monitor_to_descriptor(const char *process, int descriptor, monitor_recorder **made)
{
    return monitor_to_descriptor_with(process, descriptor, 0, made);
}

/* The same as over_descriptor, and the descriptor is closed if it fails. */
static monitor_status over_own_descriptor(const char *process, int descriptor, monitor_recorder **made)
{
    monitor_status status = over_descriptor(process, descriptor, made);
    if (status != MONITOR_RECORDED) {
        int reason = errno;
        close(descriptor);
        errno = reason;
    }
    return status;
}

/* The same, with the notes if there are some, and both are closed if it fails. */
static monitor_status over_files(const char *process, int descriptor, int notes, monitor_recorder **made)
{
    monitor_status status = over_own_descriptor(process, descriptor, made);
    int reason = errno;
    if (status == MONITOR_RECORDED)
        (*made)->notes = notes;
    else if (notes >= 0)
        close(notes);
    errno = reason;
    return status;
}

static int new_file(const char *path, int options)
{
    int flags = (options & MONITOR_REPLACE) != 0 ? O_TRUNC : O_EXCL;
    int descriptor;
    do {
        descriptor = open(path, O_WRONLY | O_CREAT | O_CLOEXEC | flags, 0666);
    } while (descriptor < 0 && errno == EINTR);
    return descriptor;
}

/* Whether the path is one beside which there can be notes. */
static bool has_ending(const char *path)
{
    size_t size = strlen(path);
    return size >= sizeof ending - 1 && strcmp(path + size - (sizeof ending - 1), ending) == 0;
}

/* Opens the file of the notes of a stream, if it is to have some; otherwise it is -1. What is replaced has no notes any
 * more. False with errno if the system refuses. */
static bool open_notes(const char *path, int options, int *notes)
{
    *notes = -1;
    if ((options & (MONITOR_NOTES | MONITOR_REPLACE)) == 0 || !has_ending(path))
        return true;
    size_t stem = strlen(path) - (sizeof ending - 1);
    char *beside = malloc(stem + sizeof notes_ending);
    if (beside == NULL)
        return false;
    memcpy(beside, path, stem);
    memcpy(beside + stem, notes_ending, sizeof notes_ending);
    bool is_done = false;
    if ((options & MONITOR_NOTES) != 0) {
        *notes = new_file(beside, options);
        is_done = *notes >= 0;
    } else {
        is_done = unlink(beside) == 0 || errno == ENOENT;
    }
    int reason = errno;
    free(beside);
    errno = reason;
    return is_done;
}

/* Opens the file of a stream and that of its notes; -1 with errno if one can't be. */
static int open_files(const char *path, int options, int *notes)
{
    int descriptor = new_file(path, options);
    if (descriptor < 0 || open_notes(path, options, notes))
        return descriptor;
    int reason = errno;
    close(descriptor);
    if ((options & MONITOR_REPLACE) == 0)
        unlink(path);
    errno = reason;
    return -1;
}

/* The folder of the file, with a slash at its end: from the root, since the working directory may change. */
static char *folder_of(const char *path)
{
    char here[4096] = "";
    const char *slash = strrchr(path, '/');
    int size = slash == NULL ? 0 : (int)(slash - path) + 1;
    bool is_from_root = path[0] == '/';
    if (!is_from_root && getcwd(here, sizeof here) == NULL)
        here[0] = '\0';
    size_t room = strlen(here) + 1 + (size_t)size + 1;
    char *folder = malloc(room);
    if (folder != NULL)
        snprintf(folder, room, "%s%s%.*s", here, here[0] == '\0' ? "" : "/", size, path);
    return folder;
}

/* The path of the file of this incarnation, if that of the first one is given, or that of what it stands in until it
 * gets its name, with this number from 1 on; NULL if there is no memory. */
static char *path_of(const char *first, size_t incarnation, size_t part)
{
    const char *slash = strrchr(first, '/');
    const char *name = slash == NULL ? first : slash + 1;
    const char *dot = strrchr(name, '.');
    size_t room = strlen(first) + 100;
    int stem = (int)(dot == NULL || dot == name ? strlen(first) : (size_t)(dot - first));
    char number[24] = "", more[24] = "", ending_of_part[64] = "";
    char *path = malloc(room);
    if (path == NULL)
        return NULL;
    if (incarnation > 1)
        snprintf(number, sizeof number, "_%zu", incarnation);
    if (part > 1)
        snprintf(more, sizeof more, "-%zu", part);
    if (part > 0)
        snprintf(ending_of_part, sizeof ending_of_part, ".%jd%s.part", (intmax_t)getpid(), more);
    snprintf(path, room, "%.*s%s%s%s", stem, first, number, first + stem, ending_of_part);
    return path;
}

/* Whether there is something by this path, be it a link that leads nowhere. */
static bool is_there(const char *path)
{
    struct stat kind;
    return lstat(path, &kind) == 0;
}

/* The first of the paths that isn't there yet, of an incarnation or of its part; NULL if there is no memory. */
static char *free_path(const char *first, size_t *incarnation, size_t *part)
{
    size_t *number = part == NULL ? incarnation : part;
    for (;; (*number)++) {
        char *path = path_of(first, *incarnation, part == NULL ? 0 : *part);
        if (path == NULL || !is_there(path))
            return path;
        free(path);
    }
}

/* Has this process hold a lock of this kind on the whole file for as long as it runs, or until it closes it. */
static bool set_lock(int descriptor, short kind)
{
    struct flock lock = {.l_type = kind, .l_whence = SEEK_SET};
    return fcntl(descriptor, F_SETLK, &lock) == 0;
}

/* Whether an earlier incarnation still runs, if a lock of it on its file shows that. */
static monitor_status check_running(const char *first, size_t incarnation)
{
    char *path = path_of(first, incarnation, 0);
    int descriptor = path == NULL ? -1 : open(path, O_RDONLY | O_CLOEXEC);
    int reason = errno;
    free(path);
    errno = reason;
    if (descriptor < 0)
        return MONITOR_SYSTEM;
    bool is_locked = !set_lock(descriptor, F_RDLCK) && (errno == EACCES || errno == EAGAIN);
    close(descriptor);
    return is_locked ? MONITOR_RUNNING : MONITOR_RECORDED;
}

/* The name of an incarnation, in which there is room for it. */
static const char *name_of(char *name, size_t room, const char *process, size_t incarnation)
{
    snprintf(name, room, incarnation > 1 ? "%s_%zu" : "%s", process, incarnation);
    return name;
}

/* Records the incarnation of this name to the part of its file, with a lock, and gives it its path once the receipt
 * stands in it, so that it has that whenever the process is killed. Notes that are there are of an incarnation that was
 * killed before. The id is that of the message by which it comes after the one before, or NULL. */
static monitor_status record_part(const monitor_note *note, const char *name, const char *id, const char *part,
                                  const char *path, int options, monitor_recorder **made)
{
    int notes = -1;
    int descriptor = new_file(part, 0);
    if (descriptor < 0)
        return MONITOR_SYSTEM;
    set_lock(descriptor, F_WRLCK);
    bool is_open = (options & MONITOR_NOTES) == 0 || open_notes(path, MONITOR_NOTES | MONITOR_REPLACE, &notes);
    monitor_status status = is_open ? over_files(name, descriptor, notes, made) : MONITOR_SYSTEM;
    if (!is_open)
        close(descriptor);
    if (status == MONITOR_RECORDED && id != NULL)
        status = monitor_receive_at(note, *made, id, MONITOR_NOTHING);
    if (status == MONITOR_RECORDED && rename(part, path) != 0)
        status = MONITOR_SYSTEM;
    int reason = errno;
    if (status != MONITOR_RECORDED) {
        if (*made != NULL)
            monitor_abandon_at(note, *made);
        *made = NULL;
        unlink(part);
    }
    errno = reason;
    return status;
}

/* Records to the first file of the process that isn't there yet. */
static monitor_status to_incarnation(const monitor_note *note, const char *process, const char *first, int options,
                                     monitor_recorder **made)
{
    char name[2 * MONITOR_NAME_BYTE_LIMIT], before[2 * MONITOR_NAME_BYTE_LIMIT], id[3 * MONITOR_NAME_BYTE_LIMIT];
    size_t number = 1, part_number = 1;
    char *path = free_path(first, &number, NULL);
    char *part = path == NULL ? NULL : free_path(first, &number, &part_number);
    monitor_status status = part == NULL ? MONITOR_SYSTEM : MONITOR_RECORDED;
    if (status == MONITOR_RECORDED && number > 1)
        status = check_running(first, number - 1);
    if (status == MONITOR_RECORDED && !is_name(name_of(name, sizeof name, process, number)))
        status = MONITOR_PROCESS_NAME;
    if (status == MONITOR_RECORDED) {
        snprintf(id, sizeof id, "%s-ended", name_of(before, sizeof before, process, number - 1));
        status = record_part(note, name, number > 1 ? id : NULL, part, path, options, made);
    }
    int reason = errno;
    free(path);
    free(part);
    errno = reason;
    return status;
}

monitor_status monitor_to_file_with_at(const monitor_note *note, const char *process, const char *path, int options,
                                       monitor_recorder **made)
{
    int notes = -1;
    monitor_status status;
    *made = NULL;
    if (!is_name(process))
        return MONITOR_PROCESS_NAME;
    if ((options & MONITOR_NOTES) != 0 && !has_ending(path))
        return MONITOR_NO_NOTES;
    if ((options & MONITOR_AGAIN) != 0 && (options & MONITOR_REPLACE) != 0)
        return MONITOR_NOT_AGAIN;
    if (!add_long(&options))
        return MONITOR_NOT_LONG;
    char *folder = folder_of(path);
    if (folder == NULL)
        return MONITOR_SYSTEM;
    if ((options & MONITOR_AGAIN) != 0) {
        status = to_incarnation(note, process, path, options, made);
    } else {
        int descriptor = open_files(path, options, &notes);
        status = descriptor < 0 ? MONITOR_SYSTEM : over_files(process, descriptor, notes, made);
    }
    int reason = errno;
    if (status == MONITOR_RECORDED) {
        (*made)->folder = folder;
        (*made)->options = options & ~MONITOR_AGAIN;
    } else {
        free(folder);
    }
    errno = reason;
    return status;
}

monitor_status monitor_to_file(const char *process, const char *path, monitor_recorder **made)
{
    return monitor_to_file_with_at(NULL, process, path, 0, made);
}

/* Whether both ends are one: so a connection can come to be to a port that nobody has bound. */
static bool is_with_itself(int connection)
{
    union {
        struct sockaddr any;
        struct sockaddr_in four;
        struct sockaddr_in6 six;
    } here = {.any = {.sa_family = AF_UNSPEC}}, there = {.any = {.sa_family = AF_UNSPEC}};
    socklen_t here_size = sizeof here, there_size = sizeof there;
    if (getsockname(connection, &here.any, &here_size) != 0 || getpeername(connection, &there.any, &there_size) != 0)
        return false;
    if (here.any.sa_family == AF_INET6)
        return here.six.sin6_port == there.six.sin6_port &&
               memcmp(&here.six.sin6_addr, &there.six.sin6_addr, sizeof here.six.sin6_addr) == 0;
    return here.four.sin_port == there.four.sin_port && here.four.sin_addr.s_addr == there.four.sin_addr.s_addr;
}

/* Connects within these seconds, or one; false with errno if that fails. */
static bool connect_within(int connection, const struct sockaddr *address, socklen_t size, double seconds)
{
    int flags = fcntl(connection, F_GETFL), failure = 0, answered = 0;
    socklen_t failure_size = sizeof failure;
    struct pollfd waited = {.fd = connection, .events = POLLOUT};
    fcntl(connection, F_SETFL, flags | O_NONBLOCK);
    bool is_made = connect(connection, address, size) == 0;
    if (!is_made && errno == EINPROGRESS) {
        int milliseconds = seconds < 1 ? 1000 : seconds > 1e6 ? -1 : (int)(seconds * 1000);
        do {
            answered = poll(&waited, 1, milliseconds);
        } while (answered < 0 && errno == EINTR);
        if (answered == 0)
            errno = ETIMEDOUT;
        else if (answered > 0 && getsockopt(connection, SOL_SOCKET, SO_ERROR, &failure, &failure_size) == 0)
            errno = failure;
        is_made = answered > 0 && failure == 0;
    }
    int reason = errno;
    fcntl(connection, F_SETFL, flags);
    errno = reason;
    return is_made;
}

/* A connection to this address of a port; -1 with errno if there is none. */
static int connection_at(const struct addrinfo *address, double seconds)
{
    int connection = socket(address->ai_family, SOCK_STREAM, 0);
    if (connection < 0)
        return -1;
    fcntl(connection, F_SETFD, FD_CLOEXEC);
    bool is_made = connect_within(connection, address->ai_addr, address->ai_addrlen, seconds);
    if (is_made && !is_with_itself(connection)) {
        int at_once = 1;
        setsockopt(connection, IPPROTO_TCP, TCP_NODELAY, &at_once, sizeof at_once);
        return connection;
    }
    int reason = is_made ? ECONNREFUSED : errno;
    close(connection);
    errno = reason;
    return -1;
}

/* A connection to a port; -1 with errno if there is none. A host that nobody knows is one to which no way leads. */
static int connection_to_port(const listener *where)
{
    struct addrinfo wanted = {.ai_socktype = SOCK_STREAM, .ai_flags = AI_NUMERICSERV}, *found = NULL;
    int connection = -1;
    int failure = getaddrinfo(where->host, where->port, &wanted, &found);
    if (failure != 0) {
        if (failure != EAI_SYSTEM)
            errno = failure == EAI_MEMORY ? ENOMEM : EHOSTUNREACH;
        return -1;
    }
    for (const struct addrinfo *next = found; next != NULL && connection < 0; next = next->ai_next)
        connection = connection_at(next, where->seconds);
    int reason = errno;
    freeaddrinfo(found);
    errno = reason;
    return connection;
}

/* A connection to a socket with a path; -1 with errno if there is none. */
static int connection_to_socket(const char *path)
{
    struct sockaddr_un address = {.sun_family = AF_UNIX};
    if (strlen(path) >= sizeof address.sun_path) {
        errno = ENAMETOOLONG;
        return -1;
    }
    strcpy(address.sun_path, path);
    int connection = socket(AF_UNIX, SOCK_STREAM, 0);
    if (connection < 0)
        return -1;
    fcntl(connection, F_SETFD, FD_CLOEXEC);
    if (connect(connection, (struct sockaddr *)&address, sizeof address) == 0)
        return connection;
    int reason = errno;
    close(connection);
    errno = reason;
    return -1;
}

static double seconds_now(void)
{
    struct timespec now;
    clock_gettime(CLOCK_MONOTONIC, &now);
    return (double)now.tv_sec + (double)now.tv_nsec / 1e9;
}

/* A connection, and if nobody listens there yet, it is tried again until its seconds have passed. */
static int connection_within(const listener *where)
{
    const struct timespec pause = {.tv_nsec = 50000000};
    double deadline = seconds_now() + where->seconds;
    bool is_socket = where->port[0] == '\0';
    for (;;) {
        int connection = is_socket ? connection_to_socket(where->host) : connection_to_port(where);
        bool comes_later = errno == ECONNREFUSED || errno == EINTR || (is_socket && errno == ENOENT);
        if (connection >= 0 || !comes_later || seconds_now() >= deadline)
            return connection;
        nanosleep(&pause, NULL);
    }
}

/* Puts this token or, without one, that of MONITOR_TOKEN into `where`, with its LF: it has to be freed. */
static monitor_status put_token(const char *token, listener *where)
{
    if (token == NULL || token[0] == '\0')
        token = getenv("MONITOR_TOKEN");
    where->token = NULL;
    if (token == NULL || token[0] == '\0')
        return MONITOR_RECORDED;
    size_t size = strlen(token);
    if (size > MONITOR_TOKEN_BYTE_LIMIT || strpbrk(token, "\n\r") != NULL)
        return MONITOR_TOKEN;
    where->token = malloc(size + 2);
    if (where->token == NULL)
        return MONITOR_SYSTEM;
    memcpy(where->token, token, size);
    strcpy(where->token + size, "\n");
    return MONITOR_RECORDED;
}

/* A connection that has begun with the token; -1 with errno if there is none. */
static int connection_with_token(const listener *where)
{
    int connection = connection_within(where);
    size_t done = 0, size = connection < 0 || where->token == NULL ? 0 : strlen(where->token);
    while (done < size) {
        ssize_t taken = send(connection, where->token + done, size - done, MSG_NOSIGNAL);
        if (taken < 0 && errno != EINTR) {
            int reason = errno;
            close(connection);
            errno = reason;
            return -1;
        }
        done += taken < 0 ? 0 : (size_t)taken;
    }
    return connection;
}

static monitor_status to_listener(const char *process, listener *where, const char *token, int options,
                                  monitor_recorder **made)
{
    *made = NULL;
    if (!is_name(process))
        return MONITOR_PROCESS_NAME;
    if (!add_long(&options) || (options & MONITOR_LONG) != 0)
        return MONITOR_NOT_LONG;
    monitor_status status = put_token(token, where);
    if (status != MONITOR_RECORDED)
        return status;
    int connection = connection_with_token(where);
    status = connection < 0 ? MONITOR_SYSTEM : over_own_descriptor(process, connection, made);
    int reason = errno;
    if (status == MONITOR_RECORDED)
        (*made)->where = *where;
    else
        free(where->token);
    errno = reason;
    return status;
}

monitor_status monitor_to_port_with(const char *process, uint16_t port, double seconds, const char *token,
                                    monitor_recorder **made)
{
    listener where = {.host = "127.0.0.1", .seconds = seconds};
    snprintf(where.port, sizeof where.port, "%u", (unsigned)port);
    return to_listener(process, &where, token, 0, made);
}

monitor_status monitor_to_port(const char *process, uint16_t port, double seconds, monitor_recorder **made)
{
    return monitor_to_port_with(process, port, seconds, NULL, made);
}

/* Whether the text has only these signs. */
static bool has_only(const char *text, size_t size, const char *signs)
{
    for (size_t i = 0; i < size; i++)
        if (text[i] == '\0' || strchr(signs, text[i]) == NULL)
            return false;
    return true;
}

#define DIGITS "0123456789"
#define HEX DIGITS "abcdefABCDEF"
#define LETTERS "abcdefghijklmnopqrstuvwxyzABCDEFGHIJKLMNOPQRSTUVWXYZ"

/* Puts the host of a port into `where`: this machine, a name or an address. One of IPv6 stands in brackets. */
static bool put_host(const char *text, size_t size, listener *where)
{
    static const char name_signs[] = LETTERS DIGITS ".-_", address_signs[] = HEX ":.";
    bool is_own = size == 0 || (size == 9 && strncmp(text, "localhost", size) == 0);
    if (size >= 2 && text[0] == '[' && text[size - 1] == ']') {
        text++;
        size -= 2;
        const char *zone = memchr(text, '%', size);
        size_t address = zone == NULL ? size : (size_t)(zone - text);
        size_t rest = size - address;
        if (address == 0 || !has_only(text, address, address_signs) || rest == 1 ||
            (rest > 1 && !has_only(zone + 1, rest - 1, name_signs)))
            return false;
    } else if (!has_only(text, size, name_signs)) {
        return false;
    }
    if (size >= sizeof where->host)
        return false;
    snprintf(where->host, sizeof where->host, "%.*s", (int)size, is_own ? "" : text);
    if (is_own)
        strcpy(where->host, "127.0.0.1");
    return true;
}

/* Puts the port or the socket that MONITOR_TO names into `where`, with no host for a folder. */
static monitor_status find_place(const char *place, listener *where)
{
    static const char socket_begin[] = "unix:";
    size_t begin = sizeof socket_begin - 1;
    where->host[0] = where->port[0] = '\0';
    if (place == NULL || place[0] == '\0')
        return MONITOR_WHERE;
    if (strncmp(place, socket_begin, begin) == 0) {
        const char *path = place + begin;
        if (path[0] != '/' || strlen(path) >= sizeof((struct sockaddr_un *)0)->sun_path)
            return MONITOR_WHERE;
        strcpy(where->host, path);
        return MONITOR_RECORDED;
    }
    const char *colon = strrchr(place, ':');
    if (colon == NULL || strpbrk(place, "/\\") != NULL)
        return MONITOR_RECORDED;
    size_t digits = strlen(colon + 1);
    if (digits < 1 || digits > 5 || !has_only(colon + 1, digits, DIGITS))
        return MONITOR_WHERE;
    long port = strtol(colon + 1, NULL, 10);
    if (port < 1 || port > 65534 || !put_host(place, (size_t)(colon - place), where))
        return MONITOR_WHERE;
    snprintf(where->port, sizeof where->port, "%ld", port);
    return MONITOR_RECORDED;
}

/* The options, and notes if the environment says so; -1 if it says what it can't. */
static int with_environment(int options)
{
    const char *text = getenv("MONITOR_NOTES");
    if (text == NULL || text[0] == '\0' || strcmp(text, "0") == 0)
        return options;
    return strcmp(text, "1") == 0 ? options | MONITOR_NOTES : -1;
}

monitor_status monitor_from_environment(const char *process, monitor_recorder **made)
{
    return monitor_from_environment_with_at(NULL, process, 0, made);
}

monitor_status monitor_from_environment_with_at(const monitor_note *note, const char *process, int options,
                                                monitor_recorder **made)
{
    listener where = {.seconds = 10};
    const char *place = getenv("MONITOR_TO");
    *made = NULL;
    if (!is_name(process))
        return MONITOR_PROCESS_NAME;
    monitor_status found = find_place(place, &where);
    if (found != MONITOR_RECORDED)
        return found;
    bool is_folder = where.host[0] == '\0';
    options = with_environment(options);
    if (options < 0 || (!is_folder && (options & MONITOR_NOTES) != 0))
        return MONITOR_NO_NOTES;
    if (!is_folder)
        return (options & MONITOR_AGAIN) != 0 ? MONITOR_NOT_AGAIN : to_listener(process, &where, NULL, options, made);
    if (!add_long(&options))
        return MONITOR_NOT_LONG;
    if (mkdir(place, 0777) != 0 && errno != EEXIST)
        return MONITOR_SYSTEM;
    size_t room = strlen(place) + strlen(process) + sizeof "/.stream";
    char *path = malloc(room);
    if (path == NULL)
        return MONITOR_SYSTEM;
    snprintf(path, room, "%s/%s.stream", place, process);
    monitor_status status = monitor_to_file_with_at(note, process, path, options, made);
    int error = errno;
    free(path);
    errno = error;
    return status;
}

/* Whether an event may be recorded; the lock is held. One of a strand's events is kept for its end. */
static monitor_status room_of(const monitor_recorder *recorder)
{
    size_t limit = is_long(recorder) ? MONITOR_LONG_EVENT_LIMIT : MONITOR_EVENT_LIMIT;
    if (recorder->is_ended)
        return MONITOR_ENDED;
    if (recorder->is_broken)
        return MONITOR_BROKEN;
    return recorder->events < limit - (recorder->root != NULL) ? MONITOR_RECORDED : MONITOR_EVENTS;
}

/* Checks the message and the variables of an event, and writes its note and its line; the lock is held. */
static monitor_status record(const monitor_note *note, monitor_recorder *recorder, const char *field, const char *id,
                             const monitor_setting *settings, size_t count)
{
    if (id != NULL && !is_id(id, is_long(recorder) ? MONITOR_LONG_ID_BYTE_LIMIT : MONITOR_ID_BYTE_LIMIT))
        return MONITOR_ID;
    if (id != NULL && has_id(&recorder->ids, id))
        return MONITOR_ID_TWICE;
    monitor_status status = check_settings(recorder, settings, count);
    if (status == MONITOR_RECORDED && id != NULL && !reserve_id(&recorder->ids, id))
        status = MONITOR_SYSTEM;
    if (status == MONITOR_RECORDED)
        status = write_note(recorder, note);
    if (status != MONITOR_RECORDED)
        return status;
    char room[LINE_ROOM];
    line_text line = {room, 0};
    put_event(&line, field, id, settings, count);
    status = write_line(recorder, &line);
    if (status != MONITOR_RECORDED)
        return status;
    recorder->events++;
    keep_variables(recorder, settings, count);
    if (id != NULL)
        keep_id(&recorder->ids, id);
    return MONITOR_RECORDED;
}

static monitor_status record_locked(const monitor_note *note, monitor_recorder *recorder, const char *field,
                                    const char *id, const monitor_setting *settings, size_t count)
{
    if (getpid() != recorder->owner)
        return MONITOR_FORK;
    monitor_lock(recorder);
    monitor_status status = room_of(recorder);
    if (status == MONITOR_RECORDED)
        status = record(note, recorder, field, id, settings, count);
    monitor_unlock(recorder);
    return status;
}

monitor_status monitor_event_at(const monitor_note *note, monitor_recorder *recorder, const monitor_setting *settings,
                                size_t count)
{
    return record_locked(note, recorder, NULL, NULL, settings, count);
}

/* Records a send with an id that it makes; the lock is held. */
static monitor_status send_any(const monitor_note *note, monitor_recorder *recorder, char id[MONITOR_ID_ROOM],
                               const monitor_setting *settings, size_t count)
{
    char made[MONITOR_ID_ROOM];
    size_t number = recorder->sends;
    do {
        snprintf(made, sizeof made, "%s-%zu", recorder->process, ++number);
    } while (has_id(&recorder->ids, made));
    monitor_status status = record(note, recorder, "send", made, settings, count);
    if (status == MONITOR_RECORDED) {
        recorder->sends = number;
        strcpy(id, made);
    }
    return status;
}

monitor_status monitor_send_at(const monitor_note *note, monitor_recorder *recorder, char id[MONITOR_ID_ROOM],
                               const monitor_setting *settings, size_t count)
{
    id[0] = '\0';
    if (getpid() != recorder->owner)
        return MONITOR_FORK;
    monitor_lock(recorder);
    monitor_status status = room_of(recorder);
    if (status == MONITOR_RECORDED)
        status = send_any(note, recorder, id, settings, count);
    monitor_unlock(recorder);
    return status;
}

monitor_status monitor_send_as_at(const monitor_note *note, monitor_recorder *recorder, const char *id,
                                  const monitor_setting *settings, size_t count)
{
    return record_locked(note, recorder, "send", id == NULL ? "" : id, settings, count);
}

monitor_status monitor_receive_at(const monitor_note *note, monitor_recorder *recorder, const char *id,
                                  const monitor_setting *settings, size_t count)
{
    return record_locked(note, recorder, "recv", id == NULL ? "" : id, settings, count);
}

void monitor_lock(monitor_recorder *recorder)
{
    pthread_mutex_lock(&recorder->lock);
}

void monitor_unlock(monitor_recorder *recorder)
{
    pthread_mutex_unlock(&recorder->lock);
}

size_t monitor_events(monitor_recorder *recorder)
{
    monitor_lock(recorder);
    size_t events = recorder->events;
    monitor_unlock(recorder);
    return events;
}

/* Strands, and ends */

/* Why the process can have no strand of this name; the lock of the family is held. */
static monitor_status check_strand(const monitor_recorder *root, const char *name)
{
    if (strcmp(root->process, name) == 0)
        return MONITOR_NAME_TWICE;
    for (size_t i = 0; i < root->strand_count; i++)
        if (strcmp(root->strands[i]->process, name) == 0)
            return MONITOR_NAME_TWICE;
    if (root->strand_count == (is_long(root) ? MONITOR_LONG_PROCESS_LIMIT : MONITOR_PROCESS_LIMIT) - 1)
        return MONITOR_PROCESSES;
    return root->folder == NULL && root->where.host[0] == '\0' ? MONITOR_NO_PLACE : MONITOR_RECORDED;
}

/* Whether the path is that of the process's own file, which isn't replaced. */
static bool is_own_file(const monitor_recorder *root, const char *path)
{
    struct stat own, other;
    return fstat(root->descriptor, &own) == 0 && stat(path, &other) == 0 && own.st_dev == other.st_dev &&
           own.st_ino == other.st_ino;
}

/* Where the strand of this name is recorded, with its notes; -1 with errno if that can't be opened. */
static int descriptor_for(const monitor_recorder *root, const char *name, int *notes)
{
    if (root->folder == NULL)
        return connection_with_token(&root->where);
    size_t room = strlen(root->folder) + strlen(name) + sizeof ending;
    char *path = malloc(room);
    if (path == NULL)
        return -1;
    snprintf(path, room, "%s%s%s", root->folder, name, ending);
    bool is_own = is_own_file(root, path);
    int descriptor = is_own ? -1 : open_files(path, root->options, notes);
    int reason = is_own ? EEXIST : errno;
    free(path);
    errno = reason;
    return descriptor;
}

/* Makes room for one more strand; false with errno if there is no memory. */
static bool reserve_strand(monitor_recorder *root)
{
    if (root->strand_count < root->strand_room)
        return true;
    size_t room = root->strand_room == 0 ? MONITOR_PROCESS_LIMIT : 2 * root->strand_room;
    monitor_recorder **strands = realloc(root->strands, room * sizeof *strands);
    if (strands == NULL)
        return false;
    root->strands = strands;
    root->strand_room = room;
    return true;
}

/* A strand that has written its first line. */
static monitor_status begin_strand(monitor_recorder *root, const char *name, monitor_recorder **made)
{
    pthread_mutex_lock(&root->family);
    monitor_status status = check_strand(root, name);
    if (status == MONITOR_RECORDED && !reserve_strand(root))
        status = MONITOR_SYSTEM;
    if (status == MONITOR_RECORDED) {
        int notes = -1;
        int descriptor = descriptor_for(root, name, &notes);
        status = descriptor < 0 ? MONITOR_SYSTEM : over_files(name, descriptor, notes, made);
    }
    if (status == MONITOR_RECORDED) {
        (*made)->root = root;
        root->strands[root->strand_count++] = *made;
    }
    pthread_mutex_unlock(&root->family);
    return status;
}

/* Closes the files or the connection; the status if that succeeds. */
static monitor_status close_files(monitor_recorder *recorder, monitor_status status)
{
    int reason = errno;
    bool is_closed = close_once(recorder->descriptor) == 0;
    int failure = errno;
    if (recorder->notes >= 0 && close_once(recorder->notes) != 0 && is_closed) {
        is_closed = false;
        failure = errno;
    }
    if (!is_closed && status == MONITOR_RECORDED) {
        reason = failure;
        status = MONITOR_SYSTEM;
    }
    errno = reason;
    return status;
}

/* Closes the strand, of which the lock is held; it is kept. */
static monitor_status close_strand(monitor_recorder *strand, monitor_status status)
{
    strand->is_ended = true;
    forget_ids(&strand->ids);
    return close_files(strand, status);
}

monitor_status monitor_strand_at(const monitor_note *note, monitor_recorder *recorder, const char *name,
                                 monitor_recorder **made)
{
    char id[MONITOR_ID_ROOM];
    monitor_recorder *strand = NULL;
    *made = NULL;
    if (!is_name(name))
        return MONITOR_PROCESS_NAME;
    if (getpid() != recorder->owner)
        return MONITOR_FORK;
    monitor_lock(recorder);
    monitor_status status = room_of(recorder);
    if (status == MONITOR_RECORDED)
        status = begin_strand(recorder->root == NULL ? recorder : recorder->root, name, &strand);
    if (status == MONITOR_RECORDED) {
        status = send_any(note, recorder, id, MONITOR_NOTHING);
        if (status == MONITOR_RECORDED)
            status = monitor_receive_at(note, strand, id, MONITOR_NOTHING);
        if (status == MONITOR_RECORDED)
            *made = strand;
        else
            close_strand(strand, status);
    }
    monitor_unlock(recorder);
    return status;
}

monitor_status monitor_join_at(const monitor_note *note, monitor_recorder *recorder, monitor_recorder *strand,
                               const monitor_setting *settings, size_t count)
{
    char last[MONITOR_ID_ROOM] = "";
    if (getpid() != recorder->owner)
        return MONITOR_FORK;
    if (strand != NULL) {
        monitor_lock(strand);
        strcpy(last, strand->last);
        monitor_unlock(strand);
    }
    monitor_lock(recorder);
    monitor_status status = room_of(recorder);
    if (status == MONITOR_RECORDED)
        status = last[0] == '\0' ? MONITOR_NOT_ENDED : record(note, recorder, "recv", last, settings, count);
    monitor_unlock(recorder);
    return status;
}

static monitor_status write_end(monitor_recorder *recorder)
{
    char room[LINE_ROOM];
    line_text line = {room, 0};
    if (recorder->is_broken)
        return MONITOR_BROKEN;
    put(&line, "{\"end\":true}\n");
    return write_line(recorder, &line);
}

/* Ends a strand, with the message that whoever joins it receives. */
static monitor_status end_strand(const monitor_note *note, monitor_recorder *strand)
{
    monitor_status status = MONITOR_RECORDED;
    if (getpid() != strand->owner)
        return MONITOR_FORK;
    monitor_lock(strand);
    if (!strand->is_ended) {
        status = strand->is_broken ? MONITOR_BROKEN : send_any(note, strand, strand->last, MONITOR_NOTHING);
        if (status == MONITOR_RECORDED)
            status = write_end(strand);
        status = close_strand(strand, status);
    }
    monitor_unlock(strand);
    return status;
}

/* Closes the descriptor and gives the memory back; the status if that succeeds. */
static monitor_status release(monitor_recorder *recorder, monitor_status status)
{
    if (!recorder->is_ended)
        status = close_files(recorder, status);
    int reason = errno;
    if (getpid() == recorder->owner) { /* in a fork, a thread that isn't there may hold them */
        pthread_mutex_destroy(&recorder->family);
        pthread_mutex_destroy(&recorder->lock);
    }
    forget_ids(&recorder->ids);
    free(recorder->strands);
    free(recorder->folder);
    free(recorder->where.token);
    free(recorder);
    errno = reason;
    return status;
}

/* Releases the strands, with their end lines if they are to have them; what failed first, if something did. */
static monitor_status release_strands(monitor_recorder *root, bool have_ends)
{
    monitor_status first = MONITOR_RECORDED;
    int reason = errno;
    for (size_t i = 0; i < root->strand_count; i++) {
        monitor_recorder *strand = root->strands[i];
        bool is_to_end = have_ends && !strand->is_ended && !strand->is_broken;
        monitor_status status = release(strand, is_to_end ? write_end(strand) : MONITOR_RECORDED);
        if (first == MONITOR_RECORDED && status != MONITOR_RECORDED) {
            first = status;
            reason = errno;
        }
    }
    errno = reason;
    return first;
}

monitor_status monitor_close_at(const monitor_note *note, monitor_recorder *recorder)
{
    if (recorder->root != NULL)
        return end_strand(note, recorder);
    bool is_fork = getpid() != recorder->owner;
    monitor_status strands = release_strands(recorder, !is_fork);
    int reason = errno;
    monitor_status status = release(recorder, is_fork ? MONITOR_FORK : write_end(recorder));
    if (status != MONITOR_RECORDED)
        return status;
    errno = reason;
    return strands;
}

void monitor_abandon_at(const monitor_note *note, monitor_recorder *recorder)
{
    if (recorder->root != NULL) {
        end_strand(note, recorder);
        return;
    }
    release_strands(recorder, false);
    release(recorder, MONITOR_RECORDED);
}

/* What to do if a recording is over the limits of a session. */
#define AS_A_LONG_RUN \
    "or record it as a long run: by the option MONITOR_LONG or MONITOR_LONG=1, and reduce it by monitor_reduce.py"

const char *monitor_text(monitor_status status)
{
    switch (status) {
    case MONITOR_RECORDED: return "recorded";
    case MONITOR_PROCESS_NAME: return "not a name of a process";
    case MONITOR_VARIABLE_NAME: return "not a name of a variable, or one that stands twice";
    case MONITOR_VARIABLES: return "a process has at most 16 variables";
    case MONITOR_EVENTS:
        return "a process has at most 10,000 events, of which a strand's last one is its end; record fewer, "
            AS_A_LONG_RUN;
    case MONITOR_ID: return "the id of a message has 1 to 64 bytes, or 1,024 in a long run, which are UTF-8";
    case MONITOR_ID_TWICE: return "the process has sent or received a message with this id before";
    case MONITOR_FORK: return "the recorder belongs to the process of which this one is a fork";
    case MONITOR_BROKEN: return "an earlier line could not be written";
    case MONITOR_SYSTEM: return "the system could not open or write the recording, in a file or where MONITOR_TO says";
    case MONITOR_ENDED: return "the strand has ended";
    case MONITOR_NAME_TWICE: return "another process of this recording has this name: give each strand one of its own";
    case MONITOR_PROCESSES:
        return "a session has at most 16 processes, and a process and its strands are as many; begin fewer strands, "
            AS_A_LONG_RUN;
    case MONITOR_NO_PLACE: return "no place for the stream of a strand: record to a file or a port by its name";
    case MONITOR_NOT_ENDED: return "not a strand that has ended: wait for it, and then join it";
    case MONITOR_WHERE:
        return "MONITOR_TO names no place: it names a folder, which has a slash if it has a colon, a port as :7411, "
               "host:7411 or [::1]:7411, from 1 to 65534, or a socket as unix:/run/a.sock, of at most 107 bytes";
    case MONITOR_RUNNING:
        return "an earlier incarnation still runs: what is started beside it is no later one, but a process of its own";
    case MONITOR_NOT_AGAIN:
        return "no earlier incarnation can be told: it has a file in a folder, which isn't replaced";
    case MONITOR_NOT_LONG:
        return "no long recording is made: MONITOR_LONG is 1 for one, and else 0 or not set; and none goes to a port or "
               "a socket, of MONITOR_TO or not, since monitor serve judges within the limits of a session: record to a "
               "folder, and reduce it by monitor_reduce.py";
    case MONITOR_TOKEN:
        return "no token: MONITOR_TOKEN, or the one that is given, is one line of at most 1,024 bytes, without LF, CR "
               "and NUL";
    case MONITOR_NO_NOTES:
        return "no place for notes, which go beside a file whose name ends with .stream and to no port; MONITOR_NOTES is "
               "1 for notes, and else 0 or not set";
    }
    return "not a status";
}

/* Locks */

monitor_status monitor_mutex_init(monitor_mutex *mutex)
{
    mutex->sender[0] = mutex->sent[0] = '\0';
    errno = pthread_mutex_init(&mutex->lock, NULL);
    return errno == 0 ? MONITOR_RECORDED : MONITOR_SYSTEM;
}

monitor_status monitor_mutex_destroy(monitor_mutex *mutex)
{
    errno = pthread_mutex_destroy(&mutex->lock);
    return errno == 0 ? MONITOR_RECORDED : MONITOR_SYSTEM;
}

/* Records the receipt of the message that came with the lock, if there is one from another process. The lock is held, and
 * is released if the receipt isn't recorded. */
static monitor_status receive_lock(const monitor_note *note, monitor_mutex *mutex, monitor_recorder *recorder)
{
    if (recorder == NULL || mutex->sent[0] == '\0' || strcmp(mutex->sender, recorder->process) == 0)
        return MONITOR_RECORDED;
    monitor_status status = monitor_receive_at(note, recorder, mutex->sent, MONITOR_NOTHING);
    int reason = errno;
    if (status == MONITOR_RECORDED)
        mutex->sent[0] = '\0';
    else
        pthread_mutex_unlock(&mutex->lock);
    errno = reason;
    return status;
}

monitor_status monitor_mutex_lock_at(const monitor_note *note, monitor_mutex *mutex, monitor_recorder *recorder)
{
    errno = pthread_mutex_lock(&mutex->lock);
    return errno == 0 ? receive_lock(note, mutex, recorder) : MONITOR_SYSTEM;
}

monitor_status monitor_mutex_trylock_at(const monitor_note *note, monitor_mutex *mutex, monitor_recorder *recorder)
{
    errno = pthread_mutex_trylock(&mutex->lock);
    return errno == 0 ? receive_lock(note, mutex, recorder) : MONITOR_SYSTEM;
}

monitor_status monitor_mutex_unlock_at(const monitor_note *note, monitor_mutex *mutex, monitor_recorder *recorder)
{
    char id[MONITOR_ID_ROOM];
    monitor_status status = MONITOR_RECORDED;
    if (recorder != NULL)
        status = monitor_send_at(note, recorder, id, MONITOR_NOTHING);
    int reason = errno;
    if (recorder != NULL && status == MONITOR_RECORDED) {
        strcpy(mutex->sender, recorder->process);
        strcpy(mutex->sent, id);
    }
    int failure = pthread_mutex_unlock(&mutex->lock);
    if (failure != 0 && status == MONITOR_RECORDED) {
        reason = failure;
        status = MONITOR_SYSTEM;
    }
    errno = reason;
    return status;
}

/* The calls by their names alone, whose events have no place. The header's macros of these names begin with a parenthesis
 * right after them. */

monitor_status(monitor_to_file_with)(const char *process, const char *path, int options, monitor_recorder **made)
{
    return monitor_to_file_with_at(NULL, process, path, options, made);
}

monitor_status(monitor_from_environment_with)(const char *process, int options, monitor_recorder **made)
{
    return monitor_from_environment_with_at(NULL, process, options, made);
}

monitor_status(monitor_event)(monitor_recorder *recorder, const monitor_setting *settings, size_t count)
{
    return monitor_event_at(NULL, recorder, settings, count);
}

monitor_status(monitor_send)(monitor_recorder *recorder, char id[MONITOR_ID_ROOM], const monitor_setting *settings,
                             size_t count)
{
    return monitor_send_at(NULL, recorder, id, settings, count);
}

monitor_status(monitor_send_as)(monitor_recorder *recorder, const char *id, const monitor_setting *settings,
                                size_t count)
{
    return monitor_send_as_at(NULL, recorder, id, settings, count);
}

monitor_status(monitor_receive)(monitor_recorder *recorder, const char *id, const monitor_setting *settings,
                                size_t count)
{
    return monitor_receive_at(NULL, recorder, id, settings, count);
}

monitor_status(monitor_strand)(monitor_recorder *recorder, const char *name, monitor_recorder **made)
{
    return monitor_strand_at(NULL, recorder, name, made);
}

monitor_status(monitor_join)(monitor_recorder *recorder, monitor_recorder *strand, const monitor_setting *settings,
                             size_t count)
{
    return monitor_join_at(NULL, recorder, strand, settings, count);
}

monitor_status(monitor_close)(monitor_recorder *recorder)
{
    return monitor_close_at(NULL, recorder);
}

void(monitor_abandon)(monitor_recorder *recorder)
{
    monitor_abandon_at(NULL, recorder);
}

monitor_status(monitor_mutex_lock)(monitor_mutex *mutex, monitor_recorder *recorder)
{
    return monitor_mutex_lock_at(NULL, mutex, recorder);
}

monitor_status(monitor_mutex_trylock)(monitor_mutex *mutex, monitor_recorder *recorder)
{
    return monitor_mutex_trylock_at(NULL, mutex, recorder);
}

monitor_status(monitor_mutex_unlock)(monitor_mutex *mutex, monitor_recorder *recorder)
{
    return monitor_mutex_unlock_at(NULL, mutex, recorder);
}
