/* Records one process of a distributed program for `monitor`: its events in their order, one line each.
 *
 *     monitor_recorder *recorder;
 *     char id[MONITOR_ID_ROOM];
 *     if (monitor_to_file("left", "left.stream", &recorder) != MONITOR_RECORDED) ..
 *     monitor_event(recorder, MONITOR_SET({"inside", 1}, {"waiting", 0}));  // these are their values from now on
 *     monitor_send(recorder, id, MONITOR_SET({"money", 70}));  // BEFORE the message leaves; the id travels with it
 *     monitor_receive(recorder, other_id, MONITOR_NOTHING);    // AFTER a message has come, with the id that came too
 *     monitor_close(recorder);
 *
 * Each line is handed to the operating system before the call returns, so that nothing that was recorded is lost if
 * the process crashes. Several threads may use one recorder, but no signal handler. What `monitor` would refuse is
 * refused at once, and the recorder goes on as if the call hadn't been made. The formats and limits are those of
 * docs/SPECIFICATION.md.
 *
 * One recorder is one order of events. A thread that waits by itself gets a strand, or the order in which it came is
 * taken for a cause:
 *
 *     monitor_strand(recorder, "worker", &worker);     // where the thread is started; it records to worker.stream
 *     ..
 *     monitor_close(worker);                           // in the thread, at last
 *     ..
 *     monitor_join(recorder, worker, MONITOR_NOTHING); // AFTER the thread has been waited for
 *
 * A session has limits, and a recording that is over them is refused at the call. With MONITOR_LONG, or MONITOR_LONG=1
 * in the environment, it is a long recording, of any length, which monitor_reduce.py reduces before it is judged.
 *
 * Events have no names. With MONITOR_NOTES each has a note in left.notes.jsonl, of the line of the program that
 * recorded it, and of a text if one is given:
 *
 *     monitor_to_file_with("left", "left.stream", MONITOR_NOTES, &recorder);
 *     monitor_event_at(MONITOR_NOTE("the lock is ours"), recorder, MONITOR_SET({"inside", 1}));
 *
 * It is C11 with POSIX threads: compile monitor_recorder.c with the program, and link with -pthread. */
#ifndef MONITOR_RECORDER_H
#define MONITOR_RECORDER_H

#include <pthread.h>
#include <stddef.h>
#include <stdint.h>

#ifdef __cplusplus
extern "C" {
#endif

#define MONITOR_EVENT_LIMIT 10000
#define MONITOR_VARIABLE_LIMIT 16
#define MONITOR_PROCESS_LIMIT 16
#define MONITOR_NAME_BYTE_LIMIT 32
#define MONITOR_ID_BYTE_LIMIT 64
/* The limits of a long recording. Ids that are made keep the limit above. */
#define MONITOR_LONG_EVENT_LIMIT 2147483647
#define MONITOR_LONG_PROCESS_LIMIT 4096
#define MONITOR_LONG_ID_BYTE_LIMIT 1024
/* At most so many bytes has a note of its text, and of its place's file: what is longer is cut. */
#define MONITOR_NOTE_BYTE_LIMIT 1024
/* At most so many bytes has a token. */
#define MONITOR_TOKEN_BYTE_LIMIT 1024
/* The room that an id takes with the NUL after it. */
#define MONITOR_ID_ROOM (MONITOR_ID_BYTE_LIMIT + 1)
/* An array that is put an id into has this room at least: compilers of C warn of a shorter one, as of the text "x". */
#ifdef __cplusplus
#define MONITOR_ID_PLACE MONITOR_ID_ROOM
#else
#define MONITOR_ID_PLACE static MONITOR_ID_ROOM
#endif

typedef struct monitor_recorder monitor_recorder;

/* A variable and the value that it has from now on. */
typedef struct {
    const char *name;
    int64_t value;
} monitor_setting;

/* The last two arguments of a call: the settings and how many they are. */
#define MONITOR_SET(...)                       \
    ((const monitor_setting[]){__VA_ARGS__}),  \
    (sizeof((const monitor_setting[]){__VA_ARGS__}) / sizeof(monitor_setting))
#define MONITOR_NOTHING NULL, 0

/* How a call ended. Only with MONITOR_RECORDED is its line written; with all but MONITOR_SYSTEM nothing is. */
typedef enum {
    MONITOR_RECORDED,
    MONITOR_PROCESS_NAME,  /* no name: letters, digits and _, at most 32, no digit first, no word of predicates */
    MONITOR_VARIABLE_NAME, /* no name of a variable, or one that stands twice */
    MONITOR_VARIABLES,     /* a process has at most 16 variables */
    MONITOR_EVENTS,        /* a process has at most 10,000 events, of which a strand's last one is its end; in a long
                            * recording 2,147,483,647 */
    MONITOR_ID,            /* an id has 1 to 64 bytes, or 1,024 in a long recording, which are UTF-8 */
    MONITOR_ID_TWICE,      /* the process has sent or received this id before */
    MONITOR_FORK,          /* the recorder belongs to the process of which this one is a fork */
    MONITOR_BROKEN,        /* an earlier line could not be written, so none is any more */
    MONITOR_SYSTEM,        /* the system refused: see errno; a part of the line may have been written */
    MONITOR_ENDED,         /* the strand has ended */
    MONITOR_NAME_TWICE,    /* the name is that of the process or of another strand of it */
    MONITOR_PROCESSES,     /* a process and its strands are at most 16, since a session has no more processes; in a long
                            * recording 4,096 */
    MONITOR_NO_PLACE,      /* the recorder was made for a descriptor: there is no place for the stream of a strand */
    MONITOR_NOT_ENDED,     /* what is to be joined is no strand that has ended */
    MONITOR_WHERE,         /* MONITOR_TO isn't set, or names no folder, port or socket that there can be */
    MONITOR_NO_NOTES,      /* there is no place for notes, as at a port, or MONITOR_NOTES is neither 1 nor 0 */
    MONITOR_RUNNING,       /* an earlier incarnation of the process still runs */
    MONITOR_NOT_AGAIN,     /* no earlier incarnation can be told, as of a connection or of a file that is replaced */
    MONITOR_NOT_LONG,      /* a long recording goes to no monitor that listens, or MONITOR_LONG is neither 1 nor 0 */
    MONITOR_TOKEN          /* the token that is given, or MONITOR_TOKEN, is over 1,024 bytes, or has a LF or CR */
} monitor_status;

/* How a file is recorded to: these, joined by |, or 0. */
enum {
    /* Each event gets a note, in a file beside: that of left.stream is left.notes.jsonl. The path has to end with
     * .stream then. docs/RECORDING.md has the format. */
    MONITOR_NOTES = 1,
    /* A file that is there already is lost, with its notes. */
    MONITOR_REPLACE = 2,
    /* A file that is there is what the process recorded before it was killed and started again. Then a further
     * incarnation is recorded, as a process of its own and to a file beside: of left and left.stream the second one is
     * left_2 in left_2.stream. Its first event receives the message left-ended, by which it comes after all that the
     * one before did; monitor_mend adds the send. It is MONITOR_RUNNING while the one before still runs. */
    MONITOR_AGAIN = 4,
    /* It is a long recording, of up to 2,147,483,647 events in a process, 4,096 processes with the strands, and ids of
     * 1,024 bytes. It has to be reduced by monitor_reduce.py before it is judged. MONITOR_LONG=1 in the environment
     * says the same, to each call that makes a recorder. */
    MONITOR_LONG = 8
};

/* Records to a new file. One that is there already is MONITOR_SYSTEM with EEXIST. */
monitor_status monitor_to_file(const char *process, const char *path, monitor_recorder **made);

/* The same, with options. */
monitor_status monitor_to_file_with(const char *process, const char *path, int options, monitor_recorder **made);

/* Records to `monitor serve` on a port of this machine. If nobody listens there yet, it is tried again until these
 * seconds have passed. A later call waits while the monitor doesn't read. With MONITOR_LONG=1 in the environment it is
 * MONITOR_NOT_LONG, since a long recording is reduced before it is judged. */
monitor_status monitor_to_port(const char *process, uint16_t port, double seconds, monitor_recorder **made);

/* The same, with a token. Each connection begins with it, if there is one, as the line that `monitor serve --token`
 * asks for: this text or, if that is NULL or empty, MONITOR_TOKEN in the environment. */
monitor_status monitor_to_port_with(const char *process, uint16_t port, double seconds, const char *token,
                                    monitor_recorder **made);

/* Records to where MONITOR_TO in the environment says, so that no code changes between a test and a live session: to a
 * new file NAME.stream in a folder of this name, which is made if there is none; or to `monitor serve`, on a port of
 * this machine, of :7411 or localhost:7411, on one of another machine, of host:7411 or [fe80::1]:7411, or by a Unix
 * socket, of unix:/run/monitor.sock, for which ten seconds are waited. With MONITOR_NOTES=1 in the environment each
 * event gets a note beside the file. A connection has no place for notes, keeps no earlier incarnation, and is judged
 * within the limits of a session, so with one notes are MONITOR_NO_NOTES, MONITOR_AGAIN is MONITOR_NOT_AGAIN, and
 * MONITOR_LONG is MONITOR_NOT_LONG. It begins with the token of MONITOR_TOKEN, as with that of monitor_to_port_with.
 * What has a colon and no slash is no folder. */
monitor_status monitor_from_environment(const char *process, monitor_recorder **made);

/* The same, with options. */
monitor_status monitor_from_environment_with(const char *process, int options, monitor_recorder **made);

/* Records to a file, a pipe or a connection that is open for writing, and waits if it can't write. If this succeeds,
 * the descriptor is closed with the recorder. Of a pipe that nobody reads any more the next
 * call says MONITOR_SYSTEM, and raises no SIGPIPE. */
monitor_status monitor_to_descriptor(const char *process, int descriptor, monitor_recorder **made);

/* The same, with MONITOR_LONG or 0. */
monitor_status monitor_to_descriptor_with(const char *process, int descriptor, int options, monitor_recorder **made);

/* Something happened in this process; these variables have these values from now on. */
monitor_status monitor_event(monitor_recorder *recorder, const monitor_setting *settings, size_t count);

/* This process sends a message to one other or, if the document is of version 2, to several: call it once, BEFORE the
 * message leaves. The id that it makes, the process's name and a counter as in left-1, has to travel with the message.
 * It is put into `id`, and what stands there before says nothing: an id of your own goes to monitor_send_as. */
monitor_status monitor_send(monitor_recorder *recorder, char id[MONITOR_ID_PLACE], const monitor_setting *settings,
                            size_t count);

/* The same, with an id that no other send of the session has. */
monitor_status monitor_send_as(monitor_recorder *recorder, const char *id, const monitor_setting *settings,
                               size_t count);

/* A message has come, with this id: call it AFTER that. A second copy of a message is MONITOR_ID_TWICE. */
monitor_status monitor_receive(monitor_recorder *recorder, const char *id, const monitor_setting *settings,
                               size_t count);

/* Begins a strand, for a thread that waits by itself: a recorder which is a process of the session, of this name. It is
 * recorded to NAME.stream beside the file of this recorder, or to the same port. This process sends it a message, so
 * call it where the thread is started. A strand ends by `monitor_close`; then it sends a message to whoever joins it.
 * It ends with its process at the latest, and is there until then, to be joined. */
monitor_status monitor_strand(monitor_recorder *recorder, const char *name, monitor_recorder **made);

/* This process has waited for a strand, which has ended: call it AFTER that. It receives the strand's last message. */
monitor_status monitor_join(monitor_recorder *recorder, monitor_recorder *strand, const monitor_setting *settings,
                            size_t count);

/* Keeps other threads from recording, so that an event and its line stay together. One thread may lock it again. */
void monitor_lock(monitor_recorder *recorder);
void monitor_unlock(monitor_recorder *recorder);

/* How many events are recorded. */
size_t monitor_events(monitor_recorder *recorder);

/* Nothing more happens in this process: writes the end line, also of its strands that have not ended. However it ends,
 * the recorder and its strands are gone; no other thread may use them meanwhile or afterwards. A strand only ends by
 * it: it sends its last message before the end line, and can be joined. A second call does nothing then. */
monitor_status monitor_close(monitor_recorder *recorder);

/* The same without end lines, so that `monitor` refuses the streams as `unended`. A strand ends as by monitor_close. */
void monitor_abandon(monitor_recorder *recorder);

/* What a status says, as a text. */
const char *monitor_text(monitor_status status);

/* A lock between threads, whose release is a message to whoever locks it next: a send of the recorder that is given and
 * a receipt, if that is by another one. So what the lock keeps apart is kept apart in the recording. But the order in
 * which it was locked is a cause then, and no other order is judged. A recorder that is NULL records nothing. */
typedef struct {
    pthread_mutex_t lock;
    char sender[MONITOR_NAME_BYTE_LIMIT + 1]; /* who has sent the message, of which this is the id, if there is one */
    char sent[MONITOR_ID_ROOM];
} monitor_mutex;

#define MONITOR_MUTEX_INITIALIZER {PTHREAD_MUTEX_INITIALIZER, "", ""}

/* A lock that is free. What the system says is MONITOR_SYSTEM, with errno, also of the calls below. */
monitor_status monitor_mutex_init(monitor_mutex *mutex);

/* Waits until it is free, holds it, and records the receipt. With any status but MONITOR_RECORDED it isn't held. */
monitor_status monitor_mutex_lock(monitor_mutex *mutex, monitor_recorder *recorder);

/* The same, or MONITOR_SYSTEM with EBUSY if it isn't free. */
monitor_status monitor_mutex_trylock(monitor_mutex *mutex, monitor_recorder *recorder);

/* Records the send, and then releases it, whatever becomes of the send. */
monitor_status monitor_mutex_unlock(monitor_mutex *mutex, monitor_recorder *recorder);

monitor_status monitor_mutex_destroy(monitor_mutex *mutex);

/* What the note of an event says: the line of the program that records it, and a text, or NULL. */
typedef struct {
    const char *file;
    int line;
    const char *text;
} monitor_note;

/* The calls above, with what the note of their event says. With NULL the note has no place, as by the plain calls. */
monitor_status monitor_to_file_with_at(const monitor_note *note, const char *process, const char *path, int options,
                                       monitor_recorder **made);
monitor_status monitor_from_environment_with_at(const monitor_note *note, const char *process, int options,
                                                monitor_recorder **made);
monitor_status monitor_event_at(const monitor_note *note, monitor_recorder *recorder, const monitor_setting *settings,
                                size_t count);
monitor_status monitor_send_at(const monitor_note *note, monitor_recorder *recorder, char id[MONITOR_ID_PLACE],
                               const monitor_setting *settings, size_t count);
monitor_status monitor_send_as_at(const monitor_note *note, monitor_recorder *recorder, const char *id,
                                  const monitor_setting *settings, size_t count);
monitor_status monitor_receive_at(const monitor_note *note, monitor_recorder *recorder, const char *id,
                                  const monitor_setting *settings, size_t count);
monitor_status monitor_strand_at(const monitor_note *note, monitor_recorder *recorder, const char *name,
                                 monitor_recorder **made);
monitor_status monitor_join_at(const monitor_note *note, monitor_recorder *recorder, monitor_recorder *strand,
                               const monitor_setting *settings, size_t count);
monitor_status monitor_close_at(const monitor_note *note, monitor_recorder *recorder);
void monitor_abandon_at(const monitor_note *note, monitor_recorder *recorder);
monitor_status monitor_mutex_lock_at(const monitor_note *note, monitor_mutex *mutex, monitor_recorder *recorder);
monitor_status monitor_mutex_trylock_at(const monitor_note *note, monitor_mutex *mutex, monitor_recorder *recorder);
monitor_status monitor_mutex_unlock_at(const monitor_note *note, monitor_mutex *mutex, monitor_recorder *recorder);

/* In C a call is one with the line in which it stands. C++ has monitor_recorder.hpp for that. */
#ifndef __cplusplus
#define MONITOR_NOTE(text) (&(const monitor_note){__FILE__, __LINE__, (text)})
#define monitor_to_file_with(...) monitor_to_file_with_at(MONITOR_NOTE(NULL), __VA_ARGS__)
#define monitor_from_environment_with(...) monitor_from_environment_with_at(MONITOR_NOTE(NULL), __VA_ARGS__)
#define monitor_event(...) monitor_event_at(MONITOR_NOTE(NULL), __VA_ARGS__)
#define monitor_send(...) monitor_send_at(MONITOR_NOTE(NULL), __VA_ARGS__)
#define monitor_send_as(...) monitor_send_as_at(MONITOR_NOTE(NULL), __VA_ARGS__)
#define monitor_receive(...) monitor_receive_at(MONITOR_NOTE(NULL), __VA_ARGS__)
#define monitor_strand(...) monitor_strand_at(MONITOR_NOTE(NULL), __VA_ARGS__)
#define monitor_join(...) monitor_join_at(MONITOR_NOTE(NULL), __VA_ARGS__)
#define monitor_close(...) monitor_close_at(MONITOR_NOTE(NULL), __VA_ARGS__)
#define monitor_abandon(...) monitor_abandon_at(MONITOR_NOTE(NULL), __VA_ARGS__)
#define monitor_mutex_lock(...) monitor_mutex_lock_at(MONITOR_NOTE(NULL), __VA_ARGS__)
#define monitor_mutex_trylock(...) monitor_mutex_trylock_at(MONITOR_NOTE(NULL), __VA_ARGS__)
#define monitor_mutex_unlock(...) monitor_mutex_unlock_at(MONITOR_NOTE(NULL), __VA_ARGS__)
#endif

#ifdef __cplusplus
}
#endif

#endif
