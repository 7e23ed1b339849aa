/* Records each rank of an MPI program as a process of a session of `monitor`, without a change of the program: it is
 * loaded by LD_PRELOAD, or linked. README.md says what it records, how it knows which message was received, and when
 * it gives up.
 *
 * It stands between the program and the library: each MPI_X here calls PMPI_X. It sends nothing itself, and changes no
 * message. */
#define _POSIX_C_SOURCE 200809L
#define _XOPEN_SOURCE 700

/* The functions of MPI are seen by the program, whatever else the compiler hides. */
#pragma GCC visibility push(default)
#include "monitor_mpi.h"
#pragma GCC visibility pop
#include "monitor_recorder.h"

#include <errno.h>
#include <pthread.h>
#include <stdarg.h>
#include <stdatomic.h>
#include <stdbool.h>
#include <stdio.h>
#include <stdlib.h>
#include <string.h>
#include <time.h>

/* So many bytes has the path of a communicator at most: an id with it has at most 62 bytes. */
#define PATH_ROOM 24
/* So long a receive that has been matched may take to complete. */
#define MOST_SECONDS 60

/* What came over a communicator from one rank with one tag, or went to it. */
typedef struct {
    bool is_used, is_receipt;
    int peer, tag;  /* the rank in MPI_COMM_WORLD */
    long count;     /* how many messages have been sent, or matched */
    long probed;    /* the number of the message of which a probe has told, or 0 */
} channel;

/* A communicator. It is there as long as the communicator is, or a request of it is pending. */
typedef struct {
    long holders;
    char path[PATH_ROOM + 1]; /* all its members give it the same; none: it isn't recorded */
    int rank, size;
    int world[MONITOR_PROCESS_LIMIT]; /* the rank in MPI_COMM_WORLD of each member */
    long collectives, children;
    size_t channel_count, channel_room; /* the room is 0 or a power of two */
    channel *channels;
} group;

/* A request that isn't complete: a receive or a nonblocking collective; or one that is persistent. In the list they
 * stand in the order in which they were posted. */
typedef struct pending {
    struct pending *next;
    MPI_Request request;
    enum { RECEIVE, SEND, COLLECTIVE } kind;
    bool is_persistent, is_active;
    bool may_be_cancelled;
    bool is_matched; /* from, tag and number are those of the message; without a number it was cancelled */
    bool is_told;    /* its receipt is recorded */
    group *group;
    int peer, tag; /* as asked for: of a receive the rank in MPI_COMM_WORLD or MPI_ANY_SOURCE, of a send in the group */
    long number;
    int from, from_tag;
    const MPI_Status *status; /* once it is complete, and the call goes on that has completed it */
    uint32_t before; /* of a collective: the members whose call comes before its completion */
} pending;

/* The state of the recorder. One thread at a time is inside a call, or nothing more is recorded. */
static monitor_recorder *recorder;
static char process[MONITOR_NAME_BYTE_LIMIT + 1] = "a rank";
static char *stream_path; /* NULL if it is no file */
static atomic_bool is_recording;
static atomic_int inside;
static bool is_warned_of_threads;
static pthread_t first_thread;
static const char *calling = "MPI_Init";
static int my_rank = -1;
static int keyval = MPI_KEYVAL_INVALID;
static group *of_world;
static pending *first_pending;

/* What goes with the next event. */
static size_t kept_count;
static char kept_names[MONITOR_VARIABLE_LIMIT][MONITOR_NAME_BYTE_LIMIT + 1];
static monitor_setting kept[MONITOR_VARIABLE_LIMIT];

/* The receipt that is recorded last in a call, with what was kept; none if there is no text. */
static char held[MONITOR_ID_ROOM];
static bool something_came;

/* What is said */

static void say(const char *format, ...)
{
    char text[600];
    va_list values;
    va_start(values, format);
    vsnprintf(text, sizeof text, format, values);
    va_end(values);
    fprintf(stderr, "monitor_mpi: %s: %s\n", process, text);
}

/* The file beside the stream that has this ending, or the stream itself, gets another name; whether it has it. */
static bool put_aside(const char *ending, char **name)
{
    int stem = (int)(strlen(stream_path) - strlen(".stream"));
    size_t room = (size_t)stem + strlen(ending) + sizeof ".given-up";
    char *path = malloc(room);
    *name = malloc(room);
    bool is_done = false;
    if (path != NULL && *name != NULL) {
        snprintf(path, room, "%.*s%s", stem, stream_path, ending);
        snprintf(*name, room, "%.*s%s.given-up", stem, stream_path, ending);
        is_done = rename(path, *name) == 0;
    }
    free(path);
    return is_done;
}

/* Nothing more is recorded. The stream has no end line, and gets another name, so that nothing takes it for one of a
 * process that was killed, and so do its notes. The recorder isn't closed, since another thread may be in it. */
static void give_up(const char *reason)
{
    if (!atomic_exchange(&is_recording, false))
        return;
    say("%s: %s: nothing more is recorded", calling, reason);
    if (stream_path == NULL)
        return;
    char *stream, *notes;
    put_aside(".notes.jsonl", &notes);
    if (put_aside(".stream", &stream))
        say("what was recorded is in %s, and no stream of a session", stream);
    free(notes);
    free(stream);
}

static void look_at(monitor_status status)
{
    char reason[400];
    if (status == MONITOR_RECORDED)
        return;
    snprintf(reason, sizeof reason, "%s%s%s", monitor_text(status), status == MONITOR_SYSTEM ? ": " : "",
             status == MONITOR_SYSTEM ? strerror(errno) : "");
    give_up(reason);
}

static void *allocated(void *old, size_t size)
{
    void *made = realloc(old, size);
    if (made == NULL)
        give_up("there is no memory");
    return made;
}

/* Events */

/* What the note of an event says, if there are notes: the call in which it is recorded, but not its line. */
#define CALL (&(const monitor_note){NULL, 0, calling})

static void record_event(void)
{
    size_t count = kept_count;
    kept_count = 0;
    look_at(monitor_event_at(CALL, recorder, kept, count));
}

/* Records the receipt that is held: the last one with what was kept. */
static void release_held(bool is_last)
{
    size_t count = is_last ? kept_count : 0;
    if (held[0] == '\0')
        return;
    kept_count -= count;
    look_at(monitor_receive_at(CALL, recorder, held, kept, count));
    held[0] = '\0';
}

static void record_receipt(const char *id)
{
    release_held(false);
    snprintf(held, sizeof held, "%s", id);
}

static void record_send(const char *id)
{
    release_held(false);
    size_t count = kept_count;
    kept_count = 0;
    look_at(monitor_send_as_at(CALL, recorder, id, kept, count));
}

/* Before a call of the program is done: whether it is recorded. */
static bool enter(const char *call)
{
    if (atomic_fetch_add(&inside, 1) != 0) {
        give_up("two threads are in MPI at once, so the order of their messages isn't known");
        return false;
    }
    calling = call;
    if (!is_recording)
        return false;
    if (!is_warned_of_threads && !pthread_equal(pthread_self(), first_thread)) {
        is_warned_of_threads = true;
        say("%s: another thread than that of MPI_Init: the order of their calls is taken for a cause", call);
    }
    something_came = false;
    return true;
}

/* After it: the error that it gives. */
static int leave(int error)
{
    if (is_recording && error != MPI_SUCCESS)
        give_up("the call failed, so what it has done isn't known");
    if (is_recording && held[0] == '\0' && something_came && kept_count > 0)
        record_event(); /* the message's receipt was recorded by a probe, or the message came from this rank */
    if (is_recording)
        release_held(true);
    atomic_fetch_sub(&inside, 1);
    return error;
}

/* Communicators */

static void drop(group *g)
{
    if (g != NULL && --g->holders == 0) {
        free(g->channels);
        free(g);
    }
}

static int drop_attribute(MPI_Comm comm, int key, void *value, void *nothing)
{
    (void)comm, (void)key, (void)nothing;
    drop(value);
    return MPI_SUCCESS;
}

/* Fills in the members; false if they are more than are recorded, or not all of MPI_COMM_WORLD. */
static bool find_members(group *g, MPI_Comm comm)
{
    MPI_Group members, world;
    int ranks[MONITOR_PROCESS_LIMIT];
    PMPI_Comm_size(comm, &g->size);
    PMPI_Comm_rank(comm, &g->rank);
    if (g->size > MONITOR_PROCESS_LIMIT)
        return false;
    PMPI_Comm_group(comm, &members);
    PMPI_Comm_group(MPI_COMM_WORLD, &world);
    for (int i = 0; i < g->size; i++)
        ranks[i] = i;
    PMPI_Group_translate_ranks(members, g->size, ranks, world, g->world);
    PMPI_Group_free(&members);
    PMPI_Group_free(&world);
    for (int i = 0; i < g->size; i++)
        if (g->world[i] == MPI_UNDEFINED)
            return false;
    return true;
}

/* Knows the communicator from now on, by this path. */
static group *know(MPI_Comm comm, const char *path)
{
    group *g = allocated(NULL, sizeof *g);
    if (g == NULL)
        return NULL;
    *g = (group){.holders = 1};
    snprintf(g->path, sizeof g->path, "%s", path);
    if (!find_members(g, comm)) {
        free(g);
        return NULL;
    }
    PMPI_Comm_set_attr(comm, keyval, g);
    return g;
}

/* What is known of the communicator; NULL, and nothing more is recorded, if it isn't. */
static group *group_of(MPI_Comm comm)
{
    void *value;
    int is_there = 0;
    if (comm == MPI_COMM_WORLD)
        return of_world;
    if (comm != MPI_COMM_NULL)
        PMPI_Comm_get_attr(comm, keyval, &value, &is_there);
    if (is_there)
        return value;
    give_up("the communicator joins two groups, or was made by a call that isn't followed");
    return NULL;
}

/* A call over the communicator makes others. All its members count these calls alike, so no name has to be sent. */
static void name_child(group *parent, long number, MPI_Comm made)
{
    char path[2 * PATH_ROOM + 2];
    if (parent == NULL || made == MPI_COMM_NULL)
        return;
    int size = snprintf(path, sizeof path, "%s_%ld", parent->path, number);
    if (size <= PATH_ROOM)
        know(made, path);
}

/* Channels */

static size_t slot_of(const group *g, bool is_receipt, int peer, int tag)
{
    size_t hash = ((size_t)peer * 2 + is_receipt) * 0x9e3779b97f4a7c15u ^ (size_t)tag * 0xc2b2ae3d27d4eb4fu;
    size_t slot = (hash ^ hash >> 29) & (g->channel_room - 1);
    for (;; slot = (slot + 1) & (g->channel_room - 1)) {
        const channel *c = &g->channels[slot];
        if (!c->is_used || (c->is_receipt == is_receipt && c->peer == peer && c->tag == tag))
            return slot;
    }
}

static bool grow(group *g)
{
    group old = *g;
    size_t room = old.channel_room == 0 ? 32 : 2 * old.channel_room;
    channel *made = allocated(NULL, room * sizeof *made);
    if (made == NULL)
        return false;
    memset(made, 0, room * sizeof *made);
    g->channels = made;
    g->channel_room = room;
    for (size_t i = 0; i < old.channel_room; i++) {
        const channel *c = &old.channels[i];
        if (c->is_used)
            made[slot_of(g, c->is_receipt, c->peer, c->tag)] = *c;
    }
    free(old.channels);
    return true;
}

/* The channel, which is NULL if there is no memory. */
static channel *channel_of(group *g, bool is_receipt, int peer, int tag)
{
    if (2 * g->channel_count >= g->channel_room && !grow(g))
        return NULL;
    channel *c = &g->channels[slot_of(g, is_receipt, peer, tag)];
    if (!c->is_used) {
        *c = (channel){.is_used = true, .is_receipt = is_receipt, .peer = peer, .tag = tag};
        g->channel_count++;
    }
    return c;
}

static void put_id(char id[MONITOR_ID_ROOM], const group *g, int from, int to, int tag, long number)
{
    snprintf(id, MONITOR_ID_ROOM, "m%s.%d.%d.%d.%ld", g->path, from, to, tag, number);
}

/* Sends */

/* A message is about to leave to a rank of this group. */
static void sending_in(group *g, int to, int tag)
{
    char id[MONITOR_ID_ROOM];
    if (to < 0 || to >= g->size)
        return; /* MPI_PROC_NULL, or the library refuses it */
    to = g->world[to];
    channel *c = channel_of(g, false, to, tag);
    if (c == NULL)
        return;
    put_id(id, g, my_rank, to, tag, ++c->count);
    if (to != my_rank)
        record_send(id);
    else if (kept_count > 0)
        record_event();
}

/* A message is about to leave to a rank of the communicator. */
static void sending(MPI_Comm comm, int to, int tag)
{
    group *g = is_recording && to != MPI_PROC_NULL ? group_of(comm) : NULL;
    if (g != NULL)
        sending_in(g, to, tag);
}

/* Receives */

static void append(pending *e)
{
    pending **place = &first_pending;
    while (*place != NULL)
        place = &(*place)->next;
    e->next = NULL;
    *place = e;
}

static void unlink_pending(const pending *e)
{
    pending **place = &first_pending;
    while (*place != e)
        place = &(*place)->next;
    *place = e->next;
}

static void forget(pending *e)
{
    unlink_pending(e);
    drop(e->group);
    free(e);
}

/* The active request with this handle, or NULL. */
static pending *find(MPI_Request request)
{
    if (request == MPI_REQUEST_NULL)
        return NULL;
    for (pending *e = first_pending; e != NULL; e = e->next)
        if (e->is_active && e->request == request)
            return e;
    return NULL;
}

/* A new request of the communicator, at the end of the list; NULL if nothing is recorded of it. */
static pending *post(MPI_Comm comm)
{
    group *g = is_recording ? group_of(comm) : NULL;
    pending *e = g == NULL ? NULL : allocated(NULL, sizeof *e);
    if (e == NULL)
        return NULL;
    *e = (pending){.request = MPI_REQUEST_NULL, .kind = RECEIVE, .is_active = true, .group = g};
    g->holders++;
    append(e);
    return e;
}

/* A receive from this rank of the communicator is about to be posted. */
static pending *post_receive(MPI_Comm comm, int from, int tag)
{
    pending *e = from == MPI_PROC_NULL ? NULL : post(comm);
    if (e == NULL)
        return NULL;
    e->peer = from >= 0 && from < e->group->size ? e->group->world[from] : MPI_ANY_SOURCE;
    e->tag = tag;
    return e;
}

/* The library has given the request its handle. One that is known must have been completed unseen. */
static void set_handle(pending *e, MPI_Request request)
{
    if (find(request) != NULL)
        give_up("a request was completed by a call that isn't followed");
    else if (e != NULL)
        e->request = request;
}

static void number(pending *e, int from, int tag);

/* Asks the library for the status of a receive that is about to complete, since it has been matched, or cancelled. */
static bool is_complete_soon(const pending *e, MPI_Status *status)
{
    const struct timespec pause = {.tv_nsec = 1000000};
    int is_complete = 0;
    for (long i = 0; i < MOST_SECONDS * 1000; i++) {
        int error = PMPI_Request_get_status(e->request, &is_complete, status);
        if (error != MPI_SUCCESS || is_complete)
            return error == MPI_SUCCESS;
        nanosleep(&pause, NULL);
    }
    return false;
}

/* Learns which message the receive has got, or is about to get: it is complete, or another one has got a message that
 * this one would have got, if it had been neither matched nor cancelled. */
static void ask(pending *e)
{
    MPI_Status status;
    int is_cancelled = 0;
    if (e->status != NULL)
        status = *e->status;
    else if (!is_complete_soon(e, &status)) {
        give_up("a receive of any source or tag that was matched doesn't complete");
        return;
    }
    if (e->may_be_cancelled)
        PMPI_Test_cancelled(&status, &is_cancelled);
    if (is_cancelled)
        e->is_matched = true;
    else if (status.MPI_SOURCE < 0 || status.MPI_SOURCE >= e->group->size)
        give_up("a receive was completed by a call that isn't followed");
    else
        number(e, e->group->world[status.MPI_SOURCE], status.MPI_TAG);
}

/* Numbers what receives have got that were posted before this one (before the next one, if it is NULL), as far as they
 * may have got a message of this channel. */
static void number_earlier(const pending *end, const group *g, int from, int tag)
{
    for (pending *e = first_pending; e != end && is_recording; e = e->next) {
        bool is_open = e->kind == RECEIVE && e->is_active && !e->is_matched && e->group == g;
        bool is_from = e->peer == from || e->peer == MPI_ANY_SOURCE, is_tag = e->tag == tag || e->tag == MPI_ANY_TAG;
        if (!is_open || !is_from || !is_tag)
            continue;
        if (e->peer == from && e->tag == tag && !e->may_be_cancelled)
            number(e, from, tag);
        else
            ask(e);
    }
}

/* The receive has got, or is sure to get, a message of this channel: which one? Of the receives that get messages of a
 * channel the one that was posted first gets the first one. */
static void number(pending *e, int from, int tag)
{
    number_earlier(e, e->group, from, tag);
    channel *c = is_recording ? channel_of(e->group, true, from, tag) : NULL;
    if (c == NULL)
        return;
    e->is_matched = true;
    e->from = from;
    e->from_tag = tag;
    e->number = ++c->count;
    e->is_told = e->is_told || e->number == c->probed;
}

/* The program learns that the receive has got its message. */
static void tell(pending *e)
{
    char id[MONITOR_ID_ROOM];
    if (!e->is_matched)
        ask(e);
    if (e->number == 0 || !is_recording)
        return;
    something_came = true;
    put_id(id, e->group, e->from, my_rank, e->from_tag, e->number);
    if (!e->is_told && e->from != my_rank)
        record_receipt(id);
}

static void hold_contributions(pending *e);

/* The program learns that the request is complete. */
static void learn(pending *e, const MPI_Status *status)
{
    e->status = status;
    if (e->kind == RECEIVE)
        tell(e);
    else if (e->kind == COLLECTIVE && !e->is_told)
        hold_contributions(e);
    e->is_told = true;
    e->status = NULL;
}

/* The same, and the request is done with. */
static void complete(pending *e, const MPI_Status *status)
{
    if (e == NULL)
        return;
    learn(e, status);
    if (e->is_persistent)
        e->is_active = false;
    else
        forget(e);
}

/* A call that receives, or tries to, has ended. */
static int received(pending *e, int error, bool has_come, const MPI_Status *status)
{
    if (e != NULL && error == MPI_SUCCESS && has_come)
        complete(e, status);
    else if (e != NULL)
        forget(e);
    return leave(error);
}

/* A probe has found a message, which the next receive of its channel gets. */
static void probed(MPI_Comm comm, const MPI_Status *status)
{
    char id[MONITOR_ID_ROOM];
    group *g = is_recording && status->MPI_SOURCE >= 0 ? group_of(comm) : NULL;
    if (g == NULL)
        return;
    int from = g->world[status->MPI_SOURCE], tag = status->MPI_TAG;
    number_earlier(NULL, g, from, tag);
    channel *c = is_recording ? channel_of(g, true, from, tag) : NULL;
    if (c == NULL || from == my_rank || c->probed == c->count + 1)
        return;
    c->probed = c->count + 1;
    put_id(id, g, from, my_rank, tag, c->probed);
    record_receipt(id);
}

/* Collectives */

static uint32_t bit(int rank)
{
    return (uint32_t)1 << rank;
}

static uint32_t everyone(const group *g)
{
    return bit(g->size) - 1;
}

/* Whether so many elements of this type are any bytes: without, a collective tells nothing. */
static bool carries(int count, MPI_Datatype type)
{
    int size = 0;
    if (count > 0)
        PMPI_Type_size(type, &size);
    return size > 0;
}

static uint32_t all_if(const group *g, int count, MPI_Datatype type)
{
    return carries(count, type) ? everyone(g) : 0;
}

/* The members of which the counts say that they have something. */
static uint32_t those_of(const group *g, const int *counts, MPI_Datatype type)
{
    uint32_t found = 0;
    for (int i = 0; i < g->size; i++)
        found |= carries(counts[i], type) ? bit(i) : 0;
    return found;
}

static uint32_t those_of_types(const group *g, const int *counts, const MPI_Datatype *types)
{
    uint32_t found = 0;
    for (int i = 0; i < g->size; i++)
        found |= carries(counts[i], types[i]) ? bit(i) : 0;
    return found;
}

static void put_collective(char id[MONITOR_ID_ROOM], char kind, const group *g, long number, int member)
{
    snprintf(id, MONITOR_ID_ROOM, "%c%s.%d.%ld", kind, g->path, g->world[member], number);
}

/* This rank contributes to the collective of this number, or not, and is about to call it. */
static void contribute(const group *g, long number, bool gives)
{
    char id[MONITOR_ID_ROOM];
    put_collective(id, 'c', g, number, g->rank);
    if (gives && g->size > 1)
        record_send(id);
}

/* The collective has completed here, so these members have called it. */
static void hold_those(const group *g, long number, uint32_t before)
{
    char id[MONITOR_ID_ROOM];
    something_came = true;
    for (int i = 0; i < g->size; i++)
        if ((before & bit(i)) != 0 && i != g->rank) {
            put_collective(id, 'c', g, number, i);
            record_receipt(id);
        }
}

static void hold_contributions(pending *e)
{
    hold_those(e->group, e->number, e->before);
}

/* The first of these members, or -1. */
static int first_of(uint32_t members)
{
    for (int i = 0; i < MONITOR_PROCESS_LIMIT; i++)
        if ((members & bit(i)) != 0)
            return i;
    return -1;
}

/* Each of `givers` has called a blocking collective before any of `getters` returns. The first that is of both, the
 * hub, receives from each giver, and sends once to all: nothing else happens in it between its call and that. */
static void contribute_to_all(const group *g, long number, uint32_t givers, uint32_t getters)
{
    if (first_of(givers & getters) != g->rank)
        contribute(g, number, getters != 0 && (givers & bit(g->rank)) != 0);
    else if (kept_count > 0)
        record_event();
}

static void hold_all(const group *g, long number, uint32_t givers, uint32_t getters)
{
    char id[MONITOR_ID_ROOM];
    int hub = first_of(givers & getters);
    if (hub < 0 || g->size == 1 || (getters & bit(g->rank)) == 0)
        return;
    if (hub == g->rank)
        hold_those(g, number, givers);
    put_collective(id, 'h', g, number, hub);
    if (hub == g->rank)
        record_send(id);
    else
        record_receipt(id);
}

static group *collective_of(MPI_Comm comm, bool is_on)
{
    group *g = is_on && is_recording ? group_of(comm) : NULL;
    if (g != NULL)
        g->collectives++;
    return g;
}

/* A collective that completes later has been called. */
static int posted(MPI_Comm comm, const group *g, uint32_t before, MPI_Request request, int error)
{
    pending *e = g == NULL || error != MPI_SUCCESS || before == 0 || g->size == 1 ? NULL : post(comm);
    if (e != NULL) {
        e->kind = COLLECTIVE;
        e->number = g->collectives;
        e->before = before;
        set_handle(e, request);
    }
    return leave(error);
}

/* Begin and end */

/* The path of the stream, if it is a file: a program may change its folder later. */
static char *path_of_stream(void)
{
    const char *folder = getenv("MONITOR_TO");
    size_t room = strlen(folder) + sizeof process + sizeof "/.stream";
    char *path = malloc(room), *whole = NULL;
    if (path != NULL) {
        snprintf(path, room, "%s/%s.stream", folder, process);
        whole = realpath(path, NULL);
    }
    free(path);
    return whole;
}

static void begin_recording(void)
{
    int size;
    PMPI_Comm_rank(MPI_COMM_WORLD, &my_rank);
    PMPI_Comm_size(MPI_COMM_WORLD, &size);
    snprintf(process, sizeof process, "rank%d", my_rank);
    first_thread = pthread_self();
    if (size > MONITOR_PROCESS_LIMIT) {
        if (my_rank == 0)
            say("nothing is recorded of %d ranks: a session has at most %d processes", size, MONITOR_PROCESS_LIMIT);
        return;
    }
    PMPI_Comm_create_keyval(MPI_COMM_NULL_COPY_FN, drop_attribute, &keyval, NULL);
    monitor_status status = monitor_from_environment(process, &recorder);
    if (status != MONITOR_RECORDED) {
        say("nothing is recorded: %s%s%s", monitor_text(status), status == MONITOR_SYSTEM ? ": " : "",
            status == MONITOR_SYSTEM ? strerror(errno) : "");
        return;
    }
    stream_path = path_of_stream();
    atomic_store(&is_recording, true);
    of_world = know(MPI_COMM_WORLD, "0");
    know(MPI_COMM_SELF, "self");
}

/* The stream gets its end line. */
static void end_recording(void)
{
    if (kept_count > 0)
        record_event();
    if (atomic_exchange(&is_recording, false)) {
        monitor_status status = monitor_close(recorder);
        if (status != MONITOR_RECORDED)
            say("%s: the stream has no end line: %s", calling, monitor_text(status));
    }
}

int MPI_Init(int *count, char ***words)
{
    int error = PMPI_Init(count, words);
    if (error == MPI_SUCCESS)
        begin_recording();
    return error;
}

int MPI_Init_thread(int *count, char ***words, int required, int *provided)
{
    int error = PMPI_Init_thread(count, words, required, provided);
    if (error == MPI_SUCCESS)
        begin_recording();
    return error;
}

int MPI_Finalize(void)
{
    if (enter("MPI_Finalize"))
        end_recording();
    leave(MPI_SUCCESS);
    return PMPI_Finalize();
}

/* Keeps a setting for the next event; what is kept of the variable is replaced. */
static void keep(const char *name, int64_t value)
{
    size_t i = 0;
    if (strlen(name) > MONITOR_NAME_BYTE_LIMIT) {
        give_up(monitor_text(MONITOR_VARIABLE_NAME));
        return;
    }
    while (i < kept_count && strcmp(kept_names[i], name) != 0)
        i++;
    if (i == MONITOR_VARIABLE_LIMIT) {
        give_up(monitor_text(MONITOR_VARIABLES));
        return;
    }
    strcpy(kept_names[i], name);
    kept[i] = (monitor_setting){.name = kept_names[i], .value = value};
    kept_count += i == kept_count;
}

int MPI_Pcontrol(const int level, ...)
{
    va_list values;
    bool is_setting = level == MONITOR_MPI_SET || level == MONITOR_MPI_WITH_NEXT;
    va_start(values, level);
    if (enter(level == MONITOR_MPI_SET         ? "monitor_mpi_set"
              : level == MONITOR_MPI_WITH_NEXT ? "monitor_mpi_with_next"
                                               : "MPI_Pcontrol")) {
        if (is_setting) {
            const char *name = va_arg(values, const char *);
            keep(name, va_arg(values, int64_t));
        }
        if (is_recording && level == MONITOR_MPI_SET)
            record_event();
        if (level == 0)
            end_recording();
    }
    va_end(values);
    return leave(MPI_SUCCESS);
}

/* Communicators: calls that all members of one make, and that make another one */

#define MAKES(NAME, PARAMETERS, ARGUMENTS)                                            \
    int MPI_##NAME PARAMETERS                                                         \
    {                                                                                 \
        group *g = enter("MPI_" #NAME) ? group_of(comm) : NULL;                       \
        long child = g == NULL ? 0 : ++g->children;                                   \
        int error = PMPI_##NAME ARGUMENTS;                                            \
        if (g != NULL && error == MPI_SUCCESS)                                        \
            name_child(g, child, *made);                                              \
        return leave(error);                                                          \
    }

MAKES(Comm_dup, (MPI_Comm comm, MPI_Comm *made), (comm, made))
MAKES(Comm_dup_with_info, (MPI_Comm comm, MPI_Info info, MPI_Comm *made), (comm, info, made))
MAKES(Comm_split, (MPI_Comm comm, int color, int key, MPI_Comm *made), (comm, color, key, made))
MAKES(Comm_split_type, (MPI_Comm comm, int type, int key, MPI_Info info, MPI_Comm *made),
      (comm, type, key, info, made))
MAKES(Comm_create, (MPI_Comm comm, MPI_Group members, MPI_Comm *made), (comm, members, made))
MAKES(Cart_create, (MPI_Comm comm, int n, const int *sizes, const int *periods, int reorder, MPI_Comm *made),
      (comm, n, sizes, periods, reorder, made))
MAKES(Cart_sub, (MPI_Comm comm, const int *remain, MPI_Comm *made), (comm, remain, made))
MAKES(Graph_create, (MPI_Comm comm, int n, const int *index, const int *edges, int reorder, MPI_Comm *made),
      (comm, n, index, edges, reorder, made))
MAKES(Dist_graph_create,
      (MPI_Comm comm, int n, const int *from, const int *degrees, const int *to, const int *weights, MPI_Info info,
       int reorder, MPI_Comm *made),
      (comm, n, from, degrees, to, weights, info, reorder, made))
MAKES(Dist_graph_create_adjacent,
      (MPI_Comm comm, int in, const int *from, const int *in_weights, int out, const int *to, const int *out_weights,
       MPI_Info info, int reorder, MPI_Comm *made),
      (comm, in, from, in_weights, out, to, out_weights, info, reorder, made))

/* With this key messages of one channel may overtake each other. */
int MPI_Info_set(MPI_Info info, const char *key, const char *value)
{
    if (enter("MPI_Info_set") && strcmp(key, "mpi_assert_allow_overtaking") == 0 && strcmp(value, "true") == 0)
        give_up("messages may overtake each other, so it isn't known which of them is received");
    return leave(PMPI_Info_set(info, key, value));
}

/* Sends */

#define SEND(NAME)                                                                                  \
    int MPI_##NAME(const void *data, int n, MPI_Datatype type, int to, int tag, MPI_Comm comm)      \
    {                                                                                               \
        if (enter("MPI_" #NAME))                                                                    \
            sending(comm, to, tag);                                                                 \
        return leave(PMPI_##NAME(data, n, type, to, tag, comm));                                    \
    }

SEND(Send)
SEND(Ssend)
SEND(Rsend)
SEND(Bsend)

#define ISEND(NAME)                                                                                 \
    int MPI_##NAME(const void *data, int n, MPI_Datatype type, int to, int tag, MPI_Comm comm,      \
                   MPI_Request *request)                                                            \
    {                                                                                               \
        bool is_on = enter("MPI_" #NAME);                                                           \
        if (is_on)                                                                                  \
            sending(comm, to, tag);                                                                 \
        int error = PMPI_##NAME(data, n, type, to, tag, comm, request);                             \
        if (is_on && error == MPI_SUCCESS)                                                          \
            set_handle(NULL, *request);                                                             \
        return leave(error);                                                                        \
    }

ISEND(Isend)
ISEND(Issend)
ISEND(Irsend)
ISEND(Ibsend)

/* Receives */

int MPI_Recv(void *data, int n, MPI_Datatype type, int from, int tag, MPI_Comm comm, MPI_Status *status)
{
    MPI_Status own;
    MPI_Status *at = status == MPI_STATUS_IGNORE ? &own : status;
    pending *e = enter("MPI_Recv") ? post_receive(comm, from, tag) : NULL;
    return received(e, PMPI_Recv(data, n, type, from, tag, comm, at), true, at);
}

int MPI_Irecv(void *data, int n, MPI_Datatype type, int from, int tag, MPI_Comm comm, MPI_Request *request)
{
    pending *e = enter("MPI_Irecv") ? post_receive(comm, from, tag) : NULL;
    int error = PMPI_Irecv(data, n, type, from, tag, comm, request);
    if (e != NULL && error == MPI_SUCCESS)
        set_handle(e, *request);
    return leave(error);
}

int MPI_Sendrecv(const void *data, int n, MPI_Datatype type, int to, int tag, void *room, int most,
                 MPI_Datatype room_type, int from, int from_tag, MPI_Comm comm, MPI_Status *status)
{
    MPI_Status own;
    MPI_Status *at = status == MPI_STATUS_IGNORE ? &own : status;
    bool is_on = enter("MPI_Sendrecv");
    if (is_on)
        sending(comm, to, tag);
    pending *e = is_on ? post_receive(comm, from, from_tag) : NULL;
    int error = PMPI_Sendrecv(data, n, type, to, tag, room, most, room_type, from, from_tag, comm, at);
    return received(e, error, true, at);
}

int MPI_Sendrecv_replace(void *data, int n, MPI_Datatype type, int to, int tag, int from, int from_tag, MPI_Comm comm,
                         MPI_Status *status)
{
    MPI_Status own;
    MPI_Status *at = status == MPI_STATUS_IGNORE ? &own : status;
    bool is_on = enter("MPI_Sendrecv_replace");
    if (is_on)
        sending(comm, to, tag);
    pending *e = is_on ? post_receive(comm, from, from_tag) : NULL;
    return received(e, PMPI_Sendrecv_replace(data, n, type, to, tag, from, from_tag, comm, at), true, at);
}

/* Probes: who finds a message knows that it was sent */

int MPI_Probe(int from, int tag, MPI_Comm comm, MPI_Status *status)
{
    MPI_Status own;
    MPI_Status *at = status == MPI_STATUS_IGNORE ? &own : status;
    bool is_on = enter("MPI_Probe");
    int error = PMPI_Probe(from, tag, comm, at);
    if (is_on && error == MPI_SUCCESS)
        probed(comm, at);
    return leave(error);
}

int MPI_Iprobe(int from, int tag, MPI_Comm comm, int *flag, MPI_Status *status)
{
    MPI_Status own;
    MPI_Status *at = status == MPI_STATUS_IGNORE ? &own : status;
    bool is_on = enter("MPI_Iprobe");
    int error = PMPI_Iprobe(from, tag, comm, flag, at);
    if (is_on && error == MPI_SUCCESS && *flag)
        probed(comm, at);
    return leave(error);
}

int MPI_Mprobe(int from, int tag, MPI_Comm comm, MPI_Message *message, MPI_Status *status)
{
    MPI_Status own;
    MPI_Status *at = status == MPI_STATUS_IGNORE ? &own : status;
    pending *e = enter("MPI_Mprobe") ? post_receive(comm, from, tag) : NULL;
    return received(e, PMPI_Mprobe(from, tag, comm, message, at), true, at);
}

int MPI_Improbe(int from, int tag, MPI_Comm comm, int *flag, MPI_Message *message, MPI_Status *status)
{
    MPI_Status own;
    MPI_Status *at = status == MPI_STATUS_IGNORE ? &own : status;
    pending *e = enter("MPI_Improbe") ? post_receive(comm, from, tag) : NULL;
    int error = PMPI_Improbe(from, tag, comm, flag, message, at);
    return received(e, error, *flag, at);
}

int MPI_Mrecv(void *data, int n, MPI_Datatype type, MPI_Message *message, MPI_Status *status)
{
    something_came = enter("MPI_Mrecv");
    return leave(PMPI_Mrecv(data, n, type, message, status));
}

/* Persistent requests */

static void keep_send(MPI_Comm comm, int to, int tag, MPI_Request request)
{
    pending *e = post(comm);
    if (e == NULL)
        return;
    e->kind = SEND;
    e->is_persistent = true;
    e->is_active = false;
    e->peer = to;
    e->tag = tag;
    e->request = request;
}

#define SEND_INIT(NAME)                                                                             \
    int MPI_##NAME(const void *data, int n, MPI_Datatype type, int to, int tag, MPI_Comm comm,      \
                   MPI_Request *request)                                                            \
    {                                                                                               \
        bool is_on = enter("MPI_" #NAME);                                                           \
        int error = PMPI_##NAME(data, n, type, to, tag, comm, request);                             \
        if (is_on && error == MPI_SUCCESS)                                                          \
            keep_send(comm, to, tag, *request);                                                     \
        return leave(error);                                                                        \
    }

SEND_INIT(Send_init)
SEND_INIT(Ssend_init)
SEND_INIT(Rsend_init)
SEND_INIT(Bsend_init)

int MPI_Recv_init(void *data, int n, MPI_Datatype type, int from, int tag, MPI_Comm comm, MPI_Request *request)
{
    pending *e = enter("MPI_Recv_init") ? post_receive(comm, from, tag) : NULL;
    int error = PMPI_Recv_init(data, n, type, from, tag, comm, request);
    if (e != NULL) {
        e->is_persistent = true;
        e->is_active = false;
        e->request = *request;
    }
    return leave(error);
}

/* Starts a persistent request, which may get another handle by that. */
static int start(bool is_on, MPI_Request *request)
{
    pending *e = is_on && is_recording ? first_pending : NULL;
    while (e != NULL && !(e->is_persistent && e->request == *request))
        e = e->next;
    if (e != NULL) { /* and no receive from MPI_PROC_NULL */
        if (e->kind == SEND)
            sending_in(e->group, e->peer, e->tag);
        unlink_pending(e);
        append(e);
        e->is_active = true;
        e->is_matched = e->is_told = e->may_be_cancelled = false;
        e->number = 0;
    }
    int error = PMPI_Start(request);
    if (e != NULL && error == MPI_SUCCESS)
        e->request = *request;
    return error;
}

int MPI_Start(MPI_Request *request)
{
    return leave(start(enter("MPI_Start"), request));
}

/* The standard leaves open in which order they are started; here it is that of the array. */
int MPI_Startall(int n, MPI_Request requests[])
{
    int error = MPI_SUCCESS;
    bool is_on = enter("MPI_Startall");
    for (int i = 0; i < n && error == MPI_SUCCESS; i++)
        error = start(is_on, &requests[i]);
    return leave(error);
}

int MPI_Request_free(MPI_Request *request)
{
    if (enter("MPI_Request_free"))
        for (pending *e = first_pending, *next; e != NULL; e = next) {
            next = e->next;
            if (e->request != *request)
                continue;
            bool is_open = e->kind == RECEIVE && e->is_active && !e->is_matched;
            if (is_open && (e->peer == MPI_ANY_SOURCE || e->tag == MPI_ANY_TAG || e->may_be_cancelled))
                give_up("what a receive of any source or tag gets is not learned any more");
            else if (is_open)
                e->request = MPI_REQUEST_NULL; /* it gets a message of its channel, of which nobody learns */
            else
                forget(e);
        }
    return leave(PMPI_Request_free(request));
}

int MPI_Cancel(MPI_Request *request)
{
    if (enter("MPI_Cancel")) {
        pending *e = find(*request);
        if (e == NULL || e->kind != RECEIVE)
            give_up("a send is cancelled, so it isn't known which of its messages are received");
        else
            e->may_be_cancelled = true;
    }
    return leave(PMPI_Cancel(request));
}

/* Completion */

int MPI_Wait(MPI_Request *request, MPI_Status *status)
{
    MPI_Status own;
    MPI_Status *at = status == MPI_STATUS_IGNORE ? &own : status;
    pending *e = enter("MPI_Wait") ? find(*request) : NULL;
    int error = PMPI_Wait(request, at);
    if (error == MPI_SUCCESS)
        complete(e, at);
    return leave(error);
}

int MPI_Test(MPI_Request *request, int *flag, MPI_Status *status)
{
    MPI_Status own;
    MPI_Status *at = status == MPI_STATUS_IGNORE ? &own : status;
    pending *e = enter("MPI_Test") ? find(*request) : NULL;
    int error = PMPI_Test(request, flag, at);
    if (error == MPI_SUCCESS && *flag)
        complete(e, at);
    return leave(error);
}

int MPI_Request_get_status(MPI_Request request, int *flag, MPI_Status *status)
{
    MPI_Status own;
    MPI_Status *at = status == MPI_STATUS_IGNORE ? &own : status;
    pending *e = enter("MPI_Request_get_status") ? find(request) : NULL;
    int error = PMPI_Request_get_status(request, flag, at);
    if (error == MPI_SUCCESS && *flag && e != NULL)
        learn(e, at);
    return leave(error);
}

/* What is known of several requests, and room for their statuses. */
static pending **found;
static MPI_Status *statuses;
static size_t found_room;

/* Finds what is known of the requests before a call; false if there is no memory, or nothing is recorded. */
static bool find_all(bool is_on, int n, const MPI_Request requests[])
{
    if (!is_on)
        return false;
    if ((size_t)n > found_room) {
        pending **more = allocated(found, (size_t)n * sizeof *more);
        found = more != NULL ? more : found;
        MPI_Status *others = allocated(statuses, (size_t)n * sizeof *others);
        statuses = others != NULL ? others : statuses;
        if (more == NULL || others == NULL)
            return false;
        found_room = (size_t)n;
    }
    for (int i = 0; i < n; i++)
        found[i] = find(requests[i]);
    return true;
}

/* A call has completed several requests at once: the i-th of them, or those at these places. */
static void complete_all(int count, const int *places, const MPI_Status *at)
{
    for (int i = 0; i < count; i++) {
        pending *e = found[places == NULL ? i : places[i]];
        if (e != NULL)
            e->status = &at[i];
    }
    for (int i = 0; i < count; i++)
        complete(found[places == NULL ? i : places[i]], &at[i]);
}

int MPI_Waitany(int n, MPI_Request requests[], int *which, MPI_Status *status)
{
    MPI_Status own;
    MPI_Status *at = status == MPI_STATUS_IGNORE ? &own : status;
    bool is_on = find_all(enter("MPI_Waitany"), n, requests);
    int error = PMPI_Waitany(n, requests, which, at);
    if (is_on && error == MPI_SUCCESS && *which != MPI_UNDEFINED)
        complete(found[*which], at);
    return leave(error);
}

int MPI_Testany(int n, MPI_Request requests[], int *which, int *flag, MPI_Status *status)
{
    MPI_Status own;
    MPI_Status *at = status == MPI_STATUS_IGNORE ? &own : status;
    bool is_on = find_all(enter("MPI_Testany"), n, requests);
    int error = PMPI_Testany(n, requests, which, flag, at);
    if (is_on && error == MPI_SUCCESS && *flag && *which != MPI_UNDEFINED)
        complete(found[*which], at);
    return leave(error);
}

int MPI_Waitall(int n, MPI_Request requests[], MPI_Status all[])
{
    bool is_on = find_all(enter("MPI_Waitall"), n, requests);
    MPI_Status *at = is_on && all == MPI_STATUSES_IGNORE ? statuses : all;
    int error = PMPI_Waitall(n, requests, at);
    if (is_on && error == MPI_SUCCESS)
        complete_all(n, NULL, at);
    return leave(error);
}

int MPI_Testall(int n, MPI_Request requests[], int *flag, MPI_Status all[])
{
    bool is_on = find_all(enter("MPI_Testall"), n, requests);
    MPI_Status *at = is_on && all == MPI_STATUSES_IGNORE ? statuses : all;
    int error = PMPI_Testall(n, requests, flag, at);
    if (is_on && error == MPI_SUCCESS && *flag)
        complete_all(n, NULL, at);
    return leave(error);
}

#define SOME(NAME)                                                                                       \
    int MPI_##NAME(int n, MPI_Request requests[], int *count, int which[], MPI_Status all[])             \
    {                                                                                                    \
        bool is_on = find_all(enter("MPI_" #NAME), n, requests);                                         \
        MPI_Status *at = is_on && all == MPI_STATUSES_IGNORE ? statuses : all;                           \
        int error = PMPI_##NAME(n, requests, count, which, at);                                          \
        if (is_on && error == MPI_SUCCESS && *count != MPI_UNDEFINED)                                    \
            complete_all(*count, which, at);                                                             \
        return leave(error);                                                                             \
    }

SOME(Waitsome)
SOME(Testsome)

/* Collectives. GIVES says whether the call of this rank comes before a return of another one, and BEFORE which members'
 * calls come before its own return. A nonblocking collective completes where the program learns of it. */

#define UNPACKED(...) __VA_ARGS__

#define NONBLOCKING(NAME, PARAMETERS, ARGUMENTS, GIVES, BEFORE)              \
    int MPI_##NAME(UNPACKED PARAMETERS, MPI_Request *request)                \
    {                                                                        \
        group *g = collective_of(comm, enter("MPI_" #NAME));                 \
        uint32_t before = g == NULL ? 0 : (BEFORE);                          \
        if (g != NULL)                                                       \
            contribute(g, g->collectives, GIVES);                            \
        int error = PMPI_##NAME(UNPACKED ARGUMENTS, request);                \
        return posted(comm, g, before, error == MPI_SUCCESS ? *request : MPI_REQUEST_NULL, error); \
    }

#define COLLECTIVE(NAME, NONBLOCKING_NAME, PARAMETERS, ARGUMENTS, GIVES, BEFORE) \
    int MPI_##NAME PARAMETERS                                                \
    {                                                                        \
        group *g = collective_of(comm, enter("MPI_" #NAME));                 \
        uint32_t before = g == NULL ? 0 : (BEFORE);                          \
        if (g != NULL)                                                       \
            contribute(g, g->collectives, GIVES);                            \
        int error = PMPI_##NAME ARGUMENTS;                                   \
        if (g != NULL && error == MPI_SUCCESS)                               \
            hold_those(g, g->collectives, before);                           \
        return leave(error);                                                 \
    }                                                                        \
    NONBLOCKING(NONBLOCKING_NAME, PARAMETERS, ARGUMENTS, GIVES, BEFORE)

/* Those in which each of GIVERS comes before all of GETTERS, as every member knows. */
#define TO_ALL(NAME, NONBLOCKING_NAME, PARAMETERS, ARGUMENTS, GIVERS, GETTERS) \
    int MPI_##NAME PARAMETERS                                                \
    {                                                                        \
        group *g = collective_of(comm, enter("MPI_" #NAME));                 \
        uint32_t givers = g == NULL ? 0 : (GIVERS), getters = g == NULL ? 0 : (GETTERS); \
        if (g != NULL)                                                       \
            contribute_to_all(g, g->collectives, givers, getters);           \
        int error = PMPI_##NAME ARGUMENTS;                                   \
        if (g != NULL && error == MPI_SUCCESS)                               \
            hold_all(g, g->collectives, givers, getters);                    \
        return leave(error);                                                 \
    }                                                                        \
    NONBLOCKING(NONBLOCKING_NAME, PARAMETERS, ARGUMENTS,                     \
                (GETTERS) != 0 && ((GIVERS) & bit(g->rank)) != 0, ((GETTERS) & bit(g->rank)) != 0 ? (GIVERS) : 0)

TO_ALL(Barrier, Ibarrier, (MPI_Comm comm), (comm), everyone(g), everyone(g))
TO_ALL(Allreduce, Iallreduce, (const void *data, void *room, int n, MPI_Datatype type, MPI_Op op, MPI_Comm comm),
       (data, room, n, type, op, comm), all_if(g, n, type), all_if(g, n, type))
TO_ALL(Allgather, Iallgather,
       (const void *data, int n, MPI_Datatype type, void *room, int most, MPI_Datatype room_type, MPI_Comm comm),
       (data, n, type, room, most, room_type, comm), all_if(g, most, room_type), all_if(g, most, room_type))
TO_ALL(Allgatherv, Iallgatherv,
       (const void *data, int n, MPI_Datatype type, void *room, const int *counts, const int *places,
        MPI_Datatype room_type, MPI_Comm comm),
       (data, n, type, room, counts, places, room_type, comm), those_of(g, counts, room_type), everyone(g))
TO_ALL(Alltoall, Ialltoall,
       (const void *data, int n, MPI_Datatype type, void *room, int most, MPI_Datatype room_type, MPI_Comm comm),
       (data, n, type, room, most, room_type, comm), all_if(g, most, room_type), all_if(g, most, room_type))
TO_ALL(Reduce_scatter, Ireduce_scatter,
       (const void *data, void *room, const int *counts, MPI_Datatype type, MPI_Op op, MPI_Comm comm),
       (data, room, counts, type, op, comm), everyone(g), those_of(g, counts, type))
TO_ALL(Reduce_scatter_block, Ireduce_scatter_block,
       (const void *data, void *room, int n, MPI_Datatype type, MPI_Op op, MPI_Comm comm),
       (data, room, n, type, op, comm), all_if(g, n, type), all_if(g, n, type))
COLLECTIVE(Alltoallv, Ialltoallv,
           (const void *data, const int *counts, const int *places, MPI_Datatype type, void *room,
            const int *room_counts, const int *room_places, MPI_Datatype room_type, MPI_Comm comm),
           (data, counts, places, type, room, room_counts, room_places, room_type, comm), true,
           those_of(g, room_counts, room_type))
COLLECTIVE(Alltoallw, Ialltoallw,
           (const void *data, const int *counts, const int *places, const MPI_Datatype *types, void *room,
            const int *room_counts, const int *room_places, const MPI_Datatype *room_types, MPI_Comm comm),
           (data, counts, places, types, room, room_counts, room_places, room_types, comm), true,
           those_of_types(g, room_counts, room_types))
COLLECTIVE(Bcast, Ibcast, (void *data, int n, MPI_Datatype type, int root, MPI_Comm comm),
           (data, n, type, root, comm), g->rank == root && carries(n, type),
           g->rank != root && carries(n, type) ? bit(root) : 0)
COLLECTIVE(Scatter, Iscatter,
           (const void *data, int n, MPI_Datatype type, void *room, int most, MPI_Datatype room_type, int root,
            MPI_Comm comm),
           (data, n, type, room, most, room_type, root, comm), g->rank == root && carries(n, type),
           g->rank != root && carries(most, room_type) ? bit(root) : 0)
COLLECTIVE(Scatterv, Iscatterv,
           (const void *data, const int *counts, const int *places, MPI_Datatype type, void *room, int most,
            MPI_Datatype room_type, int root, MPI_Comm comm),
           (data, counts, places, type, room, most, room_type, root, comm),
           g->rank == root && those_of(g, counts, type) != 0,
           g->rank != root && carries(most, room_type) ? bit(root) : 0)
COLLECTIVE(Gather, Igather,
           (const void *data, int n, MPI_Datatype type, void *room, int most, MPI_Datatype room_type, int root,
            MPI_Comm comm),
           (data, n, type, room, most, room_type, root, comm), g->rank != root && carries(n, type),
           g->rank == root ? all_if(g, most, room_type) : 0)
COLLECTIVE(Gatherv, Igatherv,
           (const void *data, int n, MPI_Datatype type, void *room, const int *counts, const int *places,
            MPI_Datatype room_type, int root, MPI_Comm comm),
           (data, n, type, room, counts, places, room_type, root, comm), g->rank != root && carries(n, type),
           g->rank == root ? those_of(g, counts, room_type) : 0)
COLLECTIVE(Reduce, Ireduce,
           (const void *data, void *room, int n, MPI_Datatype type, MPI_Op op, int root, MPI_Comm comm),
           (data, room, n, type, op, root, comm), g->rank != root && carries(n, type),
           g->rank == root ? all_if(g, n, type) : 0)
COLLECTIVE(Scan, Iscan, (const void *data, void *room, int n, MPI_Datatype type, MPI_Op op, MPI_Comm comm),
           (data, room, n, type, op, comm), g->rank < g->size - 1 && carries(n, type),
           carries(n, type) ? bit(g->rank) - 1 : 0)
COLLECTIVE(Exscan, Iexscan, (const void *data, void *room, int n, MPI_Datatype type, MPI_Op op, MPI_Comm comm),
           (data, room, n, type, op, comm), g->rank < g->size - 1 && carries(n, type),
           carries(n, type) ? bit(g->rank) - 1 : 0)

/* What orders ranks, and isn't recorded */

static void warn(const char *call)
{
    static bool is_warned;
    if (is_recording && !is_warned)
        say("%s: what passes by windows and between neighbors isn't recorded, so it orders nothing", call);
    is_warned = true;
}

#define UNRECORDED(NAME, PARAMETERS, ARGUMENTS) \
    int MPI_##NAME PARAMETERS                   \
    {                                           \
        warn("MPI_" #NAME);                     \
        return PMPI_##NAME ARGUMENTS;           \
    }

UNRECORDED(Win_create, (void *base, MPI_Aint size, int unit, MPI_Info info, MPI_Comm comm, MPI_Win *made),
           (base, size, unit, info, comm, made))
UNRECORDED(Win_create_dynamic, (MPI_Info info, MPI_Comm comm, MPI_Win *made), (info, comm, made))
UNRECORDED(Win_allocate, (MPI_Aint size, int unit, MPI_Info info, MPI_Comm comm, void *base, MPI_Win *made),
           (size, unit, info, comm, base, made))
UNRECORDED(Win_allocate_shared, (MPI_Aint size, int unit, MPI_Info info, MPI_Comm comm, void *base, MPI_Win *made),
           (size, unit, info, comm, base, made))

#define NEIGHBORS(NAME, NONBLOCKING_NAME, PARAMETERS, ARGUMENTS) \
    UNRECORDED(NAME, PARAMETERS, ARGUMENTS)                      \
    UNRECORDED(NONBLOCKING_NAME, (UNPACKED PARAMETERS, MPI_Request *request), (UNPACKED ARGUMENTS, request))

NEIGHBORS(Neighbor_allgather, Ineighbor_allgather,
          (const void *data, int n, MPI_Datatype type, void *room, int most, MPI_Datatype room_type, MPI_Comm comm),
          (data, n, type, room, most, room_type, comm))
NEIGHBORS(Neighbor_allgatherv, Ineighbor_allgatherv,
          (const void *data, int n, MPI_Datatype type, void *room, const int *counts, const int *places,
           MPI_Datatype room_type, MPI_Comm comm),
          (data, n, type, room, counts, places, room_type, comm))
NEIGHBORS(Neighbor_alltoall, Ineighbor_alltoall,
          (const void *data, int n, MPI_Datatype type, void *room, int most, MPI_Datatype room_type, MPI_Comm comm),
          (data, n, type, room, most, room_type, comm))
NEIGHBORS(Neighbor_alltoallv, Ineighbor_alltoallv,
          (const void *data, const int *counts, const int *places, MPI_Datatype type, void *room,
           const int *room_counts, const int *room_places, MPI_Datatype room_type, MPI_Comm comm),
          (data, counts, places, type, room, room_counts, room_places, room_type, comm))
NEIGHBORS(Neighbor_alltoallw, Ineighbor_alltoallw,
          (const void *data, const int *counts, const MPI_Aint *places, const MPI_Datatype *types, void *room,
           const int *room_counts, const MPI_Aint *room_places, const MPI_Datatype *room_types, MPI_Comm comm),
          (data, counts, places, types, room, room_counts, room_places, room_types, comm))
