/* test_monitor_mpi SCENARIO: what test.sh records. Each message has a number of its own, which its sender sets as
 * `sent` with the send, and its receiver as `got` once it has come: test_monitor_mpi.py looks whether what is recorded
 * as one message has one number. */
#define _DEFAULT_SOURCE
#include "monitor_mpi.h"

#include <pthread.h>
#include <signal.h>
#include <stdatomic.h>
#include <stdbool.h>
#include <stdio.h>
#include <stdlib.h>
#include <string.h>
#include <unistd.h>

enum { MOST = 64, LARGE = 1 << 18 };

static int me, ranks, serial;

static int next_number(void)
{
    int number = me * 100000 + ++serial;
    monitor_mpi_with_next("sent", number);
    return number;
}

static void send_over(MPI_Comm comm, int to, int tag)
{
    int data = next_number();
    MPI_Send(&data, 1, MPI_INT, to, tag, comm);
}

static void send_to(int to, int tag)
{
    send_over(MPI_COMM_WORLD, to, tag);
}

static void got(int data)
{
    monitor_mpi_set("got", data);
}

static void receive_over(MPI_Comm comm, int from, int tag)
{
    int data;
    MPI_Recv(&data, 1, MPI_INT, from, tag, comm, MPI_STATUS_IGNORE);
    got(data);
}

static void receive_from(int from, int tag)
{
    receive_over(MPI_COMM_WORLD, from, tag);
}

static void barrier(void)
{
    MPI_Barrier(MPI_COMM_WORLD);
}

/* Tags are received in another order than they were sent, and one with any source and tag */
static void blocking(void)
{
    if (me > 0) {
        send_to(0, 1);
        send_to(0, 2);
        send_to(0, 1);
        send_to(0, 3);
    } else {
        for (int from = 1; from < ranks; from++)
            receive_from(from, 2);
        for (int i = 1; i < ranks; i++)
            receive_from(MPI_ANY_SOURCE, 3);
        for (int i = 1; i < 2 * ranks - 1; i++)
            receive_from(MPI_ANY_SOURCE, MPI_ANY_TAG);
    }
    barrier();
}

/* Receives are waited for in another order than they were posted */
static void posted_first(int first_source, int first_tag)
{
    int data[3];
    MPI_Request requests[3];
    if (me == 1) {
        for (int i = 0; i < 3; i++)
            send_to(0, 7);
    } else if (me == 0) {
        MPI_Irecv(&data[0], 1, MPI_INT, first_source, first_tag, MPI_COMM_WORLD, &requests[0]);
        MPI_Irecv(&data[1], 1, MPI_INT, 1, 7, MPI_COMM_WORLD, &requests[1]);
        MPI_Irecv(&data[2], 1, MPI_INT, 1, 7, MPI_COMM_WORLD, &requests[2]);
        for (int i = 2; i >= 0; i--) {
            MPI_Wait(&requests[i], MPI_STATUS_IGNORE);
            got(data[i]);
        }
    }
    barrier();
}

/* The first receive, of any source, gets what another rank has sent */
static void posted_for_another(void)
{
    int data[2];
    MPI_Request requests[2];
    if (me == 0) {
        MPI_Irecv(&data[0], 1, MPI_INT, MPI_ANY_SOURCE, 7, MPI_COMM_WORLD, &requests[0]);
        MPI_Irecv(&data[1], 1, MPI_INT, 1, 7, MPI_COMM_WORLD, &requests[1]);
        barrier();
        MPI_Wait(&requests[1], MPI_STATUS_IGNORE);
        got(data[1]);
        MPI_Wait(&requests[0], MPI_STATUS_IGNORE);
        got(data[0]);
    } else {
        int number = me == 2 ? next_number() : 0;
        if (me == 2)
            MPI_Ssend(&number, 1, MPI_INT, 0, 7, MPI_COMM_WORLD); /* it ends once the receive has the message */
        barrier();
        if (me == 1)
            send_to(0, 7);
    }
    barrier();
}

/* A message that takes its time is matched before one that is complete earlier */
static void large(void)
{
    static int data[LARGE], small;
    MPI_Request requests[2];
    if (me == 1) {
        data[0] = next_number();
        MPI_Isend(data, LARGE, MPI_INT, 0, 8, MPI_COMM_WORLD, &requests[0]);
        small = next_number();
        MPI_Isend(&small, 1, MPI_INT, 0, 8, MPI_COMM_WORLD, &requests[1]);
        usleep(20000);
        MPI_Waitall(2, requests, MPI_STATUSES_IGNORE);
    } else if (me == 0) {
        MPI_Irecv(data, LARGE, MPI_INT, MPI_ANY_SOURCE, MPI_ANY_TAG, MPI_COMM_WORLD, &requests[0]);
        MPI_Irecv(&small, 1, MPI_INT, 1, 8, MPI_COMM_WORLD, &requests[1]);
        MPI_Wait(&requests[1], MPI_STATUS_IGNORE);
        got(small);
        MPI_Wait(&requests[0], MPI_STATUS_IGNORE);
        got(data[0]);
    }
    barrier();
}

static void exchange(void)
{
    int data = next_number(), other = -1, left = me > 0 ? me - 1 : MPI_PROC_NULL;
    int right = me < ranks - 1 ? me + 1 : MPI_PROC_NULL;
    if (right == MPI_PROC_NULL)
        monitor_mpi_with_next("sent", 0); /* replaces what is kept, which goes with the receipt */
    MPI_Sendrecv(&data, 1, MPI_INT, right, 1, &other, 1, MPI_INT, left, 1, MPI_COMM_WORLD, MPI_STATUS_IGNORE);
    if (left != MPI_PROC_NULL)
        got(other);
    data = next_number();
    MPI_Sendrecv_replace(&data, 1, MPI_INT, (me + 1) % ranks, 1, (me + ranks - 1) % ranks, 1, MPI_COMM_WORLD,
                         MPI_STATUS_IGNORE);
    got(data);
    barrier();
}

static void probes(void)
{
    MPI_Status status;
    MPI_Message message;
    int data, flag = 0;
    if (me == 1)
        for (int i = 0; i < 4; i++)
            send_to(0, 5 + i % 2);
    if (me == 0) {
        MPI_Probe(MPI_ANY_SOURCE, MPI_ANY_TAG, MPI_COMM_WORLD, &status);
        MPI_Probe(status.MPI_SOURCE, status.MPI_TAG, MPI_COMM_WORLD, &status);
        receive_from(status.MPI_SOURCE, status.MPI_TAG);
        while (!flag)
            MPI_Iprobe(1, MPI_ANY_TAG, MPI_COMM_WORLD, &flag, &status);
        receive_from(status.MPI_SOURCE, status.MPI_TAG);
        MPI_Mprobe(MPI_ANY_SOURCE, 5, MPI_COMM_WORLD, &message, &status);
        MPI_Mrecv(&data, 1, MPI_INT, &message, MPI_STATUS_IGNORE);
        got(data);
        for (flag = 0; !flag;)
            MPI_Improbe(1, 6, MPI_COMM_WORLD, &flag, &message, MPI_STATUS_IGNORE);
        MPI_Request request;
        MPI_Imrecv(&data, 1, MPI_INT, &message, &request);
        MPI_Wait(&request, MPI_STATUS_IGNORE);
        got(data);
    }
    barrier();
}

static void persistent(void)
{
    int out[2] = {0}, in[2] = {0};
    MPI_Request requests[4];
    int left = (me + ranks - 1) % ranks, right = (me + 1) % ranks;
    MPI_Send_init(&out[0], 1, MPI_INT, right, 1, MPI_COMM_WORLD, &requests[0]);
    MPI_Ssend_init(&out[1], 1, MPI_INT, right, 1, MPI_COMM_WORLD, &requests[1]);
    MPI_Recv_init(&in[0], 1, MPI_INT, left, 1, MPI_COMM_WORLD, &requests[2]);
    MPI_Recv_init(&in[1], 1, MPI_INT, MPI_ANY_SOURCE, MPI_ANY_TAG, MPI_COMM_WORLD, &requests[3]);
    for (int round = 0; round < 3; round++) {
        if (round == 1)
            MPI_Start(&requests[3]); /* in another order than they were made, and so posted */
        MPI_Startall(round == 1 ? 1 : 2, &requests[2]);
        for (int i = 0; i < 2; i++) {
            out[i] = next_number();
            MPI_Start(&requests[i]);
        }
        MPI_Waitall(4, requests, MPI_STATUSES_IGNORE);
        got(in[0]);
        got(in[1]);
        barrier();
    }
    for (int i = 0; i < 4; i++)
        MPI_Request_free(&requests[i]);
    barrier();
}

/* Receives that are cancelled get nothing, so the first message is that of the next one */
static void cancelled(void)
{
    int none[2], data;
    MPI_Request requests[3];
    MPI_Irecv(&none[0], 1, MPI_INT, MPI_ANY_SOURCE, 9, MPI_COMM_WORLD, &requests[0]);
    MPI_Irecv(&none[1], 1, MPI_INT, 1, 9, MPI_COMM_WORLD, &requests[1]);
    MPI_Cancel(&requests[0]);
    MPI_Cancel(&requests[1]);
    barrier();
    if (me == 1) {
        send_to(0, 9);
        send_to(0, 9);
    }
    if (me == 0) {
        MPI_Irecv(&data, 1, MPI_INT, 1, 9, MPI_COMM_WORLD, &requests[2]);
        MPI_Wait(&requests[2], MPI_STATUS_IGNORE);
        got(data);
        receive_from(1, 9);
    }
    MPI_Waitall(2, requests, MPI_STATUSES_IGNORE);
    barrier();
}

/* One tag over several communicators, of which two have members with other ranks */
static void communicators(void)
{
    MPI_Comm copy, half, back;
    MPI_Comm_dup(MPI_COMM_WORLD, &copy);
    MPI_Comm_split(MPI_COMM_WORLD, me % 2, -me, &half);
    MPI_Comm_split(copy, 0, -me, &back);
    if (me == 0) {
        send_over(MPI_COMM_WORLD, 2, 1);
        send_over(copy, 2, 1);
        send_over(half, (ranks + 1) / 2 - 2, 1);
        send_over(back, ranks - 3, 1);
    } else if (me == 2) {
        receive_over(back, ranks - 1, 1);
        receive_over(half, MPI_ANY_SOURCE, 1);
        receive_over(copy, MPI_ANY_SOURCE, MPI_ANY_TAG);
        receive_over(MPI_COMM_WORLD, 0, 1);
    }
    MPI_Comm_free(&copy);
    MPI_Comm_free(&half);
    MPI_Comm_free(&back);
    barrier();
}

static void to_itself(void)
{
    int data = 1, other;
    MPI_Request request;
    MPI_Irecv(&other, 1, MPI_INT, MPI_ANY_SOURCE, 1, MPI_COMM_SELF, &request);
    MPI_Send(&data, 1, MPI_INT, 0, 1, MPI_COMM_SELF);
    MPI_Wait(&request, MPI_STATUS_IGNORE);
    MPI_Irecv(&other, 1, MPI_INT, me, 1, MPI_COMM_WORLD, &request);
    MPI_Send(&data, 1, MPI_INT, me, 1, MPI_COMM_WORLD);
    monitor_mpi_with_next("own", 1);
    MPI_Wait(&request, MPI_STATUS_IGNORE);
    barrier();
}

/* Completes a request by one of the calls that do; gives its place */
static int complete_one(int n, MPI_Request *requests, int *places, int *count)
{
    int flag = 0, which = MPI_UNDEFINED;
    *count = 1;
    switch (rand() % 5) {
    case 0:
        MPI_Waitany(n, requests, &places[0], MPI_STATUS_IGNORE);
        return 1;
    case 1:
        MPI_Waitsome(n, requests, count, places, MPI_STATUSES_IGNORE);
        return 1;
    case 2:
        MPI_Testsome(n, requests, count, places, MPI_STATUSES_IGNORE);
        return *count > 0;
    case 3:
        MPI_Testany(n, requests, &which, &flag, MPI_STATUS_IGNORE);
        places[0] = which;
        return flag;
    default:
        places[0] = rand() % n;
        if (requests[places[0]] == MPI_REQUEST_NULL)
            return 0;
        if (rand() % 2)
            MPI_Request_get_status(requests[places[0]], &flag, MPI_STATUS_IGNORE);
        MPI_Test(&requests[places[0]], &flag, MPI_STATUS_IGNORE);
        return flag;
    }
}

/* What is left of `expected` messages, found by probes */
static void receive_rest(int expected)
{
    while (expected > 0) {
        MPI_Status status;
        int flag;
        MPI_Iprobe(MPI_ANY_SOURCE, MPI_ANY_TAG, MPI_COMM_WORLD, &flag, &status);
        if (flag) {
            receive_from(status.MPI_SOURCE, status.MPI_TAG);
            expected--;
        }
    }
}

/* Each rank sends six messages to each other one, which receives some of them by requests that are posted and complete
 * in an order that is drawn: four of any source, so that one of each source surely gets a message */
static void drawn(void)
{
    static int out[MOST], in[MOST];
    MPI_Request sends[MOST], receives[MOST];
    int sources[MOST], n = 0, m = 0, places[MOST], count;
    for (int i = 0; i < 4; i++)
        sources[n++] = MPI_ANY_SOURCE;
    for (int from = 0; from < ranks; from++)
        if (from != me)
            sources[n++] = from;
    for (int i = n - 1, j; i > 0; i--) {
        j = rand() % (i + 1);
        int other = sources[i];
        sources[i] = sources[j];
        sources[j] = other;
    }
    for (int i = 0; i < n; i++)
        MPI_Irecv(&in[i], 1, MPI_INT, sources[i], sources[i] < 0 && rand() % 2 ? MPI_ANY_TAG : 20, MPI_COMM_WORLD,
                  &receives[i]);
    for (int i = 0; i < 6; i++)
        for (int to = 0; to < ranks; to++)
            if (to != me) {
                out[m] = next_number();
                MPI_Isend(&out[m], 1, MPI_INT, to, i < 5 ? 20 : 21, MPI_COMM_WORLD, &sends[m]);
                m++;
            }
    for (int left = n; left > 0;)
        if (complete_one(n, receives, places, &count))
            for (int i = 0; i < count; i++, left--)
                got(in[places[i]]);
    receive_rest(6 * (ranks - 1) - n);
    MPI_Waitall(m, sends, MPI_STATUSES_IGNORE);
    barrier();
}

static void messages(void)
{
    blocking();
    posted_first(1, 7);
    posted_first(MPI_ANY_SOURCE, 7);
    posted_first(1, MPI_ANY_TAG);
    posted_for_another();
    large();
    exchange();
    probes();
    persistent();
    cancelled();
    communicators();
    to_itself();
    for (int i = 0; i < 3; i++)
        drawn();
}

/* The collectives, each between its settings of `before` and `after`; between a nonblocking one and its end stands one
 * of `middle` */

static int number;

static void before(void)
{
    monitor_mpi_set("before", ++number);
}

static void after(void)
{
    monitor_mpi_set("after", number);
}

static void finish(MPI_Request *request)
{
    monitor_mpi_set("middle", number);
    MPI_Wait(request, MPI_STATUS_IGNORE);
    after();
}

#define BLOCKING(CALL) (before(), CALL, after())
#define NONBLOCKING(CALL) (before(), CALL, finish(&request))
#define WORLD MPI_COMM_WORLD

static void collectives(void)
{
    int in[MOST] = {0}, out[MOST] = {0}, odd[MOST], even[MOST], late[MOST], next[MOST], last[MOST], places[MOST];
    MPI_Request request;
    MPI_Comm half;
    for (int i = 0; i < ranks; i++) {
        odd[i] = i % 2;
        even[i] = 1 - i % 2;
        late[i] = i >= 3;
        next[i] = i == (me + 1) % ranks;
        last[i] = i == (me + ranks - 1) % ranks;
        places[i] = i;
    }
    MPI_Comm_split(WORLD, me % 2, 0, &half);
    BLOCKING(MPI_Barrier(WORLD));
    BLOCKING(MPI_Bcast(in, 1, MPI_INT, 2, WORLD));
    BLOCKING(MPI_Bcast(in, 0, MPI_INT, 2, WORLD));
    BLOCKING(MPI_Reduce(out, in, 1, MPI_INT, MPI_SUM, 1, WORLD));
    BLOCKING(MPI_Gather(out, 1, MPI_INT, in, 1, MPI_INT, 3, WORLD));
    BLOCKING(MPI_Gatherv(out, me % 2, MPI_INT, in, odd, places, MPI_INT, 0, WORLD));
    BLOCKING(MPI_Scatter(out, 1, MPI_INT, in, 1, MPI_INT, 4, WORLD));
    BLOCKING(MPI_Scatterv(out, even, places, MPI_INT, in, 1 - me % 2, MPI_INT, 0, WORLD));
    BLOCKING(MPI_Allreduce(out, in, 1, MPI_INT, MPI_SUM, WORLD));
    BLOCKING(MPI_Allgather(out, 1, MPI_INT, in, 1, MPI_INT, WORLD));
    BLOCKING(MPI_Allgatherv(out, me >= 3, MPI_INT, in, late, places, MPI_INT, WORLD));
    BLOCKING(MPI_Alltoall(out, 1, MPI_INT, in, 1, MPI_INT, WORLD));
    BLOCKING(MPI_Alltoallv(out, next, places, MPI_INT, in, last, places, MPI_INT, WORLD));
    BLOCKING(MPI_Reduce_scatter(out, in, late, MPI_INT, MPI_SUM, WORLD));
    BLOCKING(MPI_Reduce_scatter_block(out, in, 1, MPI_INT, MPI_SUM, WORLD));
    BLOCKING(MPI_Scan(out, in, 1, MPI_INT, MPI_SUM, WORLD));
    BLOCKING(MPI_Exscan(out, in, 1, MPI_INT, MPI_SUM, WORLD));
    BLOCKING(MPI_Barrier(half));
    NONBLOCKING(MPI_Ibarrier(WORLD, &request));
    NONBLOCKING(MPI_Ibcast(in, 1, MPI_INT, 2, WORLD, &request));
    NONBLOCKING(MPI_Ireduce(out, in, 1, MPI_INT, MPI_SUM, 1, WORLD, &request));
    NONBLOCKING(MPI_Iscatterv(out, even, places, MPI_INT, in, 1 - me % 2, MPI_INT, 0, WORLD, &request));
    NONBLOCKING(MPI_Iallgatherv(out, me >= 3, MPI_INT, in, late, places, MPI_INT, WORLD, &request));
    NONBLOCKING(MPI_Ialltoallv(out, next, places, MPI_INT, in, last, places, MPI_INT, WORLD, &request));
    NONBLOCKING(MPI_Ireduce_scatter(out, in, late, MPI_INT, MPI_SUM, WORLD, &request));
    NONBLOCKING(MPI_Iscan(out, in, 1, MPI_INT, MPI_SUM, WORLD, &request));
    NONBLOCKING(MPI_Ibarrier(half, &request));
    MPI_Comm_free(&half);
}

/* What the recorder refuses, and says so */

static atomic_bool is_beside;

static void *receive_beside(void *nothing)
{
    int data;
    is_beside = true;
    MPI_Recv(&data, 1, MPI_INT, 0, 1, MPI_COMM_SELF, MPI_STATUS_IGNORE);
    return nothing;
}

/* Another thread waits in MPI_Recv while this one calls MPI */
static void threads(void)
{
    pthread_t thread;
    int data = 0, flag, calls = 0;
    pthread_create(&thread, NULL, receive_beside, NULL);
    while (!is_beside || calls++ < 500) {
        usleep(1000);
        MPI_Iprobe(0, 2, MPI_COMM_SELF, &flag, MPI_STATUS_IGNORE);
    }
    MPI_Send(&data, 1, MPI_INT, 0, 1, MPI_COMM_SELF);
    pthread_join(thread, NULL);
}

static void cancel_send(void)
{
    static int data[LARGE];
    MPI_Request request;
    if (me == 0) {
        MPI_Isend(data, LARGE, MPI_INT, 1, 1, MPI_COMM_WORLD, &request);
        MPI_Cancel(&request);
        MPI_Wait(&request, MPI_STATUS_IGNORE);
    } else if (me == 1) {
        MPI_Recv(data, LARGE, MPI_INT, 0, 1, MPI_COMM_WORLD, MPI_STATUS_IGNORE);
    }
}

static void free_receive(void)
{
    int data;
    MPI_Request request;
    MPI_Irecv(&data, 1, MPI_INT, MPI_ANY_SOURCE, 1, MPI_COMM_SELF, &request);
    MPI_Request_free(&request);
    MPI_Send(&data, 1, MPI_INT, 0, 1, MPI_COMM_SELF);
}

static void by_group(void)
{
    MPI_Group all;
    MPI_Comm made;
    MPI_Comm_group(MPI_COMM_WORLD, &all);
    MPI_Comm_create_group(MPI_COMM_WORLD, all, 0, &made);
    MPI_Barrier(made);
}

static void window(void)
{
    MPI_Win made;
    int *base;
    MPI_Win_allocate(sizeof *base, sizeof *base, MPI_INFO_NULL, MPI_COMM_WORLD, &base, &made);
    MPI_Win_free(&made);
}

static void overtaking(void)
{
    MPI_Info info;
    MPI_Info_create(&info);
    MPI_Info_set(info, "mpi_assert_allow_overtaking", "true");
    MPI_Info_free(&info);
}

static void too_many(void)
{
    for (int i = 0; i <= 10000; i++)
        monitor_mpi_set("i", i);
}

static void wrong_name(void)
{
    monitor_mpi_set("not a name", 1);
}

/* Rank 1 is killed; the other one receives what it has sent before */
static void killed(void)
{
    if (me == 1) {
        send_to(0, 1);
        send_to(0, 2);
        usleep(100000);
        raise(SIGKILL);
    }
    receive_from(1, 1);
    pause();
}

/* Only what comes before the end of the recording is recorded */
static void ended(void)
{
    send_to((me + 1) % ranks, 1);
    receive_from(MPI_ANY_SOURCE, 1);
    barrier();
    monitor_mpi_end();
    send_to((me + 1) % ranks, 1);
    receive_from(MPI_ANY_SOURCE, 1);
    monitor_mpi_set("late", 1);
}

static const struct {
    const char *name;
    void (*run)(void);
} scenarios[] = {{"messages", messages},         {"collectives", collectives}, {"threads", threads},
                 {"cancel-send", cancel_send},   {"free", free_receive},       {"group", by_group},
                 {"window", window},             {"many", too_many},           {"name", wrong_name},
                 {"killed", killed},             {"ended", ended},             {"nothing", barrier},
                 {"overtaking", overtaking}};

int main(int count, char **words)
{
    int provided;
    MPI_Init_thread(&count, &words, MPI_THREAD_MULTIPLE, &provided);
    MPI_Comm_rank(MPI_COMM_WORLD, &me);
    MPI_Comm_size(MPI_COMM_WORLD, &ranks);
    srand((unsigned)me + (count > 2 ? (unsigned)atoi(words[2]) * 100 : 0));
    for (size_t i = 0; i < sizeof scenarios / sizeof *scenarios; i++)
        if (strcmp(scenarios[i].name, words[1]) == 0)
            scenarios[i].run();
    MPI_Finalize();
    return 0;
}
