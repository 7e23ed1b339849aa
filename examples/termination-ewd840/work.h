/* What ewd840.c and ewd998.c have in common: ranks that work, and hand work to each other by messages.
 *
 * A rank with units of work is active. It does one after the other, and hands some of them to other ranks; without any
 * it is passive, until it receives one. So all is done once all ranks are passive and no unit is on its way. Whether
 * that is so a token is to find out, which goes around the ranks: each of the two programs says how. */
#ifndef WORK_H
#define WORK_H

#include "monitor_mpi.h"

#include <stdio.h>
#include <stdlib.h>
#include <unistd.h>

enum { WORK = 1, TOKEN, STOP, UNITS = 3, MOST_MICROSECONDS = 2000 };

typedef struct {
    int black, sum;
} token;

static int rank, ranks;
static int units = UNITS, sent, received;
static int has_token, is_stopped;
static token held;

/* What a program says: what it notes of a unit that is handed on and of one that has come, whether rank 0 may declare
 * that all is done once it has the token again, and how the token goes on to the rank below. */
static void note_handed_on(int to);
static void note_come(void);
static int is_done(void);
static token next_token(void);

static void pause_a_little(void)
{
    usleep((useconds_t)(rand() % MOST_MICROSECONDS));
}

static int has_come(int tag, MPI_Status *status)
{
    int flag;
    MPI_Iprobe(MPI_ANY_SOURCE, tag, MPI_COMM_WORLD, &flag, status);
    return flag;
}

static void hand_on(int to)
{
    units--;
    note_handed_on(to);
    monitor_mpi_with_next("sent", ++sent);
    MPI_Send(NULL, 0, MPI_INT, to, WORK, MPI_COMM_WORLD);
}

static void take_unit(const MPI_Status *status)
{
    units++;
    note_come();
    monitor_mpi_with_next("received", ++received);
    monitor_mpi_with_next("active", 1);
    MPI_Recv(NULL, 0, MPI_INT, status->MPI_SOURCE, WORK, MPI_COMM_WORLD, MPI_STATUS_IGNORE);
}

/* Rank 0 says that all is done, and the others stop. */
static void declare(void)
{
    monitor_mpi_set("declared", 1);
    for (int to = 1; to < ranks; to++)
        MPI_Send(NULL, 0, MPI_INT, to, STOP, MPI_COMM_WORLD);
    is_stopped = 1;
}

/* A passive rank that has the token passes it, unless it is rank 0, and may declare that all is done. */
static void pass_token(void)
{
    if (units > 0 || !has_token)
        return;
    if (rank == 0 && is_done()) {
        declare();
        return;
    }
    token next = next_token();
    has_token = 0;
    MPI_Send(&next, 2, MPI_INT, rank > 0 ? rank - 1 : ranks - 1, TOKEN, MPI_COMM_WORLD);
}

static void take_token(void)
{
    MPI_Recv(&held, 2, MPI_INT, MPI_ANY_SOURCE, TOKEN, MPI_COMM_WORLD, MPI_STATUS_IGNORE);
    has_token = 1;
    pass_token();
}

/* Does a unit, or hands it on, often to the rank below; then it may be passive. */
static void do_unit(void)
{
    int below = (rank + ranks - 1) % ranks, other = (rank + 1 + rand() % (ranks - 1)) % ranks;
    if (rand() % 3 > 0)
        hand_on(rand() % 2 ? below : other);
    else
        units--;
    if (units == 0)
        monitor_mpi_set("active", 0);
    pass_token();
}

/* What control the others is looked at first. */
static void work_until_stopped(void)
{
    MPI_Status status;
    while (!is_stopped) {
        pause_a_little();
        if (has_come(STOP, &status)) {
            MPI_Recv(NULL, 0, MPI_INT, 0, STOP, MPI_COMM_WORLD, MPI_STATUS_IGNORE);
            is_stopped = 1;
        } else if (has_come(TOKEN, &status))
            take_token();
        else if (has_come(WORK, &status))
            take_unit(&status);
        else if (units > 0)
            do_unit();
    }
}

/* How many units haven't been done: those that are left here, and those that come within 50 milliseconds. */
static int count_left(void)
{
    MPI_Status status;
    int left = units;
    for (int i = 0; i < 50; i++, usleep(1000))
        for (; has_come(WORK, &status); left++)
            take_unit(&status);
    return left;
}

static int run(int count, char **words)
{
    int left, all = 0;
    MPI_Init(&count, &words);
    MPI_Comm_rank(MPI_COMM_WORLD, &rank);
    MPI_Comm_size(MPI_COMM_WORLD, &ranks);
    srand((unsigned)((count > 1 ? atoi(words[1]) : 1) * 100 + rank));
    has_token = rank == 0;
    held.black = 1;
    work_until_stopped();
    left = count_left();
    MPI_Reduce(&left, &all, 1, MPI_INT, MPI_SUM, 0, MPI_COMM_WORLD);
    if (rank == 0)
        printf("rank 0 has declared that all is done, and %d units are left\n", all);
    return MPI_Finalize();
}

#endif
