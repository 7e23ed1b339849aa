/* What a program of MPI tells the recorder for MPI (monitor_mpi.c), which records its messages without being told.
 *
 *     monitor_mpi_set("busy", 1);                              // an event: this is its value from now on
 *     monitor_mpi_with_next("sent", 1);                        // together with the event that comes next ..
 *     MPI_Send(&work, 1, MPI_INT, to, WORK, MPI_COMM_WORLD);   // .. here the send
 *
 * Call them between MPI_Init and MPI_Finalize. A name and a value are what docs/SPECIFICATION.md allows: a rank has at
 * most 16 variables. If the recorder isn't loaded, the calls do nothing: they are MPI_Pcontrol, which the standard has
 * for profilers, with levels of their own. */
#ifndef MONITOR_MPI_H
#define MONITOR_MPI_H

#include <mpi.h>
#include <stdint.h>

/* The levels of MPI_Pcontrol that mean the recorder. Level 0 ends the recording of the rank. */
#define MONITOR_MPI_SET 0x6d6f01
#define MONITOR_MPI_WITH_NEXT 0x6d6f02

/* Something happened in this rank: the variable has this value from now on. */
static inline void monitor_mpi_set(const char *name, int64_t value)
{
    MPI_Pcontrol(MONITOR_MPI_SET, name, value);
}

/* The variable has this value from the next event of this rank on, which is a send, a receipt or a monitor_mpi_set. A
 * call that only receives, as MPI_Waitall, sets it with its last receipt; a collective to which this rank contributes
 * sets it before the call. */
static inline void monitor_mpi_with_next(const char *name, int64_t value)
{
    MPI_Pcontrol(MONITOR_MPI_WITH_NEXT, name, value);
}

/* The recording of this rank ends here, with its end line: later events aren't recorded. Call it at a place that all
 * ranks pass, as right after a barrier. */
static inline void monitor_mpi_end(void)
{
    MPI_Pcontrol(0);
}

#endif
