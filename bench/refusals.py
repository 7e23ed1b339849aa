"""What refuses a call of a program, or makes its allocations slow: a library that is loaded before the C library's own,
and counts. By its kind the call is an allocation, a `read` (or a receipt from a connection), a `write`, a `send`, an
`open`, an `accept`, a `mkdir`, a `rename`, or any of those that a signal can interrupt, which is then an
`interruption`. It counts the threads too that are started, and the most bytes that the program has had from its
allocator at once. With it a server listens on an address of its own."""
import ipaddress
import os
import subprocess
import sys

# The number of a process is below 1 << 22, and each address that begins by 127 is this machine's own.
FIRST_ADDRESS = 0x7f800000

SHIM = f"#define FIRST_ADDRESS {FIRST_ADDRESS:#x}u" + r"""
#define _GNU_SOURCE
#include <arpa/inet.h>
#include <dlfcn.h>
#include <errno.h>
#include <fcntl.h>
#include <malloc.h>
#include <netinet/in.h>
#include <pthread.h>
#include <stdarg.h>
#include <stdlib.h>
#include <string.h>
#include <sys/mman.h>
#include <sys/socket.h>
#include <sys/stat.h>
#include <sys/syscall.h>
#include <time.h>
#include <unistd.h>

void *__libc_malloc(size_t);
void *__libc_calloc(size_t, size_t);
void *__libc_realloc(void *, size_t);
void *__libc_memalign(size_t, size_t);
void __libc_free(void *);

static long *asked, refused, held;
static const char *kind = "allocation";

/* The count stands in a file that is mapped, since a program with threads may end without its destructors. */
__attribute__((constructor)) static void map(void) {
    const char *number = getenv("REFUSED"), *path = getenv("ASKED");
    int file = path ? (int)syscall(SYS_openat, AT_FDCWD, path, O_RDWR, 0) : -1;
    if (file < 0) return;
    refused = number ? atol(number) : 0;
    if (getenv("KIND")) kind = getenv("KIND");
    void *place = mmap(0, sizeof *asked, PROT_READ | PROT_WRITE, MAP_SHARED, file, 0);
    close(file);
    if (place != MAP_FAILED) asked = place;
}

/* Memory that is asked for under a lock is slow, so that other threads ask for the lock meanwhile, and sleep. */
static void be_slow(const char *what) {
    if (asked && !strcmp(kind, "slow") && !strcmp(what, "allocation")) usleep(1000);
}

static int is_refused(const char *what) {
    be_slow(what);
    return asked && !strcmp(kind, what) && __atomic_add_fetch(asked, 1, __ATOMIC_SEQ_CST) == refused;
}

/* Whether this call, which a signal can interrupt, is to fail, by this error if its kind is refused. */
static int fails(const char *what, int error) {
    int interrupts = asked && !strcmp(kind, "interruption");
    if (!is_refused(interrupts ? kind : what)) return 0;
    errno = interrupts ? EINTR : error;
    return 1;
}

/* Notes this many bytes more or less, and the most that there were so far. */
static void hold(long bytes) {
    if (!asked || strcmp(kind, "bytes")) return;
    long now = __atomic_add_fetch(&held, bytes, __ATOMIC_SEQ_CST), most = __atomic_load_n(asked, __ATOMIC_SEQ_CST);
    while (now > most && !__atomic_compare_exchange_n(asked, &most, now, 0, __ATOMIC_SEQ_CST, __ATOMIC_SEQ_CST));
}

static void *holding(void *place) {
    hold(malloc_usable_size(place));
    return place;
}

int pthread_create(pthread_t *thread, const pthread_attr_t *attributes, void *(*start)(void *), void *given) {
    int (*create)(pthread_t *, const pthread_attr_t *, void *(*)(void *), void *) = dlsym(RTLD_NEXT, "pthread_create");
    if (is_refused("thread")) return EAGAIN;
    return create(thread, attributes, start, given);
}

ssize_t read(int file, void *to, size_t size) {
    return fails("read", EIO) ? -1 : syscall(SYS_read, file, to, size);
}

ssize_t recv(int file, void *to, size_t size, int flags) {
    return fails("read", EIO) ? -1 : recvfrom(file, to, size, flags, 0, 0);
}

ssize_t write(int file, const void *from, size_t size) {
    return fails("write", EIO) ? -1 : syscall(SYS_write, file, from, size);
}

ssize_t send(int file, const void *from, size_t size, int flags) {
    return fails("send", ECONNRESET) ? -1 : sendto(file, from, size, flags, 0, 0);
}

static int opened(int folder, const char *path, int flags, mode_t mode) {
    return fails("open", EMFILE) ? -1 : (int)syscall(SYS_openat, folder, path, flags, mode);
}

int open(const char *path, int flags, ...) {
    va_list more;
    va_start(more, flags);
    mode_t mode = flags & O_CREAT ? va_arg(more, mode_t) : 0;
    va_end(more);
    return opened(AT_FDCWD, path, flags, mode);
}

int openat(int folder, const char *path, int flags, ...) {
    va_list more;
    va_start(more, flags);
    mode_t mode = flags & O_CREAT ? va_arg(more, mode_t) : 0;
    va_end(more);
    return opened(folder, path, flags, mode);
}

int accept4(int file, struct sockaddr *address, socklen_t *size, int flags) {
    return fails("accept", ECONNABORTED) ? -1 : (int)syscall(SYS_accept4, file, address, size, flags);
}

int mkdir(const char *path, mode_t mode) {
    if (is_refused("mkdir")) { errno = ENOSPC; return -1; }
    return (int)syscall(SYS_mkdir, path, mode);
}

int rename(const char *from, const char *to) {
    if (is_refused("rename")) { errno = EIO; return -1; }
    return (int)syscall(SYS_rename, from, to);
}

int nanosleep(const struct timespec *time, struct timespec *left) {
    if (asked && !strcmp(kind, "interruption") && fails("sleep", 0)) {
        if (left) *left = *time;
        return -1;
    }
    return (int)syscall(SYS_nanosleep, time, left);
}

/* The program listens on an address that its number gives, and not on 127.0.0.1: whoever tries the same port there, to
   see whether it is free or to connect, doesn't meet this program, nor is met by those who connect to it. */
int bind(int file, const struct sockaddr *address, socklen_t size) {
    struct sockaddr_in own;
    if (!asked || address->sa_family != AF_INET || size < sizeof own) return syscall(SYS_bind, file, address, size);
    memcpy(&own, address, sizeof own);
    own.sin_addr.s_addr = htonl(FIRST_ADDRESS | (unsigned)getpid());
    return syscall(SYS_bind, file, &own, sizeof own);
}

void *malloc(size_t size) {
    if (is_refused("allocation")) { errno = ENOMEM; return 0; }
    return holding(__libc_malloc(size));
}

void *calloc(size_t count, size_t size) {
    if (is_refused("allocation")) { errno = ENOMEM; return 0; }
    return holding(__libc_calloc(count, size));
}

void *realloc(void *old, size_t size) {
    if (is_refused("allocation")) { errno = ENOMEM; return 0; }
    long before = malloc_usable_size(old);
    void *given = __libc_realloc(old, size);
    hold((long)malloc_usable_size(given) - (given || !size ? before : 0));
    return given;
}

void free(void *place) {
    hold(-(long)malloc_usable_size(place));
    __libc_free(place);
}

void *aligned_alloc(size_t alignment, size_t size) {
    if (is_refused("allocation")) { errno = ENOMEM; return 0; }
    return holding(__libc_memalign(alignment, size));
}

int posix_memalign(void **given, size_t alignment, size_t size) {
    if (is_refused("allocation")) return ENOMEM;
    *given = holding(__libc_memalign(alignment, size));
    return *given ? 0 : ENOMEM;
}
"""


def make_shim(folder):
    """Compiles the library into the folder."""
    source = os.path.join(folder, "shim.c")
    with open(source, "w") as out:
        out.write(SHIM)
    subprocess.run(["gcc", "-O1", "-shared", "-fPIC", "-o", os.path.join(folder, "shim.so"), source], check=True)


def surroundings(folder, number, kind="allocation"):
    """The surroundings of a run with this call of the kind refused, of which those calls are counted from now on."""
    asked = os.path.join(folder, "asked")
    with open(asked, "wb") as counted:
        counted.write(bytes(8))
    return {**os.environ, "LD_PRELOAD": os.path.join(folder, "shim.so"), "REFUSED": str(number), "ASKED": asked,
            "KIND": kind}


def address_of(process):
    """The address on which a process with the library listens. It is no other process's."""
    return str(ipaddress.IPv4Address(FIRST_ADDRESS | process.pid))


def asked_for(folder):
    """How many calls of its kind the last run made, or the most bytes that it had."""
    with open(os.path.join(folder, "asked"), "rb") as counted:
        return int.from_bytes(counted.read(8), sys.byteorder)
