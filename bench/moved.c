/* Loaded before a program (LD_PRELOAD), counts what the program has cleared and copied by calls of memset, memcpy and
   memmove, by the place of each call, and the calls of the C library that are system calls, by name. The file that
   MOVED_COUNTS names has the counts at each moment, also behind a signal: bench/moved.py says what they mean. */
#define _GNU_SOURCE
#include <dlfcn.h>
#include <errno.h>
#include <fcntl.h>
#include <link.h>
#include <poll.h>
#include <stdarg.h>
#include <stdint.h>
#include <stdlib.h>
#include <string.h>
#include <sys/epoll.h>
#include <sys/file.h>
#include <sys/ioctl.h>
#include <sys/mman.h>
#include <sys/random.h>
#include <sys/socket.h>
#include <sys/stat.h>
#include <sys/uio.h>
#include <unistd.h>

/* A shorter call is counted by itself: what compilers do without a call, below some 128 bytes, can't be counted at all. */
enum { LEAST = 256, ROWS = 1 << 14, TRIES = 64, NAMES = 4096 - 4 * sizeof(uint64_t) };

#define SYSTEM_CALLS(IT) \
    IT(accept) IT(accept4) IT(bind) IT(close) IT(connect) IT(epoll_create1) IT(epoll_ctl) IT(epoll_wait) IT(fchmod) IT(fcntl) IT(fdatasync) \
    IT(flock) IT(fsync) IT(ftruncate) IT(futimens) IT(getdents64) IT(getentropy) IT(geteuid) IT(getpeername) IT(getsockname) IT(ioctl) IT(listen) IT(lseek) IT(open) \
    IT(openat) IT(poll) IT(pread) IT(pwrite) IT(read) IT(readv) IT(recv) IT(recvfrom) IT(recvmsg) IT(rename) IT(send) IT(sendmsg) IT(sendto) \
    IT(setsockopt) IT(shutdown) IT(socket) IT(statx) IT(write) IT(writev)
#define KIND(name) OF_##name,
#define NAME(name) #name "\0"
enum { NOTHING, CLEARED, COPIED, CLEARED_LITTLE, COPIED_LITTLE, SYSTEM_CALLS(KIND) };

struct row {
    /* The place, as an address of the program's file, with the kind in its last eight bits; 0 of a row without counts. */
    uint64_t key, calls;
    /* The bytes that the calls moved or brought, and how many calls answered that they would have to wait. */
    uint64_t bytes, would_wait;
};
static struct counts {
    /* What bench/moved.py knows such a file by, where the program was loaded, and how many calls found no row. */
    uint64_t mark, base, lost, rows;
    char names[NAMES];
    struct row row[ROWS];
} *counts;

static void add(uint64_t place, uint64_t kind, uint64_t bytes, uint64_t would_wait) {
    if (!counts) return;
    uint64_t key = place << 8 | kind, hash = key * 0x9E3779B97F4A7C15u >> 40;
    for (int tried = 0; tried < TRIES; tried++) {
        struct row *row = &counts->row[(hash + tried) % ROWS];
        uint64_t found = 0;
        if (row->key == key || __atomic_compare_exchange_n(&row->key, &found, key, 0, __ATOMIC_RELAXED, __ATOMIC_RELAXED) || found == key) {
            __atomic_fetch_add(&row->calls, 1, __ATOMIC_RELAXED);
            __atomic_fetch_add(&row->bytes, bytes, __ATOMIC_RELAXED);
            __atomic_fetch_add(&row->would_wait, would_wait, __ATOMIC_RELAXED);
            return;
        }
    }
    __atomic_fetch_add(&counts->lost, 1, __ATOMIC_RELAXED);
}

/* A call of memory's, at the place to which it returns. */
#define MOVES(name, source, long_kind, short_kind) \
    void *name(void *to, source from, size_t count) { \
        static void *(*next)(void *, source, size_t); \
        if (!next) next = (void *(*)(void *, source, size_t))dlsym(RTLD_NEXT, #name); \
        add((uint64_t)__builtin_return_address(0) - (counts ? counts->base : 0), count < LEAST ? short_kind : long_kind, count, 0); \
        return next(to, from, count); \
    }
MOVES(memcpy, const void *, COPIED, COPIED_LITTLE)
MOVES(memmove, const void *, COPIED, COPIED_LITTLE)
MOVES(memset, int, CLEARED, CLEARED_LITTLE)

/* A system call, whose answer is a count of bytes where it `BRINGS` them. */
#define CALLS(type, name, words, passed, brings) \
    type name words { \
        static type (*next) words; \
        if (!next) next = (type(*) words)dlsym(RTLD_NEXT, #name); \
        type answer = next passed; \
        add(0, OF_##name, brings && answer > 0 ? answer : 0, answer < 0 && (errno == EAGAIN || errno == EINPROGRESS)); \
        return answer; \
    }
#define BRINGS(name, words, passed) CALLS(ssize_t, name, words, passed, 1)
#define ANSWERS(name, words, passed) CALLS(int, name, words, passed, 0)
BRINGS(read, (int file, void *bytes, size_t count), (file, bytes, count))
BRINGS(readv, (int file, const struct iovec *parts, int count), (file, parts, count))
BRINGS(pread, (int file, void *bytes, size_t count, off_t at), (file, bytes, count, at))
BRINGS(recv, (int link, void *bytes, size_t count, int flags), (link, bytes, count, flags))
BRINGS(recvfrom, (int link, void *bytes, size_t count, int flags, struct sockaddr *from, socklen_t *size), (link, bytes, count, flags, from, size))
BRINGS(recvmsg, (int link, struct msghdr *message, int flags), (link, message, flags))
BRINGS(write, (int file, const void *bytes, size_t count), (file, bytes, count))
BRINGS(writev, (int file, const struct iovec *parts, int count), (file, parts, count))
BRINGS(pwrite, (int file, const void *bytes, size_t count, off_t at), (file, bytes, count, at))
BRINGS(send, (int link, const void *bytes, size_t count, int flags), (link, bytes, count, flags))
BRINGS(sendto, (int link, const void *bytes, size_t count, int flags, const struct sockaddr *to, socklen_t size), (link, bytes, count, flags, to, size))
BRINGS(sendmsg, (int link, const struct msghdr *message, int flags), (link, message, flags))
BRINGS(getdents64, (int file, void *bytes, size_t count), (file, bytes, count))
CALLS(off_t, lseek, (int file, off_t at, int from), (file, at, from), 0)
ANSWERS(accept, (int link, struct sockaddr *from, socklen_t *size), (link, from, size))
ANSWERS(accept4, (int link, struct sockaddr *from, socklen_t *size, int flags), (link, from, size, flags))
ANSWERS(bind, (int link, const struct sockaddr *to, socklen_t size), (link, to, size))
ANSWERS(close, (int file), (file))
ANSWERS(connect, (int link, const struct sockaddr *to, socklen_t size), (link, to, size))
ANSWERS(epoll_create1, (int flags), (flags))
ANSWERS(epoll_ctl, (int poll, int what, int file, struct epoll_event *event), (poll, what, file, event))
ANSWERS(epoll_wait, (int poll, struct epoll_event *events, int count, int most), (poll, events, count, most))
ANSWERS(fchmod, (int file, mode_t mode), (file, mode))
ANSWERS(fdatasync, (int file), (file))
ANSWERS(flock, (int file, int what), (file, what))
ANSWERS(fsync, (int file), (file))
ANSWERS(ftruncate, (int file, off_t size), (file, size))
ANSWERS(futimens, (int file, const struct timespec times[2]), (file, times))
ANSWERS(getentropy, (void *bytes, size_t count), (bytes, count))
CALLS(uid_t, geteuid, (void), (), 0)
ANSWERS(getpeername, (int link, struct sockaddr *of, socklen_t *size), (link, of, size))
ANSWERS(getsockname, (int link, struct sockaddr *of, socklen_t *size), (link, of, size))
ANSWERS(listen, (int link, int most), (link, most))
ANSWERS(poll, (struct pollfd *files, nfds_t count, int most), (files, count, most))
ANSWERS(rename, (const char *from, const char *to), (from, to))
ANSWERS(setsockopt, (int link, int level, int name, const void *value, socklen_t size), (link, level, name, value, size))
ANSWERS(shutdown, (int link, int how), (link, how))
ANSWERS(socket, (int family, int kind, int protocol), (family, kind, protocol))
ANSWERS(statx, (int at, const char *restrict name, int flags, unsigned mask, struct statx *restrict found), (at, name, flags, mask, found))

/* The same of calls that may have one word more, which is handed on whether it is there or not. */
#define ANSWERS_MORE(name, words, last, passed) \
    int name words { \
        static int(*next) words; \
        va_list more; \
        va_start(more, last); \
        void *word = va_arg(more, void *); \
        va_end(more); \
        if (!next) next = (int(*) words)dlsym(RTLD_NEXT, #name); \
        int answer = next passed; \
        add(0, OF_##name, 0, 0); \
        return answer; \
    }
ANSWERS_MORE(open, (const char *name, int flags, ...), flags, (name, flags, word))
ANSWERS_MORE(openat, (int at, const char *name, int flags, ...), flags, (at, name, flags, word))
ANSWERS_MORE(fcntl, (int file, int what, ...), what, (file, what, word))
ANSWERS_MORE(ioctl, (int file, unsigned long what, ...), what, (file, what, word))

static int take_base(struct dl_phdr_info *found, size_t size, void *base) {
    (void)size;
    *(uint64_t *)base = found->dlpi_addr;
    return 1; /* The program itself comes first. */
}

__attribute__((constructor)) static void begin(void) {
    static const char names[] = "cleared\0copied\0cleared little\0copied little\0" SYSTEM_CALLS(NAME);
    _Static_assert(sizeof names <= NAMES, "the names have no room");
    const char *name = getenv("MOVED_COUNTS");
    int file = name ? open(name, O_RDWR | O_CREAT, 0666) : -1;
    if (file < 0) return;
    struct counts *found = MAP_FAILED;
    if (!ftruncate(file, sizeof *found)) found = mmap(0, sizeof *found, PROT_READ | PROT_WRITE, MAP_SHARED, file, 0);
    close(file);
    if (found == MAP_FAILED) return;
    dl_iterate_phdr(take_base, &found->base);
    for (size_t at = 0; at < sizeof names; at++) found->names[at] = names[at];
    found->rows = ROWS;
    found->mark = 0x3130444556304D; /* "M0VED01" */
    counts = found;
}
