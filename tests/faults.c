/*
 * Loaded before the C library (LD_PRELOAD), this makes reads of standard input and writes to standard output go as they seldom go. Each variable has a number n; where
 * it is not set, nothing of the kind happens.
 *   FAULTS_INTERRUPTED   each call is first answered EINTR, n times
 *   FAULTS_BLOCKED       then EAGAIN, n times
 *   FAULTS_FEW           a call moves at most n bytes
 *   FAULTS_UNREAD        behind the first n bytes reading fails with EIO
 *   FAULTS_UNWRITTEN     behind the first n bytes writing fails with ENOSPC
 * At the end of the program, how many reads and how many writes have met one of these goes into the file that FAULTS_TOLD names.
 */
#define _GNU_SOURCE
#include <errno.h>
#include <stdint.h>
#include <stdio.h>
#include <stdlib.h>
#include <sys/syscall.h>
#include <unistd.h>

static struct {
    size_t answered, moved, met;
} of[2]; /* standard input, standard output */

static size_t named(const char *name, size_t otherwise)
{
    const char *value = getenv(name);
    return value == NULL ? otherwise : (size_t)atol(value);
}

static ssize_t fails(int fd, int number)
{
    of[fd].met++;
    errno = number;
    return -1;
}

static ssize_t moves(long call, int fd, void *bytes, size_t size, size_t whole, int number)
{
    size_t interrupted = named("FAULTS_INTERRUPTED", 0), blocked = named("FAULTS_BLOCKED", 0), most = named("FAULTS_FEW", size);
    if (of[fd].answered < interrupted + blocked)
        return fails(fd, of[fd].answered++ < interrupted ? EINTR : EAGAIN);
    of[fd].answered = 0;
    if (of[fd].moved == whole)
        return fails(fd, number);
    if (most > whole - of[fd].moved)
        most = whole - of[fd].moved;
    if (size > most) {
        of[fd].met++;
        size = most;
    }
    ssize_t moved = syscall(call, fd, bytes, size);
    if (moved > 0)
        of[fd].moved += (size_t)moved;
    return moved;
}

ssize_t read(int fd, void *bytes, size_t size)
{
    return fd == STDIN_FILENO ? moves(SYS_read, fd, bytes, size, named("FAULTS_UNREAD", SIZE_MAX), EIO) : syscall(SYS_read, fd, bytes, size);
}

ssize_t write(int fd, const void *bytes, size_t size)
{
    return fd == STDOUT_FILENO ? moves(SYS_write, fd, (void *)bytes, size, named("FAULTS_UNWRITTEN", SIZE_MAX), ENOSPC) : syscall(SYS_write, fd, bytes, size);
}

__attribute__((destructor)) static void told(void)
{
    FILE *file = fopen(getenv("FAULTS_TOLD"), "w");
    if (file != NULL) {
        fprintf(file, "%zu %zu\n", of[0].met, of[1].met);
        fclose(file);
    }
}
