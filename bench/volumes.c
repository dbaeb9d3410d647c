/* Two helpers of volumes.sh.
 *
 *     volumes run COMMAND ..        runs a command, and writes to descriptor 3 its seconds on the wall, those
 *                                   of a processor, and its resident memory in kB at its highest; its exit
 *                                   status is the command's. Each run has the same addresses: how much of a
 *                                   library the system maps beside what is used depends on where it lies
 *     volumes replay LIST FILE      makes on a file the calls of a list, a line each, with bytes of no
 *                                   meaning, and writes the same of that, with 0 for the memory. The start
 *                                   of the process counts in a command's seconds, and not in these
 *     volumes append LIST FILE      the same, with the work of an append: what is read of standard input is
 *                                   a segment's data, gets its parity, and is what is written
 *
 * What wait4 tells of the memory misses up to a tenth of a megabyte: the system counts pages by processor, and adds
 * them up later. It adds them for /proc/PID/status, which is read as the command exits.
 *
 * The lines of a list: `read PLACE COUNT`, `take COUNT` for a read of standard input, `write PLACE COUNT`,
 * `length COUNT`, `sync` for fsync, and `datasync` for fdatasync. */
#define _GNU_SOURCE
#include <fcntl.h>
#include <signal.h>
#include <stdio.h>
#include <stdlib.h>
#include <string.h>
#include <sys/personality.h>
#include <sys/ptrace.h>
#include <sys/resource.h>
#include <sys/wait.h>
#include <time.h>
#include <unistd.h>

enum { LONGEST = 1 << 20 };

enum kind { READ, TAKE, WRITE, LENGTH, SYNC, DATASYNC };

struct call {
    enum kind kind;
    long place, count;
};

static double now(void)
{
    struct timespec at;
    clock_gettime(CLOCK_MONOTONIC, &at);
    return at.tv_sec + at.tv_nsec / 1e9;
}

static double used(const struct rusage *usage)
{
    return usage->ru_utime.tv_sec + usage->ru_utime.tv_usec / 1e6
         + usage->ru_stime.tv_sec + usage->ru_stime.tv_usec / 1e6;
}

static void fail(const char *what)
{
    perror(what);
    exit(1);
}

/* The most memory that a process had, in kB, where it exits. */
static long highest(pid_t process)
{
    char path[64], line[256];
    long kilobytes = 0;
    snprintf(path, sizeof path, "/proc/%d/status", process);
    FILE *told = fopen(path, "r");
    if (told == NULL)
        return 0;
    while (fgets(line, sizeof line, told) != NULL && sscanf(line, "VmHWM: %ld", &kilobytes) != 1)
        ;
    fclose(told);
    return kilobytes;
}

static int run(char **words)
{
    struct rusage usage;
    int status, exits = SIGTRAP | PTRACE_EVENT_EXIT << 8;
    long most = 0;
    double start = now();
    pid_t child = fork();
    if (child < 0)
        fail("fork");
    if (child == 0) {
        close(3);
        personality(ADDR_NO_RANDOMIZE);
        ptrace(PTRACE_TRACEME, 0, NULL, NULL);
        execvp(words[0], words);
        fail(words[0]);
    }
    /* It stops first behind its exec. */
    for (int is_first = 1; wait4(child, &status, 0, &usage) == child && WIFSTOPPED(status); is_first = 0) {
        int stopped_by = WSTOPSIG(status);
        if (is_first && ptrace(PTRACE_SETOPTIONS, child, NULL, PTRACE_O_TRACEEXIT | PTRACE_O_EXITKILL) < 0)
            fail("ptrace");
        if (status >> 8 == exits)
            most = highest(child);
        ptrace(PTRACE_CONT, child, NULL, stopped_by == SIGTRAP ? 0 : stopped_by);
    }
    if (usage.ru_maxrss > most)
        most = usage.ru_maxrss;
    dprintf(3, "%.6f %.6f %ld\n", now() - start, used(&usage), most);
    return WIFEXITED(status) ? WEXITSTATUS(status) : 1;
}

static struct call *read_calls(const char *path, long *count)
{
    struct call *calls = NULL;
    char line[128];
    long room = 0;
    FILE *list = fopen(path, "r");
    if (list == NULL)
        fail(path);
    for (*count = 0; fgets(line, sizeof line, list) != NULL; ++*count) {
        if (*count == room) {
            room = room ? 2 * room : 1024;
            calls = realloc(calls, room * sizeof *calls);
            if (calls == NULL)
                fail("realloc");
        }
        struct call *call = calls + *count;
        if (sscanf(line, "read %ld %ld", &call->place, &call->count) == 2 && call->count <= LONGEST)
            call->kind = READ;
        else if (sscanf(line, "take %ld", &call->count) == 1 && call->count <= LONGEST)
            call->kind = TAKE;
        else if (sscanf(line, "write %ld %ld", &call->place, &call->count) == 2 && call->count <= LONGEST)
            call->kind = WRITE;
        else if (sscanf(line, "length %ld", &call->count) == 1)
            call->kind = LENGTH;
        else if (strcmp(line, "sync\n") == 0)
            call->kind = SYNC;
        else if (strcmp(line, "datasync\n") == 0)
            call->kind = DATASYNC;
        else {
            fprintf(stderr, "volumes: no call: %s", line);
            exit(1);
        }
    }
    fclose(list);
    return calls;
}

static unsigned char sectors[32][1024];

/* Puts the parity of 29 sectors behind them: the remainder of a division by a polynomial with the coefficients 1, 0xC0, 0xC0 and 1.
 * 0xC0 times a value is the sum of 2, 1 and 0xC3 times it, and 0xC3 is the inverse of 2. */
static void put_parity(void)
{
    enum { COLUMNS = 128 };
    for (int column = 0; column < 1024; column += COLUMNS) {
        unsigned char low[COLUMNS] = {0}, middle[COLUMNS] = {0}, high[COLUMNS] = {0};
        for (int sector = 0; sector < 29; sector++)
            for (int i = 0; i < COLUMNS; i++) {
                unsigned char back = sectors[sector][column + i] ^ high[i];
                unsigned char twice = back << 1 ^ (back & 0x80 ? 0x87 : 0);
                unsigned char half = back >> 1 ^ (back & 1 ? 0xC3 : 0);
                unsigned char product = twice ^ back ^ half;
                high[i] = middle[i] ^ product;
                middle[i] = low[i] ^ product;
                low[i] = back;
            }
        memcpy(sectors[29] + column, high, COLUMNS);
        memcpy(sectors[30] + column, middle, COLUMNS);
        memcpy(sectors[31] + column, low, COLUMNS);
    }
}

static int make(int file, const struct call *call, unsigned char *bytes)
{
    switch (call->kind) {
    case READ:
        return pread(file, bytes, call->count, call->place) < 0 ? -1 : 0;
    case TAKE:
        return read(0, bytes, call->count) < 0 ? -1 : 0;
    case WRITE:
        return pwrite(file, bytes, call->count, call->place) == call->count ? 0 : -1;
    case LENGTH:
        return ftruncate(file, call->count);
    case SYNC:
        return fsync(file);
    default:
        return fdatasync(file);
    }
}

/* A call of an append: a segment's sectors are written in their order, behind the reading of their data. */
static int append(int file, const struct call *call, unsigned char *bytes)
{
    static int next;
    if (call->kind == TAKE && call->count <= 29 * 1024) {
        if (read(0, sectors, call->count) < 0)
            return -1;
        put_parity();
        next = 0;
        return 0;
    }
    if (call->kind == WRITE && call->count == 1024)
        return pwrite(file, sectors[next++ % 32], 1024, call->place) == 1024 ? 0 : -1;
    return make(file, call, bytes);
}

static int replay(const char *list, const char *path, int (*call)(int, const struct call *, unsigned char *))
{
    static unsigned char bytes[LONGEST];
    struct rusage before, after;
    long count;
    struct call *calls = read_calls(list, &count);
    int file = open(path, O_RDWR);
    if (file < 0)
        fail(path);
    memset(bytes, 0x5A, sizeof bytes);
    getrusage(RUSAGE_SELF, &before);
    double start = now();
    for (long i = 0; i < count; i++)
        if (call(file, calls + i, bytes) != 0)
            fail(path);
    double seconds = now() - start;
    getrusage(RUSAGE_SELF, &after);
    dprintf(3, "%.6f %.6f 0\n", seconds, used(&after) - used(&before));
    return 0;
}

int main(int count, char **words)
{
    if (count >= 3 && strcmp(words[1], "run") == 0)
        return run(words + 2);
    if (count == 4 && strcmp(words[1], "replay") == 0)
        return replay(words[2], words[3], make);
    if (count == 4 && strcmp(words[1], "append") == 0)
        return replay(words[2], words[3], append);
    fputs("usage: volumes run COMMAND .. | volumes replay|append LIST FILE, with descriptor 3 for what is measured\n", stderr);
    return 2;
}
