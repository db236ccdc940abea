/*
 * Lets a program of tests go on from each of its allocations with that one
 * refused: each time in a process of its own, while the program itself goes on
 * as if none were. So a test is run once, and what comes before an allocation
 * is not run again for it. Loaded before the C library (glibc, Linux, x86-64):
 *
 *     cc -O2 -shared -fPIC -o each_growth.so tools/testing/each_growth.c
 *     EACH_TO=FILE LD_PRELOAD=./each_growth.so PROGRAM TEST
 *
 * PROGRAM is what `rt try --fail-alloc` builds, in which `tools/test growth` has put a
 * trap in the place of each comparison of an allocation's number with the one
 * to refuse: the number is in %rax then, and the jump that follows skips the
 * refusal unless the flag of equality is set.
 *
 * FILE gets of each process a line "AT STATUS LENGTH", in which STATUS is as
 * waitpid tells it, and LENGTH octets that it said on standard error. One that
 * takes more than a minute of the processor, or ten minutes, is ended by SIGXCPU
 * or SIGALRM.
 * EACH_AT_ONCE=N: so many processes run beside the program (1 unless given).
 */
#define _GNU_SOURCE
#include <errno.h>
#include <fcntl.h>
#include <signal.h>
#include <stdio.h>
#include <stdlib.h>
#include <sys/mman.h>
#include <sys/resource.h>
#include <sys/wait.h>
#include <ucontext.h>
#include <unistd.h>

enum { MOST_AT_ONCE = 64, MOST_SAID = 4096, BUSY_SECONDS = 60, SECONDS = 600 };

enum { FLAG_OF_EQUALITY = 0x40 };

/* A process in which an allocation is refused, and the file of what it says. */
struct process {
    pid_t id;
    int said;
    long at;
};

static struct process running[MOST_AT_ONCE];
static int count;          /* how many processes are running */
static int at_once = 1;    /* how many may be */
static int to = -1;        /* the file that gets what became of them */
static int is_one_of_them; /* whether this is such a process */

static void stop(const char *why)
{
    perror(why);
    _exit(99);
}

static void put(const char *octets, ssize_t length)
{
    if (write(to, octets, (size_t)length) != length)
        stop("each_growth: the file is not written");
}

/* Waits for one of the processes to end, and writes what became of it. */
static void collect(void)
{
    char line[80], said[MOST_SAID];
    int status, place = 0;
    ssize_t length;
    pid_t id = waitpid(-1, &status, 0);

    if (id < 0)
        stop("each_growth: no process ends");
    while (place < count && running[place].id != id)
        place++;
    if (place == count)
        return;
    length = pread(running[place].said, said, sizeof said, 0);
    if (length < 0)
        stop("each_growth: what a process said is not read");
    put(line, snprintf(line, sizeof line, "%ld %d %zd\n", running[place].at, status, length));
    put(said, length);
    close(running[place].said);
    running[place] = running[--count];
}

/* What a process does first: it says all in a file of its own. */
static void become_one_of_them(int said)
{
    struct rlimit busy = {BUSY_SECONDS, BUSY_SECONDS};
    int nothing = open("/dev/null", O_WRONLY);

    is_one_of_them = 1;
    if (nothing < 0 || dup2(nothing, 1) < 0 || dup2(said, 2) < 0 || setrlimit(RLIMIT_CPU, &busy))
        _exit(98);
    alarm(SECONDS);
}

/* Whether the allocation is refused: in a process of its own. */
static int is_refused(long at)
{
    struct process made = {0, 0, at};

    if (is_one_of_them)
        return 0;
    while (count >= at_once)
        collect();
    made.said = memfd_create("said", MFD_CLOEXEC);
    made.id = made.said < 0 ? -1 : fork();
    if (made.id < 0)
        stop("each_growth: no process is made");
    if (made.id == 0) {
        become_one_of_them(made.said);
        return 1;
    }
    running[count++] = made;
    return 0;
}

static void at_allocation(int number, siginfo_t *info, void *context)
{
    greg_t *registers = ((ucontext_t *)context)->uc_mcontext.gregs;
    int before = errno;

    (void)number;
    (void)info;
    if (is_refused(registers[REG_RAX]))
        registers[REG_EFL] |= FLAG_OF_EQUALITY;
    else
        registers[REG_EFL] &= ~(greg_t)FLAG_OF_EQUALITY;
    errno = before;
}

__attribute__((constructor)) static void begin(void)
{
    const char *file = getenv("EACH_TO"), *most = getenv("EACH_AT_ONCE");
    struct sigaction action = {0};

    if (!file)
        return;
    to = open(file, O_WRONLY | O_CREAT | O_TRUNC | O_CLOEXEC, 0600);
    if (to < 0)
        stop(file);
    at_once = most ? atoi(most) : 1;
    if (at_once < 1 || at_once > MOST_AT_ONCE)
        at_once = 1;
    action.sa_sigaction = at_allocation;
    action.sa_flags = SA_SIGINFO;
    if (sigaction(SIGTRAP, &action, NULL))
        stop("each_growth: no trap is taken");
}

__attribute__((destructor)) static void end(void)
{
    while (to >= 0 && !is_one_of_them && count > 0)
        collect();
}
