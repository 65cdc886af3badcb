/* Runs a program of threads, one of which stops for good: stopping PLAN MILLISECONDS PROGRAM WORD..
   The program makes a thread, which makes the one that stops, and then another one, which goes on. PLAN says what these two do
   while all others stand, in words with a space between: S120, the one that stops takes 120 machine instructions; S3x, it comes
   to stand right before the third compare-and-exchange, from here on, of the program's own code; G120 and G3x, the one that goes
   on. Then all others go on. The status is 0 where they come to their end, or to wait for it; 1 where they don't in the time
   given; 2 where a thread ended before it did what the plan says; 3 where the program can't be run so. It is 4 more where the one
   that stops stands behind a fetch-and-add of the program's own code and before the store that follows it; the time is then a
   fortieth. For Linux on x86-64. */
#define _GNU_SOURCE
#include <fcntl.h>
#include <signal.h>
#include <stdio.h>
#include <stdlib.h>
#include <string.h>
#include <sys/ptrace.h>
#include <sys/user.h>
#include <sys/wait.h>
#include <time.h>
#include <unistd.h>

static double milliseconds(void) {
    struct timespec time;
    clock_gettime(CLOCK_MONOTONIC, &time);
    return time.tv_sec * 1e3 + time.tv_nsec / 1e6;
}

/* Whether a thread is in a futex call (202) that waits for another one to end: the word there is that one's number. */
static int waits_for(pid_t thread, pid_t other) {
    char path[64], text[256] = "";
    unsigned long word = 0;
    snprintf(path, sizeof path, "/proc/%d/syscall", thread);
    int file = open(path, O_RDONLY);
    if (file < 0) return 0;
    ssize_t got = read(file, text, sizeof text - 1);
    close(file);
    return got > 0 && sscanf(text, "202 %*x %*x %lx", &word) == 1 && word == (unsigned long)other;
}

static int is_clone(int status) { return status >> 8 == (SIGTRAP | PTRACE_EVENT_CLONE << 8); }

/* Lets a thread go on until it makes another one, which then stands before its first instruction; 0 where it makes none. */
static pid_t made_by(pid_t thread) {
    int status;
    unsigned long made = 0;
    if (ptrace(PTRACE_CONT, thread, 0, 0) < 0 || waitpid(thread, &status, __WALL) < 0 || !is_clone(status)) return 0;
    ptrace(PTRACE_GETEVENTMSG, thread, 0, &made);
    return waitpid((pid_t)made, &status, __WALL) < 0 || !WIFSTOPPED(status) ? 0 : (pid_t)made;
}

/* Where the code of the program lies that a process runs. */
struct code { unsigned long from, to; };

static struct code code_of(pid_t process) {
    char path[64], line[512], name[256] = "", here[256] = "", rights[8];
    struct code code = {0, 0};
    snprintf(path, sizeof path, "/proc/%d/exe", process);
    if (readlink(path, name, sizeof name - 1) < 0) return code;
    snprintf(path, sizeof path, "/proc/%d/maps", process);
    FILE *maps = fopen(path, "r");
    unsigned long from, to;
    while (maps && fgets(line, sizeof line, maps)) {
        if (sscanf(line, "%lx-%lx %7s %*s %*s %*s %255s", &from, &to, rights, here) == 4 && rights[2] == 'x' && !strcmp(here, name)) {
            code = (struct code){from, to};
        }
    }
    if (maps) fclose(maps);
    return code;
}

/* The first bytes of the instruction before which a thread stands, or 0 where it isn't in this code. */
static unsigned long bytes_before(pid_t thread, struct code code) {
    struct user_regs_struct registers;
    if (ptrace(PTRACE_GETREGS, thread, 0, &registers) < 0 || registers.rip < code.from || registers.rip >= code.to) return 0;
    return (unsigned long)ptrace(PTRACE_PEEKTEXT, thread, registers.rip, 0);
}

/* Whether a thread that stands is right before a compare-and-exchange of 64 bits in this code: the bytes f0 48..4f 0f b1. */
static int is_before_exchange(pid_t thread, struct code code) {
    return (bytes_before(thread, code) & 0xfffff8ff) == 0xb10f48f0;
}

/* Whether it is right before a fetch-and-add of 64 bits: f0 48..4f 0f c1. */
static int is_before_add(pid_t thread, struct code code) { return (bytes_before(thread, code) & 0xfffff8ff) == 0xc10f48f0; }

/* Whether it is right before a store of 64 bits that all see in one order: 48..4f 87. */
static int is_before_store(pid_t thread, struct code code) { return (bytes_before(thread, code) & 0xfff8) == 0x8748; }

/* Whether the last one of a thread's adds is not yet followed by a store. */
static int stands_between;

/* Whether a thread that stands takes one instruction and stands again. */
static int steps(pid_t thread, struct code code) {
    int status;
    if (is_before_add(thread, code)) stands_between = 1;
    if (is_before_store(thread, code)) stands_between = 0;
    return ptrace(PTRACE_SINGLESTEP, thread, 0, 0) == 0 && waitpid(thread, &status, __WALL) >= 0 && WIFSTOPPED(status);
}

/* Whether the two threads do what the plan says. */
static int goes_by(const char *plan, pid_t stopped, pid_t going, struct code code) {
    for (const char *at = plan; *at;) {
        char *end;
        pid_t thread = *at == 'S' ? stopped : going;
        long count = strtol(at + 1, &end, 10);
        if (*end == 'x') {
            for (end++; count > 0; count -= is_before_exchange(thread, code)) {
                if (!steps(thread, code)) return 0;
            }
        } else {
            for (; count > 0; count--) {
                if (!steps(thread, code)) return 0;
            }
        }
        at = end + (*end == ' ');
    }
    return 1;
}

/* Whether the main thread and its first one come to wait, it for that one, and that one for the stopped one, with the one
   that goes on and each later one ended, in so many milliseconds. */
static int all_go_on(pid_t top, pid_t first, pid_t stopped, double patience) {
    int others = 1, status;
    for (double end = milliseconds() + patience; milliseconds() < end;) {
        pid_t told = waitpid(-1, &status, __WALL | WNOHANG);
        if (told < 0) return 0;
        if (told == 0) {
            if (others == 0 && waits_for(top, first) && waits_for(first, stopped)) return 1;
            usleep(100);
        } else if (WIFEXITED(status) || WIFSIGNALED(status)) {
            others--;
        } else {
            int signal = WSTOPSIG(status);
            if (is_clone(status)) others++;
            ptrace(PTRACE_CONT, told, 0, signal == SIGTRAP || signal == SIGSTOP ? 0 : signal);
        }
    }
    return 0;
}

int main(int argc, char **argv) {
    int status;
    if (argc < 4) return 3;
    pid_t top = fork();
    if (top == 0) {
        ptrace(PTRACE_TRACEME, 0, 0, 0);
        dup2(open("/dev/null", O_WRONLY), 1);
        execv(argv[3], argv + 3);
        _exit(127);
    }
    if (waitpid(top, &status, 0) < 0 || !WIFSTOPPED(status)) return 3;
    ptrace(PTRACE_SETOPTIONS, top, 0, PTRACE_O_TRACECLONE | PTRACE_O_EXITKILL);
    pid_t first = made_by(top), stopped = first ? made_by(first) : 0, going = stopped ? made_by(top) : 0;
    if (!going) return 3;
    if (!goes_by(argv[1], stopped, going, code_of(top))) return 2;
    ptrace(PTRACE_CONT, going, 0, 0);
    ptrace(PTRACE_CONT, first, 0, 0);
    ptrace(PTRACE_CONT, top, 0, 0);
    double patience = atof(argv[2]) / (stands_between ? 40 : 1);
    return (stands_between ? 4 : 0) + (all_go_on(top, first, stopped, patience) ? 0 : 1);
}
