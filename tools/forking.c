/* Runs a program once for each text that comes on file 198, with that text as its standard input, and writes on file 199 how each
   run ended, as waitpid tells it. It is preloaded: a child is made for each text before main begins, which then runs in the child.
   So the program is loaded once. A text stands behind its length, of four bytes. What hasn't ended after a minute is ended. For Linux. */
#define _GNU_SOURCE
#include <stdint.h>
#include <sys/mman.h>
#include <sys/wait.h>
#include <unistd.h>

enum { TEXTS = 198, ENDS = 199, MOST = 1 << 16, SECONDS = 60 };

static int is_read(void *to, size_t left) {
    char *at = to;
    while (left > 0) {
        ssize_t got = read(TEXTS, at, left);
        if (got <= 0) return 0;
        at += got;
        left -= (size_t)got;
    }
    return 1;
}

/* Whether the text is standard input now. */
static int is_input(const char *text, size_t length) {
    int file = memfd_create("text", 0);
    return file >= 0 && write(file, text, length) == (ssize_t)length && lseek(file, 0, SEEK_SET) == 0 && dup2(file, 0) == 0 && close(file) == 0;
}

__attribute__((constructor)) static void run_for_each_text(void) {
    static char text[MOST];
    uint32_t length;
    while (is_read(&length, sizeof length) && length <= MOST && is_read(text, length)) {
        int status;
        pid_t child = fork();
        if (child == 0) {
            if (!is_input(text, length) || close(TEXTS) != 0 || close(ENDS) != 0) _exit(125);
            alarm(SECONDS);
            return;
        }
        if (child < 0 || waitpid(child, &status, 0) != child || write(ENDS, &status, sizeof status) != sizeof status) break;
    }
    _exit(0);
}
