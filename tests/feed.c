/* feed FIRST NEXT <FILE | READER: the file in pieces, the first of FIRST bytes and all others of NEXT. Each is written only when the reader has
 * taken the one before, so no read gets bytes of two. It ends early, and well, if the reader does. */
#include <errno.h>
#include <poll.h>
#include <sched.h>
#include <signal.h>
#include <stdio.h>
#include <stdlib.h>
#include <sys/ioctl.h>
#include <unistd.h>

/* Until the pipe is empty, or nobody is there to empty it. */
static void wait_for_reader(void) {
    struct pollfd pipe = {.fd = STDOUT_FILENO};
    int left;
    do {
        sched_yield();
        if (ioctl(STDOUT_FILENO, FIONREAD, &left) != 0) {
            perror("feed: standard output is no pipe");
            exit(1);
        }
    } while (left > 0 && poll(&pipe, 1, 0) == 0);
}

int main(int argc, char **argv) {
    static char text[1 << 17];
    size_t length = fread(text, 1, sizeof text, stdin), piece, next, at;
    if (argc != 3 || (piece = strtoul(argv[1], NULL, 10)) == 0 || (next = strtoul(argv[2], NULL, 10)) == 0) {
        fprintf(stderr, "usage: feed FIRST NEXT <FILE | READER\n");
        return 2;
    }
    signal(SIGPIPE, SIG_IGN);
    for (at = 0; at < length; at += piece, piece = next) {
        if (piece > length - at) piece = length - at;
        if (write(STDOUT_FILENO, text + at, piece) != (ssize_t)piece) return errno != EPIPE;
        wait_for_reader();
    }
    return 0;
}
