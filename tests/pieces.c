/*
 * Hands a program its input in pieces of our choosing: each read of it gets one piece, as they go through a socket that keeps
 * them apart. `pieces N COMMAND..` sends standard input in pieces of N bytes; `pieces split COMMAND..` in the pieces that a
 * byte 0 ends; `pieces hold N COMMAND..` sends it as one piece, leaves the input open and ends once N bytes have been printed,
 * or after 20 seconds: what is printed before more input comes. What the program prints goes to standard output.
 *
 * `pieces stop COMMAND..` leaves the input as it is, a file of more answers than a small socket holds: nobody reads the answers
 * until the program has waited in a write, and was stopped and let go on, three times. As such a socket's writes have a time
 * limit, a write that has taken nothing then ends as one that a signal interrupts.
 */
#define _GNU_SOURCE
#include <poll.h>
#include <signal.h>
#include <stdint.h>
#include <stdio.h>
#include <stdlib.h>
#include <string.h>
#include <sys/socket.h>
#include <sys/time.h>
#include <sys/wait.h>
#include <unistd.h>

#define PIECE_MAX 65536

static void fail(const char *what)
{
    perror(what);
    exit(2);
}

static void put_piece(int to, const char *bytes, size_t n)
{
    if (n > 0 && send(to, bytes, n, MSG_NOSIGNAL) != (ssize_t)n) {
        fail("send");
    }
}

/* Sends standard input: pieces of n bytes, or, for 0, those that a byte 0 ends. */
static void feed(int to, size_t n)
{
    static char bytes[PIECE_MAX];
    size_t held = 0;
    int c;
    while ((c = getchar()) != EOF) {
        if (n > 0 || c != 0) {
            bytes[held++] = (char)c;
        }
        if (held == (n > 0 ? n : PIECE_MAX) || (n == 0 && c == 0)) {
            put_piece(to, bytes, held);
            held = 0;
        }
    }
    put_piece(to, bytes, held);
}

/* Copies what is printed, up to n bytes, as long as some comes within 20 seconds. */
static void copy(int from, size_t n)
{
    static char bytes[PIECE_MAX];
    struct pollfd ready = {from, POLLIN, 0};
    while (n > 0 && poll(&ready, 1, 20000) > 0) {
        ssize_t got = read(from, bytes, n < PIECE_MAX ? n : PIECE_MAX);
        if (got <= 0) {
            return;
        }
        fwrite(bytes, 1, (size_t)got, stdout);
        n -= (size_t)got;
    }
}

/* What the kernel says of a program: S where it waits, T where it is stopped, Z where it has ended. */
static char state_of(pid_t child)
{
    char name[40], state = 0;
    FILE *stat;
    snprintf(name, sizeof name, "/proc/%ld/stat", (long)child);
    stat = fopen(name, "r");
    if (stat == NULL || fscanf(stat, "%*d (%*[^)]) %c", &state) != 1) {
        fail(name);
    }
    fclose(stat);
    return state;
}

/* Waits up to 20 seconds until a program is in a state, or has ended: says whether it is. */
static int comes_to(pid_t child, char wanted)
{
    for (int turn = 0; turn < 20000; turn++) {
        char state = state_of(child);
        if (state == wanted || state == 'Z') {
            return state == wanted;
        }
        usleep(1000);
    }
    return 0;
}

/* Runs a program whose writes are interrupted. */
static void stop(char **command)
{
    int out[2], size = 4096;
    struct timeval limit = {60, 0};
    struct pollfd ready = {0, POLLIN, 0};
    pid_t child;
    if (socketpair(AF_UNIX, SOCK_STREAM, 0, out) != 0 || setsockopt(out[1], SOL_SOCKET, SO_SNDBUF, &size, sizeof size) != 0 ||
        setsockopt(out[1], SOL_SOCKET, SO_SNDTIMEO, &limit, sizeof limit) != 0) {
        fail("socketpair");
    }
    child = fork();
    if (child == 0) {
        dup2(out[1], 1);
        close(out[0]);
        close(out[1]);
        execvp(command[0], command);
        fail("execvp");
    }
    close(out[1]);
    ready.fd = out[0];
    if (poll(&ready, 1, 20000) <= 0 || !comes_to(child, 'S')) {
        fprintf(stderr, "pieces: no write has waited\n");
    }
    for (int turn = 0; turn < 3 && comes_to(child, 'S'); turn++) {
        kill(child, SIGSTOP);
        comes_to(child, 'T');
        kill(child, SIGCONT);
    }
    copy(out[0], SIZE_MAX);
    close(out[0]);
    fflush(stdout);
    waitpid(child, NULL, 0);
}

int main(int argc, char **argv)
{
    int in[2], out[2];
    int hold = argc > 1 && strcmp(argv[1], "hold") == 0;
    int first = hold ? 3 : 2;
    size_t n;
    pid_t child;
    if (argc <= first) {
        fprintf(stderr, "pieces N|split|hold N|stop COMMAND..\n");
        return 2;
    }
    if (strcmp(argv[1], "stop") == 0) {
        stop(argv + 2);
        return 0;
    }
    n = (size_t)strtoul(argv[first - 1], NULL, 10);
    if (n > PIECE_MAX && !hold) {
        fprintf(stderr, "pieces: a piece has at most %d bytes\n", PIECE_MAX);
        return 2;
    }
    if (socketpair(AF_UNIX, SOCK_SEQPACKET, 0, in) != 0 || pipe(out) != 0) {
        fail("socketpair");
    }
    child = fork();
    if (child == 0) {
        dup2(in[1], 0);
        if (hold) {
            dup2(out[1], 1);
        }
        close(in[0]);
        close(in[1]);
        close(out[0]);
        close(out[1]);
        execvp(argv[first], argv + first);
        fail("execvp");
    }
    close(in[1]);
    close(out[1]);
    feed(in[0], hold ? PIECE_MAX : n);
    if (hold) {
        copy(out[0], n);
    }
    close(in[0]);
    close(out[0]);
    fflush(stdout);
    waitpid(child, NULL, 0);
    return 0;
}
