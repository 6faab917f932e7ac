/*
 * The calls of include/samopute.h for a processor that is not x86-64, for tests alone: each is made by the library, in
 * a process that runs under an emulator (server.c), on copies of what the call is lent. What comes back is held to what
 * the header says before it is handed on: a buffer that was lent to be read has not changed, nor what lies in front of
 * any. Where that is not so, or where the server has died, the process is aborted: no answer is made up here.
 */
#define _GNU_SOURCE
#include <pthread.h>
#include <sched.h>
#include <spawn.h>
#include <stdio.h>
#include <stdlib.h>
#include <sys/mman.h>
#include <sys/wait.h>

#include "channel.h"
#include "samopute.h"

#define PAINT 0xC3

static pthread_mutex_t lock = PTHREAD_MUTEX_INITIALIZER;
static struct channel *channel;
static pid_t server;
static int processor = -1;
static size_t slots;
static struct {
    const void *from;
    void *to; /* NULL if it was lent to be read */
} buffers[SLOTS];

static void fail(const char *why)
{
    fprintf(stderr, "tests/across: %s\n", why);
    abort();
}

static void see_that_it_lives(void)
{
    int status = 0;
    if (waitpid(server, &status, WNOHANG) != 0) {
        fprintf(stderr, "tests/across: the process that makes the calls has ended, status %d, signal %d (11: it touched "
                        "memory that it was not lent)\n", WEXITSTATUS(status), WTERMSIG(status));
        abort();
    }
}

static void start(void)
{
    char *const words[] = {"sh", RUN, PROGRAM, NULL};
    posix_spawn_file_actions_t actions;
    int file = memfd_create("samopute", MFD_CLOEXEC);
    if (file < 0 || ftruncate(file, CHANNEL_LENGTH) != 0) {
        fail("no memory to share");
    }
    channel = mmap(NULL, CHANNEL_LENGTH, PROT_READ | PROT_WRITE, MAP_SHARED, file, 0);
    if (channel == MAP_FAILED) {
        fail("the shared memory cannot be mapped");
    }
    channel->client = getpid();
    posix_spawn_file_actions_init(&actions);
    posix_spawn_file_actions_adddup2(&actions, file, CHANNEL_FILE);
    if (posix_spawnp(&server, words[0], &actions, NULL, words, environ) != 0) {
        fail("the process that makes the calls cannot be started");
    }
    posix_spawn_file_actions_destroy(&actions);
    close(file);
}

/* The server goes to the processor that this thread is on: the two never work at once, and another is woken later. */
static void bring_near(void)
{
    int here = sched_getcpu();
    if (here != processor && here >= 0) {
        cpu_set_t set;
        CPU_ZERO(&set);
        CPU_SET(here, &set);
        sched_setaffinity(server, sizeof set, &set);
        processor = here;
    }
}

/* Threads may call at once: they take turns. */
static void begin(void)
{
    pthread_mutex_lock(&lock);
    if (channel == NULL) {
        start();
    }
    bring_near();
    slots = 0;
}

static void lend(const void *from, void *to, size_t count, size_t size)
{
    uint8_t *bytes = slot_end(channel, slots);
    if (count > (SLOT_LENGTH - MARGIN) / size) {
        fail("a buffer is longer than SLOT_LENGTH allows");
    }
    bytes -= count * size;
    memset(bytes - MARGIN, PAINT, MARGIN);
    if (count > 0) {
        memcpy(bytes, from, count * size);
    }
    channel->lengths[slots] = count * size;
    buffers[slots].from = from;
    buffers[slots].to = to;
    slots++;
}

static void take_back(size_t slot)
{
    uint8_t *bytes = slot_end(channel, slot) - channel->lengths[slot];
    size_t i;
    for (i = 1; i <= MARGIN; i++) {
        if (bytes[-(ptrdiff_t)i] != PAINT) {
            fail("a call has written in front of a buffer");
        }
    }
    if (channel->lengths[slot] == 0) {
        return;
    }
    if (buffers[slot].to != NULL) {
        memcpy(buffers[slot].to, bytes, channel->lengths[slot]);
    } else if (memcmp(buffers[slot].from, bytes, channel->lengths[slot]) != 0) {
        fail("a call has written into a buffer that it was lent to read");
    }
}

static uint64_t finish(uint32_t call)
{
    uint64_t result;
    size_t slot;
    channel->call = call;
    pass_to(channel, SERVER);
    wait_for(channel, CLIENT, see_that_it_lives);
    for (slot = 0; slot < slots; slot++) {
        take_back(slot);
    }
    result = channel->result;
    pthread_mutex_unlock(&lock);
    return result;
}

#include "client_calls.h"
