/*
 * Makes the calls of client.c with the library, which it is linked with: for x86-64, and run by tests/run.sh. A buffer
 * ends where memory begins that may not be touched; a call that reads or writes past it ends this process, which the
 * client tells.
 */
#define _GNU_SOURCE
#include <stdio.h>
#include <sys/mman.h>

#include "channel.h"
#include "samopute.h"

static struct channel *channel;

static void leave_if_alone(void)
{
    if (getppid() != channel->client) {
        _exit(0);
    }
}

static void *lent(size_t slot)
{
    return slot_end(channel, slot) - channel->lengths[slot];
}

static uint64_t answered(void)
{
    switch (channel->call) {
#include "server_calls.h"
    default:
        fprintf(stderr, "tests/across: no call has the number %u\n", channel->call);
        _exit(1);
    }
}

int main(void)
{
    size_t slot;
    channel = mmap(NULL, CHANNEL_LENGTH, PROT_READ | PROT_WRITE, MAP_SHARED, CHANNEL_FILE, 0);
    if (channel == MAP_FAILED || mprotect((uint8_t *)channel + GAP_LENGTH, GAP_LENGTH, PROT_NONE) != 0) {
        perror("tests/across: the memory that is to be shared");
        return 1;
    }
    for (slot = 0; slot < SLOTS; slot++) {
        if (mprotect(slot_end(channel, slot), GAP_LENGTH, PROT_NONE) != 0) {
            perror("tests/across: a gap");
            return 1;
        }
    }
    for (;;) {
        wait_for(channel, SERVER, leave_if_alone);
        channel->result = answered();
        pass_to(channel, CLIENT);
    }
}
