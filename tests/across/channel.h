/*
 * What the two sides share: one call at a time, in memory that both have mapped. Numbers have the same size and order
 * of bytes on both (64 bits, the low byte first), so what is lent goes over as it is.
 */
#include <errno.h>
#include <linux/futex.h>
#include <stdint.h>
#include <sys/syscall.h>
#include <time.h>
#include <unistd.h>

#if __SIZEOF_POINTER__ != 8 || __BYTE_ORDER__ != __ORDER_LITTLE_ENDIAN__
#error "numbers would be others on the two sides"
#endif

/* The most buffers and the most numbers of a call. */
#define SLOTS 5
#define NUMBERS 7

enum { CLIENT, SERVER };

struct channel {
    uint32_t turn;      /* whose it is */
    uint32_t asleep[2]; /* whether a side is to be woken */
    uint32_t call;
    int64_t client; /* its process */
    uint64_t numbers[NUMBERS];
    uint64_t lengths[SLOTS];
    uint64_t result;
};

/* The file that the server finds open. */
#define CHANNEL_FILE 3

/*
 * A lent buffer is the end of its slot. Behind each slot, and in front of the first, there is a gap that the server may
 * not touch: a multiple of every page's size. In front of the buffer there is a margin, which has to stay as it was.
 */
#define SLOT_LENGTH 1048576
#define GAP_LENGTH 65536
#define MARGIN 64
#define CHANNEL_LENGTH (GAP_LENGTH * 2 + SLOTS * (SLOT_LENGTH + GAP_LENGTH))

static uint8_t *slot_end(struct channel *channel, size_t slot)
{
    return (uint8_t *)channel + 2 * GAP_LENGTH + slot * (SLOT_LENGTH + GAP_LENGTH) + SLOT_LENGTH;
}

/* How often a side looks before it sleeps. More is no faster with two processors, and slower where others want them. */
#define LOOKS 50

static void pass_to(struct channel *channel, uint32_t whose)
{
    __atomic_store_n(&channel->turn, whose, __ATOMIC_SEQ_CST);
    if (__atomic_load_n(&channel->asleep[whose], __ATOMIC_SEQ_CST) != 0) {
        syscall(SYS_futex, &channel->turn, FUTEX_WAKE, 1, NULL, NULL, 0);
    }
}

/* Now and then a sleeping side sees to the other. */
static void wait_for(struct channel *channel, uint32_t whose, void (*see_to_the_other)(void))
{
    static const struct timespec some = {0, 100000000};
    unsigned looked = 0;
    while (__atomic_load_n(&channel->turn, __ATOMIC_SEQ_CST) != whose) {
        if (++looked < LOOKS) {
            continue;
        }
        __atomic_store_n(&channel->asleep[whose], 1, __ATOMIC_SEQ_CST);
        if (syscall(SYS_futex, &channel->turn, FUTEX_WAIT, !whose, &some, NULL, 0) != 0 && errno == ETIMEDOUT) {
            see_to_the_other();
        }
        __atomic_store_n(&channel->asleep[whose], 0, __ATOMIC_SEQ_CST);
    }
}
