/*
 * How many TEST UNIT READYs a second pass on one processor: through the device end alone, from the post to its reply, and
 * through both ends, from the submission to its answer. Not run by run.sh, since the figures are the machine's.
 */
#include <stdio.h>
#include <time.h>

#include "mpt.h"

enum { COMMANDS = 200000, REPLY_POST_HOST_INDEX = 0x6c, ENTRIES = 352 };

static const mpt_disk disk = {0x5000c50000000001u, 64};
static mpt_host host = MPT_EMPTY_HANDLE;
static mpt_ioc ioc = MPT_EMPTY_HANDLE;
static mpt_fabric fabric = MPT_EMPTY_HANDLE;
static mpt_down down;
static mpt_up up;
static mpt_told told;
static uint32_t host_index; /* as the host wrote it last */

static int carry_down(void)
{
    if (mpt_host_down(&host, &down) != MPT_OK)
        return 0;
    switch (down.head.kind) {
    case MPT_DOWN_WRITE:
        if (down.head.at == REPLY_POST_HOST_INDEX)
            host_index = down.head.value;
        return mpt_ioc_write(&ioc, down.head.at, down.head.value) == MPT_OK;
    case MPT_DOWN_READ:
        return mpt_ioc_read(&ioc, down.head.at) == MPT_OK;
    case MPT_DOWN_POST:
        return mpt_ioc_post(&ioc, down.head.descriptor, down.frame, down.data, down.head.data_length) == MPT_OK;
    default:
        return mpt_ioc_return(&ioc, down.head.value, (uint16_t)down.head.at) == MPT_OK;
    }
}

/* The controller processes a post, and the fabric its task. */
static int serve(void)
{
    uint16_t tag;
    uint64_t ran;
    int moved = mpt_ioc_step_high(&ioc) == MPT_OK;
    moved |= mpt_ioc_step(&ioc) == MPT_OK;
    moved |= mpt_fabric_take(&fabric, &ioc) == MPT_OK;
    if (mpt_fabric_oldest(&fabric, &tag) == MPT_OK)
        moved |= mpt_fabric_run(&fabric, tag, &ran) == MPT_OK;
    moved |= mpt_fabric_announce(&fabric) == MPT_OK;
    moved |= mpt_fabric_give(&fabric, &ioc) == MPT_OK;
    return moved;
}

static int carry_up(void)
{
    mpt_strange strange;
    return mpt_ioc_up(&ioc, 0, &up) == MPT_OK && mpt_host_up(&host, 0, &up, &strange) == MPT_OK;
}

static void settle(void)
{
    int moved;
    do {
        moved = carry_down();
        moved |= serve();
        moved |= carry_up();
    } while (moved);
}

static double seconds(void)
{
    return (double)clock() / CLOCKS_PER_SEC;
}

/* The replies to so many posts of the request that the host has put for its command. */
static unsigned post_all(void)
{
    unsigned replies = 0;
    for (unsigned i = 0; i < COMMANDS; i++) {
        mpt_ioc_post(&ioc, down.head.descriptor, down.frame, NULL, 0);
        serve();
        replies += mpt_ioc_up(&ioc, 0, &up) == MPT_OK && up.head.kind == MPT_UP_REPLY && !up.head.has_frame;
        host_index = (host_index + 1) % ENTRIES;
        mpt_ioc_write(&ioc, REPLY_POST_HOST_INDEX, host_index);
    }
    return replies;
}

/* The answers to so many submissions. */
static unsigned submit_all(void)
{
    static const uint8_t ready[6] = {0x00};
    unsigned answers = 0;
    for (uint32_t number = 1; number <= COMMANDS; number++) {
        const mpt_submission submission = {disk.address, 0, number, 0};
        uint16_t smid;
        uint32_t cause;
        mpt_host_submit(&host, &submission, ready, sizeof ready, NULL, 0, &smid, &cause);
        while (carry_down())
            ;
        serve();
        carry_up();
        while (mpt_host_told(&host, &told) == MPT_OK)
            answers += told.head.kind == MPT_TOLD_ANSWERED && told.head.outcome == MPT_OUTCOME_DONE;
    }
    return answers;
}

static void report(const char *what, unsigned count, double spent)
{
    printf("%s: %u in %.2f s, %.0f a second\n", what, count, spent, count / spent);
}

int main(void)
{
    static const uint8_t phys[] = {4}, ready[6] = {0x00};
    const mpt_submission first = {disk.address, 0, 0, 0};
    uint16_t smid;
    uint32_t cause;
    double began;
    unsigned count;

    if (mpt_host_new(&host, 1) != MPT_OK || mpt_ioc_new(&ioc, phys, 1, 1) != MPT_OK
        || mpt_fabric_new(&fabric, &disk, 1, phys, 1) != MPT_OK)
        return 1;
    mpt_fabric_plug(&fabric, disk.address, 0, 0);
    mpt_host_start(&host, &cause);
    settle();
    while (mpt_host_told(&host, &told) == MPT_OK)
        ;

    began = seconds();
    count = submit_all();
    report("both ends", count, seconds() - began);

    settle();
    if (mpt_host_submit(&host, &first, ready, sizeof ready, NULL, 0, &smid, &cause) != MPT_OK
        || mpt_host_down(&host, &down) != MPT_OK || down.head.kind != MPT_DOWN_POST)
        return 1;
    began = seconds();
    count = post_all();
    report("device end", count, seconds() - began);

    mpt_host_free(&host);
    mpt_ioc_free(&ioc);
    mpt_fabric_free(&fabric);
    return 0;
}
