/*
 * Both ends: the proved driver end before the proved controller with the fabric behind it. Whatever one puts is carried
 * to the other by the few lines of carry_down and carry_up. Now and then a byte of what the controller posts is flipped
 * on the way: the host is shown the changed item first, and says why it is strange.
 */
#include <stdio.h>
#include <string.h>

#include "mpt.h"

enum { QUEUES = 2, COMMANDS = 24 };
enum { SCSI_IO = 0x00, EVENT_NOTIFICATION = 0x07 }; /* Function */
enum { TOPOLOGY_CHANGE_LIST = 0x1c };               /* Event */

static const mpt_disk disks[] = {{0x5000c50000000001u, 64}, {0x5000c50000000002u, 64}};
static mpt_host host = MPT_EMPTY_HANDLE;
static mpt_ioc ioc = MPT_EMPTY_HANDLE;
static mpt_fabric fabric = MPT_EMPTY_HANDLE;
static mpt_up event; /* the last one of disks that came or went */
static int is_hostile;
static unsigned shown, strange_ones, taken_ones;

/* A linear congruential generator, so that each run is the same. */
static uint32_t next(uint32_t below)
{
    static uint32_t state = 1;
    state = state * 1664525u + 1013904223u;
    return (state >> 16) % below;
}

static void print_strange(const char *what, const mpt_strange *strange)
{
    static const char *const why[] = {"", "wrong queue", "bad mark", "no read", "door refused", "bad descriptor",
        "not returned", "bad frame", "not open", "bad answer", "bad status", "not absent"};
    printf("%s: %s", what, why[strange->why]);
    if (strange->why == MPT_STRANGE_BAD_FRAME)
        printf(" (fault %u at %02x)", (unsigned)strange->fault.kind, (unsigned)strange->fault.at);
    else if (strange->why == MPT_STRANGE_DOOR_REFUSED)
        printf(" (step %u, %08x)", (unsigned)strange->step, (unsigned)strange->value);
    else if (strange->value)
        printf(" (%x)", (unsigned)strange->value);
    printf("\n");
}

static void print_told(void)
{
    static const char *const kinds[] = {"", "up", "ready", "lost", "accepted", "answered", "abort ended", "target ended",
        "reset done"};
    static const char *const outcomes[] = {"", "done", "gone", "terminated", "reset", "stopped", "not found"};
    static mpt_told told;
    while (mpt_host_told(&host, &told) == MPT_OK) {
        const mpt_told_head *head = &told.head;
        printf("%s", kinds[head->kind]);
        if (head->kind == MPT_TOLD_READY || head->kind == MPT_TOLD_LOST)
            printf(" %08x%08x handle %04x", (unsigned)(head->address >> 32), (unsigned)head->address,
                (unsigned)head->identifier);
        if (head->kind >= MPT_TOLD_ACCEPTED && head->kind <= MPT_TOLD_ABORT_ENDED)
            printf(" %u", (unsigned)head->number);
        if (head->kind == MPT_TOLD_ACCEPTED)
            printf(" smid %u", (unsigned)head->identifier);
        if (head->outcome)
            printf(" %s", outcomes[head->outcome]);
        if (head->kind == MPT_TOLD_ANSWERED && head->outcome == MPT_OUTCOME_DONE)
            printf(" status %02x data %u sense %u", (unsigned)head->status, (unsigned)head->data_length,
                (unsigned)head->sense_length);
        if (head->kind == MPT_TOLD_TARGET_ENDED)
            printf(" count %u", (unsigned)head->count);
        printf("\n");
    }
}

/* What the host puts goes to the controller. */
static int carry_down(void)
{
    static mpt_down down;
    if (mpt_host_down(&host, &down) != MPT_OK)
        return 0;
    switch (down.head.kind) {
    case MPT_DOWN_WRITE:
        return mpt_ioc_write(&ioc, down.head.at, down.head.value) == MPT_OK;
    case MPT_DOWN_READ:
        return mpt_ioc_read(&ioc, down.head.at) == MPT_OK;
    case MPT_DOWN_POST:
        return mpt_ioc_post(&ioc, down.head.descriptor, down.frame, down.data, down.head.data_length) == MPT_OK;
    case MPT_DOWN_RETURN:
        return mpt_ioc_return(&ioc, down.head.value, (uint16_t)down.head.at) == MPT_OK;
    }
    return 0;
}

/* Flips a bit of a reply: of its descriptor, or of the first bytes of its frame. */
static void flip(mpt_up *up)
{
    uint32_t at = next(up->head.has_frame ? 8 + 24 : 8), bit = next(8);
    if (at < 8)
        up->head.descriptor ^= (uint64_t)1 << (8 * at + bit);
    else
        up->frame[at - 8] ^= (uint8_t)(1u << bit);
}

/* Items that no controller posts. */
static void show(const char *what, uint8_t queue, const mpt_up *up)
{
    mpt_strange strange;
    if (mpt_host_up(&host, queue, up, &strange) == MPT_REFUSED)
        print_strange(what, &strange);
    else
        printf("%s: taken\n", what);
}

static void forge(const mpt_up *event)
{
    static mpt_up up;
    up.head.kind = MPT_UP_VALUE;
    show("a value", 0, &up);
    show("a value on queue 1", 1, &up);
    up.head.kind = MPT_UP_MARK;
    up.head.value = 7;
    show("a mark", 1, &up);
    up = *event;
    show("an event again", 0, &up);
    up.head.descriptor ^= (uint64_t)0x40 << 32; /* ReplyFrameAddress */
    show("an event in no frame", 0, &up);
}

/* What the controller posts goes to the host, which may be shown a changed item first. */
static int carry_up(uint8_t queue)
{
    static mpt_up up, changed;
    static int seen_value, seen_error;
    mpt_strange strange;
    mpt_code code;
    if (mpt_ioc_up(&ioc, queue, &up) != MPT_OK)
        return 0;
    if (up.head.has_frame && up.frame[0x03] == EVENT_NOTIFICATION && up.frame[0x14] == TOPOLOGY_CHANGE_LIST)
        event = up;
    if (up.head.kind == MPT_UP_VALUE && !seen_value++) {
        changed = up;
        changed.head.value = 0xffffffff;
        show("a doorbell of ones", queue, &changed);
    }
    if (up.head.has_frame && up.frame[0x03] == SCSI_IO && !seen_error++) {
        changed = up;
        changed.frame[0x0e] = 0x02; /* IOCStatus BUSY */
        show("a busy controller", queue, &changed);
        memcpy(changed.frame, event.frame, sizeof changed.frame);
        show("an event for a command", queue, &changed);
    }
    for (unsigned i = 0; is_hostile && up.head.kind == MPT_UP_REPLY && i < (up.head.has_frame ? 4 : 1); i++) {
        changed = up;
        flip(&changed);
        shown++;
        code = mpt_host_up(&host, queue, &changed, &strange);
        if (code == MPT_OK) {
            taken_ones++;
            return 1;
        }
        strange_ones++;
        print_strange("flipped", &strange);
    }
    if (mpt_host_up(&host, queue, &up, &strange) == MPT_REFUSED)
        print_strange("as it came", &strange);
    return 1;
}

/* All parts work until none has anything to do. */
static void work(void)
{
    int moved;
    do {
        uint16_t tag;
        uint64_t ran;
        moved = carry_down();
        moved |= mpt_ioc_step_high(&ioc) == MPT_OK;
        moved |= mpt_ioc_step(&ioc) == MPT_OK;
        moved |= mpt_fabric_take(&fabric, &ioc) == MPT_OK;
        if (mpt_fabric_oldest(&fabric, &tag) == MPT_OK)
            moved |= mpt_fabric_run(&fabric, tag, &ran) == MPT_OK;
        moved |= mpt_fabric_announce(&fabric) == MPT_OK;
        moved |= mpt_fabric_give(&fabric, &ioc) == MPT_OK;
        for (uint8_t queue = 0; queue < QUEUES; queue++)
            moved |= carry_up(queue);
        print_told();
    } while (moved);
}

static void refused(const char *what, mpt_code code, uint32_t cause)
{
    static const char *const causes[] = {"", "number used", "not operational", "no device", "bad length", "no identifier",
        "not open", "abort open", "already started", "not started", "already resetting"};
    if (code == MPT_REFUSED)
        printf("%s refused: %s\n", what, causes[cause]);
}

/* READ(10), WRITE(10) or TEST UNIT READY. */
static void submit(uint32_t number, uint64_t address)
{
    static const uint8_t data[512] = "written";
    static const uint8_t operations[] = {0x00, 0x28, 0x2a};
    uint8_t cdb[10] = {operations[number % 3], 0, 0, 0, 0, (uint8_t)(3 * number), 0, 0, 1, 0};
    int moves = cdb[0] != 0x00, writes = cdb[0] == 0x2a;
    mpt_submission submission = {address, 0, number, moves ? 512 : 0};
    uint16_t smid;
    uint32_t cause = 0;
    mpt_code code = mpt_host_submit(&host, &submission, cdb, moves ? 10 : 6, data, writes ? 512 : 0, &smid, &cause);
    refused("submit", code, cause);
}

int main(void)
{
    static const uint8_t phys[] = {4};
    uint16_t smid;
    uint32_t cause = 0, mode = 0;
    mpt_code code;

    if (mpt_host_new(&host, QUEUES) != MPT_OK || mpt_ioc_new(&ioc, phys, sizeof phys, QUEUES) != MPT_OK
        || mpt_fabric_new(&fabric, disks, 2, phys, sizeof phys) != MPT_OK)
        return 1;
    mpt_fabric_plug(&fabric, disks[0].address, 0, 0);
    mpt_fabric_plug(&fabric, disks[1].address, 0, 1);

    submit(1, disks[0].address);
    mpt_host_start(&host, &cause);
    code = mpt_host_start(&host, &cause);
    refused("start", code, cause);
    work();
    forge(&event);

    submit(100, disks[0].address);
    mpt_host_abort(&host, 100, &smid, &cause);
    code = mpt_host_abort(&host, 100, &smid, &cause);
    refused("abort", code, cause);
    work();
    submit(101, disks[0].address);
    mpt_host_target_reset(&host, disks[0].address, &smid, &cause);
    work();

    is_hostile = 1;
    for (uint32_t number = 1; number <= COMMANDS; number++) {
        submit(number, disks[number % 2].address);
        if (number % 4 == 0)
            work();
    }
    submit(COMMANDS, disks[0].address);
    mpt_fabric_unplug(&fabric, disks[1].address);
    work();
    mpt_fabric_plug(&fabric, disks[1].address, 0, 2);
    work();
    is_hostile = 0;

    /* What was taken though it was changed may have left the ends apart: a reset brings them together. */
    submit(102, disks[0].address);
    mpt_host_reset(&host, &cause);
    work();
    submit(103, disks[1].address);
    work();

    mpt_host_state(&host, &mode);
    printf("state %u; %u shown, %u strange, %u taken\n", (unsigned)mode, shown, strange_ones, taken_ones);
    mpt_host_free(&host);
    mpt_ioc_free(&ioc);
    mpt_fabric_free(&fabric);
    return 0;
}
