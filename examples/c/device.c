/*
 * A device model: the proved controller with the fabric behind it, before which a few lines play a driver. It brings the
 * controller up by the doorbell, enables the port, sends TEST UNIT READY and READ(10), and prints what comes up.
 */
#include <stdio.h>
#include <string.h>

#include "mpt.h"

enum { DOORBELL = 0x00, HOST_INTERRUPT_STATUS = 0x30 };
enum { SCSI_IO = 0x00, DEFAULT = 0x08 }; /* RequestFlags */

static const uint64_t address = 0x5000c50000000001u;
static mpt_ioc ioc = MPT_EMPTY_HANDLE;
static mpt_fabric fabric = MPT_EMPTY_HANDLE;
static mpt_up up;

static void put16(uint8_t *at, unsigned value)
{
    at[0] = (uint8_t)value;
    at[1] = (uint8_t)(value >> 8);
}

static void put32(uint8_t *at, uint32_t value)
{
    put16(at, value & 0xffff);
    put16(at + 2, value >> 16);
}

static uint32_t get32(const uint8_t *at)
{
    return at[0] | (uint32_t)at[1] << 8 | (uint32_t)at[2] << 16 | (uint32_t)at[3] << 24;
}

static void list(mpt_form form, const uint8_t *bytes, size_t size)
{
    char text[8192];
    size_t length = 0;
    mpt_list(form, bytes, size, text, sizeof text, &length);
    fwrite(text, 1, length, stdout);
}

/* Controller and fabric work until neither has anything to do. */
static void work(void)
{
    int moved;
    do {
        uint16_t tag;
        uint64_t ran;
        moved = mpt_ioc_step_high(&ioc) == MPT_OK;
        moved |= mpt_ioc_step(&ioc) == MPT_OK;
        moved |= mpt_fabric_take(&fabric, &ioc) == MPT_OK;
        if (mpt_fabric_oldest(&fabric, &tag) == MPT_OK)
            moved |= mpt_fabric_run(&fabric, tag, &ran) == MPT_OK;
        moved |= mpt_fabric_announce(&fabric) == MPT_OK;
        moved |= mpt_fabric_give(&fabric, &ioc) == MPT_OK;
    } while (moved);
}

static uint32_t read_register(uint32_t offset)
{
    mpt_ioc_read(&ioc, offset);
    return mpt_ioc_up(&ioc, 0, &up) == MPT_OK && up.head.kind == MPT_UP_VALUE ? up.head.value : 0xffffffff;
}

/* A message through the doorbell: its dwords out, its reply's words in. */
static void handshake(const uint8_t *message, unsigned dwords, uint8_t *reply)
{
    mpt_ioc_write(&ioc, DOORBELL, 0x42000000 | dwords << 16);
    mpt_ioc_write(&ioc, HOST_INTERRUPT_STATUS, 0);
    for (unsigned i = 0; i < dwords; i++)
        mpt_ioc_write(&ioc, DOORBELL, get32(message + 4 * i));
    for (unsigned word = 0; word < 4 || word < 2u * reply[2]; word++) {
        put16(reply + 2 * word, read_register(DOORBELL) & 0xffff);
        mpt_ioc_write(&ioc, HOST_INTERRUPT_STATUS, 0);
    }
}

static void post(unsigned flags, unsigned smid, unsigned handle, const uint8_t *frame)
{
    uint64_t descriptor = flags | (uint64_t)smid << 16 | (uint64_t)handle << 48;
    mpt_ioc_post(&ioc, descriptor, frame, NULL, 0);
    work();
    while (mpt_ioc_up(&ioc, 0, &up) == MPT_OK) {
        uint8_t bytes[8];
        put32(bytes, (uint32_t)up.head.descriptor);
        put32(bytes + 4, (uint32_t)(up.head.descriptor >> 32));
        list(MPT_FORM_REPLY_DESCRIPTOR, bytes, sizeof bytes);
        if (up.head.has_frame)
            list(MPT_FORM_REPLY, up.frame, sizeof up.frame);
        printf("page %u sense %u\n", (unsigned)up.head.page_length, (unsigned)up.head.sense_length);
    }
}

/* MPI2_SCSI_IO_REQUEST with one simple element. */
static void scsi(unsigned smid, unsigned handle, const uint8_t *cdb, unsigned cdb_length, unsigned length)
{
    uint8_t frame[128] = {0};
    put16(frame, handle);
    put32(frame + 0x0c, 0x00100000 + 0x60 * smid); /* SenseBufferLowAddress */
    frame[0x12] = 0x60;                            /* SenseBufferLength */
    frame[0x14] = 0x18;                            /* SGLOffset0 */
    put32(frame + 0x1c, length);                   /* DataLength */
    frame[0x24] = (uint8_t)cdb_length;             /* IoFlags */
    frame[0x3f] = length ? 0x02 : 0x00;            /* a read */
    memcpy(frame + 0x40, cdb, cdb_length);
    put32(frame + 0x60, 0xd3000000 | length); /* the last element, 64 bits of address */
    put32(frame + 0x64, length ? 0x1000 * smid : 0xffffffff);
    put32(frame + 0x68, length ? 0x00000002 : 0xffffffff);
    post(SCSI_IO, smid, handle, frame);
}

int main(void)
{
    static const uint8_t phys[] = {4};
    static const mpt_disk disk = {0x5000c50000000001u, 64};
    /* MPI2_IOC_INIT_REQUEST: the host driver, version 2.0, 32 dwords a frame, 352 and 80 entries, one reply queue */
    static const uint8_t init[72] = {
        [0x00] = 0x04, [0x03] = 0x02, [0x0d] = 0x02, [0x17] = 0x01, [0x1a] = 0x20, [0x1c] = 0x60, [0x1d] = 0x01,
        [0x1e] = 0x50, [0x2c] = 0x01, [0x34] = 0x03, [0x3c] = 0x04,
    };
    static const uint8_t enable[128] = {[0x03] = 0x06}; /* MPI2_PORT_ENABLE_REQUEST */
    static const uint8_t ready[6] = {0x00};
    static const uint8_t read[10] = {0x28, 0, 0, 0, 0, 15, 0, 0, 1, 0};
    uint8_t reply[256] = {0};

    if (mpt_ioc_new(&ioc, phys, sizeof phys, 1) != MPT_OK || mpt_fabric_new(&fabric, &disk, 1, phys, sizeof phys) != MPT_OK)
        return 1;
    mpt_fabric_plug(&fabric, address, 0, 0);

    printf("doorbell %08x\n", (unsigned)read_register(DOORBELL));
    handshake(init, 18, reply);
    mpt_ioc_write(&ioc, HOST_INTERRUPT_STATUS, 0);
    list(MPT_FORM_REPLY, reply, 20);
    printf("doorbell %08x\n", (unsigned)read_register(DOORBELL));
    for (unsigned frame = 0; frame < 64; frame++)
        mpt_ioc_return(&ioc, 0x00010000 + 128 * frame, (uint16_t)(frame + 1));

    post(DEFAULT, 265, 0, enable);
    scsi(1, 0x0009, ready, sizeof ready, 0);
    scsi(2, 0x0009, read, sizeof read, 512);

    mpt_ioc_free(&ioc);
    mpt_fabric_free(&fabric);
    return 0;
}
