/*
 * What the border answers to pointers that are null, buffers that are short, numbers that name nothing, and memory
 * that is wanting. The library's malloc and realloc are those below, of which one call fails.
 */
#include <stdio.h>
#include <stdlib.h>
#include <string.h>

#include "mpt.h"

void *__real_malloc(size_t size);
void *__real_realloc(void *block, size_t size);
void *__wrap_malloc(size_t size);
void *__wrap_realloc(void *block, size_t size);

static long until_failure; /* 0: none fails */

static int fails(void)
{
    return until_failure > 0 && --until_failure == 0;
}

void *__wrap_malloc(size_t size)
{
    return fails() ? NULL : __real_malloc(size);
}

void *__wrap_realloc(void *block, size_t size)
{
    return fails() ? NULL : __real_realloc(block, size);
}

static int failed;

static void expect(int holds, int line)
{
    if (!holds) {
        printf("border: line %d\n", line);
        failed = 1;
    }
}

#define EXPECT(holds) expect(holds, __LINE__)

/* A request descriptor that posts a SCSI IO request, and its listing. */
static const uint8_t post[8] = {0x00, 0x00, 0x01, 0x00, 0x00, 0x00, 0x0a, 0x00};
static const char listing[] =
    "request-descriptor 8\n00 RequestFlags 0x00\n01 MSIxIndex 0x00\n02 SMID 0x0001\n04 LMID 0x0000\n06 DevHandle 0x000a\n";

static void decoding(void)
{
    const mpt_fault before = {7, 7, 7, 7};
    mpt_fault fault = before;
    uint8_t wrong[8] = {0x01};

    EXPECT(mpt_decode(MPT_FORM_REQUEST_DESCRIPTOR, post, 8, &fault) == MPT_OK);
    EXPECT(memcmp(&fault, &before, sizeof fault) == 0);
    EXPECT(mpt_decode(MPT_FORM_REQUEST_DESCRIPTOR, NULL, 8, &fault) == MPT_NULL);
    EXPECT(mpt_decode(MPT_FORM_REQUEST_DESCRIPTOR, post, 8, NULL) == MPT_NULL);
    EXPECT(mpt_decode((mpt_form)99, post, 8, &fault) == MPT_NO_SUCH);
    EXPECT(memcmp(&fault, &before, sizeof fault) == 0);

    EXPECT(mpt_decode(MPT_FORM_REQUEST_DESCRIPTOR, post, 7, &fault) == MPT_REFUSED);
    EXPECT(fault.kind == MPT_FAULT_SHORT && fault.need == 8 && fault.have == 7);
    EXPECT(mpt_decode(MPT_FORM_REQUEST_DESCRIPTOR, wrong, 8, &fault) == MPT_REFUSED);
    EXPECT(fault.kind == MPT_FAULT_FIELD && fault.at == 0);
}

static void listings(void)
{
    char text[256];
    size_t length = 7, whole = sizeof listing - 1;

    memset(text, '.', sizeof text);
    EXPECT(mpt_list(MPT_FORM_REQUEST_DESCRIPTOR, post, 8, text, whole - 1, &length) == MPT_SHORT_BUFFER);
    EXPECT(length == whole && text[0] == '.');
    EXPECT(mpt_list(MPT_FORM_REQUEST_DESCRIPTOR, post, 8, text, whole, &length) == MPT_OK);
    EXPECT(length == whole && memcmp(text, listing, whole) == 0 && text[whole] == '.');
    EXPECT(mpt_list(MPT_FORM_REQUEST_DESCRIPTOR, post, 7, text, sizeof text, &length) == MPT_REFUSED);
    EXPECT(length == 20 && memcmp(text, "short need 8 have 7\n", 20) == 0);

    length = 7;
    EXPECT(mpt_list(MPT_FORM_REQUEST_DESCRIPTOR, post, 8, NULL, whole, &length) == MPT_NULL);
    EXPECT(mpt_list(MPT_FORM_REQUEST_DESCRIPTOR, post, 8, text, whole, NULL) == MPT_NULL);
    EXPECT(mpt_list((mpt_form)8, post, 8, text, whole, &length) == MPT_NO_SUCH && length == 7);
}

static const uint8_t phys[] = {4};
static const mpt_disk disk = {0x5000c50000000001u, 64};

/* A call of each kind on pointers that are null, handles that are empty, and numbers that name nothing. */
static void device_end(void)
{
    static const uint8_t frame[128], data[4097];
    mpt_ioc ioc = MPT_EMPTY_HANDLE;
    mpt_fabric fabric = MPT_EMPTY_HANDLE;
    static mpt_up up;
    uint16_t tag = 7;
    uint64_t address = 7;

    EXPECT(mpt_ioc_new(NULL, phys, 1, 1) == MPT_NULL && mpt_ioc_new(&ioc, NULL, 1, 1) == MPT_NULL);
    EXPECT(mpt_ioc_new(&ioc, phys, 1, 0) == MPT_NO_SUCH && mpt_ioc_new(&ioc, phys, 1, 9) == MPT_NO_SUCH);
    EXPECT(mpt_ioc_step(&ioc) == MPT_EMPTY && mpt_ioc_write(&ioc, 0, 0) == MPT_EMPTY);
    up.head.kind = 7;
    EXPECT(mpt_ioc_up(&ioc, 0, &up) == MPT_EMPTY && up.head.kind == 7);
    EXPECT(mpt_ioc_new(&ioc, NULL, 0, 8) == MPT_OK);
    EXPECT(mpt_ioc_new(&ioc, phys, 1, 1) == MPT_OK); /* the other is freed */

    EXPECT(mpt_ioc_step(&ioc) == MPT_NOTHING && mpt_ioc_step_high(&ioc) == MPT_NOTHING);
    EXPECT(mpt_ioc_write(NULL, 0, 0) == MPT_NULL && mpt_ioc_write(&ioc, 0x10000, 0) == MPT_NO_SUCH);
    EXPECT(mpt_ioc_post(&ioc, 0, NULL, NULL, 0) == MPT_NULL && mpt_ioc_post(&ioc, 0, frame, NULL, 1) == MPT_NULL);
    EXPECT(mpt_ioc_post(&ioc, 0, frame, data, sizeof data) == MPT_NO_SUCH);
    EXPECT(mpt_ioc_up(&ioc, 0, NULL) == MPT_NULL);
    EXPECT(mpt_ioc_up(&ioc, 0, &up) == MPT_NOTHING && mpt_ioc_up(&ioc, 200, &up) == MPT_NOTHING && up.head.kind == 7);
    EXPECT(mpt_ioc_read(&ioc, 0) == MPT_OK);
    EXPECT(mpt_raw_ioc_up(&ioc, 0, &up.head, up.frame, up.page, 4095, up.sense, 4096) == MPT_SHORT_BUFFER);
    EXPECT(mpt_ioc_up(&ioc, 0, &up) == MPT_OK && up.head.kind == MPT_UP_VALUE);

    EXPECT(mpt_fabric_take(&fabric, &ioc) == MPT_EMPTY && mpt_fabric_give(&fabric, &ioc) == MPT_EMPTY);
    EXPECT(mpt_fabric_oldest(&fabric, &tag) == MPT_EMPTY && tag == 7);
    EXPECT(mpt_fabric_new(&fabric, NULL, 1, phys, 1) == MPT_NULL && mpt_fabric_new(&fabric, &disk, 1, NULL, 1) == MPT_NULL);
    EXPECT(mpt_fabric_new(&fabric, &disk, 1, data, 1) == MPT_REFUSED); /* an expander without phys */
    EXPECT(mpt_fabric_new(&fabric, &disk, 1, phys, 1) == MPT_OK);
    EXPECT(mpt_fabric_plug(&fabric, disk.address + 1, 0, 0) == MPT_REFUSED);
    EXPECT(mpt_fabric_plug(&fabric, disk.address, 0, 4) == MPT_REFUSED);
    EXPECT(mpt_fabric_plug(&fabric, disk.address, 0, 3) == MPT_OK);
    EXPECT(mpt_fabric_plug(&fabric, disk.address, 0, 3) == MPT_REFUSED);
    EXPECT(mpt_fabric_unplug(&fabric, disk.address) == MPT_OK);
    EXPECT(mpt_fabric_unplug(&fabric, disk.address) == MPT_REFUSED);
    EXPECT(mpt_fabric_oldest(&fabric, &tag) == MPT_NOTHING && tag == 7);
    EXPECT(mpt_fabric_run(&fabric, 1, &address) == MPT_NOTHING && address == 7);
    EXPECT(mpt_fabric_take(&fabric, NULL) == MPT_NULL && mpt_fabric_take(&fabric, &ioc) == MPT_NOTHING);

    mpt_fabric_free(&fabric);
    mpt_fabric_free(&fabric);
    mpt_ioc_free(&ioc);
    mpt_ioc_free(&ioc);
    mpt_ioc_free(NULL);
    EXPECT(mpt_ioc_step(&ioc) == MPT_EMPTY);
}

/* The same of a host. */
static void driver_end(void)
{
    static const uint8_t cdb[33], data[4097];
    const mpt_submission submission = {disk.address, 0, 1, 0};
    mpt_host host = MPT_EMPTY_HANDLE;
    static mpt_down down;
    static mpt_up up;
    static mpt_told told;
    mpt_strange strange;
    uint32_t cause = 7, mode = 7;
    uint16_t smid = 7;

    EXPECT(mpt_host_new(NULL, 1) == MPT_NULL);
    EXPECT(mpt_host_new(&host, 0) == MPT_NO_SUCH && mpt_host_new(&host, 9) == MPT_NO_SUCH);
    EXPECT(mpt_host_start(&host, &cause) == MPT_EMPTY && cause == 7);
    EXPECT(mpt_host_state(&host, &mode) == MPT_EMPTY && mode == 7);
    EXPECT(mpt_host_down(&host, &down) == MPT_EMPTY && mpt_host_told(&host, &told) == MPT_EMPTY);
    EXPECT(mpt_host_new(&host, 2) == MPT_OK && mpt_host_new(&host, 1) == MPT_OK);
    EXPECT(mpt_host_state(&host, &mode) == MPT_OK && mode == MPT_HOST_OFF);

    EXPECT(mpt_host_start(&host, NULL) == MPT_NULL && mpt_host_reset(NULL, &cause) == MPT_NULL);
    EXPECT(mpt_host_reset(&host, &cause) == MPT_REFUSED && cause == MPT_REFUSAL_NOT_STARTED);
    EXPECT(mpt_host_unit_reset(&host, &cause) == MPT_REFUSED && cause == MPT_REFUSAL_NOT_OPERATIONAL);
    EXPECT(mpt_host_abort(&host, 1, &smid, &cause) == MPT_REFUSED && smid == 7);
    EXPECT(mpt_host_target_reset(&host, disk.address, NULL, &cause) == MPT_NULL);
    EXPECT(mpt_host_submit(&host, &submission, NULL, 6, NULL, 0, &smid, &cause) == MPT_NULL);
    EXPECT(mpt_host_submit(&host, &submission, cdb, 6, NULL, 1, &smid, &cause) == MPT_NULL);
    EXPECT(mpt_host_submit(&host, NULL, cdb, 6, NULL, 0, &smid, &cause) == MPT_NULL);
    EXPECT(mpt_host_submit(&host, &submission, cdb, 33, NULL, 0, &smid, &cause) == MPT_NO_SUCH);
    EXPECT(mpt_host_submit(&host, &submission, cdb, 6, data, 4097, &smid, &cause) == MPT_NO_SUCH);
    EXPECT(mpt_host_submit(&host, &submission, cdb, 6, NULL, 0, &smid, &cause) == MPT_REFUSED);
    EXPECT(cause == MPT_REFUSAL_NOT_OPERATIONAL && smid == 7);

    EXPECT(mpt_host_down(&host, NULL) == MPT_NULL && mpt_host_down(&host, &down) == MPT_NOTHING);
    EXPECT(mpt_raw_host_down(&host, &down.head, down.frame, down.data, 4095) == MPT_SHORT_BUFFER);
    EXPECT(mpt_host_told(&host, NULL) == MPT_NULL && mpt_host_told(&host, &told) == MPT_NOTHING);
    EXPECT(mpt_raw_host_told(&host, &told.head, told.data, 4096, told.sense, 4095) == MPT_SHORT_BUFFER);
    EXPECT(mpt_host_up(&host, 0, NULL, &strange) == MPT_NULL && mpt_host_up(&host, 0, &up, NULL) == MPT_NULL);
    EXPECT(mpt_host_up(&host, 0, &up, &strange) == MPT_NO_SUCH); /* kind 0 */
    up.head.kind = MPT_UP_VALUE;
    EXPECT(mpt_host_up(&host, 1, &up, &strange) == MPT_NO_SUCH); /* there is only queue 0 */
    EXPECT(mpt_host_up(&host, 0, &up, &strange) == MPT_REFUSED && strange.why == MPT_STRANGE_NO_READ);
    up.head.kind = MPT_UP_REPLY;
    up.head.page_length = 4097;
    EXPECT(mpt_host_up(&host, 0, &up, &strange) == MPT_NO_SUCH);
    up.head.page_length = 0;
    EXPECT(mpt_host_up(&host, 0, &up, &strange) == MPT_REFUSED);

    EXPECT(mpt_host_start(&host, &cause) == MPT_OK && mpt_host_start(&host, &cause) == MPT_REFUSED);
    EXPECT(cause == MPT_REFUSAL_ALREADY_STARTED);
    EXPECT(mpt_host_down(&host, &down) == MPT_OK && down.head.kind == MPT_DOWN_READ && down.head.at == 0);
    mpt_host_free(&host);
    mpt_host_free(&host);
    mpt_host_free(NULL);
}

/* Each allocation of a call fails in turn, until none is left that could. */
static void starve(mpt_code (*call)(void))
{
    long calls = 0;
    mpt_code code;

    do {
        until_failure = ++calls;
        code = call();
        if (until_failure == 0)
            EXPECT(code == MPT_NO_MEMORY);
    } while (until_failure == 0 && calls < 1000);
    EXPECT(code == MPT_OK && calls > 1);
    until_failure = 0;
}

static mpt_code list_post(void)
{
    char text[256];
    size_t length = 7;
    mpt_code code;

    memset(text, '.', sizeof text);
    code = mpt_list(MPT_FORM_REQUEST_DESCRIPTOR, post, 8, text, sizeof text, &length);
    EXPECT(code == MPT_OK || (length == 7 && text[0] == '.'));
    return code;
}

static mpt_ioc some_ioc = MPT_EMPTY_HANDLE;
static mpt_fabric some_fabric = MPT_EMPTY_HANDLE;

static mpt_code new_ioc(void)
{
    return mpt_ioc_new(&some_ioc, phys, 1, 2);
}

static mpt_code new_fabric(void)
{
    return mpt_fabric_new(&some_fabric, &disk, 1, phys, 1);
}

static mpt_code post_data(void)
{
    static const uint8_t frame[128], data[512];
    return mpt_ioc_post(&some_ioc, 0x00010000, frame, data, sizeof data);
}

static mpt_host some_host = MPT_EMPTY_HANDLE;

static mpt_code new_host(void)
{
    return mpt_host_new(&some_host, 2);
}

static mpt_code start_host(void)
{
    uint32_t cause;
    return mpt_host_start(&some_host, &cause);
}

static void want_of_memory(void)
{
    starve(list_post);
    starve(new_ioc);
    starve(new_fabric);
    starve(post_data);
    starve(new_host);
    starve(start_host);
    mpt_ioc_free(&some_ioc);
    mpt_fabric_free(&some_fabric);
    mpt_host_free(&some_host);
}

int main(void)
{
    decoding();
    listings();
    device_end();
    driver_end();
    want_of_memory();
    return failed;
}
