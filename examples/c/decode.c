/* Reads a frame from a file of hexadecimal digits, and prints its listing or the line of its first fault. */
#include <ctype.h>
#include <stdio.h>
#include <string.h>

#include "mpt.h"

static const struct {
    const char *word;
    mpt_form form;
} forms[] = {
    {"scsi", MPT_FORM_SCSI_IO},           {"high", MPT_FORM_HIGH_PRIORITY},
    {"default", MPT_FORM_DEFAULT},        {"door", MPT_FORM_HANDSHAKE},
    {"reply", MPT_FORM_REPLY},            {"post", MPT_FORM_REQUEST_DESCRIPTOR},
    {"answer", MPT_FORM_REPLY_DESCRIPTOR}, {"page0", MPT_FORM_SAS_DEVICE_PAGE_0},
};

static int form_of(const char *word, mpt_form *form)
{
    for (size_t i = 0; i < sizeof forms / sizeof forms[0]; i++) {
        if (strcmp(word, forms[i].word) == 0) {
            *form = forms[i].form;
            return 1;
        }
    }
    return 0;
}

/* The bytes that the file's digits name; 0 where something else stands in it, or more than room bytes. */
static int read_hex(FILE *file, uint8_t *bytes, size_t room, size_t *size)
{
    size_t digits = 0;
    int c;
    while ((c = getc(file)) != EOF) {
        if (isspace(c))
            continue;
        if (!isxdigit(c) || digits / 2 == room)
            return 0;
        int value = isdigit(c) ? c - '0' : tolower(c) - 'a' + 10;
        uint8_t *byte = &bytes[digits / 2];
        *byte = digits % 2 ? (uint8_t)(*byte << 4 | value) : (uint8_t)value;
        digits++;
    }
    *size = digits / 2;
    return digits % 2 == 0;
}

int main(int argc, char **argv)
{
    static uint8_t bytes[4096];
    static char text[65536];
    size_t size = 0, length = 0;
    mpt_form form;
    mpt_fault fault;

    if (argc != 3 || !form_of(argv[1], &form)) {
        fputs("usage: decode scsi|high|default|door|reply|post|answer|page0 FILE\n", stderr);
        return 2;
    }
    FILE *file = fopen(argv[2], "r");
    if (!file || !read_hex(file, bytes, sizeof bytes, &size)) {
        perror(argv[2]);
        return 2;
    }
    fclose(file);

    mpt_code code = mpt_list(form, bytes, size, text, sizeof text, &length);
    if (code != MPT_OK && code != MPT_REFUSED)
        return (int)code;
    fwrite(text, 1, length, stdout);
    if (mpt_decode(form, bytes, size, &fault) == MPT_REFUSED)
        printf("fault %u at %02x\n", (unsigned)fault.kind, (unsigned)fault.at);
    return (int)code;
}
