/*
 * mpt.h: LSI Fusion-MPT Message Passing Interface 2.0, for C99.
 *
 * The functions whose names begin with mpt_raw_ are those of the library. They take no null pointer. Each has a
 * function of its own below, which tests its pointers and answers MPT_NULL, and which is the one to call.
 *
 * There is no global state. No call keeps a pointer that it was given, but for a handle's own memory.
 */
#ifndef MPT_H
#define MPT_H

#include <stddef.h>
#include <stdint.h>

#ifdef __cplusplus
extern "C" {
#endif

/* How a call ends. */
typedef enum mpt_code {
    MPT_OK = 0,           /* it did what it is for */
    MPT_NULL = 1,         /* a pointer is null that may not be; nothing changed */
    MPT_NO_SUCH = 2,      /* a number that the call was given names nothing; nothing changed */
    MPT_REFUSED = 3,      /* the bytes are refused, or what is asked for; of a handle nothing changed */
    MPT_SHORT_BUFFER = 4, /* the buffer is too short, and stays; mpt_list says how long it has to be */
    MPT_NO_MEMORY = 5,    /* there was no memory left; nothing changed */
    MPT_NOTHING = 6,      /* there is nothing that the call could do; nothing changed */
    MPT_EMPTY = 7         /* the handle is empty */
} mpt_code;

/* What bytes are read as: a request by the way that it travels, a reply, a descriptor or a page. */
typedef enum mpt_form {
    MPT_FORM_SCSI_IO = 0,            /* a request that is posted by a SCSI IO request descriptor */
    MPT_FORM_HIGH_PRIORITY = 1,      /* a request that is posted by a high priority request descriptor */
    MPT_FORM_DEFAULT = 2,            /* a request that is posted by a default request descriptor */
    MPT_FORM_HANDSHAKE = 3,          /* a request of the doorbell's handshake */
    MPT_FORM_REPLY = 4,              /* a reply frame (MPI2_DEFAULT_REPLY and its like) */
    MPT_FORM_REQUEST_DESCRIPTOR = 5, /* MPI2_REQUEST_DESCRIPTOR_UNION, 8 bytes */
    MPT_FORM_REPLY_DESCRIPTOR = 6,   /* MPI2_REPLY_DESCRIPTORS_UNION, 8 bytes */
    MPT_FORM_SAS_DEVICE_PAGE_0 = 7   /* MPI2_CONFIG_PAGE_SAS_DEV_0 */
} mpt_form;

/* Which fault bytes have. */
typedef enum mpt_fault_kind {
    MPT_FAULT_SHORT = 1,            /* there are have bytes, and need are needed */
    MPT_FAULT_FIELD = 2,            /* the field at the offset at breaks its rule, as a reserved byte that isn't 0 */
    MPT_FAULT_UNKNOWN_FUNCTION = 3, /* Function, at 03, is have, which is no function of the profile */
    MPT_FAULT_WRONG_KIND = 4        /* Function, at 03, is have, which doesn't travel in the way that was asked for */
} mpt_fault_kind;

/* The first fault of bytes. */
typedef struct mpt_fault {
    uint32_t kind; /* an mpt_fault_kind */
    uint32_t at;   /* an offset in bytes */
    uint64_t need; /* a count of bytes */
    uint64_t have; /* a count of bytes, or the byte that stands at 03 */
} mpt_fault;

/* The library has the same layout, which it asserts too. */
typedef char mpt_fault_layout[sizeof(mpt_fault) == 24 && offsetof(mpt_fault, need) == 8 ? 1 : -1];

uint32_t mpt_raw_decode(uint32_t form, const uint8_t *bytes, size_t size, mpt_fault *fault);
uint32_t mpt_raw_list(uint32_t form, const uint8_t *bytes, size_t size, uint8_t *text, size_t room, size_t *length);

/*
 * Reads bytes as a message, a descriptor or a page: MPT_OK where they stand for one, or MPT_REFUSED with their first
 * fault in *fault, which else stays. Bytes past the message play no part. MPT_NO_SUCH where form is no mpt_form.
 */
static inline mpt_code mpt_decode(mpt_form form, const void *bytes, size_t size, mpt_fault *fault)
{
    if (!bytes || !fault)
        return MPT_NULL;
    return (mpt_code)mpt_raw_decode((uint32_t)form, (const uint8_t *)bytes, size, fault);
}

/*
 * Writes the listing of bytes to text, which has room for so many: a line with the message's name and its length, and
 * a line for each field; or MPT_REFUSED and the line of their first fault. The text is ASCII of *length bytes with no
 * byte 0 at its end. MPT_SHORT_BUFFER where it is longer than room: text stays, and *length says how long it is.
 */
static inline mpt_code mpt_list(mpt_form form, const void *bytes, size_t size, char *text, size_t room, size_t *length)
{
    if (!bytes || !text || !length)
        return MPT_NULL;
    return (mpt_code)mpt_raw_list((uint32_t)form, (const uint8_t *)bytes, size, (uint8_t *)text, room, length);
}

/*
 * Handles. Each is a pointer in memory of the caller's, which begins as MPT_EMPTY_HANDLE and is filled by its _new and
 * emptied by its _free; it lives until then. A call on one that is empty answers MPT_EMPTY. A handle isn't copied, its
 * pointer is neither read nor written, and it is used by one call at a time and on one thread: the one that made it.
 * Two handles share nothing, so each may have a thread of its own, but for those that one call takes together.
 *
 * Each other pointer is read or written only during the call, to the length that stands beside it or of its type, and
 * what it points to is nobody else's then. Two pointers of one call point to different memory.
 */
#define MPT_EMPTY_HANDLE {NULL}

typedef struct mpt_ioc {
    void *inside;
} mpt_ioc;

typedef struct mpt_fabric {
    void *inside;
} mpt_fabric;

/* What the controller puts for the host. */
typedef enum mpt_up_kind {
    MPT_UP_VALUE = 1, /* the value of the register that was read */
    MPT_UP_REPLY = 2, /* a reply descriptor, with its frame where it is an address reply, and the data that moved */
    MPT_UP_MARK = 3,  /* on a queue above 0: the last reply before a reset stands before this */
    MPT_UP_CALM = 4   /* the controller is quiet; only in threaded sessions */
} mpt_up_kind;

typedef struct mpt_up_head {
    uint64_t descriptor;   /* MPI2_REPLY_DESCRIPTORS_UNION as a number: its byte 0 is the lowest */
    uint32_t kind;         /* an mpt_up_kind */
    uint32_t value;        /* of a register, or the generation of a mark */
    uint32_t has_frame;    /* 1 where frame is the reply's */
    uint32_t page_length;  /* so many bytes of page moved: what a command read, or a configuration page */
    uint32_t sense_length; /* so many bytes of sense moved */
} mpt_up_head;

typedef struct mpt_up {
    mpt_up_head head;
    uint8_t frame[128];
    uint8_t page[4096];
    uint8_t sense[4096];
} mpt_up;

/* A disk of the fabric, all zeros at first. */
typedef struct mpt_disk {
    uint64_t address; /* its SAS address */
    uint16_t blocks;  /* of 512 bytes, 1 to 1024 */
} mpt_disk;

typedef char mpt_layouts[sizeof(mpt_ioc) == 8 && sizeof(mpt_fabric) == 8 && sizeof(mpt_up_head) == 32
    && offsetof(mpt_up_head, sense_length) == 24 && sizeof(mpt_disk) == 16 && offsetof(mpt_disk, blocks) == 8 ? 1 : -1];

uint32_t mpt_raw_ioc_new(mpt_ioc *ioc, const uint8_t *phys, size_t expanders, uint8_t queues);
void mpt_raw_ioc_free(mpt_ioc *ioc);
uint32_t mpt_raw_ioc_write(mpt_ioc *ioc, uint16_t reg, uint32_t value);
uint32_t mpt_raw_ioc_read(mpt_ioc *ioc, uint16_t reg);
uint32_t mpt_raw_ioc_post(mpt_ioc *ioc, uint64_t descriptor, const uint8_t *frame, const uint8_t *data, size_t size);
uint32_t mpt_raw_ioc_return(mpt_ioc *ioc, uint32_t address, uint16_t index);
uint32_t mpt_raw_ioc_step_high(mpt_ioc *ioc);
uint32_t mpt_raw_ioc_step(mpt_ioc *ioc);
uint32_t mpt_raw_ioc_up(mpt_ioc *ioc, uint8_t queue, mpt_up_head *head, uint8_t *frame, uint8_t *page, size_t page_room,
    uint8_t *sense, size_t sense_room);
uint32_t mpt_raw_fabric_new(mpt_fabric *fabric, const mpt_disk *disks, size_t count, const uint8_t *phys, size_t expanders);
void mpt_raw_fabric_free(mpt_fabric *fabric);
uint32_t mpt_raw_fabric_plug(mpt_fabric *fabric, uint64_t address, uint8_t expander, uint8_t phy);
uint32_t mpt_raw_fabric_unplug(mpt_fabric *fabric, uint64_t address);
uint32_t mpt_raw_fabric_oldest(mpt_fabric *fabric, uint16_t *tag);
uint32_t mpt_raw_fabric_run(mpt_fabric *fabric, uint16_t tag, uint64_t *address);
uint32_t mpt_raw_fabric_announce(mpt_fabric *fabric);
uint32_t mpt_raw_fabric_take(mpt_fabric *fabric, mpt_ioc *ioc);
uint32_t mpt_raw_fabric_give(mpt_fabric *fabric, mpt_ioc *ioc);

/* A pointer to no bytes, for a caller that has none. */
static inline const uint8_t *mpt_bytes(const void *bytes, size_t size)
{
    return bytes || size ? (const uint8_t *)bytes : (const uint8_t *)"";
}

/*
 * Makes a controller in the state READY, with so many reply post queues, 1 to 8, and expanders, at most 16, with so many
 * phys each. A controller that was in the handle is freed. MPT_NO_SUCH where a number is out of range.
 */
static inline mpt_code mpt_ioc_new(mpt_ioc *ioc, const uint8_t *phys, size_t expanders, uint8_t queues)
{
    phys = mpt_bytes(phys, expanders);
    return ioc && phys ? (mpt_code)mpt_raw_ioc_new(ioc, phys, expanders, queues) : MPT_NULL;
}

/* Frees the controller and empties the handle. An empty handle stays so. */
static inline void mpt_ioc_free(mpt_ioc *ioc)
{
    if (ioc)
        mpt_raw_ioc_free(ioc);
}

/* The host writes the register at an offset (MPI2_SYSTEM_INTERFACE_REGS). MPT_NO_SUCH past 0xffff. */
static inline mpt_code mpt_ioc_write(mpt_ioc *ioc, uint32_t offset, uint32_t value)
{
    if (!ioc)
        return MPT_NULL;
    return offset > 0xffff ? MPT_NO_SUCH : (mpt_code)mpt_raw_ioc_write(ioc, (uint16_t)offset, value);
}

/* The host reads the register at an offset: its value comes up on queue 0, behind the replies that wait there. */
static inline mpt_code mpt_ioc_read(mpt_ioc *ioc, uint32_t offset)
{
    if (!ioc)
        return MPT_NULL;
    return offset > 0xffff ? MPT_NO_SUCH : (mpt_code)mpt_raw_ioc_read(ioc, (uint16_t)offset);
}

/*
 * The host posts a request: MPI2_REQUEST_DESCRIPTOR_UNION as a number, its byte 0 the lowest, the frame of 128 bytes that
 * its SMID names, and the data that a write moves, at most 4,096 bytes (else MPT_NO_SUCH). What the controller has to
 * say to it comes up. It takes no memory but for the data.
 */
static inline mpt_code mpt_ioc_post(mpt_ioc *ioc, uint64_t descriptor, const uint8_t *frame, const void *data, size_t size)
{
    const uint8_t *bytes = mpt_bytes(data, size);
    return ioc && frame && bytes ? (mpt_code)mpt_raw_ioc_post(ioc, descriptor, frame, bytes, size) : MPT_NULL;
}

/* The host gives a reply frame back by the reply free queue: its address, and ReplyFreeHostIndex after it. */
static inline mpt_code mpt_ioc_return(mpt_ioc *ioc, uint32_t address, uint16_t index)
{
    return ioc ? (mpt_code)mpt_raw_ioc_return(ioc, address, index) : MPT_NULL;
}

/* The controller processes its oldest high priority post. MPT_NOTHING where there is none. */
static inline mpt_code mpt_ioc_step_high(mpt_ioc *ioc)
{
    return ioc ? (mpt_code)mpt_raw_ioc_step_high(ioc) : MPT_NULL;
}

/* The controller processes its oldest other post. MPT_NOTHING where there is none. */
static inline mpt_code mpt_ioc_step(mpt_ioc *ioc)
{
    return ioc ? (mpt_code)mpt_raw_ioc_step(ioc) : MPT_NULL;
}

/*
 * What the controller puts next on a reply queue, which it then has put. MPT_NOTHING where there is no such queue,
 * nothing waits, or its front waits for a reply frame; *up then stays.
 */
static inline mpt_code mpt_ioc_up(mpt_ioc *ioc, uint8_t queue, mpt_up *up)
{
    if (!ioc || !up)
        return MPT_NULL;
    return (mpt_code)mpt_raw_ioc_up(ioc, queue, &up->head, up->frame, up->page, sizeof up->page, up->sense,
        sizeof up->sense);
}

/*
 * Makes a fabric with these disks, none of which is plugged, and expanders with so many phys each. MPT_REFUSED where a
 * disk has no blocks or more than 1,024, where there are more than 64 disks or two of one address, more than 16
 * expanders, or one without phys or with more than 22.
 */
static inline mpt_code mpt_fabric_new(mpt_fabric *fabric, const mpt_disk *disks, size_t count, const uint8_t *phys,
    size_t expanders)
{
    static const mpt_disk none = {0, 0};
    phys = mpt_bytes(phys, expanders);
    if (!disks && !count)
        disks = &none;
    return fabric && disks && phys ? (mpt_code)mpt_raw_fabric_new(fabric, disks, count, phys, expanders) : MPT_NULL;
}

/* Frees the fabric and empties the handle. */
static inline void mpt_fabric_free(mpt_fabric *fabric)
{
    if (fabric)
        mpt_raw_fabric_free(fabric);
}

/* Plugs the disk of an address at a phy. MPT_REFUSED where there is none, or it or the phy is taken. */
static inline mpt_code mpt_fabric_plug(mpt_fabric *fabric, uint64_t address, uint8_t expander, uint8_t phy)
{
    return fabric ? (mpt_code)mpt_raw_fabric_plug(fabric, address, expander, phy) : MPT_NULL;
}

/* Unplugs the disk of an address: its tasks are gone. MPT_REFUSED where no such disk is plugged. */
static inline mpt_code mpt_fabric_unplug(mpt_fabric *fabric, uint64_t address)
{
    return fabric ? (mpt_code)mpt_raw_fabric_unplug(fabric, address) : MPT_NULL;
}

/* The tag of the task that was queued first, or MPT_NOTHING. */
static inline mpt_code mpt_fabric_oldest(mpt_fabric *fabric, uint16_t *tag)
{
    return fabric && tag ? (mpt_code)mpt_raw_fabric_oldest(fabric, tag) : MPT_NULL;
}

/* Carries a task out at its disk, whose address is answered, or MPT_NOTHING where no task has the tag. */
static inline mpt_code mpt_fabric_run(mpt_fabric *fabric, uint16_t tag, uint64_t *address)
{
    return fabric && address ? (mpt_code)mpt_raw_fabric_run(fabric, tag, address) : MPT_NULL;
}

/* Tells the controller's lane that a disk came or went, or MPT_NOTHING. */
static inline mpt_code mpt_fabric_announce(mpt_fabric *fabric)
{
    return fabric ? (mpt_code)mpt_raw_fabric_announce(fabric) : MPT_NULL;
}

/* The fabric takes what the controller puts next for its targets, or MPT_NOTHING. */
static inline mpt_code mpt_fabric_take(mpt_fabric *fabric, mpt_ioc *ioc)
{
    return fabric && ioc ? (mpt_code)mpt_raw_fabric_take(fabric, ioc) : MPT_NULL;
}

/* The controller takes what the fabric puts next, or MPT_NOTHING. */
static inline mpt_code mpt_fabric_give(mpt_fabric *fabric, mpt_ioc *ioc)
{
    return fabric && ioc ? (mpt_code)mpt_raw_fabric_give(fabric, ioc) : MPT_NULL;
}

/*
 * The driver end: a host that brings a controller up, submits commands and ends them, answers events, and resets the
 * controller. The caller carries what it puts (mpt_host_down) to the controller in that order, hands it what the
 * controller posts (mpt_host_up), and asks what it has to tell (mpt_host_told). It believes nothing that comes up: an
 * item that the controller can't have put is strange, and changes nothing.
 */
typedef struct mpt_host {
    void *inside;
} mpt_host;

/* How far the host has brought the controller up. */
typedef enum mpt_host_mode {
    MPT_HOST_OFF = 0,      /* it wasn't started */
    MPT_HOST_STARTING = 1, /* IOC Facts, IOC Init, event notification and port enable are under way */
    MPT_HOST_UP = 2,       /* the controller is operational */
    MPT_HOST_RESETTING = 3 /* it resets the controller */
} mpt_host_mode;

/* Why the host refuses what is asked of it. */
typedef enum mpt_refusal {
    MPT_REFUSAL_NUMBER_USED = 1,       /* the submission's number was used before */
    MPT_REFUSAL_NOT_OPERATIONAL = 2,   /* the controller isn't operational */
    MPT_REFUSAL_NO_DEVICE = 3,         /* no disk of the SAS address is ready */
    MPT_REFUSAL_BAD_LENGTH = 4,        /* the CDB has other than 1 to 16 bytes, or the lengths don't go with it */
    MPT_REFUSAL_NO_IDENTIFIER = 5,     /* all SMIDs of the request's kind are in use */
    MPT_REFUSAL_NOT_OPEN = 6,          /* no submission of the number is open */
    MPT_REFUSAL_ABORT_OPEN = 7,        /* an abort of it is open */
    MPT_REFUSAL_ALREADY_STARTED = 8,   /* the host was started before */
    MPT_REFUSAL_NOT_STARTED = 9,       /* it wasn't started */
    MPT_REFUSAL_ALREADY_RESETTING = 10 /* a reset is on its way */
} mpt_refusal;

/* Why an item that came up is strange: the first cause that holds, in this order of looking. */
typedef enum mpt_strange_why {
    MPT_STRANGE_WRONG_QUEUE = 1,    /* it doesn't come on this reply queue, value */
    MPT_STRANGE_BAD_MARK = 2,       /* a mark without a reset, or of another one; value is its generation */
    MPT_STRANGE_NO_READ = 3,        /* a register's value, and no read is outstanding */
    MPT_STRANGE_DOOR_REFUSED = 4,   /* the doorbell can't have this value at this step */
    MPT_STRANGE_BAD_DESCRIPTOR = 5, /* the reply descriptor is unused or ill-formed, or doesn't go with its frame or SMID */
    MPT_STRANGE_NOT_RETURNED = 6,   /* no reply frame of the controller's has this address, value */
    MPT_STRANGE_BAD_FRAME = 7,      /* the reply frame, or a doorbell's reply, has this fault */
    MPT_STRANGE_NOT_OPEN = 8,       /* no request of this SMID, value, is outstanding */
    MPT_STRANGE_BAD_ANSWER = 9,     /* a reply to something else than was asked */
    MPT_STRANGE_BAD_STATUS = 10,    /* an IOCStatus, value, that the host doesn't take */
    MPT_STRANGE_NOT_ABSENT = 11     /* a topology event adds this DevHandle, value, that is there already */
} mpt_strange_why;

typedef struct mpt_strange {
    mpt_fault fault; /* of a bad frame; else all 0 */
    uint32_t why;    /* an mpt_strange_why */
    uint32_t step;   /* which step of the doorbell refuses the value; else 0 */
    uint32_t value;  /* what is wrong, or 0 */
} mpt_strange;

/* What the host puts for the controller. */
typedef enum mpt_down_kind {
    MPT_DOWN_WRITE = 1,  /* a write of value to the register at an offset */
    MPT_DOWN_READ = 2,   /* a read of the register at an offset: its value goes to mpt_host_up */
    MPT_DOWN_POST = 3,   /* a request: the descriptor to post, its frame, and the data that a write moves */
    MPT_DOWN_RETURN = 4, /* the reply frame at the address value is given back; at is ReplyFreeHostIndex after it */
    MPT_DOWN_STOP = 5    /* the last item; only in threaded sessions */
} mpt_down_kind;

typedef struct mpt_down_head {
    uint64_t descriptor;  /* MPI2_REQUEST_DESCRIPTOR_UNION as a number: its byte 0 is the lowest */
    uint32_t kind;        /* an mpt_down_kind */
    uint32_t value;       /* what is written, or the reply frame's address */
    uint32_t at;          /* the register's offset, or ReplyFreeHostIndex */
    uint32_t data_length; /* so many bytes of data, for the controller to fetch */
} mpt_down_head;

typedef struct mpt_down {
    mpt_down_head head;
    uint8_t frame[128];
    uint8_t data[4096];
} mpt_down;

/* A command for a disk. */
typedef struct mpt_submission {
    uint64_t address; /* the disk's SAS address */
    uint64_t lun;     /* LUN as a number: its byte 0 is the highest; the fabric's disks have 0 alone */
    uint32_t number;  /* the caller's, which no other submission has or had */
    uint32_t length;  /* DataLength: so many bytes move at most */
} mpt_submission;

/* What the host tells. */
typedef enum mpt_told_kind {
    MPT_TOLD_UP = 1,           /* the controller is operational */
    MPT_TOLD_READY = 2,        /* the disk of a SAS address is ready under the DevHandle identifier */
    MPT_TOLD_LOST = 3,         /* it is no longer */
    MPT_TOLD_ACCEPTED = 4,     /* a submission is accepted, under the SMID identifier */
    MPT_TOLD_ANSWERED = 5,     /* a submission ended; each that is accepted does once */
    MPT_TOLD_ABORT_ENDED = 6,  /* the abort of a submission ended */
    MPT_TOLD_TARGET_ENDED = 7, /* the target reset of a SAS address ended */
    MPT_TOLD_RESET_DONE = 8    /* the reset of the controller is done */
} mpt_told_kind;

/* How it ended. */
typedef enum mpt_outcome {
    MPT_OUTCOME_DONE = 1,       /* the disk answered, with a status; or the target reset was done */
    MPT_OUTCOME_GONE = 2,       /* the disk had gone */
    MPT_OUTCOME_TERMINATED = 3, /* an abort or a target reset stopped it */
    MPT_OUTCOME_RESET = 4,      /* a reset of the controller ended it */
    MPT_OUTCOME_STOPPED = 5,    /* the abort stopped the command */
    MPT_OUTCOME_NOT_FOUND = 6   /* the abort didn't find the command */
} mpt_outcome;

typedef struct mpt_told_head {
    uint64_t address;      /* a disk's SAS address */
    uint32_t kind;         /* an mpt_told_kind */
    uint32_t number;       /* of the submission */
    uint32_t identifier;   /* a DevHandle or an SMID */
    uint32_t outcome;      /* an mpt_outcome */
    uint32_t count;        /* so many commands were terminated by a target reset */
    uint32_t status;       /* SCSIStatus */
    uint32_t data_length;  /* so many bytes of data were read */
    uint32_t sense_length; /* so many bytes of sense data */
} mpt_told_head;

typedef struct mpt_told {
    mpt_told_head head; /* what an entry doesn't have is 0 */
    uint8_t data[4096];
    uint8_t sense[4096];
} mpt_told;

typedef char mpt_host_layouts[sizeof(mpt_host) == 8 && sizeof(mpt_strange) == 40 && offsetof(mpt_strange, why) == 24
    && offsetof(mpt_strange, value) == 32 && sizeof(mpt_down_head) == 24 && offsetof(mpt_down_head, data_length) == 20
    && sizeof(mpt_submission) == 24 && offsetof(mpt_submission, length) == 20 && sizeof(mpt_told_head) == 40
    && offsetof(mpt_told_head, sense_length) == 36 ? 1 : -1];

uint32_t mpt_raw_host_new(mpt_host *host, uint8_t queues);
void mpt_raw_host_free(mpt_host *host);
uint32_t mpt_raw_host_state(mpt_host *host, uint32_t *mode);
uint32_t mpt_raw_host_start(mpt_host *host, uint32_t *cause);
uint32_t mpt_raw_host_reset(mpt_host *host, uint32_t *cause);
uint32_t mpt_raw_host_unit_reset(mpt_host *host, uint32_t *cause);
uint32_t mpt_raw_host_abort(mpt_host *host, uint32_t number, uint16_t *smid, uint32_t *cause);
uint32_t mpt_raw_host_target_reset(mpt_host *host, uint64_t address, uint16_t *smid, uint32_t *cause);
uint32_t mpt_raw_host_submit(mpt_host *host, const mpt_submission *head, const uint8_t *cdb, size_t cdb_size,
    const uint8_t *data, size_t size, uint16_t *smid, uint32_t *cause);
uint32_t mpt_raw_host_down(mpt_host *host, mpt_down_head *head, uint8_t *frame, uint8_t *data, size_t room);
uint32_t mpt_raw_host_up(mpt_host *host, uint8_t queue, const mpt_up_head *head, const uint8_t *frame,
    const uint8_t *page, size_t page_size, const uint8_t *sense, size_t sense_size, mpt_strange *strange);
uint32_t mpt_raw_host_told(mpt_host *host, mpt_told_head *head, uint8_t *data, size_t room, uint8_t *sense,
    size_t sense_room);

/*
 * Makes a host that is off, for a controller with so many reply post queues, 1 to 8 (else MPT_NO_SUCH). A host that was
 * in the handle is freed.
 */
static inline mpt_code mpt_host_new(mpt_host *host, uint8_t queues)
{
    return host ? (mpt_code)mpt_raw_host_new(host, queues) : MPT_NULL;
}

/* Frees the host and empties the handle. An empty handle stays so. */
static inline void mpt_host_free(mpt_host *host)
{
    if (host)
        mpt_raw_host_free(host);
}

/* How far the host is, an mpt_host_mode. */
static inline mpt_code mpt_host_state(mpt_host *host, uint32_t *mode)
{
    return host && mode ? (mpt_code)mpt_raw_host_state(host, mode) : MPT_NULL;
}

/*
 * Begins to bring the controller up: MPT_TOLD_UP follows. MPT_REFUSED, with the mpt_refusal in *cause, where the host was
 * started before. Here and below *cause stays where the answer is another.
 */
static inline mpt_code mpt_host_start(mpt_host *host, uint32_t *cause)
{
    return host && cause ? (mpt_code)mpt_raw_host_start(host, cause) : MPT_NULL;
}

/*
 * Begins a reset by the host diagnostic register: what is open ends with MPT_OUTCOME_RESET, and MPT_TOLD_RESET_DONE
 * follows.
 */
static inline mpt_code mpt_host_reset(mpt_host *host, uint32_t *cause)
{
    return host && cause ? (mpt_code)mpt_raw_host_reset(host, cause) : MPT_NULL;
}

/* Begins a message unit reset by the doorbell, which ends in the same way. */
static inline mpt_code mpt_host_unit_reset(mpt_host *host, uint32_t *cause)
{
    return host && cause ? (mpt_code)mpt_raw_host_unit_reset(host, cause) : MPT_NULL;
}

/*
 * Submits a command: its CDB, and the data that a write moves. The bytes are copied. MPT_OK: *smid is the request's SMID,
 * and MPT_TOLD_ACCEPTED and one MPT_TOLD_ANSWERED follow. MPT_REFUSED: *cause has the first mpt_refusal that holds.
 * MPT_NO_SUCH where the CDB has more than 32 bytes or the data more than 4,096. What isn't written stays.
 */
static inline mpt_code mpt_host_submit(mpt_host *host, const mpt_submission *submission, const void *cdb, size_t cdb_size,
    const void *data, size_t size, uint16_t *smid, uint32_t *cause)
{
    const uint8_t *block = mpt_bytes(cdb, cdb_size), *bytes = mpt_bytes(data, size);
    if (!host || !submission || !block || !bytes || !smid || !cause)
        return MPT_NULL;
    return (mpt_code)mpt_raw_host_submit(host, submission, block, cdb_size, bytes, size, smid, cause);
}

/*
 * Asks by ABORT TASK that the submission of a number is aborted; *smid is the request's SMID. MPT_TOLD_ABORT_ENDED
 * follows.
 */
static inline mpt_code mpt_host_abort(mpt_host *host, uint32_t number, uint16_t *smid, uint32_t *cause)
{
    return host && smid && cause ? (mpt_code)mpt_raw_host_abort(host, number, smid, cause) : MPT_NULL;
}

/* Asks by TARGET RESET that the disk of a SAS address is reset. MPT_TOLD_TARGET_ENDED follows. */
static inline mpt_code mpt_host_target_reset(mpt_host *host, uint64_t address, uint16_t *smid, uint32_t *cause)
{
    return host && smid && cause ? (mpt_code)mpt_raw_host_target_reset(host, address, smid, cause) : MPT_NULL;
}

/* What the host puts next for the controller, which it then has put. MPT_NOTHING where it puts nothing; *down then stays. */
static inline mpt_code mpt_host_down(mpt_host *host, mpt_down *down)
{
    if (!host || !down)
        return MPT_NULL;
    return (mpt_code)mpt_raw_host_down(host, &down->head, down->frame, down->data, sizeof down->data);
}

/*
 * Hands the host what came up on a reply queue, whatever it may be. MPT_REFUSED: it is strange, *strange says why, and
 * nothing changed. MPT_NO_SUCH where its kind is no mpt_up_kind, a length is greater than 4,096, or there is no such
 * queue. Where nothing is refused *strange stays. The bytes are copied.
 */
static inline mpt_code mpt_host_up(mpt_host *host, uint8_t queue, const mpt_up *up, mpt_strange *strange)
{
    if (!host || !up || !strange)
        return MPT_NULL;
    return (mpt_code)mpt_raw_host_up(host, queue, &up->head, up->frame, up->page, sizeof up->page, up->sense,
        sizeof up->sense, strange);
}

/* The first entry that the host told and that wasn't taken. MPT_NOTHING where there is none; *told then stays. */
static inline mpt_code mpt_host_told(mpt_host *host, mpt_told *told)
{
    if (!host || !told)
        return MPT_NULL;
    return (mpt_code)mpt_raw_host_told(host, &told->head, told->data, sizeof told->data, told->sense, sizeof told->sense);
}

#ifdef __cplusplus
}
#endif

#endif
