/* Kounpheray: a DMA engine of 64 channels with its registers and three
 * interrupt controllers, that can step back. The C entries of its archives,
 * for x86-64. docs/ABI.md says the same with more words.
 *
 * There are two families with the same calls. kp_device_* (libdirect.a) work
 * on a struct kp_device in the caller's memory: a call costs its own work.
 * kp_* (libentries.a) work on an image, 8,720 bytes, which they test and
 * unpack first: an image is how a device is saved, sent and compared.
 * kp_capture (libentries.a) has no device: it judges what a bus probe saw.
 *
 * Every entry is total: whatever it is given, it reads and writes nothing but
 * what it is lent, keeps no pointer, and returns. Nothing is allocated.
 *
 * The caller owns the device, the window (a part of the guest's memory, whose
 * first byte has the address `base`), the staging (room for passes whose sizes
 * differ) and the journal with its used length. After a refusal device, window
 * and used journal are as they were.
 *
 * What a caller owes: no pointer is NULL (a range of length 0 may have any
 * other pointer); the ranges of one call overlap neither each other nor the
 * device; of a struct kp_device besides, that it is aligned as the compiler
 * aligns it, that every byte was set once (static, calloc or = {0} will do),
 * and that ignore_masks and chip are 0 or 1. Every other content is a device. */
#ifndef KOUNPHERAY_H
#define KOUNPHERAY_H

#include <stddef.h>
#include <stdint.h>

#ifdef __cplusplus
extern "C" {
#endif

/* Rises by one when an entry gets another argument. */
#define KP_ABI 2

/* The length of a device image. */
#define KP_IMAGE 8720

/* The length of a record, in a journal and in a capture; used lengths are
 * multiples of it. */
#define KP_RECORD 16

/* The length of a descriptor. */
#define KP_DESCRIPTOR 32

/* How a run serves the channels: chosen when a device is made, and changed by
 * no call. */
#define KP_MODE_OLD 0u  /* as the Rust that was ported: lowest channel first, whole loops */
#define KP_MODE_CHIP 1u /* as the chip: one minor loop a turn, by priority */

/* The blocks of the registers, 0x4000 bytes each. */
#define KP_DMA 0xFC044000u
#define KP_PRIORITY(channel) (KP_DMA + 0x100u + (channel)) /* one byte for each channel */
#define KP_TABLE 0xFC045000u /* 64 descriptors of 32 bytes, in the DMA's block */
#define KP_CONTROLLER(n) (0xFC048000u + 0x4000u * (n)) /* n: 0, 1 or 2 */

/* The status in an answer: 0 where the call was accepted, else a refusal.
 * Refusals 1 to 8 are looked for first, in this order, then 14. */
enum kp_status {
    KP_ACCEPTED = 0,
    KP_SIZE = 1,           /* size is not 1, 2 or 4 */
    KP_ADDRESS = 2,        /* address in none of the four blocks */
    KP_NO_REGISTER = 3,    /* no such register at that offset and size */
    KP_PAST_END = 4,       /* access past the table, or past a controller's word */
    KP_WINDOW = 5,         /* window empty, above 2^24 bytes, or past 2^32 */
    KP_JOURNAL = 6,        /* journal above 2^28 bytes, or a bad used length */
    KP_TIME = 7,           /* now above 2^62 or pace above 1,000,000 */
    KP_CHANNEL = 8,        /* channel above 63 */
    KP_OUTSIDE_WINDOW = 9, /* a byte of a transfer outside the window */
    KP_STAGING = 10,       /* a pass reads more bytes than staging has */
    KP_JOURNAL_FULL = 11,  /* the next record doesn't fit */
    KP_NOTHING = 12,       /* take back with used length 0 */
    KP_DAMAGED = 13,       /* take back: the last group is damaged */
    KP_PENDING_COUNT = 14, /* the sum of pending counts would pass 2^32 - 1 */
    KP_MALFORMED = 22,     /* capture: a malformed or cut record */
    KP_NOT_A_DEVICE = 255  /* the image is not a device, or a capture's descriptor
                            * not KP_DESCRIPTOR bytes; looked for before all */
};

/* An answer, taken apart. */
static inline unsigned kp_status(uint64_t answer) { return (unsigned)(answer >> 56); }

/* The level of the interrupt that an acknowledge took; 0 if there was none. */
static inline unsigned kp_level(uint64_t answer) { return (unsigned)(answer >> 40) & 0xFFu; }

/* Its vector. */
static inline unsigned kp_vector(uint64_t answer) { return (unsigned)(answer >> 32) & 0xFFu; }

/* 1 where a capture that was not refused departs from the rules, 0 where it is
 * allowed. */
static inline unsigned kp_departs(uint64_t answer) { return (unsigned)(answer >> 32) & 0xFFu; }

/* The value after kp_read; after kp_capture the access or record; after every
 * other call the used length of the journal, which is the one given where the
 * call was refused. */
static inline uint32_t kp_low(uint64_t answer) { return (uint32_t)answer; }

/* ---- a device in memory: libdirect.a */

/* One interrupt controller. */
struct kp_controller {
    uint64_t masks;     /* IMR */
    uint64_t forced;    /* FRC */
    uint64_t lines;
    uint8_t levels[64]; /* of its sources */
    uint16_t config;    /* ICONFIG */
};

/* The numbers that stand alone. */
struct kp_scalars {
    uint64_t erq, eei, interrupts, err, kick, deferred;
    uint64_t deadline; /* the time by which the caller is to come back */
    uint64_t standing; /* requests */
    uint32_t cr;
    uint8_t level; /* that the processor sees */
};

/* The whole device. Fields may be read and set between calls. */
struct kp_device {
    struct kp_scalars scalars;
    uint8_t table[2048]; /* 64 descriptors, big-endian as the guest sees them */
    uint64_t busy[64];
    uint64_t majors[64];
    uint64_t taken[192]; /* how often vector 64 + n was taken */
    uint32_t pending[64];
    uint8_t priorities[64]; /* in KP_MODE_CHIP, of which the low six bits count */
    struct kp_controller controllers[3];
    uint8_t ignore_masks; /* 0 or 1 */
    uint8_t chip;         /* the mode: KP_MODE_OLD or KP_MODE_CHIP */
};

/* The compiler lays it out as the archive has it: else this does not compile. */
typedef char kp_device_layout[(sizeof(struct kp_controller) == 96 &&
                               offsetof(struct kp_controller, levels) == 24 &&
                               offsetof(struct kp_controller, config) == 88 &&
                               sizeof(struct kp_scalars) == 72 &&
                               offsetof(struct kp_scalars, standing) == 56 &&
                               offsetof(struct kp_scalars, cr) == 64 &&
                               offsetof(struct kp_scalars, level) == 68 &&
                               sizeof(struct kp_device) == 5296 &&
                               offsetof(struct kp_device, table) == 72 &&
                               offsetof(struct kp_device, busy) == 2120 &&
                               offsetof(struct kp_device, majors) == 2632 &&
                               offsetof(struct kp_device, taken) == 3144 &&
                               offsetof(struct kp_device, pending) == 4680 &&
                               offsetof(struct kp_device, priorities) == 4936 &&
                               offsetof(struct kp_device, controllers) == 5000 &&
                               offsetof(struct kp_device, ignore_masks) == 5288 &&
                               offsetof(struct kp_device, chip) == 5289)
                                  ? 1
                                  : -1];

/* Makes a fresh device: zero in every field but the masks (all ones), the
 * deadline (2^64 - 1) and, in KP_MODE_CHIP, the priorities (each channel's own
 * number). ignore_masks: 0, or 1 for a device whose controllers ignore their
 * masks. mode: KP_MODE_OLD or KP_MODE_CHIP. 255 is answered for any other number
 * in either place, and the device stays. */
uint64_t kp_device_fresh(struct kp_device *device, uint32_t ignore_masks, uint32_t mode);

/* Reads a register. Writes nothing. */
uint64_t kp_device_read(const struct kp_device *device, uint32_t address, uint32_t size);

/* The acts. Each that is accepted writes one group behind the used part of
 * the journal and answers the new used length. */

/* Writes a register. A byte at KP_PRIORITY keeps its low six bits in
 * KP_MODE_CHIP, and is readable there; in KP_MODE_OLD it changes nothing, and
 * reading it is refused with 3. */
uint64_t kp_device_write(struct kp_device *device, uint32_t address, uint32_t size,
                         uint32_t value, uint8_t *journal, size_t journal_len, uint64_t used);

/* Puts the standing requests (one bit for each channel) and the lines of the
 * three controllers. They take the place of all that were given before: lines
 * that are to stay up are given again (device->controllers[n].lines holds
 * them). Lines that the DMA drives stay as they are, whatever is given.
 * Requesting channels with their ERQ bit set then have work waiting. */
uint64_t kp_device_inputs(struct kp_device *device, uint64_t standing, uint64_t lines0,
                          uint64_t lines1, uint64_t lines2, uint8_t *journal, size_t journal_len,
                          uint64_t used);

/* Adds to the requests that a channel has pending; one is spent for each pass.
 * 14, and nothing is changed, where the sum would pass 2^32 - 1. This sets no
 * KICK bit: in KP_MODE_OLD a run that follows at once moves nothing, and neither
 * does a service in KP_MODE_CHIP. For frames that have come, call this, then
 * kp_device_inputs with the masks last given, then kp_device_run. */
uint64_t kp_device_pending(struct kp_device *device, uint32_t channel, uint32_t count,
                           uint8_t *journal, size_t journal_len, uint64_t used);

/* Runs the channels that have work. Staging is all zero afterwards, but after
 * refusals 5, 6 and 7, which leave it alone.
 *
 * KP_MODE_OLD: each of at most 4,096 turns takes the lowest channel with a KICK
 * bit. START moves a whole major loop; else, with ERQ set, minor loops are made
 * for as long as the channel requests.
 *
 * KP_MODE_CHIP: each of at most 4,096 turns makes one minor loop. Of the channels
 * that have START, or ERQ and a request, and are not busy past `now`, it is for
 * the one with the highest priority, the higher number among equals. KICK bits
 * are not asked for; a channel that is served loses its own. One whose count is
 * 0 moves nothing and is passed over for the rest of the call. */
uint64_t kp_device_run(struct kp_device *device, uint64_t now, uint64_t pace, uint32_t base,
                       uint8_t *window, size_t window_len, uint8_t *staging, size_t staging_len,
                       uint8_t *journal, size_t journal_len, uint64_t used);

/* Offers busy and deferred channels again, and runs if a KICK bit is set then,
 * in both modes. */
uint64_t kp_device_service(struct kp_device *device, uint64_t now, uint64_t pace, uint32_t base,
                           uint8_t *window, size_t window_len, uint8_t *staging,
                           size_t staging_len, uint8_t *journal, size_t journal_len,
                           uint64_t used);

/* Takes the highest interrupt above `ipl` (its low byte counts); level 7 is
 * never held back. An act even where nothing is found. */
uint64_t kp_device_acknowledge(struct kp_device *device, uint32_t ipl, uint8_t *journal,
                               size_t journal_len, uint64_t used);

/* Undoes the last standing act: no act itself. Its group's bytes are zero
 * afterwards, and the used length is that before the act. */
uint64_t kp_device_take_back(struct kp_device *device, uint32_t base, uint8_t *window,
                             size_t window_len, uint8_t *journal, size_t journal_len,
                             uint64_t used);

/* Lays the device down as an image, of a priority the low six bits; 255, and
 * nothing is written, where image_len is not KP_IMAGE. */
uint64_t kp_device_save(const struct kp_device *device, uint8_t *image, size_t image_len);

/* Reads the device from an image; 255, and the device stays, where the bytes
 * are none. */
uint64_t kp_device_load(struct kp_device *device, const uint8_t *image, size_t image_len);

/* ---- the same calls on an image: libentries.a. Each answers 255, and changes
 * nothing, where the bytes are no image. */

uint64_t kp_fresh(uint8_t *image, size_t image_len, uint32_t ignore_masks, uint32_t mode);

uint64_t kp_read(const uint8_t *image, size_t image_len, uint32_t address, uint32_t size);

uint64_t kp_write(uint8_t *image, size_t image_len, uint32_t address, uint32_t size,
                  uint32_t value, uint8_t *journal, size_t journal_len, uint64_t used);

uint64_t kp_inputs(uint8_t *image, size_t image_len, uint64_t standing, uint64_t lines0,
                   uint64_t lines1, uint64_t lines2, uint8_t *journal, size_t journal_len,
                   uint64_t used);

uint64_t kp_pending(uint8_t *image, size_t image_len, uint32_t channel, uint32_t count,
                    uint8_t *journal, size_t journal_len, uint64_t used);

uint64_t kp_run(uint8_t *image, size_t image_len, uint64_t now, uint64_t pace, uint32_t base,
                uint8_t *window, size_t window_len, uint8_t *staging, size_t staging_len,
                uint8_t *journal, size_t journal_len, uint64_t used);

uint64_t kp_service(uint8_t *image, size_t image_len, uint64_t now, uint64_t pace, uint32_t base,
                    uint8_t *window, size_t window_len, uint8_t *staging, size_t staging_len,
                    uint8_t *journal, size_t journal_len, uint64_t used);

uint64_t kp_acknowledge(uint8_t *image, size_t image_len, uint32_t ipl, uint8_t *journal,
                        size_t journal_len, uint64_t used);

uint64_t kp_take_back(uint8_t *image, size_t image_len, uint32_t base, uint8_t *window,
                      size_t window_len, uint8_t *journal, size_t journal_len, uint64_t used);

/* ---- captures: libentries.a */

/* Judges a capture: the memory accesses of one channel's minor loop, as a bus
 * probe saw them. Each is a record of KP_RECORD bytes, numbers big-endian: 4A 52,
 * kind (4 a read, 5 a write), width (1, 2, 4), 4-byte address, 8-byte value.
 * docs/CAPTURE.md says the rest. The descriptor is as it stands in the table when
 * the loop begins.
 *
 * Allowed: status 0, kp_departs 0. Departs from the rules: status 0, kp_departs
 * 1, kp_low the first access that is not as the rules have it, counted from 0.
 * KP_MALFORMED, and no verdict: kp_low is the first record that is malformed or
 * cut, its low 32 bits. 255: descriptor_len is not KP_DESCRIPTOR; looked for
 * before all. Writes nothing. */
uint64_t kp_capture(const uint8_t *descriptor, size_t descriptor_len, uint32_t cr,
                    const uint8_t *records, size_t records_len);

#ifdef __cplusplus
}
#endif

#endif
