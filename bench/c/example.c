/* The entries from C: sets a channel up by register writes, moves a block,
 * takes its interrupt, moves two frames that a line driver reports, saves the
 * device and loads it again, and takes everything back. Then a device that
 * serves its channels as the chip does it, and a capture that is judged.
 *
 *   cc -I include bench/c/example.c target/staticlib/libdirect.a \
 *       target/staticlib/libentries.a -o example
 *
 * Prints what it does; its exit status is 0 if all went as the documents say. */
#include "kounpheray.h"

#include <inttypes.h>
#include <stdio.h>
#include <stdlib.h>
#include <string.h>

#define BASE 0x80000000u
#define BLOCK 160
#define CHANNEL 3u
#define TCD (KP_TABLE + 32 * CHANNEL)

static struct kp_device device;
static uint8_t image[KP_IMAGE];
static uint8_t fresh[KP_IMAGE];
static uint8_t window[1024];
static uint8_t staging[256];
static uint8_t journal[16384];
static uint64_t used;

/* Stops at an answer that is not the one expected. */
static void expect(const char *what, uint64_t found, uint64_t expected)
{
    if (found != expected) {
        printf("%s: %" PRIu64 ", not %" PRIu64 "\n", what, found, expected);
        exit(1);
    }
}

/* Keeps the used length of an accepted act. */
static uint64_t accept(const char *what, uint64_t answer)
{
    expect(what, kp_status(answer), KP_ACCEPTED);
    used = kp_low(answer);
    return answer;
}

static void put(uint32_t address, uint32_t size, uint32_t value)
{
    accept("write", kp_device_write(&device, address, size, value, journal, sizeof journal, used));
}

/* The channel: 160 bytes from the window's start to its second half, read in
 * words and written in halfwords, with an interrupt at the end. */
static void set_up(void)
{
    put(TCD + 0x00, 4, BASE);       /* saddr */
    put(TCD + 0x04, 2, 0x0201);     /* attr: sizes 4 and 2 */
    put(TCD + 0x06, 2, 4);          /* soff */
    put(TCD + 0x08, 4, BLOCK);      /* nbytes */
    put(TCD + 0x10, 4, BASE + 512); /* daddr */
    put(TCD + 0x14, 2, 1);          /* citer */
    put(TCD + 0x16, 2, 2);          /* doff */
    put(TCD + 0x1C, 2, 1);          /* biter */
    put(TCD + 0x1E, 2, 0x0002);     /* csr: INTMAJOR */

    put(KP_CONTROLLER(0) + 0x40 + 8 + CHANNEL, 1, 5); /* its source has level 5 */
    put(KP_CONTROLLER(0) + 0x1D, 1, 8 + CHANNEL);     /* and is not masked */
    put(KP_DMA + 0x1E, 1, CHANNEL);                   /* software start */
}

static void run(void)
{
    accept("run", kp_device_run(&device, 0, 0, BASE, window, sizeof window, staging,
                                sizeof staging, journal, sizeof journal, used));
}

/* What a line driver reports: so many frames have come for a channel. The
 * inputs, as they were last given, set its KICK bit. */
static void frames(uint32_t channel, uint32_t count)
{
    accept("pending", kp_device_pending(&device, channel, count, journal, sizeof journal, used));
    accept("inputs", kp_device_inputs(&device, device.scalars.standing,
                                      device.controllers[0].lines, device.controllers[1].lines,
                                      device.controllers[2].lines, journal, sizeof journal,
                                      used));
}

/* In the chip's mode a start is one minor loop: two channels of two loops each,
 * both to the same byte, move one byte each, the lower priority last. */
static void as_the_chip(void)
{
    uint32_t channel;
    uint64_t answer;

    used = 0;
    expect("fresh", kp_status(kp_device_fresh(&device, 0, KP_MODE_CHIP)), KP_ACCEPTED);
    for (channel = 1; channel <= 2; channel++) {
        put(KP_TABLE + 32 * channel + 0x00, 4, BASE + channel); /* saddr */
        put(KP_TABLE + 32 * channel + 0x08, 4, 1);              /* nbytes */
        put(KP_TABLE + 32 * channel + 0x10, 4, BASE);           /* daddr */
        put(KP_TABLE + 32 * channel + 0x14, 2, 2);              /* citer */
        put(KP_TABLE + 32 * channel + 0x1C, 2, 2);              /* biter */
        put(KP_TABLE + 32 * channel + 0x1E, 2, 0x0001);         /* csr: START */
    }
    put(KP_PRIORITY(1), 1, 0xC0 | 40); /* above channel 2's, its own number */
    answer = kp_device_read(&device, KP_PRIORITY(1), 1);
    expect("six bits", kp_low(answer), 40);
    run();
    expect("channel 2 came last", window[0], window[2]);
    for (channel = 1; channel <= 2; channel++)
        expect("one loop each", device.table[32 * channel + 0x15], 1);
    printf("as the chip does it: one minor loop a start, by priority\n");
}

/* What a bus probe saw of a minor loop that moves one word. */
static void judge_a_capture(void)
{
    static const uint8_t descriptor[KP_DESCRIPTOR] = {
        0x80, 0, 0, 0,          /* saddr */
        2,    2, 0, 4,          /* attr: sizes 4 and 4; soff */
        0,    0, 0, 4,          /* nbytes */
        0,    0, 0, 0,          /* slast */
        0x80, 0, 0, 4,          /* daddr */
        0,    1, 0, 4,          /* citer, doff */
        0,    0, 0, 0,          /* dlast */
        0,    1, 0, 1,          /* biter; csr: START */
    };
    uint8_t seen[2 * KP_RECORD] = {
        0x4A, 0x52, 4, 4, 0x80, 0, 0, 0, 0, 0, 0, 0, 0x11, 0x22, 0x33, 0x44, /* a read */
        0x4A, 0x52, 5, 4, 0x80, 0, 0, 4, 0, 0, 0, 0, 0x11, 0x22, 0x33, 0x44, /* a write */
    };
    uint64_t answer;

    answer = kp_capture(descriptor, sizeof descriptor, 0, seen, sizeof seen);
    expect("capture", kp_status(answer), KP_ACCEPTED);
    expect("as the rules have it", kp_departs(answer), 0);
    seen[sizeof seen - 1] = 0x45; /* not what was read */
    answer = kp_capture(descriptor, sizeof descriptor, 0, seen, sizeof seen);
    expect("capture", kp_status(answer), KP_ACCEPTED);
    expect("it departs", kp_departs(answer), 1);
    printf("a capture is allowed; another departs at access %" PRIu32 "\n", kp_low(answer));
    expect("at the write", kp_low(answer), 1);
    answer = kp_capture(descriptor, sizeof descriptor, 0, seen, sizeof seen - 1);
    expect("cut", kp_status(answer), KP_MALFORMED);
    expect("in its last record", kp_low(answer), 1);
    answer = kp_capture(descriptor, sizeof descriptor - 1, 0, seen, sizeof seen);
    expect("no descriptor", kp_status(answer), KP_NOT_A_DEVICE);
}

int main(void)
{
    uint64_t answer, acts = 0;
    size_t n;

    expect("fresh", kp_status(kp_device_fresh(&device, 0, KP_MODE_OLD)), KP_ACCEPTED);
    expect("save", kp_status(kp_device_save(&device, fresh, sizeof fresh)), KP_ACCEPTED);
    for (n = 0; n < 3 * BLOCK; n++)
        window[n] = (uint8_t)(7 * n + 1);

    set_up();
    run();
    expect("moved", (uint64_t)memcmp(window, window + 512, BLOCK), 0);
    answer = kp_device_read(&device, KP_DMA + 0x24, 4);
    expect("read", kp_status(answer), KP_ACCEPTED);
    expect("INT", kp_low(answer), 1u << CHANNEL);
    expect("the field", device.scalars.interrupts, 1u << CHANNEL);
    printf("moved %d bytes; %" PRIu64 " bytes of journal used\n", BLOCK, used);

    answer = accept("acknowledge",
                    kp_device_acknowledge(&device, 0, journal, sizeof journal, used));
    expect("level", kp_level(answer), 5);
    expect("vector", kp_vector(answer), 64 + 8 + CHANNEL);
    printf("interrupt of level %u, vector %u\n", kp_level(answer), kp_vector(answer));

    put(KP_DMA + 0x18, 1, CHANNEL); /* its requests count from now on */
    frames(CHANNEL, 1);
    frames(CHANNEL, 1); /* while the first one waits */
    expect("both wait", device.pending[CHANNEL], 2);
    answer = kp_device_pending(&device, CHANNEL, UINT32_MAX - 1, journal, sizeof journal, used);
    expect("too many", kp_status(answer), KP_PENDING_COUNT);
    run();
    expect("both moved", (uint64_t)memcmp(window, window + 512, 3 * BLOCK), 0);
    expect("none waits", device.pending[CHANNEL], 0);
    printf("moved two frames of %d bytes, reported one by one\n", BLOCK);

    answer = kp_device_read(&device, 0, 4);
    expect("a read beside all registers", kp_status(answer), KP_ADDRESS);

    expect("save", kp_status(kp_device_save(&device, image, sizeof image)), KP_ACCEPTED);
    expect("no such mode", kp_status(kp_device_fresh(&device, 0, 2)), KP_NOT_A_DEVICE);
    expect("spoilt", kp_status(kp_device_fresh(&device, 1, KP_MODE_CHIP)), KP_ACCEPTED);
    expect("load", kp_status(kp_device_load(&device, image, sizeof image)), KP_ACCEPTED);
    while (used != 0) {
        accept("take back", kp_device_take_back(&device, BASE, window, sizeof window, journal,
                                                sizeof journal, used));
        acts++;
    }
    answer = kp_device_take_back(&device, BASE, window, sizeof window, journal, sizeof journal,
                                 used);
    expect("nothing left", kp_status(answer), KP_NOTHING);
    expect("save", kp_status(kp_device_save(&device, image, sizeof image)), KP_ACCEPTED);
    expect("fresh again", (uint64_t)memcmp(image, fresh, sizeof image), 0);
    for (n = 512; n < sizeof window; n++)
        expect("empty again", window[n], 0);
    printf("%" PRIu64 " acts taken back; the device is fresh again\n", acts);

    as_the_chip();
    judge_a_capture();
    return 0;
}
