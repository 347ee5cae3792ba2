/* The proved YM2149 for C and C++ on x86-64 Linux. `bindings/library` writes the library, target/staticlib/libc_interface.a.
 * The comments are sentences of document 01, the exact rules, as document 02 amends them; what the calls of crates/c_interface promise is said
 * in definitions of them.
 *
 * The host owns the record `struct ym2149` and lends it to each call, which reads the chip from it and leaves the new state there. Every call
 * answers one of the numbers below. Every call but the three that make a chip tests the record first (22). A refused call changes no byte of
 * the record nor of the buffer, and its other answers are 0 or no; a refused making leaves a fresh default chip.
 *
 * What the host owes:
 * - The record is set to zeros before it is first lent (`struct ym2149 chip = {0};`), and then made by ym2149_new, ym2149_with_clocks or
 *   ym2149_with_variant. Zeros are out of range: any other call on them answers 22.
 * - A bool of the record or of an argument holds 0 or 1.
 * - The record and a block's buffer do not overlap, each is there in its whole length, and nobody else touches them during a call.
 * The host may change fields between calls: the test of the next call says whether the record is one. A copied record is a chip of its own.
 * Compare records by their fields: what an accepted call leaves in the bytes between fields is not settled. */
#ifndef YM2149_H
#define YM2149_H

#include <assert.h>
#include <stdbool.h>
#include <stddef.h>
#include <stdint.h>

#ifdef __cplusplus
extern "C" {
#endif

/* Numbers a call can answer. 22 is checked before all else; then the order is 1, 2, 3, 13; and 5, 6. */
enum ym2149_number {
    YM2149_ACCEPTED = 0,
    YM2149_MASTER_TOO_HIGH = 1,      /* master clock above 1,073,741,823 */
    YM2149_RATE_ZERO = 2,            /* sample rate 0 */
    YM2149_RATE_TOO_HIGH = 3,        /* sample rate above master / 8, rounded down */
    YM2149_QUEUE_FULL = 4,           /* data write bound for the queue while 256 writes wait */
    YM2149_BLOCK_TOO_LONG = 5,       /* block buffer longer than 65,536 words */
    YM2149_BLOCK_TOO_LATE = 6,       /* block's last word would end past cycle 2^64 - 1 */
    YM2149_NO_SUCH_CHANNEL = 7,      /* mute or drum for channel 3 or above */
    /* 8 to 11 are the dump player's, and no call here answers them. */
    YM2149_LINE_NOT_OF_FORM = 8,     /* dump line missing or not of its form */
    YM2149_SIZE_OUT_OF_RANGE = 9,    /* `words` or `frames` out of range */
    YM2149_BYTES_AFTER_THE_END = 10, /* bytes after the last line due */
    YM2149_DUMP_TOO_LONG = 11,       /* dump longer than 65,536 bytes */
    YM2149_NO_SUCH_VARIANT = 13,     /* variant above 2 */
    YM2149_OUT_OF_RANGE = 22         /* a handed-in chip record out of range */
};

/* ---- The record. Beside a field stands what the test of 22 allows. */

/* Accepted clocks and their quotients. */
struct ym2149_clocks {
    uint32_t master;
    uint32_t rate;
    uint32_t internal; /* master / 8, the clock of the ticks */
    uint64_t cycles;   /* 4 * master / rate, the CPU's cycles in a word */
};

struct ym2149_tone {
    uint16_t counter;
    uint16_t period; /* to 4,095 */
    uint32_t edges;  /* within the channel's five bits: 0x1f for A, 0x3e0 for B, 0x7c00 for C */
    bool pending;    /* a flip that waits for the IRQ's end */
};

struct ym2149_noise {
    uint16_t counter;
    uint8_t period;          /* to 31 */
    uint32_t shift_register; /* 1..131,071 */
    uint32_t output;         /* all ones or none */
    bool half;               /* the half-tick */
};

struct ym2149_envelope {
    uint16_t counter;
    uint16_t period;
    int32_t position; /* -64..63 */
    uint16_t offset;  /* where the shape's row begins in the table: 0, 128, .. 1,152 */
};

struct ym2149_generators {
    struct ym2149_tone a, b, c;
    struct ym2149_noise noise;
    struct ym2149_envelope envelope;
};

/* R7 as masks over fifteen bits, five to a channel; a set bit holds the gate open. To 0x7fff. */
struct ym2149_gates {
    uint32_t tone;
    uint32_t noise;
};

struct ym2149_voice {
    uint8_t registers[14]; /* stored bytes, within masks */
    struct ym2149_generators generators;
    struct ym2149_gates gates;
    bool irq;
};

/* A channel's drum is either off or a sample level in f32. */
struct ym2149_drum {
    bool on;
    float sample;
};

/* Each channel keeps its drum, last output and last amplitude. */
struct ym2149_channel {
    bool muted;
    struct ym2149_drum drum;
    float output;
    float amplitude;
};

struct ym2149_core {
    struct ym2149_clocks clocks;
    struct ym2149_voice voice;
    struct ym2149_channel a, b, c;
    uint8_t selected;     /* to 15 */
    uint8_t variant;      /* to 2; ym2149_with_variant says what they are */
    uint32_t accumulator; /* below the rate */
    uint64_t stamp;       /* of later writes */
    uint64_t start;       /* the next word's */
};

/* A ring: `count` writes wait, the first at place `head`. */
struct ym2149_queue {
    uint64_t stamps[256];
    uint8_t registers[256]; /* of a waiting write: to 15 */
    uint8_t values[256];
    size_t head;  /* below 256 */
    size_t count; /* at most 256 */
};

struct ym2149 {
    struct ym2149_core core;
    struct ym2149_queue queue;
};

/* ---- What calls take and answer by value. `no` is the number. */

/* R0 to R13, and two bytes that nothing reads. */
struct ym2149_registers {
    uint8_t bytes[16];
};

struct ym2149_byte {
    uint8_t no;
    uint8_t value;
};

struct ym2149_bytes {
    uint8_t no;
    uint8_t bytes[16];
};

struct ym2149_cycle {
    uint8_t no;
    uint64_t cycle;
};

struct ym2149_count {
    uint8_t no;
    size_t count;
};

struct ym2149_flag {
    uint8_t no;
    bool yes;
};

struct ym2149_outputs {
    uint8_t no;
    float a, b, c;
};

/* Of one register write: whether the stored byte changed and whether the envelope restarted. Refused: no and no. */
struct ym2149_wrote {
    uint8_t no;
    bool changed;   /* the byte as it is stored, masked, is another than just before */
    bool restarted; /* the write is to R13, the same byte too */
};

/* Of the writes that a call applied: how many changed a byte and how many restarted the envelope. Refused: 0 and 0. */
struct ym2149_counts {
    uint8_t no;
    uint32_t changed;
    uint32_t restarted;
};

/* `changed` and `restarted` count the writes that were due, as above. */
struct ym2149_sample {
    uint8_t no;
    uint16_t word;
    uint64_t ticks;
    uint32_t changed;
    uint32_t restarted;
};

struct ym2149_played {
    uint8_t no;
    size_t words;
    uint64_t ticks;
    uint32_t changed;
    uint32_t restarted;
};

/* ---- The layout that the library was compiled with: every size, and every field that lies behind padding. */
static_assert(sizeof(bool) == 1 && sizeof(float) == 4 && sizeof(size_t) == 8, "ym2149: bool, float or size_t");
static_assert(sizeof(struct ym2149_clocks) == 24 && offsetof(struct ym2149_clocks, cycles) == 16, "struct ym2149_clocks");
static_assert(sizeof(struct ym2149_tone) == 12, "struct ym2149_tone");
static_assert(sizeof(struct ym2149_noise) == 16 && offsetof(struct ym2149_noise, shift_register) == 4, "struct ym2149_noise");
static_assert(sizeof(struct ym2149_envelope) == 12, "struct ym2149_envelope");
static_assert(offsetof(struct ym2149_generators, b) == 12 && offsetof(struct ym2149_generators, c) == 24, "struct ym2149_generators");
static_assert(offsetof(struct ym2149_generators, noise) == 36 && offsetof(struct ym2149_generators, envelope) == 52, "struct ym2149_generators");
static_assert(sizeof(struct ym2149_generators) == 64 && sizeof(struct ym2149_gates) == 8, "struct ym2149_generators, struct ym2149_gates");
static_assert(sizeof(struct ym2149_voice) == 92 && offsetof(struct ym2149_voice, generators) == 16, "struct ym2149_voice");
static_assert(sizeof(struct ym2149_drum) == 8 && offsetof(struct ym2149_drum, sample) == 4, "struct ym2149_drum");
static_assert(sizeof(struct ym2149_channel) == 20 && offsetof(struct ym2149_channel, drum) == 4, "struct ym2149_channel");
static_assert(offsetof(struct ym2149_core, voice) == 24 && offsetof(struct ym2149_core, a) == 116, "struct ym2149_core");
static_assert(offsetof(struct ym2149_core, b) == 136 && offsetof(struct ym2149_core, c) == 156, "struct ym2149_core");
static_assert(offsetof(struct ym2149_core, selected) == 176 && offsetof(struct ym2149_core, variant) == 177, "struct ym2149_core");
static_assert(offsetof(struct ym2149_core, accumulator) == 180 && offsetof(struct ym2149_core, stamp) == 184, "struct ym2149_core");
static_assert(sizeof(struct ym2149_core) == 200 && offsetof(struct ym2149_core, start) == 192, "struct ym2149_core");
static_assert(sizeof(struct ym2149_queue) == 2576 && offsetof(struct ym2149_queue, head) == 2560, "struct ym2149_queue");
static_assert(sizeof(struct ym2149) == 2776 && offsetof(struct ym2149, queue) == 200, "struct ym2149");
static_assert(sizeof(struct ym2149_registers) == 16 && sizeof(struct ym2149_byte) == 2, "struct ym2149_registers, struct ym2149_byte");
static_assert(sizeof(struct ym2149_bytes) == 17 && sizeof(struct ym2149_flag) == 2, "struct ym2149_bytes, struct ym2149_flag");
static_assert(sizeof(struct ym2149_cycle) == 16 && offsetof(struct ym2149_cycle, cycle) == 8, "struct ym2149_cycle");
static_assert(sizeof(struct ym2149_count) == 16 && offsetof(struct ym2149_count, count) == 8, "struct ym2149_count");
static_assert(sizeof(struct ym2149_outputs) == 16 && offsetof(struct ym2149_outputs, a) == 4, "struct ym2149_outputs");
static_assert(sizeof(struct ym2149_wrote) == 3, "struct ym2149_wrote");
static_assert(sizeof(struct ym2149_counts) == 12 && offsetof(struct ym2149_counts, changed) == 4, "struct ym2149_counts");
static_assert(sizeof(struct ym2149_sample) == 24 && offsetof(struct ym2149_sample, word) == 2, "struct ym2149_sample");
static_assert(offsetof(struct ym2149_sample, ticks) == 8, "struct ym2149_sample");
static_assert(sizeof(struct ym2149_played) == 32 && offsetof(struct ym2149_played, words) == 8, "struct ym2149_played");

/* ---- Making. These write the record and do not look at what was there. */

/* A chip of variant 0 at the default clocks, 2,000,000 and 250,000, one tick to a word: A and B start high, C low, R7 holds 0x3F.
 * Answers 0. */
uint8_t ym2149_new(struct ym2149 *chip);

/* A chip of variant 0 at these clocks. Answers 1: master clock above 1,073,741,823. 2: sample rate 0. 3: sample rate above master / 8,
 * rounded down. Refused, the record is a fresh default chip. */
uint8_t ym2149_with_clocks(struct ym2149 *chip, uint32_t master, uint32_t rate);

/* A chip of this variant at these clocks. 0, the crate's; 1, the full-scale part: a fixed volume v uses level 2v + 1 for v from 1 to 15 and 0
 * for 0; 2, the 16-step sister part, where an envelope level is used with its lowest bit cleared and fixed levels stay 2v. No later call
 * changes it. Answers 1, 2, 3 as above, and after them 13: variant above 2. Refused, the record is a fresh default chip, of variant 0. */
uint8_t ym2149_with_variant(struct ym2149 *chip, uint32_t master, uint32_t rate, uint8_t variant);

/* ---- Calls that change the chip. Each answers 0, or 22 and then nothing changes; other numbers are said. A call that applies writes also
 * answers what these changed. */

/* Reset sets tone counters and periods to 0, clears pending flips, sets noise counter 0, register 1, output 0, half-tick off; envelope
 * counter, position and shape offset to 0; drums off, channel outputs 0.0; registers 0 and then 0x3F to R7; selection, accumulator, stamp,
 * the next word's start and IRQ flag to 0; queue empty. It keeps noise period, envelope period, mutes, each channel's last amplitude and the
 * variant. */
uint8_t ym2149_reset(struct ym2149 *chip);

/* Stores the byte, masked, at once: 0..5 set that channel's 12-bit period, and mark a pending flip if the period is now at most 1 and the IRQ
 * flag is on; 6 sets the noise period, 7 the gates, 11 and 12 the envelope period; 13 picks the shape and restarts at -64 with counter 0,
 * even for the same byte; 8..10 only store. Writes to registers 14 and up answer 0, no and no, and change nothing. */
struct ym2149_wrote ym2149_write_register(struct ym2149 *chip, uint8_t number, uint8_t value);

/* Writes bytes 0 to 13 in order, at once, an R13 of ff too: only the dump player leaves that out. `restarted` is 1. */
struct ym2149_counts ym2149_load_registers(struct ym2149 *chip, struct ym2149_registers registers);

/* Port bit 1 clear selects (value modulo 16) at once; set, it queues the write with the current stamp and selected number, 14 and 15
 * included. Answers 4, and nothing changes: a data write while 256 writes wait. */
uint8_t ym2149_write_port(struct ym2149 *chip, uint8_t port, uint8_t value);

/* The same, but a data write is applied at once: it skips the queue. Selecting answers no and no. */
struct ym2149_wrote ym2149_write_port_immediate(struct ym2149 *chip, uint8_t port, uint8_t value);

/* Setting the CPU cycle sets the stamp of later writes. */
uint8_t ym2149_set_cpu_cycle(struct ym2149 *chip, uint64_t cycle);

/* Syncing sets the stamp and the next word's start. */
uint8_t ym2149_sync_sample_cycle(struct ym2149 *chip, uint64_t cycle);

/* A flush applies all waiting writes in order. Each is held to the byte stored just before it: of 5, 6, 5 to R8 at 5 two change it. */
struct ym2149_counts ym2149_flush_pending_writes(struct ym2149 *chip);

/* Sets the IRQ flag. Setting it off flips each pending channel once, clears its counter, and unmarks it. */
uint8_t ym2149_set_timer_irq_state(struct ym2149 *chip, bool on);

/* The same call by its other name. */
uint8_t ym2149_inside_timer_irq(struct ym2149 *chip, bool inside);

/* Restarts the envelope at -64, counter 0, same shape. */
uint8_t ym2149_trigger_envelope(struct ym2149 *chip);

/* Mutes channel 0, 1 or 2, or lets it sound. Mute gives 0. Answers 7, and nothing changes: channel 3 or above. */
uint8_t ym2149_set_channel_mute(struct ym2149 *chip, size_t channel, bool muted);

/* Sets a channel's drum, or takes it off. A drum gives s / 4, times 10922, each rounded once in f32, cut toward zero, at most 10922; negative
 * and NaN give 0. Answers 7, and nothing changes: channel 3 or above. */
uint8_t ym2149_set_drum_sample_override(struct ym2149 *chip, size_t channel, struct ym2149_drum drum);

/* ---- Calls that only read. Each answers 0, or 22 and then 0, no or 0.0 besides. */

/* The stored byte; waiting writes are not visible. Reading registers 14 and up gives 0. */
struct ym2149_byte ym2149_read_register(const struct ym2149 *chip, uint8_t number);

/* R0 to R13 as stored; bytes 14 and 15 are 0. */
struct ym2149_bytes ym2149_dump_registers(const struct ym2149 *chip);

/* The stored byte if port bit 1 is clear and the selection is below 14, else 0xFF. */
struct ym2149_byte ym2149_read_port(const struct ym2149 *chip, uint8_t port);

/* The stamp of later writes. */
struct ym2149_cycle ym2149_cpu_cycle(const struct ym2149 *chip);

/* How many writes wait. */
struct ym2149_count ym2149_pending_write_count(const struct ym2149 *chip);

/* Whether the channel is muted. Asking it of channel 3 or above gives no. */
struct ym2149_flag ym2149_is_channel_muted(const struct ym2149 *chip, size_t channel);

/* Each channel's last output. */
struct ym2149_outputs ym2149_get_channel_outputs(const struct ym2149 *chip);

/* ---- Words. */

/* One word, the ticks run, and what the due writes changed. Its end is start plus (4 * master / rate, rounded down), and that end is the
 * next word's start. Waiting writes are applied from the front while their stamp is at most that end; the first later one stops it. Then
 * ticks run, their gates OR-ed, until the accumulator reaches the internal clock. The word is the sum of three channel outputs. One word is
 * a block of one: answers 6 where its end is past cycle 2^64 - 1, and then nothing changes, word 0, 0 ticks, 0 and 0 of writes. */
struct ym2149_sample ym2149_compute_next_sample(struct ym2149 *chip);

/* Fills `out` with `words` words, and answers how many, the ticks run, and what the due writes of all its words changed. An empty block is
 * accepted and changes nothing. Answers 5: longer than 65,536 words. 6: the last word would end past cycle 2^64 - 1. Refused, chip and
 * buffer are as they were: 0 words, 0 ticks, 0 and 0 of writes. */
struct ym2149_played ym2149_block(struct ym2149 *chip, uint16_t *out, size_t words);

#ifdef __cplusplus
}
#endif

#endif
