/* Every call of ym2149.h once or more, on 01's cases where it gives some. Says which answers differ; status 1 if any does. */
#include <stdio.h>
#include <string.h>

#include "ym2149.h"

static int failures;

static void expect(bool holds, const char *what, int line)
{
    if (!holds) {
        printf("calls: line %d: not so: %s\n", line, what);
        failures++;
    }
}
#define EXPECT(what) expect(what, #what, __LINE__)

/* A chip by name, so that no answer below hangs on the default clocks. */
static struct ym2149 made(void)
{
    struct ym2149 chip = {0};
    EXPECT(ym2149_with_clocks(&chip, 2000000, 44100) == YM2149_ACCEPTED);
    return chip;
}

static void expect_default(const struct ym2149 *chip)
{
    EXPECT(chip->core.clocks.master == 2000000 && chip->core.clocks.rate == 250000);
    EXPECT(chip->core.clocks.internal == 250000 && chip->core.clocks.cycles == 32 && chip->core.variant == 0);
    EXPECT(chip->core.accumulator == 0 && chip->core.start == 0);
}

static void making(void)
{
    struct ym2149 chip = {0};
    EXPECT(ym2149_new(&chip) == YM2149_ACCEPTED);
    expect_default(&chip);
    struct ym2149_sample first = ym2149_compute_next_sample(&chip);
    EXPECT(first.no == YM2149_ACCEPTED && first.word == 75 && first.ticks == 1);
    EXPECT(chip.core.accumulator == 0 && chip.core.start == 32);
    EXPECT(ym2149_with_clocks(&chip, 1073741824, 0) == YM2149_MASTER_TOO_HIGH);
    EXPECT(ym2149_with_clocks(&chip, 2000000, 0) == YM2149_RATE_ZERO);
    EXPECT(ym2149_with_clocks(&chip, 1073741823, 134217727) == YM2149_ACCEPTED);
    EXPECT(chip.core.clocks.master == 1073741823 && chip.core.clocks.rate == 134217727);
    EXPECT(ym2149_with_clocks(&chip, 2000000, 250001) == YM2149_RATE_TOO_HIGH);
    expect_default(&chip);

    struct ym2149 zeros = {0};
    EXPECT(ym2149_reset(&zeros) == YM2149_OUT_OF_RANGE);
}

/* Variants 0, 1 and 2 at 01's dump, and at an envelope that rises from level 1 on. */
static void variants(void)
{
    static const struct ym2149_registers dump = {{0x02, 0, 0, 0, 0, 0, 0, 0x3e, 0x0f}};
    static const struct ym2149_registers rising = {{0x02, 0, 0, 0, 0, 0, 0, 0x3f, 0x1f, 0, 0, 0, 0, 0x0d}};
    static const uint16_t dumped[3] = {9234, 10972, 9234}, risen[3][3] = {{110, 121, 135}, {110, 121, 135}, {100, 121, 121}};
    struct ym2149 chip = {0};
    uint16_t out[3];
    for (uint8_t variant = 0; variant < 3; variant++) {
        EXPECT(ym2149_with_variant(&chip, 2000000, 250000, variant) == YM2149_ACCEPTED && chip.core.variant == variant);
        EXPECT(ym2149_load_registers(&chip, dump).no == YM2149_ACCEPTED && ym2149_compute_next_sample(&chip).word == dumped[variant]);
        EXPECT(ym2149_reset(&chip) == YM2149_ACCEPTED && chip.core.variant == variant);
        EXPECT(ym2149_load_registers(&chip, rising).no == YM2149_ACCEPTED && ym2149_block(&chip, out, 3).no == YM2149_ACCEPTED);
        EXPECT(memcmp(out, risen[variant], sizeof out) == 0 && chip.core.variant == variant);
    }
    EXPECT(ym2149_with_variant(&chip, 2000000, 44100, 3) == YM2149_NO_SUCH_VARIANT);
    expect_default(&chip);
    EXPECT(ym2149_with_variant(&chip, 2000000, 44100, 255) == YM2149_NO_SUCH_VARIANT);
    EXPECT(ym2149_with_variant(&chip, 1073741824, 0, 3) == YM2149_MASTER_TOO_HIGH);
    EXPECT(ym2149_with_variant(&chip, 2000000, 0, 3) == YM2149_RATE_ZERO);
    EXPECT(ym2149_with_variant(&chip, 2000000, 44100, 2) == YM2149_ACCEPTED && chip.core.clocks.rate == 44100);
    EXPECT(ym2149_with_variant(&chip, 2000000, 250001, 3) == YM2149_RATE_TOO_HIGH);
    expect_default(&chip);
    EXPECT(ym2149_with_variant(&chip, 2000000, 44100, 2) == YM2149_ACCEPTED && chip.core.variant == 2);
    EXPECT(ym2149_with_clocks(&chip, 2000000, 44100) == YM2149_ACCEPTED && chip.core.variant == 0);

    chip.core.variant = 3;
    EXPECT(ym2149_reset(&chip) == YM2149_OUT_OF_RANGE && ym2149_set_channel_mute(&chip, 3, true) == YM2149_OUT_OF_RANGE);
    EXPECT(ym2149_read_register(&chip, 7).no == YM2149_OUT_OF_RANGE && ym2149_compute_next_sample(&chip).no == YM2149_OUT_OF_RANGE);
    EXPECT(ym2149_block(&chip, out, 3).no == YM2149_OUT_OF_RANGE && chip.core.variant == 3);
    chip.core.variant = 2;
    EXPECT(ym2149_reset(&chip) == YM2149_ACCEPTED && chip.core.variant == 2);
}

static void registers(void)
{
    struct ym2149 chip = made();
    struct ym2149_registers all = {{0x1c, 0xff, 0x7b, 0, 5, 0, 0xff, 0, 0x0f, 0x10, 0xff, 0x30, 0, 0xfe, 1, 2}};
    static const uint8_t stored[16] = {0x1c, 0x0f, 0x7b, 0, 5, 0, 0x1f, 0, 0x0f, 0x10, 0x1f, 0x30, 0, 0x0e, 0, 0};
    EXPECT(ym2149_load_registers(&chip, all).no == YM2149_ACCEPTED);
    struct ym2149_bytes dumped = ym2149_dump_registers(&chip);
    EXPECT(dumped.no == YM2149_ACCEPTED && memcmp(dumped.bytes, stored, sizeof stored) == 0);
    EXPECT(ym2149_write_register(&chip, 8, 0xff).no == YM2149_ACCEPTED);
    struct ym2149_byte read = ym2149_read_register(&chip, 8);
    EXPECT(read.no == YM2149_ACCEPTED && read.value == 0x1f);
    EXPECT(ym2149_write_register(&chip, 14, 1).no == YM2149_ACCEPTED && ym2149_read_register(&chip, 14).value == 0);
    EXPECT(ym2149_set_channel_mute(&chip, 2, true) == YM2149_ACCEPTED);
    EXPECT(ym2149_reset(&chip) == YM2149_ACCEPTED);
    EXPECT(ym2149_read_register(&chip, 6).value == 0 && ym2149_read_register(&chip, 7).value == 0x3f);
    EXPECT(chip.core.voice.generators.noise.period == 31 && ym2149_is_channel_muted(&chip, 2).yes);
}

static void ports(void)
{
    struct ym2149 chip = made();
    EXPECT(ym2149_write_port(&chip, 0, 14) == YM2149_ACCEPTED);
    struct ym2149_byte read = ym2149_read_port(&chip, 0);
    EXPECT(read.no == YM2149_ACCEPTED && read.value == 0xff);
    EXPECT(ym2149_write_port(&chip, 0, 8) == YM2149_ACCEPTED && ym2149_write_port(&chip, 2, 9) == YM2149_ACCEPTED);
    struct ym2149_count waiting = ym2149_pending_write_count(&chip);
    EXPECT(waiting.no == YM2149_ACCEPTED && waiting.count == 1 && ym2149_read_port(&chip, 0).value == 0);
    EXPECT(ym2149_flush_pending_writes(&chip).no == YM2149_ACCEPTED);
    EXPECT(ym2149_pending_write_count(&chip).count == 0 && ym2149_read_port(&chip, 0).value == 9);
    EXPECT(ym2149_write_port_immediate(&chip, 2, 5).no == YM2149_ACCEPTED && ym2149_read_register(&chip, 8).value == 5);
    for (int i = 0; i < 256; i++)
        EXPECT(ym2149_write_port(&chip, 2, 1) == YM2149_ACCEPTED);
    EXPECT(ym2149_write_port(&chip, 2, 1) == YM2149_QUEUE_FULL && ym2149_pending_write_count(&chip).count == 256);
}

static void cycles(void)
{
    struct ym2149 chip = made();
    EXPECT(ym2149_set_cpu_cycle(&chip, 500) == YM2149_ACCEPTED);
    struct ym2149_cycle at = ym2149_cpu_cycle(&chip);
    EXPECT(at.no == YM2149_ACCEPTED && at.cycle == 500);
    EXPECT(ym2149_sync_sample_cycle(&chip, UINT64_MAX) == YM2149_ACCEPTED && chip.core.start == UINT64_MAX);
    struct ym2149_sample late = ym2149_compute_next_sample(&chip);
    EXPECT(late.no == YM2149_BLOCK_TOO_LATE && late.word == 0 && late.ticks == 0);
}

static bool one(struct ym2149_wrote wrote, uint8_t no, bool changed, bool restarted)
{
    return wrote.no == no && wrote.changed == changed && wrote.restarted == restarted;
}

static bool all(struct ym2149_counts counts, uint8_t no, uint32_t changed, uint32_t restarted)
{
    return counts.no == no && counts.changed == changed && counts.restarted == restarted;
}

static bool word(struct ym2149_sample sample, uint8_t no, uint32_t changed, uint32_t restarted)
{
    return sample.no == no && sample.changed == changed && sample.restarted == restarted;
}

static bool block(struct ym2149_played played, uint8_t no, uint32_t changed, uint32_t restarted)
{
    return played.no == no && played.changed == changed && played.restarted == restarted;
}

static void queue(struct ym2149 *chip, uint64_t stamp, uint8_t number, uint8_t value)
{
    EXPECT(ym2149_set_cpu_cycle(chip, stamp) == YM2149_ACCEPTED && ym2149_write_port(chip, 0, number) == YM2149_ACCEPTED);
    EXPECT(ym2149_write_port(chip, 2, value) == YM2149_ACCEPTED);
}

static void five_six_five(struct ym2149 *chip, uint64_t stamp)
{
    queue(chip, stamp, 8, 5);
    queue(chip, stamp, 8, 6);
    queue(chip, stamp, 8, 5);
}

/* 02, request 03: what a call's writes changed. A word is 181 cycles here. */
static void reports(void)
{
    static const struct ym2149_registers ones = {{1, 1, 1, 1, 1, 1, 1, 1, 1, 1, 1, 1, 1, 1}};
    static uint16_t out[65537];
    struct ym2149 chip = made();
    EXPECT(one(ym2149_write_register(&chip, 1, 0x0f), YM2149_ACCEPTED, true, false));
    EXPECT(one(ym2149_write_register(&chip, 1, 0xff), YM2149_ACCEPTED, false, false));
    EXPECT(one(ym2149_write_register(&chip, 13, 0), YM2149_ACCEPTED, false, true));
    EXPECT(one(ym2149_write_register(&chip, 13, 9), YM2149_ACCEPTED, true, true));
    EXPECT(one(ym2149_write_register(&chip, 14, 1), YM2149_ACCEPTED, false, false));
    EXPECT(one(ym2149_write_port_immediate(&chip, 0, 13), YM2149_ACCEPTED, false, false));
    EXPECT(one(ym2149_write_port_immediate(&chip, 2, 9), YM2149_ACCEPTED, false, true));
    EXPECT(one(ym2149_write_port_immediate(&chip, 2, 8), YM2149_ACCEPTED, true, true));
    EXPECT(all(ym2149_load_registers(&chip, ones), YM2149_ACCEPTED, 14, 1));
    EXPECT(all(ym2149_load_registers(&chip, ones), YM2149_ACCEPTED, 0, 1));

    /* R8 is 5; 5, 6, 5. By a flush, by a word, and by three words of a block, with R13 and R14 among them. */
    EXPECT(one(ym2149_write_register(&chip, 8, 5), YM2149_ACCEPTED, true, false));
    five_six_five(&chip, 0);
    EXPECT(all(ym2149_flush_pending_writes(&chip), YM2149_ACCEPTED, 2, 0));
    EXPECT(all(ym2149_flush_pending_writes(&chip), YM2149_ACCEPTED, 0, 0));
    five_six_five(&chip, 181);
    EXPECT(word(ym2149_compute_next_sample(&chip), YM2149_ACCEPTED, 2, 0));
    queue(&chip, 362, 8, 5);
    queue(&chip, 363, 8, 6);
    queue(&chip, 543, 13, 1);
    queue(&chip, 543, 14, 9);
    queue(&chip, 724, 8, 5);
    queue(&chip, 724, 13, 2);
    queue(&chip, 725, 13, 3);
    EXPECT(block(ym2149_block(&chip, out, 0), YM2149_ACCEPTED, 0, 0));
    EXPECT(block(ym2149_block(&chip, out, 65537), YM2149_BLOCK_TOO_LONG, 0, 0));
    EXPECT(block(ym2149_block(&chip, out, 3), YM2149_ACCEPTED, 3, 2) && ym2149_pending_write_count(&chip).count == 1);

    /* Refused, with a write that is due. */
    EXPECT(ym2149_sync_sample_cycle(&chip, UINT64_MAX) == YM2149_ACCEPTED);
    EXPECT(word(ym2149_compute_next_sample(&chip), YM2149_BLOCK_TOO_LATE, 0, 0));
    EXPECT(block(ym2149_block(&chip, out, 1), YM2149_BLOCK_TOO_LATE, 0, 0));
    chip.core.selected = 16;
    EXPECT(one(ym2149_write_register(&chip, 13, 5), YM2149_OUT_OF_RANGE, false, false));
    EXPECT(one(ym2149_write_port_immediate(&chip, 2, 5), YM2149_OUT_OF_RANGE, false, false));
    EXPECT(all(ym2149_load_registers(&chip, ones), YM2149_OUT_OF_RANGE, 0, 0));
    EXPECT(all(ym2149_flush_pending_writes(&chip), YM2149_OUT_OF_RANGE, 0, 0));
    EXPECT(word(ym2149_compute_next_sample(&chip), YM2149_OUT_OF_RANGE, 0, 0));
    EXPECT(block(ym2149_block(&chip, out, 1), YM2149_OUT_OF_RANGE, 0, 0));
    chip.core.selected = 13;
    EXPECT(all(ym2149_flush_pending_writes(&chip), YM2149_ACCEPTED, 1, 1));
}

static void effects(void)
{
    struct ym2149 chip = made();
    uint32_t edges = chip.core.voice.generators.b.edges;
    EXPECT(ym2149_set_timer_irq_state(&chip, true) == YM2149_ACCEPTED && ym2149_write_register(&chip, 2, 1).no == YM2149_ACCEPTED);
    EXPECT(chip.core.voice.irq && chip.core.voice.generators.b.pending);
    EXPECT(ym2149_inside_timer_irq(&chip, false) == YM2149_ACCEPTED);
    EXPECT(chip.core.voice.generators.b.edges == (edges ^ 0x3e0));
    EXPECT(ym2149_trigger_envelope(&chip) == YM2149_ACCEPTED && chip.core.voice.generators.envelope.position == -64);
}

static void channels(void)
{
    struct ym2149 chip = made();
    struct ym2149_drum drum = {true, 8.0f};
    EXPECT(ym2149_set_channel_mute(&chip, 1, true) == YM2149_ACCEPTED && ym2149_set_channel_mute(&chip, 2, true) == YM2149_ACCEPTED);
    struct ym2149_flag muted = ym2149_is_channel_muted(&chip, 1);
    EXPECT(muted.no == YM2149_ACCEPTED && muted.yes && !ym2149_is_channel_muted(&chip, 3).yes);
    EXPECT(ym2149_set_drum_sample_override(&chip, 0, drum) == YM2149_ACCEPTED);
    EXPECT(ym2149_compute_next_sample(&chip).word == 10922);
    struct ym2149_outputs outputs = ym2149_get_channel_outputs(&chip);
    EXPECT(outputs.no == YM2149_ACCEPTED && outputs.a == 1.0f && outputs.b == 0.0f && outputs.c == 0.0f);
    drum.on = false;
    EXPECT(ym2149_set_drum_sample_override(&chip, 0, drum) == YM2149_ACCEPTED && ym2149_compute_next_sample(&chip).word == 25);
    EXPECT(ym2149_set_channel_mute(&chip, 3, false) == YM2149_NO_SUCH_CHANNEL);
    EXPECT(ym2149_set_drum_sample_override(&chip, SIZE_MAX, drum) == YM2149_NO_SUCH_CHANNEL);
}

static void words(void)
{
    struct ym2149 chip = made();
    uint16_t out[3];
    struct ym2149_sample first = ym2149_compute_next_sample(&chip);
    EXPECT(first.no == YM2149_ACCEPTED && first.word == 75 && first.ticks == 6);
    struct ym2149_played played = ym2149_block(&chip, out, 3);
    EXPECT(played.no == YM2149_ACCEPTED && played.words == 3 && played.ticks == 17);
    EXPECT(chip.core.accumulator == 14300 && out[0] == 75 && out[2] == 75);
    EXPECT(ym2149_block(&chip, out, 0).no == YM2149_ACCEPTED);
}

int main(void)
{
    making();
    variants();
    registers();
    ports();
    cycles();
    reports();
    effects();
    channels();
    words();
    return failures != 0;
}
