/* Plays 01's dump, four words of a tone on A, on a chip that this program owns; then tries calls that must be refused.
 *   play [MASTER RATE]
 * Prints `words=4` and a word to a line, as ./playdump does for examples/worked.dump. Status 0; 1 where a call was refused, which is printed
 * as `refused=` and its number; 2 where the arguments are no clocks; 3 where a refused call changed a byte. */
#include <errno.h>
#include <inttypes.h>
#include <stdio.h>
#include <stdlib.h>
#include <string.h>

#include "ym2149.h"

enum { WORDS = 4, TOO_LONG = 65537 };

static const struct ym2149_registers dump = {{0x02, 0, 0, 0, 0, 0, 0, 0x3e, 0x0f}};

static int play(struct ym2149 *chip, uint32_t master, uint32_t rate)
{
    uint8_t no = ym2149_with_clocks(chip, master, rate);
    if (no == YM2149_ACCEPTED)
        no = ym2149_load_registers(chip, dump).no;
    if (no != YM2149_ACCEPTED)
        return no;
    uint16_t out[WORDS];
    struct ym2149_played played = ym2149_block(chip, out, WORDS);
    if (played.no != YM2149_ACCEPTED)
        return played.no;
    printf("words=%zu\n", played.words);
    for (size_t i = 0; i < played.words; i++)
        printf("%" PRIu16 "\n", out[i]);
    return YM2149_ACCEPTED;
}

/* Whether the two are alike in every byte, those between the fields too. */
static bool same(const struct ym2149 *chip, const struct ym2149 *before)
{
    return memcmp(chip, before, sizeof *chip) == 0;
}

/* A block of `words` must be refused with `no`, and leave the chip and the buffer as they were. */
static bool block_refused(struct ym2149 *chip, size_t words, uint8_t no)
{
    static uint16_t out[TOO_LONG], out_before[TOO_LONG];
    struct ym2149 before;
    memset(out, 0x5a, sizeof out);
    memcpy(out_before, out, sizeof out);
    memcpy(&before, chip, sizeof before);
    struct ym2149_played played = ym2149_block(chip, out, words);
    bool answered = played.no == no && played.words == 0 && played.ticks == 0 && played.changed == 0 && played.restarted == 0;
    return answered && same(chip, &before) && memcmp(out, out_before, sizeof out) == 0;
}

/* A mute of channel 3, a block that is too long, and calls on a record that the host has put out of range. */
static bool refusals_change_nothing(struct ym2149 *chip)
{
    struct ym2149 before;
    memcpy(&before, chip, sizeof before);
    bool kept = ym2149_set_channel_mute(chip, 3, true) == YM2149_NO_SUCH_CHANNEL && same(chip, &before);
    kept = block_refused(chip, TOO_LONG, YM2149_BLOCK_TOO_LONG) && kept;
    chip->core.selected = 16;
    before.core.selected = 16;
    struct ym2149_wrote wrote = ym2149_write_register(chip, 8, 15);
    kept = wrote.no == YM2149_OUT_OF_RANGE && !wrote.changed && !wrote.restarted && same(chip, &before) && kept;
    return block_refused(chip, WORDS, YM2149_OUT_OF_RANGE) && kept;
}

static bool clock_of(const char *text, uint32_t *clock)
{
    char *end;
    errno = 0;
    unsigned long long value = strtoull(text, &end, 10);
    *clock = (uint32_t)value;
    return *text >= '0' && *text <= '9' && *end == '\0' && errno == 0 && value <= UINT32_MAX;
}

int main(int count, char **words)
{
    uint32_t master = 2000000, rate = 250000;
    if (count != 1 && !(count == 3 && clock_of(words[1], &master) && clock_of(words[2], &rate))) {
        fprintf(stderr, "usage: %s [MASTER RATE]\n", words[0]);
        return 2;
    }
    struct ym2149 chip = {0};
    int no = play(&chip, master, rate);
    if (no != YM2149_ACCEPTED) {
        printf("refused=%d\n", no);
        return 1;
    }
    if (!refusals_change_nothing(&chip)) {
        fprintf(stderr, "play: a refused call changed the record or the buffer, or answered another number\n");
        return 3;
    }
    return 0;
}
