/* Opens a line of 8 to 16 kHz and converts 20 ms of a tone in two calls; between them its record is parked and resumed.
 *
 *     cc example.c $(pkg-config --cflags --libs simmerpatch) -o example && ./example
 */
#include <inttypes.h>
#include <stdio.h>

#include <simmerpatch.h>

#define IN_KHZ 8
#define OUT_KHZ 16
#define MS 10

static int refused(const char *what, unsigned number)
{
    fprintf(stderr, "%s: refused %u\n", what, number);
    return 1;
}

/* A triangle of 500 Hz, from sample `at` on. */
static void tone(int16_t *samples, size_t n, size_t at)
{
    for (size_t i = 0; i < n; i++) {
        int phase = (int)((at + i) % 16);
        samples[i] = (int16_t)(1000 * (phase < 8 ? phase - 4 : 12 - phase));
    }
}

int main(void)
{
    int16_t input[MS * IN_KHZ];
    int16_t out[MS * OUT_KHZ];
    uint8_t block[SIMMERPATCH_BLOCK];

    simmerpatch_line line = simmerpatch_open(1000 * IN_KHZ, 1000 * OUT_KHZ, 1);
    if (line.refused)
        return refused("opening", line.refused);

    for (size_t call = 0; call < 2; call++) {
        tone(input, MS * IN_KHZ, call * MS * IN_KHZ);
        line = simmerpatch_resample(line.record, out, MS * OUT_KHZ, input, MS * IN_KHZ);
        if (line.refused)
            return refused("resampling", line.refused);
        printf("call %zu: %zu samples:", call + 1, line.written);
        for (size_t i = 0; i < 8; i++)
            printf(" %" PRId16, out[i]);
        printf(" ..\n");

        simmerpatch_line parked = simmerpatch_park(line.record, block, sizeof block);
        if (parked.refused)
            return refused("parking", parked.refused);
        line = simmerpatch_resume(block, sizeof block);
        if (line.refused)
            return refused("resuming", line.refused);
    }

    /* What it does not do it refuses, and hands the record back as it was. */
    line = simmerpatch_resample(line.record, out, MS * OUT_KHZ, input, 7);
    printf("7 samples: refused %u\n", line.refused);
    return 0;
}
