/* Simmerpatch: the SILK resampler, its two decimators and the two-band split, proved.
 *
 * Sound is 16-bit samples. A line is converted from one rate to another by handing its record to each call and keeping the
 * record that the call hands back. Everything goes by value: the library keeps nothing between calls, allocates nothing and
 * locks nothing, so any number of threads may call it at once, each with records of its own.
 *
 * Every function takes any record, any words, any bytes and any lengths: what it does not do it refuses, with a number. A
 * refused call writes nothing and hands back the record or the words that it was given, where it was given some. All that is
 * asked of the caller is what C cannot check:
 *
 *   - a pointer and the length behind it belong together (samples or bytes, not both counted in bytes), and it is not NULL,
 *     not even where the length is 0;
 *   - what is lent to be written overlaps nothing else that the same call is given.
 */
#ifndef SIMMERPATCH_H
#define SIMMERPATCH_H

#include <stddef.h>
#include <stdint.h>

#ifdef __cplusplus
extern "C" {
#endif

/* The numbers of the answers, in `refused` below. */
enum simmerpatch_refusal {
    SIMMERPATCH_DONE = 0,
    SIMMERPATCH_NO_SUCH_PAIR = 1,        /* opening: the two rates are not in the direction's list */
    SIMMERPATCH_NO_PAIR_IN_RECORD = 2,   /* the record names no supported pair */
    SIMMERPATCH_NOT_WHOLE_MS = 3,        /* resampling: no samples, or not whole milliseconds of them */
    SIMMERPATCH_TOO_LONG = 4,            /* over 1,000 ms (resampling), over 48,000 samples (decimators, split) */
    SIMMERPATCH_NO_ROOM = 5,             /* the output is too short (resampling, 2/3 decimator) */
    SIMMERPATCH_NOT_WHOLE_GROUPS = 6,    /* an odd number of samples (1/2, split), or not a multiple of three (2/3) */
    SIMMERPATCH_NOT_HALF = 7,            /* an output that is not just half as long as the input (1/2, split) */
    SIMMERPATCH_NOT_512_BYTES = 8,       /* a block of another length */
    SIMMERPATCH_CHECK_DIFFERS = 9,       /* resuming: the block's check */
    SIMMERPATCH_OTHER_LAYOUT = 10,       /* resuming: the block's layout byte is not 1 */
    SIMMERPATCH_NO_PAIR_IN_BLOCK = 11,   /* resuming: the block's direction and rates are no supported pair */
    SIMMERPATCH_NOT_ZERO = 12            /* resuming: a byte that the pair does not use is not 0 */
};

/* The bytes of a parked block; the most milliseconds and the most samples that a call takes. */
#define SIMMERPATCH_BLOCK 512
#define SIMMERPATCH_MOST_MS 1000
#define SIMMERPATCH_MOST_SAMPLES 48000

/* A line's whole state. direction is 1 for the encoder and 0 for the decoder. What a pair does not use is zero. */
typedef struct simmerpatch_record {
    uint8_t direction;
    uint8_t in_khz;
    uint8_t out_khz;
    int32_t doubler[6];
    int16_t samples[8];
    int32_t ar2[2];
    int32_t fir[36];
    int16_t delay[48];
} simmerpatch_record;

/* The carried words of the 1/2 decimator and the split, and of the 2/3 decimator; zero before the first call. */
typedef struct simmerpatch_two {
    int32_t w[2];
} simmerpatch_two;

typedef struct simmerpatch_six {
    int32_t w[6];
} simmerpatch_six;

/* What a call leaves: 0 or the number of its refusal; the samples that it wrote; the state for the next call. */
typedef struct simmerpatch_line {
    uint8_t refused;
    size_t written;
    simmerpatch_record record;
} simmerpatch_line;

typedef struct simmerpatch_halves {
    uint8_t refused;
    size_t written;
    simmerpatch_two words;
} simmerpatch_halves;

typedef struct simmerpatch_thirds {
    uint8_t refused;
    size_t written;
    simmerpatch_six words;
} simmerpatch_thirds;

/* Opens a line: rates in Hz; for_enc is 0 for the decoder and anything else for the encoder. Encoder: 8, 12, 16, 24 or
 * 48 kHz to 8, 12 or 16. Decoder: 8, 12 or 16 kHz to any of the five. Refuses with 1, and then the record is all zero. */
simmerpatch_line simmerpatch_open(int32_t in_hz, int32_t out_hz, int32_t for_enc);

/* Converts n samples, whole milliseconds and at most 1,000 of them, into the front of out: for each millisecond as many
 * samples as the outgoing rate has kHz. What lies beyond them stays as it was. Refuses with 2, 3, 4, 5. */
simmerpatch_line simmerpatch_resample(simmerpatch_record s, int16_t *out, size_t room, const int16_t *input, size_t n);

/* Parks a record in a block of 512 bytes, from which it can be resumed anywhere. Refuses with 2, 8. */
simmerpatch_line simmerpatch_park(simmerpatch_record s, uint8_t *block, size_t bytes);

/* The record of a parked block. Refuses with 8 to 12, and then the record is all zero. */
simmerpatch_line simmerpatch_resume(const uint8_t *block, size_t bytes);

/* One sample for each two. n is even and at most 48,000, and room is just half of it. Refuses with 6, 4, 7. */
simmerpatch_halves simmerpatch_down2(simmerpatch_two s, int16_t *out, size_t room, const int16_t *input, size_t n);

/* Splits into a low and a high band, a sample of each for each two; written counts those of one band. n is even and at
 * most 48,000, and each room is just half of it. Refuses with 6, 4, 7. */
simmerpatch_halves simmerpatch_split(simmerpatch_two s, int16_t *low, size_t low_room, int16_t *high, size_t high_room,
                                     const int16_t *input, size_t n);

/* Two samples for each three. n is a multiple of three and at most 48,000, and there is room for what is made. Refuses with
 * 6, 4, 5. */
simmerpatch_thirds simmerpatch_down2_3(simmerpatch_six s, int16_t *out, size_t room, const int16_t *input, size_t n);

#ifdef __cplusplus
}
#endif

/* The layout that the library was built with. */
#if defined(__STDC_VERSION__) && __STDC_VERSION__ >= 201112L || defined(__cplusplus) && __cplusplus >= 201103L
#ifndef __cplusplus
#define SIMMERPATCH_IS(fact) _Static_assert(fact, "simmerpatch: this compiler lays the structs out in another way")
#else
#define SIMMERPATCH_IS(fact) static_assert(fact, "simmerpatch: this compiler lays the structs out in another way")
#endif
SIMMERPATCH_IS(sizeof(simmerpatch_record) == 292);
SIMMERPATCH_IS(offsetof(simmerpatch_record, doubler) == 4);
SIMMERPATCH_IS(offsetof(simmerpatch_record, samples) == 28);
SIMMERPATCH_IS(offsetof(simmerpatch_record, ar2) == 44);
SIMMERPATCH_IS(offsetof(simmerpatch_record, fir) == 52);
SIMMERPATCH_IS(offsetof(simmerpatch_record, delay) == 196);
SIMMERPATCH_IS(sizeof(simmerpatch_line) == 312 && offsetof(simmerpatch_line, record) == 16);
SIMMERPATCH_IS(sizeof(simmerpatch_halves) == 24 && offsetof(simmerpatch_halves, words) == 16);
SIMMERPATCH_IS(sizeof(simmerpatch_thirds) == 40 && offsetof(simmerpatch_thirds, words) == 16);
#undef SIMMERPATCH_IS
#endif

#endif
