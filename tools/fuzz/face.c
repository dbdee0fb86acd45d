/* The C face under a fuzzer: any record, words, block, samples and lengths. The caller is built with the sanitizers; every
 * buffer that is lent has canaries on both sides, and what a call was given to read has to stay as it was. Each answer is held
 * against the table of answers, written out here, and what is accepted against the Rust original, also on records that no call
 * has made: there the definition decides, and the two agree. */
#include <stdio.h>
#include <stdlib.h>
#include <string.h>

#include "face.h"

#define GUARD 64

/* ---- what the fuzzer gives: its bytes, and zeros behind them */

typedef struct {
    const uint8_t *at;
    size_t left;
} source;

static uint32_t byte(source *s)
{
    if (!s->left)
        return 0;
    s->left--;
    return *s->at++;
}

static uint32_t half(source *s)
{
    uint32_t low = byte(s);
    return low | byte(s) << 8;
}

static uint32_t word(source *s)
{
    uint32_t low = half(s);
    return low | half(s) << 16;
}

static void words(source *s, int32_t *to, size_t n)
{
    for (size_t i = 0; i < n; i++)
        to[i] = (int32_t)word(s);
}

static void halves(source *s, int16_t *to, size_t n)
{
    for (size_t i = 0; i < n; i++)
        to[i] = (int16_t)half(s);
}

/* ---- what is asked of a call */

static void ask(int holds, const char *what)
{
    if (!holds) {
        fprintf(stderr, "face: %s\n", what);
        abort();
    }
}

/* A buffer between canaries, and a copy of what it held. */
typedef struct {
    uint8_t *all;
    uint8_t *before;
    size_t bytes;
} lent;

static lent lend(size_t bytes)
{
    lent l = {malloc(bytes + 2 * GUARD), malloc(bytes + 1), bytes};
    ask(l.all && l.before, "no memory");
    for (size_t i = 0; i < bytes + 2 * GUARD; i++)
        l.all[i] = (uint8_t)(0xA5 ^ i);
    return l;
}

static void *place(lent l)
{
    return l.all + GUARD;
}

/* To be called when the buffer holds what the call is to find in it. */
static void noted(lent l)
{
    memcpy(l.before, place(l), l.bytes);
}

/* The canaries are whole, and so is what lies from the byte `from` on. */
static void ended(lent l, size_t from)
{
    for (size_t i = 0; i < GUARD; i++) {
        ask(l.all[i] == (uint8_t)(0xA5 ^ i), "written before a buffer");
        size_t k = GUARD + l.bytes + i;
        ask(l.all[k] == (uint8_t)(0xA5 ^ k), "written behind a buffer");
    }
    ask(from <= l.bytes, "more reported written than was lent");
    ask(!memcmp(l.before + from, (uint8_t *)place(l) + from, l.bytes - from), "written beyond the count");
    free(l.all);
    free(l.before);
}

/* Samples of the fuzzer's own choice first, then noise that his next word seeds. */
static void sound(source *s, int16_t *to, size_t n)
{
    size_t own = byte(s) % 16;
    uint32_t state = word(s) | 1;
    uint32_t quiet = byte(s) % 16;
    for (size_t i = 0; i < n; i++) {
        if (i < own) {
            to[i] = (int16_t)half(s);
            continue;
        }
        state = state * 1664525 + 1013904223;
        to[i] = (int16_t)((int16_t)(state >> 16) / (1 << quiet));
    }
}

/* Short, or anything small; for one value of the byte around a limit, since those calls take long. */
static size_t length(source *s, size_t unit, size_t most)
{
    uint32_t how = byte(s);
    if (how == 173)
        return most + half(s) % 3 * unit - unit;
    return how < 200 ? unit * (1 + how % 12) : half(s) % 64;
}

/* ---- the table of answers */

static int listed(uint8_t khz, const char *rates)
{
    return khz && strchr(rates, khz) != NULL;
}

static int supported(uint8_t direction, uint8_t in_khz, uint8_t out_khz)
{
    const char *three = "\10\14\20", *five = "\10\14\20\30\60";
    if (direction > 1)
        return 0;
    return listed(in_khz, direction ? five : three) && listed(out_khz, direction ? three : five);
}

static unsigned resample_row(const simmerpatch_record *r, size_t room, size_t n)
{
    if (!supported(r->direction, r->in_khz, r->out_khz))
        return 2;
    if (!n || n % r->in_khz)
        return 3;
    if (n > 1000u * r->in_khz)
        return 4;
    return room < n / r->in_khz * r->out_khz ? 5 : 0;
}

static unsigned half_row(size_t n, int halved)
{
    return n % 2 ? 6 : n > 48000 ? 4 : halved ? 0 : 7;
}

static int same(const simmerpatch_record *a, const simmerpatch_record *b)
{
    return a->direction == b->direction && a->in_khz == b->in_khz && a->out_khz == b->out_khz &&
           !memcmp(a->doubler, b->doubler, sizeof a->doubler) && !memcmp(a->samples, b->samples, sizeof a->samples) &&
           !memcmp(a->ar2, b->ar2, sizeof a->ar2) && !memcmp(a->fir, b->fir, sizeof a->fir) &&
           !memcmp(a->delay, b->delay, sizeof a->delay);
}

static int blank(const simmerpatch_record *r)
{
    static const simmerpatch_record zero;
    return same(r, &zero);
}

/* ---- calls, each with all that is asked of it */

static simmerpatch_line resampled(source *s, simmerpatch_record r, size_t room, size_t n)
{
    lent out = lend(2 * room), in = lend(2 * n);
    sound(s, place(in), n);
    noted(out);
    noted(in);
    simmerpatch_line a = simmerpatch_resample(r, place(out), room, place(in), n);
    unsigned row = resample_row(&r, room, n);
    ask(a.refused == row, "resample: another answer than the table's");
    ask(a.written == (row ? 0 : n / r.in_khz * r.out_khz), "resample: another count");
    ask(!row || same(&a.record, &r), "resample: refused, and another record");
    if (!row)
        ask(original_resamples(r, place(in), n, place(out), a.written, a.record), "resample: another than the original's");
    ended(in, 0);
    ended(out, 2 * a.written);
    return a;
}

static simmerpatch_record through_a_block(simmerpatch_record r)
{
    lent block = lend(SIMMERPATCH_BLOCK);
    noted(block);
    simmerpatch_line p = simmerpatch_park(r, place(block), SIMMERPATCH_BLOCK);
    ask(!p.refused && same(&p.record, &r), "park: refused, or another record");
    simmerpatch_line back = simmerpatch_resume(place(block), SIMMERPATCH_BLOCK);
    ask(!back.refused, "resume: a parked block is refused");
    lent again = lend(SIMMERPATCH_BLOCK);
    simmerpatch_park(back.record, place(again), SIMMERPATCH_BLOCK);
    ask(!memcmp(place(block), place(again), SIMMERPATCH_BLOCK), "park: another block of the resumed record");
    noted(again);
    ended(again, 0);
    ended(block, SIMMERPATCH_BLOCK);
    return back.record;
}

/* A line from opening, several calls, parked now and then. */
static void line(source *s)
{
    static const uint8_t khz[] = {8, 12, 16, 24, 48};
    uint8_t in = khz[byte(s) % 5], out = khz[byte(s) % 5], direction = byte(s) % 2;
    simmerpatch_line a = simmerpatch_open(1000 * in, 1000 * out, direction);
    ask(a.refused == !supported(direction, in, out) && a.written == 0, "open: another answer than the table's");
    if (a.refused) {
        ask(blank(&a.record), "open: refused, and the record is not blank");
        return;
    }
    for (unsigned calls = 1 + byte(s) % 4; calls; calls--) {
        size_t n = length(s, in, 1000u * in);
        size_t needed = n / in * out;
        a = resampled(s, a.record, byte(s) % 8 ? needed + byte(s) % 3 : needed / 2, n);
        if (byte(s) % 2)
            a.record = through_a_block(a.record);
    }
}

static void any_record(source *s)
{
    simmerpatch_record r;
    memset(&r, 0, sizeof r);
    static const uint8_t khz[] = {8, 12, 16, 24, 48};
    r.direction = byte(s) % 8 ? byte(s) % 2 : byte(s);
    r.in_khz = byte(s) % 8 ? khz[byte(s) % 5] : byte(s);
    r.out_khz = byte(s) % 8 ? khz[byte(s) % 5] : byte(s);
    words(s, r.doubler, 6);
    halves(s, r.samples, 8);
    words(s, r.ar2, 2);
    words(s, r.fir, 36);
    halves(s, r.delay, 48);
    size_t unit = r.in_khz ? r.in_khz : 1;
    size_t n = length(s, unit, 1000 * unit), needed = n / unit * r.out_khz;
    resampled(s, r, byte(s) % 8 ? needed + byte(s) % 3 : needed / 2, n);
    size_t bytes = byte(s) % 4 ? SIMMERPATCH_BLOCK : SIMMERPATCH_BLOCK - 1 + half(s) % 3;
    lent block = lend(bytes);
    noted(block);
    simmerpatch_line p = simmerpatch_park(r, place(block), bytes);
    unsigned row = !supported(r.direction, r.in_khz, r.out_khz) ? 2 : bytes != SIMMERPATCH_BLOCK ? 8 : 0;
    ask(p.refused == row && p.written == 0 && same(&p.record, &r), "park: another answer than the table's, or another record");
    ended(block, row ? 0 : bytes);
}

/* A block of the fuzzer's bytes, or of a line, with bytes changed; its check made right or not. */
static void any_block(source *s)
{
    size_t bytes = byte(s) % 8 ? SIMMERPATCH_BLOCK : half(s) % 600;
    lent block = lend(bytes);
    uint8_t *b = place(block);
    simmerpatch_line opened = simmerpatch_open(16000, 1000 * (byte(s) % 2 ? 24 : 12), byte(s) % 2);
    if (byte(s) % 2 && bytes == SIMMERPATCH_BLOCK && !opened.refused)
        simmerpatch_park(opened.record, b, bytes);
    else
        for (size_t i = 0; i < bytes; i++)
            b[i] = (uint8_t)byte(s);
    for (unsigned changed = byte(s) % 4; changed && bytes; changed--)
        b[half(s) % bytes] = (uint8_t)byte(s);
    if (byte(s) % 4 && bytes == SIMMERPATCH_BLOCK) {
        uint32_t sum = 0;
        for (uint32_t i = 0; i < 508; i++)
            sum += (i + 1) * b[i];
        for (int i = 0; i < 4; i++)
            b[508 + i] = (uint8_t)(sum >> 8 * i);
    }
    noted(block);
    simmerpatch_line a = simmerpatch_resume(b, bytes);
    ask((bytes != SIMMERPATCH_BLOCK) == (a.refused == 8), "resume: another answer to the length");
    ask(a.written == 0 && (!a.refused || (a.refused >= 8 && a.refused <= 12 && blank(&a.record))), "resume: no such answer");
    if (!a.refused) {
        lent again = lend(SIMMERPATCH_BLOCK);
        simmerpatch_park(a.record, place(again), SIMMERPATCH_BLOCK);
        ask(!memcmp(b, place(again), SIMMERPATCH_BLOCK), "resume: accepted, and parked as another block");
        noted(again);
        ended(again, 0);
        resampled(s, a.record, 48, a.record.in_khz);
    }
    ended(block, 0);
}

static void by_two(source *s)
{
    simmerpatch_two w;
    words(s, w.w, 2);
    size_t n = length(s, 2, 48000), room = byte(s) % 8 ? n / 2 : n / 2 + byte(s) % 3;
    int split = byte(s) % 2;
    size_t high_room = !split || byte(s) % 8 ? n / 2 : byte(s);
    lent in = lend(2 * n), low = lend(2 * room), high = lend(2 * high_room);
    sound(s, place(in), n);
    noted(in);
    noted(low);
    noted(high);
    simmerpatch_halves a = split ? simmerpatch_split(w, place(low), room, place(high), high_room, place(in), n)
                                 : simmerpatch_down2(w, place(low), room, place(in), n);
    unsigned row = half_row(n, room == n / 2 && high_room == n / 2);
    ask(a.refused == row && a.written == (row ? 0 : n / 2), "by two: another answer than the table's");
    ask(!row || !memcmp(a.words.w, w.w, sizeof w.w), "by two: refused, and other words");
    if (!row && n)
        ask(original_by_two(split, w, place(in), n, place(low), place(high), a.words), "by two: another than the original's");
    ended(in, 0);
    ended(low, 2 * a.written);
    ended(high, split ? 2 * a.written : 0);
}

static void by_three(source *s)
{
    simmerpatch_six w;
    words(s, w.w, 6);
    size_t n = length(s, 3, 48000), needed = 2 * (n / 3);
    size_t room = byte(s) % 8 ? needed + byte(s) % 3 : needed / 2;
    lent in = lend(2 * n), out = lend(2 * room);
    sound(s, place(in), n);
    noted(in);
    noted(out);
    simmerpatch_thirds a = simmerpatch_down2_3(w, place(out), room, place(in), n);
    unsigned row = n % 3 ? 6 : n > 48000 ? 4 : room < needed ? 5 : 0;
    ask(a.refused == row && a.written == (row ? 0 : needed), "by three: another answer than the table's");
    ask(!row || !memcmp(a.words.w, w.w, sizeof w.w), "by three: refused, and other words");
    if (!row && n)
        ask(original_by_three(w, place(in), n, place(out), a.words), "by three: another than the original's");
    ended(in, 0);
    ended(out, 2 * a.written);
}

static void any_rates(source *s)
{
    int32_t in = (int32_t)word(s), out = (int32_t)word(s), for_enc = (int32_t)word(s);
    simmerpatch_line a = simmerpatch_open(in, out, for_enc);
    int whole = in > 0 && out > 0 && in % 1000 == 0 && out % 1000 == 0 && in <= 48000 && out <= 48000;
    int good = whole && supported(for_enc != 0, (uint8_t)(in / 1000), (uint8_t)(out / 1000));
    ask(a.refused == !good && a.written == 0, "open: another answer than the table's");
    ask(good || blank(&a.record), "open: refused, and the record is not blank");
}

int LLVMFuzzerTestOneInput(const uint8_t *data, size_t size)
{
    static void (*const all[])(source *) = {line, any_record, any_block, by_two, by_three, any_rates};
    source s = {data, size};
    all[byte(&s) % 6](&s);
    return 0;
}
