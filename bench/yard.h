/* What the plain C versions of the listing and the replay share: the tables, one frame, set-up, the records of a table
 * file and decimal text. The same tests and the same algorithm in 64-bit numbers as the proved rooms, no proofs. */
#ifndef YARD_H
#define YARD_H
#include <string.h>
#include <unistd.h>

#define TESTED
#include "judge.h"

#define BUFFER 65536

/* beside those of aldurretx.h */
enum { NOTHING_LEFT = 5, CLASS_FULL = 22, UNKNOWN_MARK = 24, CUT_SHORT = 25 };

static struct aldurretx_group groups[16];
static struct aldurretx_stream streams[ALDURRETX_STREAMS];

static uint8_t judge(uint8_t stream, uint64_t octets, uint64_t arrival, uint64_t *time) {
    if (stream >= ALDURRETX_STREAMS) return ALDURRETX_NO_STREAM;
    struct aldurretx_stream *s = &streams[stream];
    if (!s->used) return ALDURRETX_NO_STREAM;
    if (s->group > 15) return ALDURRETX_UNSOUND;
    return judge_frame(&groups[s->group], s, octets, arrival, time);
}

/* ---- set-up */

static uint8_t set_up_group(uint8_t id, uint8_t traffic_class, uint64_t residence) {
    if (id > 15) return ALDURRETX_ID_RANGE;
    if (groups[id].used) return ALDURRETX_SET_UP_BEFORE;
    if (traffic_class > 7) return ALDURRETX_CLASS_RANGE;
    if (residence > 10000000000u) return ALDURRETX_RESIDENCE_RANGE;
    groups[id] = (struct aldurretx_group){.used = true, .traffic_class = traffic_class, .residence = residence};
    return 0;
}

static uint8_t set_up_stream(uint8_t id, uint8_t group, uint64_t rate, uint64_t burst) {
    if (id > 63) return ALDURRETX_ID_RANGE;
    if (streams[id].used) return ALDURRETX_SET_UP_BEFORE;
    if (group > 15 || !groups[group].used) return ALDURRETX_NO_GROUP;
    if (!sound_group(&groups[group])) return ALDURRETX_UNSOUND;
    if (rate < 1000 || rate > 10000000000u) return ALDURRETX_RATE_RANGE;
    if (burst < 1 || burst > 16000000) return ALDURRETX_BURST_RANGE;
    struct span s = lasting(burst, rate);
    int64_t ticks = -(int64_t)s.ticks - (s.part > 0);
    streams[id] = (struct aldurretx_stream){true, group, rate, burst, ticks, s.part ? rate - s.part : 0};
    return 0;
}

/* ---- text */

static size_t digit_count(uint64_t n) {
    uint64_t bound = 10;
    for (size_t k = 1; k < 19; k++) {
        if (n < bound) return k;
        bound *= 10;
    }
    return n < bound ? 19 : 20;
}

static size_t put_decimal(uint8_t *out, size_t at, uint64_t n) {
    size_t k = digit_count(n), end = at + k;
    for (size_t j = 0; j < k; j++) {
        out[end - 1 - j] = (uint8_t)('0' + n % 10);
        n /= 10;
    }
    return end;
}

/* ---- the table file */

static uint64_t number(const uint8_t *b, unsigned n) {
    uint64_t x = 0;
    for (unsigned i = 0; i < n; i++) x = x << 8 | b[i];
    return x;
}

static uint8_t input[BUFFER], output[BUFFER];

/* the size of the record at the front of so many bytes, or 0 and why there is none: 5, 24 or 25 */
static size_t record_size(const uint8_t *b, size_t left, uint8_t *end) {
    size_t size = 0;
    *end = left == 0 ? NOTHING_LEFT : CUT_SHORT;
    if (left < 2) return 0;
    if (b[0] == 'F' && b[1] == 'R') size = 13;
    else if (b[0] == 'G' && b[1] == 'R') size = 12;
    else if (b[0] == 'G' && b[1] == 'D') size = 4;
    else if (b[0] == 'S' && b[1] == 'T') size = 16;
    else *end = UNKNOWN_MARK;
    return left < size ? 0 : size;
}

/* what a record of that size sets up */
static uint8_t set_up(const uint8_t *b, size_t size) {
    if (size == 12) return set_up_group(b[2], b[3], number(b + 4, 8));
    if (size == 4) return set_up_group(b[2], b[3], 10000000);
    return set_up_stream(b[2], b[3], number(b + 4, 8), number(b + 12, 4));
}

/* moves what is left of the input to the front and reads on; false at its end */
static bool refill(size_t *place, size_t *filled) {
    memmove(input, input + *place, *filled - *place);
    *filled -= *place;
    *place = 0;
    ssize_t got = read(0, input + *filled, BUFFER - *filled);
    if (got <= 0) return false;
    *filled += (size_t)got;
    return true;
}

static bool write_all(size_t n) {
    for (size_t done = 0; done < n;) {
        ssize_t put = write(1, output + done, n - done);
        if (put <= 0) return false;
        done += (size_t)put;
    }
    return true;
}
#endif
