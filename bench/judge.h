/* Judging one frame in plain C, on the records of aldurretx.h: the same algorithm in 64-bit numbers as the proved call.
 * With TESTED the record tests of the proved call are made too; without it the records are trusted. */
#ifndef JUDGE_H
#define JUDGE_H
#include "aldurretx.h"

#define BILLION 1000000000

struct span {
    uint64_t ticks, part;
};

static struct span lasting(uint64_t bits, uint64_t rate) {
    uint64_t parts = bits * BILLION;
    return (struct span){parts / rate, parts % rate};
}

/* the moment that is a span after (ticks, part) */
static void later(int64_t *ticks, uint64_t *part, struct span s, uint64_t rate) {
    *ticks += (int64_t)s.ticks;
    *part += s.part;
    if (*part >= rate) {
        *part -= rate;
        *ticks += 1;
    }
}

static uint64_t first_tick(int64_t ticks, uint64_t part) { return ticks < 0 ? 0 : (uint64_t)ticks + (part > 0); }

#ifdef TESTED
static bool sound_group(const struct aldurretx_group *g) {
    return g->used && g->traffic_class <= 7 && g->residence <= 10000000000u && g->last <= 4000000000000000000u &&
           g->time <= g->last + g->residence;
}
#endif

/* a frame of a stream that is set up, in its group */
static uint8_t judge_frame(struct aldurretx_group *group, struct aldurretx_stream *s, uint64_t octets, uint64_t arrival,
                           uint64_t *time) {
    uint64_t rate = s->rate, burst = s->burst;
#ifdef TESTED
    if (!sound_group(group)) return ALDURRETX_UNSOUND;
    if (s->group > 15 || rate < 1000 || rate > 10000000000u || burst < 1 || burst > 16000000 || s->part >= rate)
        return ALDURRETX_UNSOUND;
    if (first_tick(s->empty, s->part) > group->time) return ALDURRETX_UNSOUND;
#endif
    int64_t full = s->empty;
    uint64_t full_part = s->part;
    later(&full, &full_part, lasting(burst, rate), rate);
#ifdef TESTED
    if (full < 0) return ALDURRETX_UNSOUND;
#endif
    if (octets < 1 || octets > 2000) return ALDURRETX_LENGTH_RANGE;
    uint64_t bits = 8 * (octets + 20);
    if (bits > burst) return ALDURRETX_ABOVE_BURST;
    if (arrival > 4000000000000000000u) return ALDURRETX_TOO_LATE;
    if (arrival < group->last) return ALDURRETX_BEFORE_LAST;
    int64_t start = s->empty;
    uint64_t start_part = s->part;
    later(&start, &start_part, lasting(bits, rate), rate);
    uint64_t t = first_tick(start, start_part);
    if (t < group->time) t = group->time;
    if (t < arrival) t = arrival;
    *time = t;
    group->last = arrival;
    if (t > arrival + group->residence) {
        group->discards += 1;
        return ALDURRETX_DISCARDED;
    }
    group->time = t;
    if (t >= first_tick(full, full_part)) {
        struct span over = {t - (uint64_t)full - (full_part > 0), full_part ? rate - full_part : 0};
        later(&start, &start_part, over, rate);
    }
    s->empty = start;
    s->part = start_part;
    return ALDURRETX_DONE;
}
#endif
