#include "reference.h"

typedef __int128 exact; /* a time in rate-ths of a nanosecond */

#define BILLION 1000000000

static bool within(uint64_t n, uint64_t least, uint64_t most) { return least <= n && n <= most; }

static exact empty_time(const struct aldurretx_stream *s) { return (exact)s->empty * (exact)s->rate + s->part; }

static void set_empty_time(struct aldurretx_stream *s, exact e) {
    exact rate = s->rate, ticks = e / rate, part = e % rate;
    if (part < 0) {
        ticks -= 1;
        part += rate;
    }
    s->empty = (int64_t)ticks;
    s->part = (uint64_t)part;
}

static bool sound_group(const struct aldurretx_group *g) {
    return g->used && g->traffic_class <= 7 && g->residence <= 10000000000u && g->last <= 4000000000000000000u &&
           (exact)g->time <= (exact)g->last + g->residence;
}

static bool sound_stream(const struct aldurretx_stream *s, const struct aldurretx_group *g) {
    if (s->group > 15 || !within(s->rate, 1000, 10000000000u) || !within(s->burst, 1, 16000000) || s->part >= s->rate)
        return false;
    return -(exact)s->burst * BILLION <= empty_time(s) && empty_time(s) <= (exact)g->time * s->rate;
}

uint8_t reference_set_up_group(uint64_t id, struct aldurretx_group *group, uint64_t traffic_class, uint64_t residence) {
    if (id > 15) return 15;
    if (group->used) return 16;
    if (traffic_class > 7) return 21;
    if (residence > 10000000000u) return 20;
    group->used = true;
    group->traffic_class = (uint8_t)traffic_class;
    group->residence = residence;
    group->time = group->last = 0;
    group->discards = 0;
    return 0;
}

uint8_t reference_set_up_stream(uint64_t id, struct aldurretx_stream *stream, uint64_t in_group,
                                const struct aldurretx_group *group, uint64_t rate, uint64_t burst) {
    if (id > 63) return 15;
    if (stream->used) return 16;
    if (in_group > 15 || !group->used) return 17;
    if (!sound_group(group)) return 9;
    if (!within(rate, 1000, 10000000000u)) return 18;
    if (!within(burst, 1, 16000000)) return 19;
    stream->used = true;
    stream->group = (uint8_t)in_group;
    stream->rate = rate;
    stream->burst = burst;
    set_empty_time(stream, -(exact)burst * BILLION);
    return 0;
}

uint8_t reference_receive(uint64_t id, struct aldurretx_group *group, struct aldurretx_stream *streams, size_t places,
                          uint64_t stream, uint64_t octets, uint64_t arrival, uint64_t *time) {
    if (places != 64) return 9;
    if (stream > 63) return 10;
    struct aldurretx_stream *s = &streams[stream];
    if (!s->used) return 10;
    if (s->group != id || !sound_group(group) || !sound_stream(s, group)) return 9;
    if (!within(octets, 1, 2000)) return 11;
    uint64_t bits = 8 * (octets + 20);
    if (bits > s->burst) return 12;
    if (arrival > 4000000000000000000u) return 13;
    if (arrival < group->last) return 14;

    exact rate = s->rate, start = empty_time(s) + (exact)bits * BILLION, full = empty_time(s) + (exact)s->burst * BILLION;
    exact t = arrival;
    if (t < group->time) t = group->time;
    if (t * rate < start) t = (start + rate - 1) / rate; /* start is above 0 here */
    *time = (uint64_t)t;
    group->last = arrival;
    if (t > (exact)arrival + group->residence) {
        group->discards += 1;
        return 1;
    }
    set_empty_time(s, t * rate < full ? start : start + t * rate - full);
    group->time = (uint64_t)t;
    return 0;
}
