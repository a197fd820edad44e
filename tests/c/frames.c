/* Runs the figures of document 01 and many random calls through the proved library and through the reference, and
 * compares every answer, every time and every field of every record after each call.
 * Arguments: how many random frames, and a seed. Exit status 1 on any difference. */
#include <stdio.h>
#include <stdlib.h>
#include <string.h>

#include "reference.h"

#define LAST_ARRIVAL 4000000000000000000u
#define MOST_RESIDENCE 10000000000u

static unsigned long agreed, differed, answers[30];

/* ---- two copies of all that is lent: one for the library, one for the reference */
struct lent {
    struct aldurretx_group groups[16];
    struct aldurretx_stream streams[65];
    uint64_t time;
};

static struct lent mine, theirs;

static bool same_group(const struct aldurretx_group *a, const struct aldurretx_group *b) {
    return a->used == b->used && a->traffic_class == b->traffic_class && a->discards == b->discards &&
           a->residence == b->residence && a->time == b->time && a->last == b->last;
}

static bool same_stream(const struct aldurretx_stream *a, const struct aldurretx_stream *b) {
    return a->used == b->used && a->group == b->group && a->rate == b->rate && a->burst == b->burst &&
           a->empty == b->empty && a->part == b->part;
}

static bool same_lent(void) {
    for (int i = 0; i < 16; i++)
        if (!same_group(&mine.groups[i], &theirs.groups[i])) return false;
    for (int i = 0; i < 65; i++)
        if (!same_stream(&mine.streams[i], &theirs.streams[i])) return false;
    return mine.time == theirs.time;
}

static void compare(const char *what, uint8_t answer, uint8_t expected) {
    if (answer == expected && same_lent()) {
        agreed++;
        answers[expected]++;
        return;
    }
    if (differed++ < 10)
        printf("%s differs: answer %d, expected %d; time %llu, expected %llu\n", what, answer, expected,
               (unsigned long long)mine.time, (unsigned long long)theirs.time);
    mine = theirs;
}

static uint8_t set_up_group(uint64_t id, int at, uint64_t traffic_class, uint64_t residence) {
    uint8_t answer = aldurretx_set_up_group(id, &mine.groups[at], traffic_class, residence);
    compare("group", answer, reference_set_up_group(id, &theirs.groups[at], traffic_class, residence));
    return answer;
}

static uint8_t set_up_stream(uint64_t id, int at, uint64_t in_group, int of, uint64_t rate, uint64_t burst) {
    uint8_t answer = aldurretx_set_up_stream(id, &mine.streams[at], in_group, &mine.groups[of], rate, burst);
    compare("stream", answer, reference_set_up_stream(id, &theirs.streams[at], in_group, &theirs.groups[of], rate, burst));
    return answer;
}

static uint8_t frame(uint64_t id, int of, size_t places, uint64_t stream, uint64_t octets, uint64_t arrival) {
    uint8_t answer = aldurretx_receive(id, &mine.groups[of], mine.streams, places, stream, octets, arrival, &mine.time);
    compare("frame", answer,
            reference_receive(id, &theirs.groups[of], theirs.streams, places, stream, octets, arrival, &theirs.time));
    return answer;
}

/* ---- the figures */
static unsigned long figures_wrong;

static void expect(const char *what, uint64_t given, uint64_t wanted) {
    if (given == wanted) return;
    figures_wrong++;
    printf("figure %s: %llu, expected %llu\n", what, (unsigned long long)given, (unsigned long long)wanted);
}

static void fresh(uint64_t residence, uint64_t rate, uint64_t burst) {
    memset(&mine, 0, sizeof mine);
    memset(&theirs, 0, sizeof theirs);
    expect("group set up", set_up_group(0, 0, 6, residence), 0);
    expect("stream set up", set_up_stream(0, 0, 0, 0, rate, burst), 0);
}

static void row(const char *what, uint64_t stream, uint64_t octets, uint64_t arrival, uint8_t answer, uint64_t time,
                int64_t empty, uint64_t part) {
    expect(what, frame(0, 0, 64, stream, octets, arrival), answer);
    expect(what, mine.time, time);
    expect(what, (uint64_t)mine.streams[stream].empty, (uint64_t)empty);
    expect(what, mine.streams[stream].part, part);
}

static void four_rows(uint64_t residence) {
    fresh(residence, 9000000, 1344);
    expect("start", (uint64_t)mine.streams[0].empty, (uint64_t)-149334);
    expect("start", mine.streams[0].part, 6000000);
    row("first", 0, 64, 0, 0, 0, -74667, 3000000);
    row("second", 0, 64, 0, 0, 0, 0, 0);
    row("third", 0, 64, 0, 0, 74667, 74666, 6000000);
    row("fourth", 0, 64, 0, 0, 149334, 149333, 3000000);
}

static void figures(void) {
    four_rows(224000);
    row("fifth", 0, 64, 0, 0, 224000, 224000, 0);
    struct lent five = mine;
    row("sixth", 0, 64, 1000000, 0, 1000000, 925333, 3000000);
    mine = theirs = five;
    expect("stream 1", set_up_stream(1, 1, 0, 0, 1000000000, 12336), 0);
    row("sixth instead", 1, 1522, 0, 0, 224000, 224000, 0);
    four_rows(223999);
    row("fifth, discarded", 0, 64, 0, 1, 224000, 149333, 3000000);
    expect("discards", mine.groups[0].discards, 1);
    row("sixth, after it", 0, 64, 1000000, 0, 1000000, 925333, 3000000);
    const struct { uint64_t octets, burst; uint8_t answer; } first[] = {
        {64, 672, 0}, {64, 671, 12}, {2000, 16160, 0}, {2001, 16160, 11}, {0, 16160, 11}};
    for (size_t i = 0; i < sizeof first / sizeof *first; i++) {
        fresh(224000, 9000000, first[i].burst);
        expect("octets and burst", frame(0, 0, 64, 0, first[i].octets, 0), first[i].answer);
    }
    fresh(MOST_RESIDENCE, 10000000000u, 672);
    const uint64_t whole[] = {0, 68, 136};
    for (int i = 0; i < 3; i++) {
        frame(0, 0, 64, 0, 64, 0);
        expect("whole ticks", mine.time, whole[i]);
    }
    fresh(0, 9000000, 672);
    mine.groups[0].discards = theirs.groups[0].discards = 4294967295u;
    frame(0, 0, 64, 0, 64, 0);
    expect("discarded at 4,294,967,295", frame(0, 0, 64, 0, 64, 0), 1);
    expect("followed by 0", mine.groups[0].discards, 0);
}

/* ---- random calls */
static uint64_t state;

static uint64_t any(void) { /* xorshift64* */
    state ^= state >> 12;
    state ^= state << 25;
    state ^= state >> 27;
    return state * 2685821657736338717u;
}

static uint64_t below(uint64_t n) { return any() % n; }

static bool one_in(uint64_t n) { return below(n) == 0; }

/* a number up to most, small and large ones alike */
static uint64_t spread(uint64_t most) {
    uint64_t n = any() >> below(64);
    return n <= most ? n : most - n % (most / 2 + 1);
}

static uint64_t edge(uint64_t n) { return n + below(3) - 1; }

static uint64_t random_rate(void) {
    static const uint64_t edges[] = {1000, 1001, 999999937, 1000000007, 3000000000u, 7, 10000000000u};
    if (one_in(50)) return edge(one_in(2) ? 1000 : 10000000000u);
    return one_in(4) ? edges[below(7)] : 1000 + spread(10000000000u - 1000);
}

static uint64_t random_burst(void) {
    if (one_in(50)) return edge(one_in(2) ? 1 : 16000000);
    return one_in(3) ? 600 + below(20000) : 1 + spread(15999999);
}

static uint64_t random_residence(void) {
    if (one_in(50)) return edge(MOST_RESIDENCE);
    return one_in(6) ? 0 : spread(MOST_RESIDENCE);
}

static uint64_t random_octets(void) {
    if (one_in(60)) return one_in(2) ? edge(1) : edge(2000);
    if (one_in(200)) return (any() << 16) + 64; /* 64 in the field's 16 bits */
    return one_in(2) ? 1 + below(100) : 1 + below(2000);
}

static uint64_t wide(uint64_t n) { return one_in(300) ? n + 256 * (1 + below(1000)) : one_in(300) ? any() : n; }

/* one field of one of the two records becomes something near an end of its range, or anything */
static void harm(int of, int at) {
    struct aldurretx_group *g = &mine.groups[of];
    struct aldurretx_stream *s = &mine.streams[at];
    switch (below(16)) {
    case 0: g->used = false; break;
    case 1: g->traffic_class = (uint8_t)(7 + below(2)); break;
    case 2: g->residence = edge(MOST_RESIDENCE); break;
    case 3: g->last = edge(LAST_ARRIVAL); break;
    case 4: g->time = edge(g->last + g->residence); break;
    case 5: s->used = !s->used; break;
    case 6: s->group = (uint8_t)(one_in(2) ? (uint64_t)of + 1 : 14 + below(3)); break;
    case 7: s->rate = one_in(2) ? edge(1000) : edge(10000000000u); break;
    case 8: s->burst = one_in(2) ? edge(1) : edge(16000000); break;
    case 9: s->part = edge(s->rate); break;
    case 10: s->empty = (int64_t)g->time, s->part = below(2); break;
    case 11: s->empty = (int64_t)edge(g->time); break;
    case 12: { /* the lower bound of the bucket empty time, and one part below it */
        if (!s->rate) break;
        uint64_t whole = s->burst * 1000000000 / s->rate, part = s->burst * 1000000000 % s->rate;
        s->empty = -(int64_t)whole - (part > 0);
        s->part = part ? s->rate - part : 0;
        if (one_in(2)) s->part = s->part ? s->part - 1 : (s->empty--, s->rate - 1);
        break;
    }
    case 13: s->empty = (int64_t)any(); break;
    case 14: g->time = any(); break;
    default: g->residence = any(); g->last = any(); break;
    }
    theirs = mine;
}

static uint64_t random_arrival(const struct aldurretx_group *g, const struct aldurretx_stream *s) {
    if (one_in(100)) return g->last - below(3);
    if (one_in(200)) return edge(LAST_ARRIVAL);
    if (one_in(500)) return any();
    uint64_t step = s->rate ? below(3) * 700 * 1000000000 / s->rate : 1;
    if (one_in(3)) step = 0;
    if (one_in(20)) step = spread(4 * MOST_RESIDENCE);
    return g->last + (step ? below(step + 1) : 0);
}

static void random_frames(unsigned long frames) {
    while (frames > 0) {
        memset(&mine, 0, sizeof mine);
        for (int i = 0; i < 65; i++) mine.streams[i].rate = any(), mine.streams[i].empty = (int64_t)any();
        mine.time = any();
        theirs = mine;
        int groups = 1 + (int)below(3), streams = 1 + (int)below(6);
        for (int i = 0; i < groups; i++) set_up_group(wide((uint64_t)i), i, one_in(50) ? 8 : wide(below(8)), random_residence());
        if (one_in(3)) /* late in time */
            for (int i = 0; i < groups; i++) theirs.groups[i].last = mine.groups[i].last = LAST_ARRIVAL - spread(1000000000000000u);
        for (unsigned n = 0; n < 250 && frames > 0; n++) {
            int at = (int)below((uint64_t)streams), of = (int)below((uint64_t)groups);
            if (mine.streams[at].used && !one_in(50)) of = mine.streams[at].group < 16 ? mine.streams[at].group : 0;
            if (!mine.streams[at].used || one_in(200)) {
                if (one_in(30)) harm(of, at);
                set_up_stream(wide((uint64_t)at), at, wide((uint64_t)of), of, random_rate(), random_burst());
            }
            struct lent before = mine;
            bool harmed = one_in(20);
            if (harmed) harm(of, at);
            size_t places = one_in(200) ? (one_in(2) ? 63 : 65) : one_in(1000) ? 0 : 64;
            uint64_t stream = one_in(100) ? edge(64) : wide((uint64_t)at);
            frame(wide((uint64_t)of), of, places, stream, random_octets(), random_arrival(&mine.groups[of], &mine.streams[at]));
            frames--;
            if (harmed) mine = theirs = before;
        }
    }
}

int main(int argc, char **argv) {
    unsigned long frames = argc > 1 ? strtoul(argv[1], 0, 10) : 1000000;
    state = argc > 2 ? strtoull(argv[2], 0, 10) : 1;
    if (state == 0) state = 1;
    figures();
    printf("figures: %s\n", figures_wrong || differed ? "WRONG" : "all as document 01 has them");
    random_frames(frames);
    printf("answers:");
    for (int i = 0; i < 30; i++)
        if (answers[i]) printf(" %d:%lu", i, answers[i]);
    printf("\n%lu calls agreed, %lu differed, of %lu random frames and the set-ups they need\n", agreed, differed, frames);
    return differed || figures_wrong;
}
