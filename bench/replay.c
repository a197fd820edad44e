/* The replay of a table file in plain C: a run of its frames against a line, with the same tests and the same kept first
 * of each class as the proved `line::run`. replay RATE < TABLE. */
#include <stdlib.h>

#include "yard.h"

#define CLASSES 8
#define PLACES 32
#define MOST_ARRIVALS 65536
#define NEVER UINT64_MAX
#define LATEST_PICK 4000000000000000000u

static uint64_t arrivals[MOST_ARRIVALS], moments[MOST_ARRIVALS];
static uint8_t ids[MOST_ARRIVALS], answers[MOST_ARRIVALS];
static uint16_t octets[MOST_ARRIVALS];
static uint32_t picked[MOST_ARRIVALS];

static struct waiting {
    uint64_t times[CLASSES * PLACES];
    uint32_t handles[CLASSES * PLACES];
    uint64_t bits[CLASSES * PLACES];
    uint8_t fills[CLASSES];
    /* the first of each class: its time, NEVER where nothing waits, and its place in the class */
    uint64_t firsts[CLASSES];
    size_t places[CLASSES];
} q;

/* enters a frame in its class; false where the class is full */
static bool put(uint8_t c, uint32_t handle, uint64_t time, uint64_t bits) {
    size_t n = q.fills[c], at = c * PLACES + n;
    if (n >= PLACES) return false;
    q.times[at] = time;
    q.handles[at] = handle;
    q.bits[at] = bits;
    q.fills[c] = (uint8_t)(n + 1);
    if (time < q.firsts[c]) {
        q.firsts[c] = time;
        q.places[c] = n;
    }
    return true;
}

/* takes the first of a class out, closes the gap and looks for the next first; gives its bits */
static uint64_t take_out(uint8_t c, uint32_t *handle) {
    size_t base = c * PLACES, n = q.fills[c], at = base + q.places[c];
    uint64_t bits = q.bits[at];
    *handle = q.handles[at];
    for (size_t k = at; k + 1 < base + n; k++) {
        q.times[k] = q.times[k + 1];
        q.bits[k] = q.bits[k + 1];
    }
    for (size_t k = at; k + 1 < base + n; k++) q.handles[k] = q.handles[k + 1];
    q.fills[c] = (uint8_t)(n - 1);
    q.firsts[c] = NEVER;
    for (size_t k = 0; k + 1 < n; k++)
        if (q.times[base + k] < q.firsts[c]) {
            q.firsts[c] = q.times[base + k];
            q.places[c] = k;
        }
    return bits;
}

struct ran {
    unsigned stop;
    size_t next, picks;
    uint64_t free, events;
};

__attribute__((noinline)) struct ran run(size_t count, uint64_t rate, uint64_t budget) {
    struct ran r = {0};
    for (;;) {
        uint64_t soonest = NEVER;
        for (unsigned c = 0; c < CLASSES; c++)
            if (q.firsts[c] < soonest) soonest = q.firsts[c];
        uint64_t moment = soonest < r.free ? r.free : soonest;
        bool waits = soonest != NEVER;
        bool arrives = r.next < count && (!waits || arrivals[r.next] <= moment);
        if (!arrives && !waits) { r.stop = 0; break; }
        if (r.events == budget) { r.stop = 3; break; }
        if (arrives) {
            uint64_t t;
            uint8_t id = ids[r.next], number = judge(id, octets[r.next], arrivals[r.next], &t);
            if (number == ALDURRETX_DONE && !put(groups[streams[id].group].traffic_class, (uint32_t)r.next, t, 8 * (octets[r.next] + 20u)))
                number = CLASS_FULL;
            answers[r.next++] = number;
        } else {
            if (moment > LATEST_PICK) { r.stop = 27; break; }
            if (r.picks == MOST_ARRIVALS) { r.stop = 4; break; }
            uint8_t c = CLASSES - 1;
            while (q.firsts[c] > moment) c--;
            uint64_t parts = take_out(c, &picked[r.picks]) * BILLION;
            moments[r.picks++] = moment;
            r.free = moment + parts / rate + (parts % rate > 0);
        }
        r.events += 1;
    }
    return r;
}

static size_t gather(void) {
    size_t place = 0, filled = 0, count = 0;
    uint8_t end;
    for (;;) {
        const uint8_t *b = input + place;
        size_t size = record_size(b, filled - place, &end);
        if (size == 0) {
            if (end == UNKNOWN_MARK || !refill(&place, &filled)) return end == NOTHING_LEFT ? count : MOST_ARRIVALS + 1;
            continue;
        }
        if (size != 13) {
            set_up(b, size);
        } else {
            if (count == MOST_ARRIVALS) return MOST_ARRIVALS + 1;
            ids[count] = b[2];
            octets[count] = (uint16_t)number(b + 3, 2);
            arrivals[count++] = number(b + 5, 8);
        }
        place += size;
    }
}

/* two words and a line end, with a word before them or none */
static size_t put_pair(size_t at, const char *word, uint64_t a, uint64_t b) {
    if (BUFFER - at < 64) {
        write_all(at);
        at = 0;
    }
    for (; *word; word++) output[at++] = (uint8_t)*word;
    at = put_decimal(output, at, a);
    output[at++] = ' ';
    at = put_decimal(output, at, b);
    output[at++] = '\n';
    return at;
}

int main(int argc, char **argv) {
    size_t count = gather(), at = 0;
    if (argc != 2 || count > MOST_ARRIVALS) return 2;
    for (unsigned c = 0; c < CLASSES; c++) q.firsts[c] = NEVER;
    struct ran r = run(count, strtoull(argv[1], NULL, 10), 2 * MOST_ARRIVALS);
    for (size_t k = 0; k < r.next; k++) at = put_pair(at, "", k, answers[k]);
    for (size_t k = 0; k < r.picks; k++) at = put_pair(at, "pick ", picked[k], moments[k]);
    write_all(at);
    const char *words[] = {"stop ", " next ", " free ", " events ", " picks "};
    uint64_t numbers[] = {r.stop, r.next, r.free, r.events, r.picks};
    at = 0;
    for (unsigned k = 0; k < 5; k++) {
        size_t length = strlen(words[k]);
        memcpy(output + at, words[k], length);
        at = put_decimal(output, at + length, numbers[k]);
    }
    output[at] = '\n';
    write_all(at + 1);
    return 0;
}
