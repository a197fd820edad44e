/* Aldurretx for firmware: the interrupt side, as C calls it.
 *
 * The firmware keeps the records and lends them to each call, which rewrites them where they stand. Records come zeroed
 * (nothing is set up), and from then on only these calls write them. A call takes any numbers: what does not fit is
 * refused by its number, and a refused call changes nothing that was lent. Each call is proved to do what
 * crates/firmware/specs says, for every argument, and always returns.
 *
 * What C must see to: no pointer is null or misaligned, the things lent to one call do not overlap, a bool holds 0 or 1,
 * `streams` has `places` records, and no other context uses them during the call.
 */
#ifndef ALDURRETX_H
#define ALDURRETX_H

#include <stdbool.h>
#include <stddef.h>
#include <stdint.h>

#ifdef __cplusplus
extern "C" {
#define ALDURRETX_CHECKED(fact, why) static_assert(fact, why)
#else
#define ALDURRETX_CHECKED(fact, why) _Static_assert(fact, why)
#endif

/* A group: groups have ids 0..15. Times are whole nanoseconds. */
struct aldurretx_group {
    bool used;              /* set up */
    uint8_t traffic_class;  /* 0..7 */
    uint32_t discards;      /* discarded frames; 4,294,967,295 is followed by 0 */
    uint64_t residence;     /* maximum residence */
    uint64_t time;          /* group time: the last frame's eligibility time */
    uint64_t last;          /* last arrival */
};

/* A stream: streams have ids 0..63, and the record of stream k stands at place k of the lent run. */
struct aldurretx_stream {
    bool used;              /* set up */
    uint8_t group;          /* its group's id */
    uint64_t rate;          /* bits per second */
    uint64_t burst;         /* bits */
    int64_t empty;          /* bucket empty time: whole nanoseconds, rounded towards minus infinity, */
    uint64_t part;          /* and a remainder in rate-ths of a nanosecond */
};

#define ALDURRETX_STREAMS 64

ALDURRETX_CHECKED(sizeof(bool) == 1, "a bool is a byte");
ALDURRETX_CHECKED(sizeof(size_t) == 8, "a length is 64 bits");
ALDURRETX_CHECKED(sizeof(struct aldurretx_group) == 32, "a group's record is 32 bytes");
ALDURRETX_CHECKED(offsetof(struct aldurretx_group, used) == 0, "used");
ALDURRETX_CHECKED(offsetof(struct aldurretx_group, traffic_class) == 1, "traffic_class");
ALDURRETX_CHECKED(offsetof(struct aldurretx_group, discards) == 4, "discards");
ALDURRETX_CHECKED(offsetof(struct aldurretx_group, residence) == 8, "residence");
ALDURRETX_CHECKED(offsetof(struct aldurretx_group, time) == 16, "time");
ALDURRETX_CHECKED(offsetof(struct aldurretx_group, last) == 24, "last");
ALDURRETX_CHECKED(sizeof(struct aldurretx_stream) == 40, "a stream's record is 40 bytes");
ALDURRETX_CHECKED(offsetof(struct aldurretx_stream, used) == 0, "used");
ALDURRETX_CHECKED(offsetof(struct aldurretx_stream, group) == 1, "group");
ALDURRETX_CHECKED(offsetof(struct aldurretx_stream, rate) == 8, "rate");
ALDURRETX_CHECKED(offsetof(struct aldurretx_stream, burst) == 16, "burst");
ALDURRETX_CHECKED(offsetof(struct aldurretx_stream, empty) == 24, "empty");
ALDURRETX_CHECKED(offsetof(struct aldurretx_stream, part) == 32, "part");

/* The numbers that the calls return. */
enum {
    ALDURRETX_DONE = 0,             /* set up, or released with its eligibility time */
    ALDURRETX_DISCARDED = 1,        /* discarded, with its eligibility time */
    ALDURRETX_UNSOUND = 9,          /* a record that the call touches is unsound, or lent wrongly */
    ALDURRETX_NO_STREAM = 10,       /* stream above 63 or not set up */
    ALDURRETX_LENGTH_RANGE = 11,    /* octets out of 1..2,000 */
    ALDURRETX_ABOVE_BURST = 12,     /* charged bits above the burst */
    ALDURRETX_TOO_LATE = 13,        /* arrival above 4,000,000,000,000,000,000 */
    ALDURRETX_BEFORE_LAST = 14,     /* arrival before the group's last arrival */
    ALDURRETX_ID_RANGE = 15,        /* id to set up out of range */
    ALDURRETX_SET_UP_BEFORE = 16,   /* id already set up */
    ALDURRETX_NO_GROUP = 17,        /* a stream's group out of range or not set up */
    ALDURRETX_RATE_RANGE = 18,      /* rate out of 1,000..10,000,000,000 */
    ALDURRETX_BURST_RANGE = 19,     /* burst out of 1..16,000,000 */
    ALDURRETX_RESIDENCE_RANGE = 20, /* residence above 10,000,000,000 */
    ALDURRETX_CLASS_RANGE = 21      /* class above 7 */
};

/* Sets up the group `id` in its lent record: 0, or 15, 16, 21, 20. */
uint8_t aldurretx_set_up_group(uint64_t id, struct aldurretx_group *group, uint64_t traffic_class, uint64_t residence);

/* Sets up the stream `id` in its lent record, in the group `in_group`, whose record is lent too: 0, or 15, 16, 17, 9, 18,
 * 19. */
uint8_t aldurretx_set_up_stream(uint64_t id, struct aldurretx_stream *stream, uint64_t in_group,
                                const struct aldurretx_group *group, uint64_t rate, uint64_t burst);

/* Judges a frame of `octets` octets of the stream `stream`, arriving at `arrival`, by the lent record of the group `id`
 * and the lent run of 64 stream records: 0 released or 1 discarded, with its eligibility time in `*time`, or 9 (a run of
 * another length), 10, 9, 11, 12, 13, 14. */
uint8_t aldurretx_receive(uint64_t id, struct aldurretx_group *group, struct aldurretx_stream *streams, size_t places,
                          uint64_t stream, uint64_t octets, uint64_t arrival, uint64_t *time);

#ifdef __cplusplus
}
#endif
#endif
