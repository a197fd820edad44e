/* A frame in place, in plain C. */
#include "judge.h"
#include "plain.h"

uint8_t PLAIN(uint64_t id, struct aldurretx_group *group, struct aldurretx_stream *streams, size_t places,
              uint64_t stream, uint64_t octets, uint64_t arrival, uint64_t *time) {
    if (places != ALDURRETX_STREAMS) return ALDURRETX_UNSOUND;
    if (stream >= ALDURRETX_STREAMS) return ALDURRETX_NO_STREAM;
    struct aldurretx_stream *s = &streams[stream];
    if (!s->used) return ALDURRETX_NO_STREAM;
    if (s->group != id) return ALDURRETX_UNSOUND;
    return judge_frame(group, s, octets, arrival, time);
}
