/* The two plain C versions of a frame in place, with the record tests and without. */
#ifndef PLAIN_H
#define PLAIN_H
#include "aldurretx.h"

uint8_t plain_tested(uint64_t id, struct aldurretx_group *group, struct aldurretx_stream *streams, size_t places,
                     uint64_t stream, uint64_t octets, uint64_t arrival, uint64_t *time);
uint8_t plain_trusting(uint64_t id, struct aldurretx_group *group, struct aldurretx_stream *streams, size_t places,
                       uint64_t stream, uint64_t octets, uint64_t arrival, uint64_t *time);
#endif
