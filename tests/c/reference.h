/* The rules of document 01 in plain C, written from the document alone: exact numbers of 128 bits, nothing fast. */
#ifndef REFERENCE_H
#define REFERENCE_H
#include "aldurretx.h"

uint8_t reference_set_up_group(uint64_t id, struct aldurretx_group *group, uint64_t traffic_class, uint64_t residence);
uint8_t reference_set_up_stream(uint64_t id, struct aldurretx_stream *stream, uint64_t in_group,
                                const struct aldurretx_group *group, uint64_t rate, uint64_t burst);
uint8_t reference_receive(uint64_t id, struct aldurretx_group *group, struct aldurretx_stream *streams, size_t places,
                          uint64_t stream, uint64_t octets, uint64_t arrival, uint64_t *time);
#endif
