/* So many frames in place: bench/frame WHICH FRAMES, where WHICH is 0 for the proved call, 1 for plain C with the same
 * record tests, 2 for plain C without them. Prints a sum of all that came back, so that the three can be compared.
 * Eight streams of one group; the frames come at about the streams' rate, so most are released, some later than they
 * arrive, and a few are discarded. */
#include <stdio.h>
#include <stdlib.h>

#include "plain.h"

int main(int argc, char **argv) {
    if (argc != 3) return 2;
    uint8_t (*const calls[])(uint64_t, struct aldurretx_group *, struct aldurretx_stream *, size_t, uint64_t, uint64_t,
                             uint64_t, uint64_t *) = {aldurretx_receive, plain_tested, plain_trusting};
    uint8_t (*receive)(uint64_t, struct aldurretx_group *, struct aldurretx_stream *, size_t, uint64_t, uint64_t, uint64_t,
                       uint64_t *) = calls[atoi(argv[1])];
    unsigned frames = (unsigned)atoi(argv[2]);
    static struct aldurretx_group group;
    static struct aldurretx_stream streams[ALDURRETX_STREAMS];
    aldurretx_set_up_group(3, &group, 6, 400000);
    for (unsigned k = 0; k < 8; k++) aldurretx_set_up_stream(k, &streams[k], 3, &group, 9000000 + 1234567 * k, 1344 + 800 * k);
    uint64_t sum = 0, arrival = 0, time = 0;
    for (unsigned n = 0; n < frames; n++) {
        arrival += 7000 * (n % 3);
        sum = sum * 31 + receive(3, &group, streams, ALDURRETX_STREAMS, n & 7, 64 + (n & 31), arrival, &time) + time;
    }
    printf("%llu\n", (unsigned long long)(sum + group.discards));
    return 0;
}
