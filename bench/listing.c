/* The listing of a table file in plain C: the same tests, the same buffers and the same way to make a line as the proved
 * program `listing`. */
#include "yard.h"

/* more than the longest line */
#define LINE_ROOM 49

static size_t put_line(uint8_t *out, size_t at, uint64_t number, const uint8_t *letters, uint8_t answer, uint64_t time) {
    at = put_decimal(out, at, number);
    out[at] = ' ';
    out[at + 1] = letters[0];
    out[at + 2] = letters[1];
    out[at + 3] = ' ';
    at = put_decimal(out, at + 4, answer);
    out[at++] = ' ';
    if (time == UINT64_MAX)
        out[at++] = '-';
    else
        at = put_decimal(out, at, time);
    out[at++] = '\n';
    return at;
}

static uint64_t lines;

/* lists from *place on while a record is found and the output has room; 0 is for no room */
static uint8_t list_part(size_t *place, size_t filled, size_t *written) {
    size_t at = 0, p = *place;
    uint8_t end = 0;
    for (;;) {
        const uint8_t *b = input + p;
        size_t size = record_size(b, filled - p, &end);
        uint64_t time = UINT64_MAX;
        if (size == 0) break;
        end = 0;
        if (BUFFER - at < LINE_ROOM || lines == UINT64_MAX) break;
        uint8_t answer = size == 13 ? judge(b[2], number(b + 3, 2), number(b + 5, 8), &time) : set_up(b, size);
        lines += 1;
        at = put_line(output, at, lines, b, answer, time);
        p += size;
    }
    *place = p;
    *written = at;
    return end;
}

int main(void) {
    size_t place = 0, filled = 0, written = 0;
    for (;;) {
        uint8_t end = list_part(&place, filled, &written);
        if (!write_all(written)) return 0;
        if (end == 0) continue;
        if (end != UNKNOWN_MARK && refill(&place, &filled)) continue;
        size_t at = 0;
        if (end != NOTHING_LEFT) at = put_line(output, 0, ++lines, (const uint8_t *)"--", end, UINT64_MAX);
        memcpy(output + at, "end ", 4);
        at = put_decimal(output, at + 4, lines);
        output[at] = '\n';
        write_all(at + 1);
        return 0;
    }
}
