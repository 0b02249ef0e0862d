/*
 * One difference measurement: set-up, start, waiting, delivery, and the result in nanoseconds.
 *
 *     cc -Wall -Wextra -Werror -Iinclude library/c/example.c target/library/libmax35101.a -o example
 */
#include <inttypes.h>
#include <stdio.h>

#include "max35101.h"

static uint8_t model[MAX35101_MODEL_SIZE];

static int sent(const uint8_t *frame, size_t size)
{
    uint32_t started[2] = {0, 0};
    uint32_t code = max35101_transaction(model, sizeof model, frame, size, NULL, 0, NULL, 0, started, 2);
    if (code != MAX35101_ACCEPTED) {
        printf("refused: number %" PRIu32 "\n", code);
        return 0;
    }
    if (started[0])
        printf("a flight measurement started\n");
    return 1;
}

int main(void)
{
    static const uint8_t hits[] = {0x38, 0x10, 0x10};
    static const uint8_t initialize[] = {0x05};
    static const uint8_t tof_diff[] = {0x02};
    static const uint32_t up[] = {0x00C80000}, down[] = {0x00C78000};
    uint32_t high = 0, low = 0;

    if (max35101_fresh(model, sizeof model) != MAX35101_ACCEPTED)
        return 1;
    sent(tof_diff, sizeof tof_diff); /* number 8: not initialised */
    if (!sent(hits, sizeof hits) || !sent(initialize, sizeof initialize) || !sent(tof_diff, sizeof tof_diff))
        return 1;
    if (max35101_stretch(model, sizeof model, 66, NULL, 0) != MAX35101_ACCEPTED)
        return 1;
    switch (max35101_flight_delivery(model, sizeof model, up, 1, down, 1, NULL, 0)) {
    case MAX35101_ACCEPTED:
        break;
    case MAX35101_FAILED:
        printf("the measurement failed\n");
        return 1;
    default:
        return 1;
    }
    if (max35101_peek(model, sizeof model, 0xE2, &high, 1) != MAX35101_ACCEPTED ||
        max35101_peek(model, sizeof model, 0xE3, &low, 1) != MAX35101_ACCEPTED)
        return 1;
    printf("difference %.4f ns\n", max35101_nanoseconds((int32_t)(high << 16 | low)));
    return 0;
}
