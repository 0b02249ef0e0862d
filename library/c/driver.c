/*
 * Calls in, answers out, a line each: what library/items.py drives. Numbers are decimal, bytes hexadecimal; "-" is an
 * empty list. `stretch` and `tick` go through the calls of these names. The answer is the code, and then what was lent.
 */
#include <inttypes.h>
#include <stdio.h>
#include <stdlib.h>
#include <string.h>

#include "max35101.h"

static uint8_t model[MAX35101_MODEL_SIZE], flash[MAX35101_FLASH_SIZE];

static size_t bytes_of(const char *text, uint8_t *bytes)
{
    size_t count = 0;
    for (; text[0] != '-' && text[0] && text[1]; text += 2) {
        char pair[3] = {text[0], text[1], 0};
        bytes[count++] = (uint8_t)strtoul(pair, NULL, 16);
    }
    return count;
}

static size_t words_of(char *text, uint32_t *words)
{
    size_t count = 0;
    if (text[0] == '-' && !text[1])
        return 0;
    for (char *at = text; *at; at += *at == ',')
        words[count++] = (uint32_t)strtoul(at, &at, 10);
    return count;
}

static void print_words(uint32_t code, const uint32_t *words, size_t count)
{
    printf("%" PRIu32, code);
    for (size_t i = 0; i < count; ++i)
        printf(" %" PRIu32, words[i]);
    printf("\n");
}

/* The same of differences, in memory of its own. */
static size_t differences_of(char *text, int32_t **values)
{
    size_t count = 0;
    *values = malloc((strlen(text) + 1) * sizeof **values);
    if (!*values)
        abort();
    if (text[0] == '-' && !text[1])
        return 0;
    for (char *at = text; *at; at += *at == ',')
        (*values)[count++] = (int32_t)strtol(at, &at, 10);
    return count;
}

static void degrees(uint32_t probe, uint32_t reference, char *text)
{
    static uint32_t table[1024];
    uint32_t answer[1] = {0};
    size_t n = words_of(text, table);
    uint32_t code = n ? max35101_degrees_by(table, n, probe, reference, answer, 1)
                      : max35101_degrees(probe, reference, answer, 1);
    print_words(code, answer, 1);
}

static void frames(void)
{
    uint8_t bytes[MAX35101_SETUP_BYTES], *at = bytes;
    uint32_t lengths[MAX35101_SETUP_FRAMES];
    size_t answer[2] = {0, 0};
    printf("%" PRIu32,
           max35101_setup_frames(model, sizeof model, bytes, sizeof bytes, lengths, MAX35101_SETUP_FRAMES, answer, 2));
    for (size_t i = 0; i < answer[1]; ++i) {
        printf(" ");
        for (uint32_t k = 0; k < lengths[i]; ++k)
            printf("%02X", *at++);
    }
    printf("\n");
}

static void quietest(size_t width, char *text)
{
    int32_t *values;
    size_t answer[1] = {0}, n = differences_of(text, &values);
    uint32_t code = max35101_quietest_place(values, n, width, answer, 1);
    printf("%" PRIu32 " %zu\n", code, answer[0]);
    free(values);
}

/* A line's blanks are printed as '_'. */
static void listing(uint32_t digits, uint32_t first, char *text)
{
    int32_t *values;
    size_t answer[1] = {0}, n = differences_of(text, &values), room = n * (digits + 15);
    char *lines = malloc(room + 1);
    if (!lines)
        abort();
    printf("%" PRIu32 " ", max35101_write_listing_as(digits, values, n, first, (uint8_t *)lines, room, answer, 1));
    for (size_t i = 0; i < answer[0]; ++i)
        putchar(lines[i] == ' ' ? '_' : lines[i] == '\n' ? ' ' : lines[i]);
    printf("\n");
    free(values), free(lines);
}

static void bus(size_t room, const char *text)
{
    uint8_t frame[512], output[512];
    uint32_t answer[2] = {0, 0};
    size_t size = bytes_of(text, frame);
    memset(output, 0xEE, sizeof output);
    uint32_t code = max35101_transaction(model, sizeof model, frame, size, output, room, flash, sizeof flash, answer, 2);
    printf("%" PRIu32 " %" PRIu32 " %" PRIu32 " ", code, answer[0], answer[1]);
    for (size_t i = 0; i < room; ++i)
        printf("%02X", output[i]);
    printf(room ? "\n" : "-\n");
}

int main(void)
{
    static char line[65536], name[32], first[65536], second[65536], third[65536];
    while (fgets(line, sizeof line, stdin)) {
        uint32_t answer[4] = {0, 0, 0, 0}, up[256], down[256];
        int words = sscanf(line, "%31s %65535s %65535s %65535s", name, first, second, third);
        if (words < 1)
            continue;
        if (!strcmp(name, "fresh")) {
            memset(flash, 0xFF, sizeof flash);
            print_words(max35101_fresh(model, sizeof model), answer, 0);
        } else if (!strcmp(name, "bus")) {
            bus(strtoul(first, NULL, 10), second);
        } else if (!strcmp(name, "tick")) {
            uint32_t code = max35101_tick(model, sizeof model, answer, 4);
            print_words(code, answer, 4);
        } else if (!strcmp(name, "stretch")) {
            uint32_t code = max35101_stretch(model, sizeof model, (uint32_t)strtoul(first, NULL, 10), answer, 4);
            print_words(code, answer, 4);
        } else if (!strcmp(name, "flight")) {
            size_t n = words_of(first, up), m = words_of(second, down);
            print_words(max35101_flight_delivery(model, sizeof model, up, n, down, m, NULL, 0), answer, 0);
        } else if (!strcmp(name, "temperature")) {
            size_t n = words_of(first, up);
            print_words(max35101_temperature_delivery(model, sizeof model, up, n, NULL, 0), answer, 0);
        } else if (!strcmp(name, "peek")) {
            uint32_t code = max35101_peek(model, sizeof model, (uint32_t)strtoul(first, NULL, 10), answer, 1);
            print_words(code, answer, 1);
        } else if (!strcmp(name, "asks")) {
            uint32_t code = max35101_interrupt_pending(model, sizeof model, answer, 1);
            max35101_flight_awaited(model, sizeof model, answer + 1, 1);
            max35101_temperature_awaited(model, sizeof model, answer + 2, 1);
            max35101_regulator_on(model, sizeof model, answer + 3, 1);
            print_words(code, answer, 4);
        } else if (!strcmp(name, "frames")) {
            frames();
        } else if (!strcmp(name, "degrees")) {
            degrees((uint32_t)strtoul(first, NULL, 10), (uint32_t)strtoul(second, NULL, 10), third);
        } else if (!strcmp(name, "quietest")) {
            quietest(strtoul(first, NULL, 10), second);
        } else if (!strcmp(name, "listing")) {
            listing((uint32_t)strtoul(first, NULL, 10), (uint32_t)strtoul(second, NULL, 10), third);
        }
        fflush(stdout);
    }
    return 0;
}
