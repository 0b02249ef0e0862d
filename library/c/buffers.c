/*
 * Every exported call with buffers of no place, of one and of far too many, each allocated by itself, so that the
 * sanitizer or valgrind sees a byte that is touched outside: refused ones, after which every buffer is as it was, and
 * accepted ones, whose answers are checked. Prints the number of answers checked.
 */
#include <stdio.h>
#include <stdlib.h>
#include <string.h>

#include "max35101.h"

enum { LENGTHS = 6 };
static const size_t lengths[LENGTHS] = {0, 1, 4, 233, 8192, 100000};
static unsigned long checks;
static int wrong;

static void expect(int holds, const char *what)
{
    ++checks;
    if (!holds) {
        wrong = 1;
        fprintf(stderr, "not as it must be: %s\n", what);
    }
}

/* Memory of its own; no memory at all where there is no element. */
static void *elements(size_t count, size_t size, int value)
{
    void *memory = count ? malloc(count * size) : NULL;
    if (count && !memory)
        abort();
    if (count)
        memset(memory, value, count * size);
    return memory;
}

static void *copy_of(const void *memory, size_t bytes)
{
    void *copy = elements(bytes, 1, 0);
    if (bytes)
        memcpy(copy, memory, bytes);
    return copy;
}

static int same(const void *one, const void *other, size_t bytes)
{
    return !bytes || !memcmp(one, other, bytes);
}

/* A model with the buffers that it is lent. */
struct chip {
    uint8_t *model, *output, *flash;
    uint32_t *answer;
    size_t size, room, flash_size, words;
};

static struct chip chip_of(size_t size, size_t room, size_t flash_size, size_t words)
{
    struct chip chip = {.size = size, .room = room, .flash_size = flash_size, .words = words};
    chip.model = elements(size, 1, 0xA5);
    chip.output = elements(room, 1, 0xEE);
    chip.flash = elements(flash_size, 1, 0xFF);
    chip.answer = elements(words, 4, 7);
    uint32_t code = max35101_fresh(chip.model, size);
    expect(code == (size == MAX35101_MODEL_SIZE ? MAX35101_ACCEPTED : MAX35101_UNSOUND), "fresh");
    expect(code != MAX35101_UNSOUND || !size || (chip.model[0] == 0xA5 && chip.model[size - 1] == 0xA5), "no fresh model");
    return chip;
}

static void let_go(struct chip chip)
{
    free(chip.model), free(chip.output), free(chip.flash), free(chip.answer);
}

static struct chip kept(struct chip chip)
{
    struct chip copy = chip;
    copy.model = copy_of(chip.model, chip.size);
    copy.output = copy_of(chip.output, chip.room);
    copy.flash = copy_of(chip.flash, chip.flash_size);
    copy.answer = copy_of(chip.answer, chip.words * 4);
    return copy;
}

/* The code is the one that is wanted, and after a refusal each buffer is as it was before. */
static void told(uint32_t code, uint32_t wanted, struct chip before, struct chip after, const char *what)
{
    expect(code == wanted, what);
    if (code != MAX35101_ACCEPTED && code != MAX35101_FAILED) {
        expect(same(before.model, after.model, after.size), "a refusal leaves the model");
        expect(same(before.output, after.output, after.room), "a refusal leaves the output");
        expect(same(before.flash, after.flash, after.flash_size), "a refusal leaves the user flash");
        expect(same(before.answer, after.answer, after.words * 4), "a refusal leaves the answer");
    }
    let_go(before);
}

static void sends(struct chip chip, const uint8_t *frame, size_t n, uint32_t wanted, const char *what)
{
    struct chip before = kept(chip);
    uint8_t *own = copy_of(frame, n);
    uint32_t code = max35101_transaction(chip.model, chip.size, own, n, chip.output, chip.room, chip.flash,
                                         chip.flash_size, chip.answer, chip.words);
    free(own);
    told(code, wanted, before, chip, what);
}

#define SENDS(chip, wanted, what, ...) \
    sends(chip, (const uint8_t[]){__VA_ARGS__}, sizeof((const uint8_t[]){__VA_ARGS__}), wanted, what)

static void ticks(struct chip chip, uint32_t wanted)
{
    struct chip before = kept(chip);
    told(max35101_tick(chip.model, chip.size, chip.answer, chip.words), wanted, before, chip, "tick");
}

static void stretches(struct chip chip, uint32_t count, uint32_t wanted, const char *what)
{
    struct chip before = kept(chip);
    told(max35101_stretch(chip.model, chip.size, count, chip.answer, chip.words), wanted, before, chip, what);
}

/* n words up and m down, all the same but for the last one down. */
static void delivers(struct chip chip, size_t n, size_t m, uint32_t last, uint32_t wanted, const char *what)
{
    struct chip before = kept(chip);
    uint32_t *up = elements(n, 4, 0), *down = elements(m, 4, 0);
    if (m)
        down[m - 1] = last;
    uint32_t code =
        max35101_flight_delivery(chip.model, chip.size, up, n, down, m, chip.answer, chip.words);
    free(up), free(down);
    told(code, wanted, before, chip, what);
}

static void delivers_ports(struct chip chip, size_t n, uint32_t last, uint32_t wanted, const char *what)
{
    struct chip before = kept(chip);
    uint32_t *words = elements(n, 4, 0);
    for (size_t i = 0; i < n; ++i)
        words[i] = i + 1 < n ? 0x200000 : last;
    uint32_t code = max35101_temperature_delivery(chip.model, chip.size, words, n, chip.answer, chip.words);
    free(words);
    told(code, wanted, before, chip, what);
}

static uint32_t word_at(struct chip chip, uint32_t address)
{
    uint32_t word = 0;
    expect(max35101_peek(chip.model, chip.size, address, &word, 1) == MAX35101_ACCEPTED, "peek");
    return word;
}

/* The calls that move a model on, most of them refused. */
static void calls_on(size_t size, size_t n, size_t m)
{
    int fresh = size == MAX35101_MODEL_SIZE;
    struct chip chip = chip_of(size, m, m, m);
    uint8_t *frame = elements(n, 1, 0xFE);
    sends(chip, frame, n, !fresh ? 0 : n == 0 ? 1 : n % 2 == 0 ? 3 : n == 1 ? 3 : 4, "transaction");
    ticks(chip, fresh ? MAX35101_ACCEPTED : 0);
    stretches(chip, 100, fresh ? MAX35101_ACCEPTED : 0, "stretch");
    stretches(chip, UINT32_MAX, fresh ? 12 : 0, "a stretch that is too long");
    delivers(chip, n, m, 1, fresh ? 10 : 0, "flight_delivery");
    delivers_ports(chip, n, 1, fresh ? 10 : 0, "temperature_delivery");
    free(frame), let_go(chip);
}

/* An event of three differences, the first of which has just started: the words that its place has room for. */
static void asks_of_an_event(struct chip chip)
{
    static const uint32_t place[] = {1, 3, 1, 0, 0, 16384, 0};
    expect(max35101_flight_place(chip.model, chip.size, chip.answer, chip.words) == MAX35101_ACCEPTED, "flight_place");
    for (size_t i = 0; i < chip.words; ++i)
        if (i < MAX35101_MOST_WORDS)
            expect(chip.answer[i] == place[i], "a word of the event's place");
    expect(chip.words < 8 || chip.answer[7] == 0x07070707u, "and no word behind it");
    expect(max35101_flight_left(chip.model, chip.size, chip.answer, chip.words) == MAX35101_ACCEPTED, "flight_left");
    expect(chip.words < 1 || chip.answer[0] == 8192, "ticks until the measurement fails");
    expect(max35101_temperature_place(chip.model, chip.size, chip.answer, chip.words) == MAX35101_ACCEPTED, "no event");
    expect(chip.words < 1 || chip.answer[0] == 0, "of temperatures");
}

/* Set-up, reads, starts, deliveries and flash frames, accepted where output and user flash have the room. */
static void accepted_on(size_t room, size_t flash_size, size_t words)
{
    const uint32_t ok = MAX35101_ACCEPTED;
    uint32_t flash = flash_size == MAX35101_FLASH_SIZE ? ok : 16;
    struct chip chip = chip_of(MAX35101_MODEL_SIZE, room, flash_size, words);
    SENDS(chip, 8, "a start before Initialize", 0x02);
    SENDS(chip, 8, "an event before Initialize", 0x07);
    SENDS(chip, ok, "Initialize", 0x05);
    SENDS(chip, 9, "a start without pulses", 0x02);
    SENDS(chip, ok, "a write of two words", 0x38, 0x10, 0x10, 0x20, 0x00);
    SENDS(chip, ok, "a write of one", 0x40, 0x00, 0x60);
    SENDS(chip, 7, "a write of no date", 0x32, 0x01, 0x00);
    SENDS(chip, 4, "a write past the registers", 0x43, 0, 0, 0, 0);
    SENDS(chip, room < 2 ? 5 : ok, "a read of the status", 0xFE, 0, 0);
    expect(room < 2 || (chip.output[0] == 0x00 && chip.output[1] == 0x0C), "INIT and POR");
    SENDS(chip, room < 16 ? 5 : ok, "a read of eight words", 0xB8, 0, 0, 0, 0, 0, 0, 0, 0, 0, 0, 0, 0, 0, 0, 0, 0);
    expect(room < 16 || (chip.output[0] == 0x10 && chip.output[2] == 0x20), "TOF1 and TOF2");
    expect(room < 17 || chip.output[16] == 0xEE, "the output past what was read");
    SENDS(chip, ok, "a start", 0x02);
    expect(words < 1 || chip.answer[0] == 1, "a flight measurement was started");
    expect(words < 2 || chip.answer[1] == 0, "and no temperature one");
    expect(words < 3 || chip.answer[2] == 0x07070707u, "and the answer's further words stay");
    SENDS(chip, 6, "a write while it is awaited", 0x38, 0x10, 0x10);
    delivers(chip, 2, 1, 0, 11, "too few words");
    delivers(chip, 2, 3, 0, 11, "too many words");
    delivers(chip, 2, 2, 2, ok, "a good delivery");
    expect(word_at(chip, 0xE2) == 0xFFFF && word_at(chip, 0xE3) == 0xFFFF, "a difference of -1");
    SENDS(chip, ok, "another start", 0x02);
    delivers(chip, 2, 2, UINT32_MAX, MAX35101_FAILED, "a failed delivery");
    SENDS(chip, ok, "a start of temperatures", 0x03);
    expect(words < 2 || chip.answer[1] == 1, "a temperature measurement was started");
    delivers_ports(chip, 3, 0x200001, 11, "three ports");
    delivers_ports(chip, 4, 0x200001, ok, "four ports");
    expect(word_at(chip, 0xED) == 0x20 && word_at(chip, 0xEE) == 1, "T4");
    SENDS(chip, ok, "a third start", 0x02);
    stretches(chip, 8191, ok, "a stretch in which nothing happens");
    ticks(chip, ok);
    expect(words < 2 || chip.answer[1] == 1, "the measurement failed in the last tick");
    SENDS(chip, room < 2 ? 5 : 15, "a flash read with the regulator off", 0x90, 0, 0, 0, 0);
    SENDS(chip, ok, "LDO_ON", 0x0C);
    SENDS(chip, flash, "a flash write", 0x10, 0x1F, 0xFE, 0x12, 0x34);
    SENDS(chip, flash == ok ? 17 : 16, "a flash write on that word", 0x10, 0x1F, 0xFE, 0x56, 0x78);
    SENDS(chip, 16, "a flash write past the end", 0x10, 0x20, 0x00, 0x56, 0x78);
    SENDS(chip, room < 2 ? 5 : flash, "a flash read", 0x90, 0x1F, 0xFE, 0, 0);
    expect(room < 2 || flash != ok || (chip.output[0] == 0x12 && chip.output[1] == 0x34), "the word that was written");
    SENDS(chip, flash, "an erase", 0x13, 0x1F, 0x00);
    expect(flash != ok || chip.flash[0x1FFE] == 0xFF, "the block is erased");
    SENDS(chip, ok, "a write of the event's timing", 0x3F, 0x01, 0x00);
    SENDS(chip, ok, "an event of three differences", 0x08);
    asks_of_an_event(chip);
    SENDS(chip, ok, "Reset", 0x04);
    let_go(chip);
}

/* Lists: of transactions of no bytes, of a call that is none, and of one that asks for more than there is. */
static void lists_on(size_t size, size_t n, size_t m)
{
    int fresh = size == MAX35101_MODEL_SIZE;
    struct chip chip = chip_of(size, m, m, m), before = kept(chip);
    uint8_t *frames = elements(n, 1, 0xFE);
    uint32_t *calls = elements(n, 4, 0), *hits = elements(n, 4, 1), *answers = chip.answer;
    size_t all = n / MAX35101_CALL_WORDS < m / MAX35101_ANSWER_WORDS ? n / MAX35101_CALL_WORDS : m / MAX35101_ANSWER_WORDS;
    size_t right = 0;
    size_t done = max35101_run(chip.model, size, calls, n, frames, n, hits, n, chip.output, m, chip.flash, m, answers, m);
    for (size_t i = 0; i < all; ++i)
        right += answers[5 * i] == (fresh ? 1u : 0u) && answers[5 * i + 1] == 0x07070707u;
    expect(done == all && right == all, "a list of empty transactions");
    for (uint32_t kind = 0; n >= 3 && kind < 7; ++kind) {
        calls[0] = kind, calls[1] = calls[2] = UINT32_MAX;
        done = max35101_run(chip.model, size, calls, n, frames, n, hits, n, chip.output, m, chip.flash, m, answers, m);
        expect(done == (kind == MAX35101_TICK || kind == MAX35101_STRETCH ? all : 0), "a call that does not fit");
    }
    expect(same(before.output, chip.output, m) && same(before.flash, chip.flash, m), "no call touched these");
    expect(fresh || same(before.model, chip.model, size), "bytes that are no model stay");
    if (n >= 3 && m >= 5) {
        uint32_t read[3] = {MAX35101_TRANSACTION, 3, 2}, hit[3] = {MAX35101_FLIGHT, 1, 2};
        done = max35101_run(chip.model, size, read, 3, frames, n, NULL, 0, chip.output, m, NULL, 0, answers, m);
        expect(done == 1 && answers[0] == (fresh ? MAX35101_ACCEPTED : 0), "a read in a list");
        expect(chip.output[1] == (fresh ? 0x04 : 0xEE), "its output");
        done = max35101_run(chip.model, size, hit, 3, NULL, 0, hits, 3, NULL, 0, NULL, 0, answers, 5);
        expect(done == 1 && answers[0] == (fresh ? 10u : 0u), "a delivery in a list");
        done = max35101_run(chip.model, size, hit, 3, NULL, 0, hits, 2, NULL, 0, NULL, 0, answers, 5);
        expect(done == 0, "a delivery of more words than there are");
    }
    free(frames), free(calls), free(hits), let_go(before), let_go(chip);
}

/*
 * A list of accepted calls in buffers of just its own sizes: what it leaves is what the same calls leave one by one, and of
 * bytes that are no model each call is answered number 0, and nothing is changed.
 */
static void accepted_list_on(size_t flash_size, int sound)
{
    static const uint8_t sent[] = {0x38, 0x10, 0x10, 0x05, 0x02, 0xE2, 0,    0,    0,    0,    0x0C,
                                   0x10, 0x00, 0x02, 0x12, 0x34, 0x90, 0x00, 0x02, 0,    0,    0x06};
    static const uint32_t list[][3] = {
        {MAX35101_TRANSACTION, 3, 0}, {MAX35101_TRANSACTION, 1, 0}, {MAX35101_TRANSACTION, 1, 0}, {MAX35101_TICK, 0, 0},
        {MAX35101_STRETCH, 100, 0},   {MAX35101_FLIGHT, 1, 1},      {MAX35101_TRANSACTION, 5, 4}, {MAX35101_TRANSACTION, 1, 0},
        {MAX35101_TRANSACTION, 5, 0}, {MAX35101_TRANSACTION, 5, 2}, {MAX35101_TRANSACTION, 1, 0}, {MAX35101_TEMPERATURE, 4, 0},
    };
    enum { CALLS = sizeof list / sizeof *list };
    uint32_t flash = flash_size == MAX35101_FLASH_SIZE ? MAX35101_ACCEPTED : 16;
    const uint32_t ok = MAX35101_ACCEPTED, codes[CALLS] = {ok, ok, ok, ok, ok, ok, ok, ok, flash, flash, 2, 10};
    struct chip chip = chip_of(MAX35101_MODEL_SIZE, 6, flash_size, CALLS * MAX35101_ANSWER_WORDS);
    uint8_t *frames = copy_of(sent, sizeof sent);
    uint32_t *calls = copy_of(list, sizeof list), *hits = elements(6, 4, 0);
    hits[0] = 5;
    if (!sound)
        chip.model[0] = 2;
    struct chip before = kept(chip);
    size_t done = max35101_run(chip.model, chip.size, calls, CALLS * MAX35101_CALL_WORDS, frames, sizeof sent, hits, 6,
                               chip.output, chip.room, chip.flash, chip.flash_size, chip.answer, chip.words);
    expect(done == CALLS, "all calls of a list");
    for (size_t i = 0; i < CALLS; ++i)
        expect(chip.answer[i * MAX35101_ANSWER_WORDS] == (sound ? codes[i] : 0), "the code of a call of a list");
    if (sound) {
        expect(chip.answer[2 * MAX35101_ANSWER_WORDS + 1] == 1, "a start in a list");
        expect(same(chip.output, "\0\0\0\5", 4), "a difference that was read in a list");
        expect(same(chip.output + 4, flash == ok ? "\x12\x34" : "\xEE\xEE", 2), "and a word of the user flash");
        expect(flash != ok || chip.flash[2] == 0x12, "which a call before it has written");
        expect(flash == ok || same(before.flash, chip.flash, flash_size), "a user flash of another size stays");
    } else {
        expect(same(before.model, chip.model, chip.size), "bytes that are no model stay");
        expect(same(before.output, chip.output, chip.room), "and the output");
        expect(same(before.flash, chip.flash, chip.flash_size), "and the user flash");
        expect(chip.answer[1] == 0x07070707u && chip.answer[chip.words - 1] == 0x07070707u, "and the words behind codes");
    }
    free(frames), free(calls), free(hits), let_go(before), let_go(chip);
}

/* Questions, and the set-up's frames. */
static void questions_on(size_t size, size_t n, size_t m)
{
    int fresh = size == MAX35101_MODEL_SIZE;
    uint32_t told = fresh ? MAX35101_ACCEPTED : 0;
    struct chip chip = chip_of(size, n, 0, m), before = kept(chip);
    uint8_t *model = chip.model, *bytes = chip.output;
    uint32_t *answer = chip.answer, *frames = elements(m, 4, 7);
    size_t *sizes = elements(m, sizeof *sizes, 7);
    expect(max35101_interrupt_pending(model, size, answer, m) == told, "interrupt_pending");
    expect(max35101_flight_awaited(model, size, answer, m) == told, "flight_awaited");
    expect(max35101_temperature_awaited(model, size, answer, m) == told, "temperature_awaited");
    expect(max35101_regulator_on(model, size, answer, m) == told, "regulator_on");
    expect(max35101_initialised(model, size, answer, m) == told, "initialised");
    expect(max35101_flight_left(model, size, answer, m) == told, "flight_left");
    expect(max35101_temperature_left(model, size, answer, m) == told, "temperature_left");
    expect(max35101_flight_place(model, size, answer, m) == told, "flight_place");
    expect(max35101_temperature_place(model, size, answer, m) == told, "temperature_place");
    expect(!fresh || !m || answer[0] == 0, "no event runs in a fresh model");
    expect(m < 2 || answer[1] == 0x07070707u, "and no further word is told");
    expect(max35101_peek(model, size, 0xFE, answer, m) == told, "peek");
    expect(!fresh || !m || answer[0] == 4, "POR is what a fresh model has");
    expect(max35101_peek(model, size, 0xAF, answer, m) == (fresh ? 4u : 0u), "peek before the registers");
    expect(max35101_peek(model, size, UINT32_MAX, answer, m) == (fresh ? 4u : 0u), "peek past the registers");
    expect(!m || answer[0] == (fresh ? 4 : 0x07070707u), "refused questions leave the answer");
    expect(max35101_setup_frames(model, size, bytes, n, frames, m, sizes, m) ==
               (!fresh ? 0u : n < 33 || m < 8 ? 19u : MAX35101_ACCEPTED),
           "setup_frames");
    expect(same(before.output, bytes, n) && (!m || frames[0] == 0x07070707u), "refused, or no frames");
    expect(m < 2 || (fresh && m >= 8 && n >= 33 ? !sizes[0] && !sizes[1] : sizes[0] != 0), "how many bytes and frames");
    expect(same(before.model, model, size), "questions leave the model");
    free(frames), free(sizes), let_go(before), let_go(chip);
}

/* The longest set-up, one run of sixteen words, and the one of most frames, every other word, in so many places. */
static void setups_on(size_t n, size_t m, size_t words)
{
    struct chip chip = chip_of(MAX35101_MODEL_SIZE, n, 0, 0);
    uint32_t *lengths = elements(m, 4, 7);
    size_t *sizes = elements(words, sizeof *sizes, 7);
    uint32_t wanted = n < MAX35101_SETUP_BYTES || m < MAX35101_SETUP_FRAMES ? 19 : MAX35101_ACCEPTED;
    for (uint8_t address = 0x34; address < 0x44; address += 2)
        SENDS(chip, MAX35101_ACCEPTED, "a write", address, 0x00, 0x01);
    expect(max35101_setup_frames(chip.model, chip.size, chip.output, n, lengths, m, sizes, words) == wanted, "eight frames");
    if (wanted == MAX35101_ACCEPTED) {
        expect(!words || sizes[0] == 24, "24 bytes");
        expect(words < 2 || sizes[1] == 8, "of eight frames");
        expect(same(chip.output, "\x34\0\1\x36\0\1", 6) && same(chip.output + 21, "\x42\0\1\xEE", 4), "the frames");
        expect(lengths[0] == 3 && lengths[7] == 3 && (m < 9 || lengths[8] == 0x07070707u), "and their lengths");
    } else {
        expect((!n || chip.output[0] == 0xEE) && (!m || lengths[0] == 0x07070707u), "a refusal leaves the buffers");
        expect(!words || sizes[0] != 24, "and the answer");
    }
    for (uint8_t address = 0x35; address < 0x44; address += 2)
        SENDS(chip, MAX35101_ACCEPTED, "a write", address, 0x00, 0x01);
    expect(max35101_setup_frames(chip.model, chip.size, chip.output, n, lengths, m, sizes, words) == wanted, "one frame");
    expect(wanted == 19 || (chip.output[0] == 0x34 && chip.output[32] == 1 && lengths[0] == 33), "of 33 bytes");
    expect(wanted == 19 || n < 34 || chip.output[33] == 0xEE, "and no byte more");
    free(lengths), free(sizes), let_go(chip);
}

/* The calls beside the model. */
static void analysis_on(size_t n, size_t m)
{
    int32_t *values = elements(n, 4, 0), *run = elements(m, 4, 7);
    uint32_t *table = elements(n, 4, 1), *answer = elements(m, 4, 7);
    size_t *sizes = elements(m, sizeof *sizes, 7), width = n / 2 + 1;
    uint8_t *output = elements(m, 1, 0xEE);
    uint32_t found = n < width ? 18 : MAX35101_ACCEPTED;
    expect(max35101_degrees(1, 0, answer, m) == 13, "degrees of no reference");
    expect(max35101_degrees_by(table, n, 1, 1, answer, m) == 14, "degrees by a table that does not rise");
    expect(!m || answer[0] == 0x07070707u, "refused degrees leave the answer");
    expect(max35101_degrees(1, 1, answer, m) == MAX35101_ACCEPTED, "degrees");
    expect(!m || answer[0] == 0, "1,000 ohms are 0 degrees");
    for (size_t i = 0; i < n; ++i)
        table[i] = 999990 + (uint32_t)i;
    expect(max35101_degrees_by(table, n, 1, 1, answer, m) == (n < 2 || n > 512 ? 14u : n < 11 ? 13u : MAX35101_ACCEPTED),
           "degrees by a table that rises");
    expect(!m || answer[0] == (n < 11 || n > 512 ? 0 : 10000), "1,000 ohms are its tenth degree");
    expect(max35101_quietest(values, n, SIZE_MAX, run, m) == 18, "a run of any width");
    expect(max35101_quietest_place(values, n, 0, sizes, m) == 18, "a run of none");
    expect(!m || (run[0] == 0x07070707 && sizes[0] != 0), "refused runs leave the buffers");
    for (size_t i = 0; i < n; ++i)
        values[i] = i + width < n ? (int32_t)i : -3;
    expect(max35101_quietest_place(values, n, width, sizes, m) == found, "quietest_place");
    expect(found == 18 || !m || sizes[0] == n - width, "the place of the quietest run");
    expect(max35101_quietest(values, n, width, run, m) == found, "quietest");
    for (size_t i = 0; i < m && found != 18; ++i)
        if (run[i] != (i < width ? -3 : 0x07070707))
            expect(0, "the values of the quietest run");
    expect(max35101_nanoseconds((int32_t)n) == (double)n * 250.0 / 65536.0, "nanoseconds");
    expect(max35101_write_listing_as(3, values, n, 0, output, m, sizes, m) == 22, "three digits");
    expect(max35101_write_listing(values, n, UINT32_MAX, output, m, sizes, m) ==
               (n > 1 ? 20u : m < MAX35101_LINE_SIZE * n ? 21u : MAX35101_ACCEPTED),
           "the last capture number");
    expect(n < 2 || !m || output[0] == 0xEE, "refused listings leave the output");
    uint32_t long_listing = m < MAX35101_LINE_SIZE * n ? 21u : MAX35101_ACCEPTED;
    expect(max35101_write_listing(values, n, 0, output, m, sizes, m) == long_listing, "write_listing");
    expect(long_listing == 21 || !n || output[MAX35101_LINE_SIZE * n - 1] == '\n', "the end of a listing");
    expect(long_listing == 21 || m <= MAX35101_LINE_SIZE * n || output[MAX35101_LINE_SIZE * n] == 0xEE, "and no NUL");
    expect(long_listing == 21 || !m || sizes[0] == MAX35101_LINE_SIZE * n, "the bytes of a listing");
    expect(max35101_write_listing_as(2, values, n, 0, output, m, sizes, m) ==
               (n > 256 ? 20u : m < MAX35101_SHORT_LINE_SIZE * n ? 21u : MAX35101_ACCEPTED),
           "write_listing_as");
    free(values), free(run), free(table), free(answer), free(sizes), free(output);
}

int main(void)
{
    static const size_t flashes[] = {0, 1, 8192, 100000}, rooms[] = {0, 1, 2, 16, 17, 100000}, words[] = {0, 1, 2, 4, 7, 233};
    for (int i = 0; i < LENGTHS; ++i)
        for (int j = 0; j < LENGTHS; ++j) {
            for (int k = 0; k < LENGTHS; ++k) {
                calls_on(lengths[i], lengths[j], lengths[k]);
                lists_on(lengths[i], lengths[j], lengths[k]);
                questions_on(lengths[i], lengths[j], lengths[k]);
            }
            analysis_on(lengths[i], lengths[j]);
        }
    for (int i = 0; i < 4; ++i) {
        for (int j = 0; j < 6; ++j)
            for (int k = 0; k < 6; ++k)
                accepted_on(rooms[j], flashes[i], words[k]);
        accepted_list_on(flashes[i], 1);
        accepted_list_on(flashes[i], 0);
    }
    for (size_t n = 32; n < 36; ++n)
        for (size_t m = 7; m < 10; ++m)
            for (size_t k = 0; k < 3; ++k)
                setups_on(n, m, k);
    static const size_t counts[] = {2, 11, 12, 511, 512, 513};
    for (int i = 0; i < 6; ++i)
        for (int j = 0; j < LENGTHS; ++j)
            analysis_on(counts[i], lengths[j]);
    printf("%lu answers checked\n", checks);
    return wrong;
}
