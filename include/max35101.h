/*
 * max35101.h: the proved model of the MAX35101 time-to-digital converter.
 *
 * Link libmax35101.a (library/build makes it). docs/LIBRARY.md tells more.
 *
 * A model is MAX35101_MODEL_SIZE bytes that the caller keeps: in memory, in a
 * file, as many as wanted. Copying the bytes copies the model. max35101_fresh
 * makes one. The bytes are the same on every machine.
 *
 * A call returns the number of a refusal (0 to 22, below) or
 * MAX35101_ACCEPTED; a delivery that is accepted returns MAX35101_FAILED where
 * its measurement failed. Two return something else: max35101_run, how many
 * calls of a list were done, and max35101_nanoseconds, a double. Under
 * "Refused:" each call has the refusals that it can give, without their
 * MAX35101_, in the order in which they are looked for: the first that holds is
 * returned.
 *
 * A refusal changes no buffer. No call fails in another way: any bytes and any
 * numbers get an answer, no call keeps anything between calls, allocates, or
 * touches a byte outside the buffers lent to it.
 *
 * A buffer is a pointer and its number of elements. For an empty one the
 * pointer is not looked at: NULL with 0 is an empty buffer. A pointer with a
 * number other than 0 must point to as many elements, aligned for their type.
 *
 * NO TWO BUFFERS OF ONE CALL MAY OVERLAP, unless the call takes both as const.
 *
 * Answers go to the first places of `answer`, as many as it has:
 * MAX35101_MOST_WORDS are always enough, fewer leave the last ones out, NULL
 * with 0 all of them.
 */
#ifndef MAX35101_H
#define MAX35101_H

#include <stddef.h>
#include <stdint.h>

#ifdef __cplusplus
extern "C" {
#endif

#define MAX35101_MODEL_SIZE 233u    /* bytes of a model, version byte first */
#define MAX35101_MODEL_VERSION 1u   /* that byte */
#define MAX35101_FLASH_SIZE 8192u   /* bytes of the user flash */
#define MAX35101_LONGEST_STRETCH 16384u
#define MAX35101_MOST_WORDS 7u      /* words of the longest answer */
#define MAX35101_CALL_WORDS 3u      /* words of a list for each call */
#define MAX35101_ANSWER_WORDS 5u    /* words of a list's answers for each call */
#define MAX35101_SETUP_BYTES 33u    /* bytes that the frames of a set-up have at most */
#define MAX35101_SETUP_FRAMES 8u    /* how many these are at most */
#define MAX35101_LINE_SIZE 23u      /* bytes of a listing's line, capture number of 8 digits */
#define MAX35101_SHORT_LINE_SIZE 17u /* the same of 2 digits */

/* What a call returns where it does not refuse. */
#define MAX35101_ACCEPTED UINT32_MAX
#define MAX35101_FAILED (UINT32_MAX - 1u) /* a delivery that was accepted, and whose measurement failed */

/* What a call returns where it refuses. */
enum max35101_refusal {
    MAX35101_UNSOUND = 0,          /* the bytes are no model; of fresh, a buffer of another size */
    MAX35101_NO_FRAME = 1,         /* a transaction of no bytes */
    MAX35101_OPCODE = 2,           /* a first byte that the model does not carry */
    MAX35101_FRAME_LENGTH = 3,
    MAX35101_ADDRESS = 4,          /* past the last register; for peek below the first, too */
    MAX35101_SHORT_OUTPUT = 5,     /* a read that the output has no room for */
    MAX35101_BUSY = 6,             /* a measurement is awaited or an event runs */
    MAX35101_CALENDAR = 7,         /* the clock or the alarm would be invalid */
    MAX35101_NOT_INITIALISED = 8,
    MAX35101_SET_UP = 9,           /* the set-up does not allow the measurement */
    MAX35101_NOT_AWAITED = 10,     /* a delivery that nothing waits for */
    MAX35101_WORD_COUNT = 11,      /* a delivery of another number of words */
    MAX35101_SPAN = 12,            /* a stretch of more than MAX35101_LONGEST_STRETCH ticks */
    MAX35101_OFF_THE_TABLE = 13,   /* degrees: no resistance, or none on the table */
    MAX35101_BAD_TABLE = 14,       /* degrees_by: the table is none */
    MAX35101_SUPPLY_OFF = 15,      /* the regulator of the user flash is off */
    MAX35101_FLASH_ADDRESS = 16,   /* past the user flash, odd, or a user flash of another size */
    MAX35101_NOT_ERASED = 17,      /* a flash write on a word other than FFFFh */
    MAX35101_WIDTH = 18,           /* quietest: no run of that width */
    MAX35101_SHORT_FRAMES = 19,    /* setup_frames: too little room */
    MAX35101_CAPTURE_NUMBER = 20,  /* a listing whose last capture has too many digits */
    MAX35101_SHORT_LISTING = 21,   /* a listing that the output has no room for */
    MAX35101_DIGITS = 22           /* write_listing_as: neither 2 nor 8 digits */
};

/*
 * A fresh model, in a buffer of just MAX35101_MODEL_SIZE bytes, whatever these
 * were. Refused: UNSOUND for a buffer of more or fewer.
 */
uint32_t max35101_fresh(uint8_t *model, size_t model_size);

/*
 * One bus transaction: the bytes of a chip-enable window, the output of a
 * read (as many bytes as its frame has after the first, or 2 for the user
 * flash), and the user flash, of MAX35101_FLASH_SIZE bytes, all FFh when new.
 * Only flash frames (10h, 13h, 90h) look at it: a caller that sends none may
 * lend none, and one of another size is FLASH_ADDRESS to such a frame.
 * answer: { flight started, temperature started }, each 0 or 1.
 * Refused: UNSOUND, NO_FRAME, OPCODE, FRAME_LENGTH, ADDRESS, SHORT_OUTPUT,
 * BUSY, SUPPLY_OFF, FLASH_ADDRESS, NOT_ERASED, CALENDAR, NOT_INITIALISED,
 * SET_UP.
 */
uint32_t max35101_transaction(uint8_t *model, size_t model_size,
                              const uint8_t *frame, size_t frame_size,
                              uint8_t *output, size_t output_size,
                              uint8_t *flash, size_t flash_size,
                              uint32_t *answer, size_t answer_count);

/*
 * One period of the 32,768 Hz clock.
 * answer: { flight started, flight failed, temperature started, temperature failed }, each 0 or 1.
 * Refused: UNSOUND.
 */
uint32_t max35101_tick(uint8_t *model, size_t model_size, uint32_t *answer, size_t answer_count);

/*
 * `ticks` such periods at once, at most MAX35101_LONGEST_STRETCH. The answer
 * names the tick, from 1 on, in which each of the same four happened; 0 for none.
 * Refused: UNSOUND, SPAN.
 */
uint32_t max35101_stretch(uint8_t *model, size_t model_size, uint32_t ticks,
                          uint32_t *answer, size_t answer_count);

/*
 * The hit words of the awaited flight measurement, up and down; an empty list
 * for a direction that is not measured. MAX35101_ACCEPTED where the
 * measurement is good, else MAX35101_FAILED. The answer has no words.
 * Refused: UNSOUND, NOT_AWAITED, WORD_COUNT.
 */
uint32_t max35101_flight_delivery(uint8_t *model, size_t model_size,
                                  const uint32_t *up, size_t up_count,
                                  const uint32_t *down, size_t down_count,
                                  uint32_t *answer, size_t answer_count);

/* The words of the awaited temperature measurement, T1 to T4; as above. */
uint32_t max35101_temperature_delivery(uint8_t *model, size_t model_size,
                                       const uint32_t *words, size_t word_count,
                                       uint32_t *answer, size_t answer_count);

/*
 * A list of calls, one after the other, each accepted or refused as by itself:
 * what the calls above do, with the model loaded and stored once.
 *
 * A call is MAX35101_CALL_WORDS words of `calls`: its kind, below, and two
 * sizes. The frames lie one behind the other in `frames`, the words of
 * deliveries in `hits` (up before down), the outputs of transactions in
 * `output`, each as many as its call says. A rest of one or two words is no
 * call. `flash` is the user flash, as in max35101_transaction.
 *
 * The answer to each call is MAX35101_ANSWER_WORDS words of `answers`: what the
 * call above returns, and behind it the words of its answer, as into a buffer
 * of four.
 *
 * Returns how many calls were done: all, or those before the first that is of
 * no kind below or for which frames, hits, output or answers have too little
 * left. That one and those behind it are not done, and their parts of the
 * buffers stay as they are.
 *
 * It refuses nothing itself. Where the bytes are no model each of these calls
 * is answered MAX35101_UNSOUND in `answers`, and counted as done; the model,
 * the output and the user flash stay as they are.
 */
enum max35101_kind {
    MAX35101_TRANSACTION = 0, /* bytes of the frame, bytes of its output */
    MAX35101_TICK = 1,        /* both sizes are not looked at */
    MAX35101_STRETCH = 2,     /* ticks; the second is not looked at */
    MAX35101_FLIGHT = 3,      /* words up, words down */
    MAX35101_TEMPERATURE = 4  /* words; the second is not looked at */
};
size_t max35101_run(uint8_t *model, size_t model_size,
                    const uint32_t *calls, size_t call_words,
                    const uint8_t *frames, size_t frames_size,
                    const uint32_t *hits, size_t hit_count,
                    uint8_t *output, size_t output_size,
                    uint8_t *flash, size_t flash_size,
                    uint32_t *answers, size_t answer_words);

/* Questions, which change nothing. answer: { 1 for yes, 0 for no }. Refused, as by all questions down
   to max35101_temperature_place: UNSOUND. */
uint32_t max35101_interrupt_pending(const uint8_t *model, size_t model_size,
                                    uint32_t *answer, size_t answer_count);
uint32_t max35101_flight_awaited(const uint8_t *model, size_t model_size,
                                 uint32_t *answer, size_t answer_count);
uint32_t max35101_temperature_awaited(const uint8_t *model, size_t model_size,
                                      uint32_t *answer, size_t answer_count);
uint32_t max35101_regulator_on(const uint8_t *model, size_t model_size,
                               uint32_t *answer, size_t answer_count);
uint32_t max35101_initialised(const uint8_t *model, size_t model_size,
                              uint32_t *answer, size_t answer_count);

/* In how many ticks the awaited measurement fails. answer: { ticks, or 0 where none is awaited }. */
uint32_t max35101_flight_left(const uint8_t *model, size_t model_size,
                              uint32_t *answer, size_t answer_count);
uint32_t max35101_temperature_left(const uint8_t *model, size_t model_size,
                                   uint32_t *answer, size_t answer_count);

/*
 * The place of the event of differences, and of temperatures.
 * answer: { 0 } where none runs, else { 1, measurements that it makes, started,
 * settled, good, ticks until the next start or 0 where all are started,
 * 1 for a continuous event or 0 }. Of a continuous event the numbers are those
 * of the current group.
 */
uint32_t max35101_flight_place(const uint8_t *model, size_t model_size,
                               uint32_t *answer, size_t answer_count);
uint32_t max35101_temperature_place(const uint8_t *model, size_t model_size,
                                    uint32_t *answer, size_t answer_count);

/*
 * The word of a register, at its read address B0h to FFh, with nothing cleared.
 * answer: { word }.
 * Refused: UNSOUND, ADDRESS for any other address.
 */
uint32_t max35101_peek(const uint8_t *model, size_t model_size, uint32_t address,
                       uint32_t *answer, size_t answer_count);

/*
 * The model's set-up as bus frames that bring a fresh model to it: the bytes
 * of all, one after the other, and the length of each. answer: { bytes, frames }.
 * Refused: UNSOUND, SHORT_FRAMES for fewer than MAX35101_SETUP_BYTES bytes or
 * MAX35101_SETUP_FRAMES lengths, which are enough for any set-up.
 */
uint32_t max35101_setup_frames(const uint8_t *model, size_t model_size,
                               uint8_t *bytes, size_t byte_count,
                               uint32_t *lengths, size_t length_count,
                               size_t *answer, size_t answer_count);

/*
 * The temperature of a PT1000 probe, from its word and the word of its
 * reference resistor of 1,000 ohms. answer: { thousandths of a degree }.
 * Refused: OFF_THE_TABLE for a word FFFFFFFFh, a reference of 0, and a
 * resistance that the table does not reach.
 */
uint32_t max35101_degrees(uint32_t probe, uint32_t reference,
                          uint32_t *answer, size_t answer_count);

/*
 * The same with a table of the caller's: milliohms at each whole degree from 0,
 * 2 to 512 entries that rise, none above 10,000,000.
 * Refused: BAD_TABLE, OFF_THE_TABLE.
 */
uint32_t max35101_degrees_by(const uint32_t *table, size_t table_count,
                             uint32_t probe, uint32_t reference,
                             uint32_t *answer, size_t answer_count);

/*
 * Where the quietest run of `width` neighbours starts, the earliest among
 * equals. answer: { place, from 0 }.
 * Refused: WIDTH for 0, and for more than there are values.
 */
uint32_t max35101_quietest_place(const int32_t *values, size_t value_count, size_t width,
                                 size_t *answer, size_t answer_count);

/* The values of that run, into the first places of `run`, as many as it has. Refused: WIDTH. */
uint32_t max35101_quietest(const int32_t *values, size_t value_count, size_t width,
                           int32_t *run, size_t run_count);

/* A difference of quanta, 250/65,536 ns each, in nanoseconds; exact, and never refused. */
double max35101_nanoseconds(int32_t quanta);

/*
 * The differences as printed lines, one each, with capture numbers from
 * `first` on in eight hexadecimal digits: MAX35101_LINE_SIZE bytes a line, its
 * line feed among them. No NUL follows the last: print as many bytes as are
 * answered. answer: { bytes written }.
 * Refused: CAPTURE_NUMBER, SHORT_LISTING.
 */
uint32_t max35101_write_listing(const int32_t *differences, size_t difference_count, uint32_t first,
                                uint8_t *output, size_t output_size,
                                size_t *answer, size_t answer_count);

/*
 * The same with capture numbers of 2 digits, MAX35101_SHORT_LINE_SIZE bytes a
 * line, or of 8. Refused: DIGITS, CAPTURE_NUMBER, SHORT_LISTING.
 */
uint32_t max35101_write_listing_as(uint32_t digits,
                                   const int32_t *differences, size_t difference_count, uint32_t first,
                                   uint8_t *output, size_t output_size,
                                   size_t *answer, size_t answer_count);

#ifdef __cplusplus
}
#endif

#endif
