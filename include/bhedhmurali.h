/*
 * Bhedhmurali: NOR netlists on one row of resistive memory.
 *
 * Link the static library that `rt lib` in crates/calls writes to
 * crates/calls/out/libcalls.a. No call allocates, keeps a pointer, or needs
 * anything set up. Every call takes every text, row and number there are, and
 * ends. Texts are bytes with a length; no terminating zero is read or written.
 *
 * Answers. A call answers one number: its value, 0 or more, or minus the
 * number of the refusal, as BHEDHMURALI_NO_ROOM below. A refused call leaves
 * every lent byte as it was.
 *
 * docs/FORMAT.md explains the texts and what to do about each refusal.
 */
#ifndef BHEDHMURALI_H
#define BHEDHMURALI_H

#include <stddef.h>
#include <stdint.h>

#ifdef __cplusplus
extern "C" {
#endif

/* Refusals: a call answers minus one of these. */
enum {
    BHEDHMURALI_BAD_LINE = 1,         /* a line breaks the rule for lines */
    BHEDHMURALI_OTHER_LINE_DUE = 2,   /* kind, length, missing or extra line */
    BHEDHMURALI_NUMBER_OUTSIDE = 3,   /* a head's number is outside its limits */
    BHEDHMURALI_NOT_LOWER = 4,        /* operand not lower, or output no gate */
    BHEDHMURALI_NOT_ASCENDING = 5,    /* operands or cells out of order, or twice */
    BHEDHMURALI_UNREAD_GATE = 6,      /* a gate is neither read nor an output */
    BHEDHMURALI_TWIN = 7,             /* twin gates or twin outputs */
    BHEDHMURALI_ROW_SIZE = 8,         /* row size asked for is outside 2 to 256 */
    BHEDHMURALI_NO_ROOM = 9,          /* no room in the row */
    BHEDHMURALI_SHORT_BUFFER = 10,    /* the lent output buffer is too short */
    BHEDHMURALI_HEADS_DISAGREE = 11,  /* heads disagree on inputs or outputs */
    BHEDHMURALI_CELL_PAST_ROW = 12,   /* a cell is at or past the row size */
    BHEDHMURALI_INPUT_CELL = 13,      /* an input cell is set or written */
    BHEDHMURALI_NOT_READY = 14,       /* the written cell is not ready */
    BHEDHMURALI_NO_SUCH_GATE = 15,    /* operands hold no signal or match no gate */
    BHEDHMURALI_WRONG_PLACE = 16,     /* a place's cell doesn't hold its output */
    BHEDHMURALI_NOT_BITS = 17         /* wrong length, or a byte not 0 or 1 */
};

/* Maps a netlist's text to a sequence's text for a row of so many cells.
 * The text fills the first bytes of out; answers its length. */
int64_t bhedhmurali_map(size_t row, const uint8_t *text, size_t text_size,
                        uint8_t *out, size_t out_size);

/* Reads a netlist's text; answers 0, or the refusal, 1 to 7. */
int64_t bhedhmurali_read(const uint8_t *text, size_t text_size);

/* Where the part of the text that follows the netlist's last output line
 * begins; text_size where a line cannot be read. */
size_t bhedhmurali_tail(const uint8_t *text, size_t text_size);

/* Works out a netlist's outputs for one byte, 0 or 1, an input. The first
 * bytes of out receive the outputs; answers their number. */
int64_t bhedhmurali_evaluate(const uint8_t *text, size_t text_size,
                             const uint8_t *inputs, size_t inputs_size,
                             uint8_t *out, size_t out_size);

/* Checks a sequence, from any producer, against a netlist; answers the number
 * of instructions where it passes. */
int64_t bhedhmurali_check(const uint8_t *netlist, size_t netlist_size,
                          const uint8_t *sequence, size_t sequence_size);

/* Runs a sequence on a row of one byte, 0 or 1, a cell, for at most budget
 * cycles; answers the cycles run. The row is then the row after them. */
int64_t bhedhmurali_simulate(const uint8_t *text, size_t text_size,
                             uint8_t *row, size_t row_size, size_t budget);

/* How many digits the frame at a place of a text has, 0 where none stands
 * there; and the place after it, the same place where none stands there. */
size_t bhedhmurali_frame(const uint8_t *text, size_t text_size, size_t at);
size_t bhedhmurali_next(const uint8_t *text, size_t text_size, size_t at);

#ifdef __cplusplus
}
#endif

#endif
