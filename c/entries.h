/* The C side of crates/entries: preparing, feeding and joining as the tests and the benchmark call them. `./build entries` makes the archive.

   A Rattle slice is a pointer and a number of elements. The structs are #[repr(C)] in Rattle (PreparedNumbers, FedNumbers, HitNumbers), so they are
   laid out as C lays them out; the offsets are stated below. Memory that is written to must not overlap any other that is lent; what else is said of
   memory in finder.h holds here too. Other implementations answer the same structs, so that one caller serves all. */
#ifndef ENTRIES_H
#define ENTRIES_H

#include <stddef.h>
#include <stdint.h>

/* A code of at most 255 bytes has a short sheet, with numbers of one byte; a longer one a wide sheet, with numbers of two (docs/SHEET.md). */
enum {
    LONGEST_SHORT = 255, /* bytes of the longest code that has a short sheet */
    LONGEST_CODE = 4000,
    SHEET_ROOM = 20005 /* 5m + 5 bytes for the longest code */
};

/* A board has at most so many codes, of so many bytes together, and is prepared in a buffer of at least so much room (docs/BOARD.md). */
enum {
    MOST_CODES = 64,
    MOST_BYTES = 2000,
    BOARD_ROOM = 32768
};

/* What preparing and joining answer: the length of the sheet or board, or 0 and the number of the refusal. */
struct prepared {
    uint64_t length;
    uint32_t refusal;
};

/* What feeding answers: the new watch (state, bytes taken, places reported, comparisons), the bytes read of the piece and the places written in this
   call, the number of the refusal or 0, and whether the list is full with bytes of the piece left (1) or not (0). */
struct fed {
    uint32_t state;
    uint32_t taken;
    uint32_t hits;
    uint32_t read;
    uint64_t compares;
    uint32_t written;
    uint32_t refusal;
    uint32_t full;
};

/* What feeding a board answers: the new watch (state, bytes taken, hits), the hits written and the bytes read of the piece in this call, the number of the
   refusal or 0, and whether a list is full with bytes of the piece left (1) or not (0). */
struct hit_numbers {
    uint32_t state;
    uint32_t taken;
    uint64_t hits;
    uint64_t written;
    uint32_t read;
    uint32_t refusal;
    uint32_t full;
};

/* An array of -1 elements, which no compiler takes, where the layout is another one. */
typedef char prepared_layout[offsetof(struct prepared, length) == 0 && offsetof(struct prepared, refusal) == 8 && sizeof(struct prepared) == 16 ? 1 : -1];
typedef char watch_layout[offsetof(struct fed, state) == 0 && offsetof(struct fed, taken) == 4 && offsetof(struct fed, hits) == 8 &&
                          offsetof(struct fed, compares) == 16 ? 1 : -1];
typedef char fed_layout[offsetof(struct fed, read) == 12 && offsetof(struct fed, written) == 24 && offsetof(struct fed, refusal) == 28 &&
                        offsetof(struct fed, full) == 32 && sizeof(struct fed) == 40 ? 1 : -1];
typedef char board_watch_layout[offsetof(struct hit_numbers, state) == 0 && offsetof(struct hit_numbers, taken) == 4 &&
                                offsetof(struct hit_numbers, hits) == 8 ? 1 : -1];
typedef char hit_layout[offsetof(struct hit_numbers, written) == 16 && offsetof(struct hit_numbers, read) == 24 &&
                        offsetof(struct hit_numbers, refusal) == 28 && offsetof(struct hit_numbers, full) == 32 && sizeof(struct hit_numbers) == 40 ? 1 : -1];

/* The shapes of preparing and feeding. */
typedef struct prepared preparer(const uint8_t *code, size_t m, uint8_t *buffer, size_t room);

typedef struct fed feeder(const uint8_t *sheet, size_t sheet_length, uint32_t state, uint32_t taken, uint32_t hits, uint64_t compares,
                          const uint8_t *piece, size_t piece_length, uint32_t *places, size_t room);

/* The same of boards: the codes are lengths and, one after the other, their bytes; places and numbers of the hits have a list each. */
typedef struct prepared board_preparer(const uint32_t *lengths, size_t count, const uint8_t *bytes, size_t size, uint8_t *buffer, size_t room);

typedef struct hit_numbers board_feeder(const uint8_t *board, size_t board_length, uint32_t state, uint32_t taken, uint64_t hits, const uint8_t *piece,
                                        size_t piece_length, uint32_t *places, size_t place_room, uint32_t *numbers, size_t number_room);

/* Two boards joined: the first one's codes in their order, then those of the second that the first lacks, are prepared in a third buffer. */
typedef struct prepared board_joiner(const uint8_t *first, size_t first_length, const uint8_t *second, size_t second_length, uint8_t *buffer, size_t room);

preparer entries_prepare; /* proved, in Rattle */
feeder entries_feed;
board_preparer entries_prepare_board;
board_feeder entries_feed_board;
board_joiner entries_join_boards;

#endif
