/* Cwmorlais: 1 to 8 desks share 1 to 32 cells, each cell kept by one desk. Link with target/staticlib/libcwmorlais.a, which
 * is ELF for x86-64 and the System V ABI.
 *
 * A desk's program has the desk's record and the frames, and sends the frames itself. A program that plays all desks in one place has the
 * table instead. Every function is proved to do what docs/PROMISES.md says, on every input. What a caller owes is what C cannot say:
 *   - what a pointer names is the caller's own (aligned as its type says, an array as long as said), and nobody else uses it until the
 *     function returns; what is const is only read;
 *   - a bool is 0 or 1, also in a record or a table that was read from a file, and where one is yet to be made: a record that is lent to be started,
 *     and a table to be set up, is one already. Any will do; one of zeros (= {0}) does.
 * Nothing is kept and nothing is freed. Bytes between fields have no meaning and may change in a call: compare field by field. All 32 keepers of
 * a plan are read, however few cells it has.
 *
 * A later version appends fields to a struct, small ones where its padding is: each field keeps its place in its struct, but structs may
 * grow, so compile with the header that came with the library.
 *
 * A code of 8 and more is a refusal: the rest of the answer is zero, and what was lent is as it was; but a refused start or set-up leaves it all
 * zero, which is not sound, so that any event on it is refused with 9. Each function lists its refusals in the order in which it looks:
 *    8 the event's kind                     14 the desk keeps the cell            31 the version
 *    9 the record or table is not sound     15 the message does not fit           32 the kind
 *   10 the desk's number                    16 no clock number is left            33 the desk count is not 2 to 8
 *   11 the cell's number                    20 desks not 1 to 8                   34 the asking desk, 35 the cell
 *   12 the desk waits                       21 cells not 1 to 32                  36 the length
 *   13 nothing asked, or no answer yet      22 a keeper that is no desk           37 the output is too short
 *                                           30 the bytes end too early            38 a number that the frame would not carry */
#ifndef CWMORLAIS_H
#define CWMORLAIS_H

#include <stdbool.h>
#include <stddef.h>
#include <stdint.h>

#ifdef __cplusplus
extern "C" {
#endif

/* Stack that is enough for a call, in bytes, beside what it returns and is handed by value. c/test measures what the calls of 01's whole case touch, and
 * holds them to it: a table's event at most 184, a desk's at most 520, a start and a set-up at most 360, a frame at most 128. */
#define CWMORLAIS_STACK_BYTES 1024

/* The longest frame: 2 bytes of length, 5 of head, a word and 8 clock numbers. */
#define CWMORLAIS_FRAME_BYTES 43

/* One number per desk; those past the desk count are 0. */
typedef struct {
    uint32_t n[8];
} cwmorlais_clock;

/* What a desk has of one cell. It is blank exactly if its stamp is all zeros: nobody has written it. A word of 0 with another stamp was written and
 * is a word. A record or table is not sound if a word that is not 0 has a stamp of zeros. A cell that is not held has word 0 and the zero stamp. */
typedef struct {
    bool held;
    uint32_t word;
    cwmorlais_clock stamp;
} cwmorlais_cell;

/* What a desk waits for: kind 0 nothing, 1 read asked, 2 write asked (word, sent clock); in a table also 3 read answered, 4 write answered
 * (word, stamp). A sent clock is not all zeros, and where a stamp is, the word is 0; else the record or table is not sound. */
typedef struct {
    uint8_t kind;
    uint8_t cell;
    uint32_t word;
    cwmorlais_clock clock;
} cwmorlais_slot;

/* A cell's place in the tray: the desk that keeps it. */
typedef struct {
    uint8_t keeper;
} cwmorlais_place;

/* How many desks (1 to 8) and cells (1 to 32). */
typedef struct {
    uint8_t desks;
    uint8_t cells;
} cwmorlais_counts;

/* What all desks know from the start. Places past the cell count are all zero. */
typedef struct {
    cwmorlais_counts counts;
    cwmorlais_place places[32];
} cwmorlais_tray;

/* What a desk has beside its cells. served: the desk served a write while it waited, so it must not keep the answer. */
typedef struct {
    cwmorlais_clock clock;
    cwmorlais_slot slot;
    bool served;
} cwmorlais_seat;

/* A desk's record. */
typedef struct {
    cwmorlais_tray tray;
    uint8_t desk;
    cwmorlais_seat seat;
    cwmorlais_cell row[32];
} cwmorlais_record;

/* All desks, with their messages under way in the slots. Desk d's cell c is cells[d * 32 + c]. */
typedef struct {
    cwmorlais_cell cells[256];
    cwmorlais_tray tray;
    cwmorlais_seat seats[8];
} cwmorlais_table;

/* All that set-up and start are told, in any numbers. Keepers past the cell count are ignored. */
typedef struct {
    uint32_t desks;
    uint32_t cells;
    uint32_t keepers[32];
} cwmorlais_plan;

/* Kinds 1 read (cell), 2 write (cell, word), 3 take, 4 bring, 5 drop (cell). Fields that a kind does not use are ignored. */
typedef struct {
    uint32_t kind;
    uint32_t desk;
    uint32_t cell;
    uint32_t word;
} cwmorlais_event;

/* Codes 0 done, 1 asked, 2 blank (a read of what nobody has written; value 0), or a refusal. The value is the cell's word, which may be 0 with
 * code 0 too; the count is that of the copies dropped. */
typedef struct {
    uint32_t code;
    uint32_t value;
    uint32_t count;
} cwmorlais_reply;

/* What desks send each other: kinds 1 read asked, 2 write asked, 3 read answered, 4 write answered. The desk is the one that asked. Word and clock
 * are those of the slot: where its rule above is broken, the message has a frame like any other, but fits nowhere. */
typedef struct {
    uint8_t kind;
    uint8_t desks;
    uint8_t desk;
    uint8_t cell;
    uint32_t word;
    cwmorlais_clock clock;
} cwmorlais_message;

/* The message is all zero where there is none to send. */
typedef struct {
    cwmorlais_reply reply;
    cwmorlais_message message;
} cwmorlais_answer;

/* Code 0, the message and how many bytes its frame has; or a refusal, an all-zero message and 0. */
typedef struct {
    uint32_t code;
    cwmorlais_message message;
    size_t used;
} cwmorlais_reading;

/* Code 0 and how many bytes the frame has; or a refusal and 0. */
typedef struct {
    uint32_t code;
    size_t used;
} cwmorlais_written;

/* ---- One desk, over its record */

/* A desk's fresh record, in place of the one that v has. Code 0, or a refusal: 20, 21, 22, 10. */
uint32_t cwmorlais_desk_start(cwmorlais_record *v, cwmorlais_plan plan, uint32_t desk);

/* The desk's user wants something: kind 1, 2 or 5, for the desk whose record is lent, whatever desk e names. With code 1 the message is the
 * request: send it to the cell's keeper. Refuses 9, 8, 11, 12, 14, 16. */
cwmorlais_answer cwmorlais_desk_event(cwmorlais_record *v, cwmorlais_event e);

/* A request came for a cell that this desk keeps. With code 0 the message is the answer: send it back. Refuses 9, 15. It fits if it is another
 * desk's of this tray, for a cell kept here, with no clock number past the desk count, and if a write's clock is not all zeros. A read's word and
 * the rest of its clock are ignored. */
cwmorlais_answer cwmorlais_desk_serve(cwmorlais_record *v, const cwmorlais_message *m);

/* The answer came to what this desk asked. Refuses 9, 13, 15. It fits if its desk count, desk, cell and kind are those asked, with no clock number
 * past the desk count, and if its word is 0 where its clock is all zeros. */
cwmorlais_answer cwmorlais_desk_bring(cwmorlais_record *v, const cwmorlais_message *m);

/* ---- Frames: a message as bytes. CWMORLAIS_FRAME_BYTES are enough for any. */

/* The message whose frame the bytes start with; bytes after the frame are allowed. Refuses 30, 36, 31, 32, 33, 34, 35, 36. */
cwmorlais_reading cwmorlais_frame_read(const uint8_t *bytes, size_t length);

/* The frame of m, which is only read, at the start of out; nothing past it is changed. Refuses 32, 33, 34, 35, 38, 37. */
cwmorlais_written cwmorlais_frame_write(const cwmorlais_message *m, uint8_t *out, size_t length);

/* ---- All desks, over a table */

/* A fresh table, in place of the one that t has. Code 0, or a refusal: 20, 21, 22. */
uint32_t cwmorlais_table_set_up(cwmorlais_table *t, cwmorlais_plan plan);

/* One event. Take: the keeper receives the request of e.desk. Bring: e.desk receives its answer. Refuses 9, 8, 10, 11, 12, 13, 14, 16. */
cwmorlais_reply cwmorlais_table_event(cwmorlais_table *t, cwmorlais_event e);

#ifdef __cplusplus
}
#endif

#endif
