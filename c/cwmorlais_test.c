/* 01's whole case, played by three desks that lend their records and send each other frames, and on a lent table beside them; a written 0 beside
 * a blank; and refusals, which leave what is lent as it was; and the stack that calls use. The compiler holds the header to the places of
 * crates/cwmorlais/proofs/Places.antt. No header of the C
 * library is used, so any C compiler for x86-64 will do. */
#include <stddef.h>

#include "cwmorlais.h"

int printf(const char *form, ...);

#define AT(type, field, place) _Static_assert(offsetof(cwmorlais_##type, field) == (place), #type "." #field);
#define SIZE(type, size) _Static_assert(sizeof(cwmorlais_##type) == (size), #type);

AT(clock, n, 0) SIZE(clock, 32)
AT(cell, held, 0) AT(cell, word, 4) AT(cell, stamp, 8) SIZE(cell, 40)
AT(slot, kind, 0) AT(slot, cell, 1) AT(slot, word, 4) AT(slot, clock, 8) SIZE(slot, 40)
AT(place, keeper, 0) SIZE(place, 1)
AT(counts, desks, 0) AT(counts, cells, 1) SIZE(counts, 2)
AT(tray, counts, 0) AT(tray, places, 2) SIZE(tray, 34)
AT(seat, clock, 0) AT(seat, slot, 32) AT(seat, served, 72) SIZE(seat, 76)
AT(record, tray, 0) AT(record, desk, 34) AT(record, seat, 36) AT(record, row, 112) SIZE(record, 1392)
AT(table, cells, 0) AT(table, tray, 10240) AT(table, seats, 10276) SIZE(table, 10884)
AT(plan, desks, 0) AT(plan, cells, 4) AT(plan, keepers, 8) SIZE(plan, 136)
AT(event, kind, 0) AT(event, desk, 4) AT(event, cell, 8) AT(event, word, 12) SIZE(event, 16)
AT(reply, code, 0) AT(reply, value, 4) AT(reply, count, 8) SIZE(reply, 12)
AT(message, kind, 0) AT(message, desks, 1) AT(message, desk, 2) AT(message, cell, 3) AT(message, word, 4) AT(message, clock, 8) SIZE(message, 40)
AT(answer, reply, 0) AT(answer, message, 12) SIZE(answer, 52)
AT(reading, code, 0) AT(reading, message, 4) AT(reading, used, 48) SIZE(reading, 56)
AT(written, code, 0) AT(written, used, 8) SIZE(written, 16)

static int passed, failed;

static void expect(bool holds, const char *what, int line) {
    if (holds) {
        passed++;
    } else {
        failed++;
        printf("cwmorlais_test: line %d: %s\n", line, what);
    }
}

#define EXPECT(fact) expect(fact, #fact, __LINE__)

enum { READ = 1, WRITE = 2, TAKE = 3, BRING = 4, DROP = 5 };

typedef uint8_t frame[CWMORLAIS_FRAME_BYTES];

static const cwmorlais_record no_record;
static const cwmorlais_table no_table;
static const cwmorlais_message no_message;

/* ---- What is the same, field by field */

static bool same_clock(const cwmorlais_clock *a, const cwmorlais_clock *b) {
    bool same = true;
    for (int i = 0; i < 8; i++) same = same && a->n[i] == b->n[i];
    return same;
}

static bool same_cell(const cwmorlais_cell *a, const cwmorlais_cell *b) {
    return a->held == b->held && a->word == b->word && same_clock(&a->stamp, &b->stamp);
}

static bool same_slot(const cwmorlais_slot *a, const cwmorlais_slot *b) {
    return a->kind == b->kind && a->cell == b->cell && a->word == b->word && same_clock(&a->clock, &b->clock);
}

static bool same_tray(const cwmorlais_tray *a, const cwmorlais_tray *b) {
    bool same = a->counts.desks == b->counts.desks && a->counts.cells == b->counts.cells;
    for (int c = 0; c < 32; c++) same = same && a->places[c].keeper == b->places[c].keeper;
    return same;
}

static bool same_seat(const cwmorlais_seat *a, const cwmorlais_seat *b) {
    return same_clock(&a->clock, &b->clock) && same_slot(&a->slot, &b->slot) && a->served == b->served;
}

static bool same_record(const cwmorlais_record *a, const cwmorlais_record *b) {
    bool same = same_tray(&a->tray, &b->tray) && a->desk == b->desk && same_seat(&a->seat, &b->seat);
    for (int c = 0; c < 32; c++) same = same && same_cell(&a->row[c], &b->row[c]);
    return same;
}

/* A desk's row of the table, with the tray and the desk's number. */
static cwmorlais_record row_of(const cwmorlais_table *t, uint8_t d) {
    cwmorlais_record v = {.tray = t->tray, .desk = d, .seat = t->seats[d]};
    for (int c = 0; c < 32; c++) v.row[c] = t->cells[d * 32 + c];
    return v;
}

static bool same_table(const cwmorlais_table *a, const cwmorlais_table *b) {
    bool same = true;
    for (uint8_t d = 0; d < 8; d++) {
        cwmorlais_record v = row_of(a, d), w = row_of(b, d);
        same = same && same_record(&v, &w);
    }
    return same;
}

static bool same_message(cwmorlais_message a, cwmorlais_message b) {
    return a.kind == b.kind && a.desks == b.desks && a.desk == b.desk && a.cell == b.cell && a.word == b.word && same_clock(&a.clock, &b.clock);
}

static bool is_reply(cwmorlais_reply r, uint32_t code, uint32_t value, uint32_t count) {
    return r.code == code && r.value == value && r.count == count;
}

/* ---- 01's whole case */

static const cwmorlais_plan whole_plan = {.desks = 3, .cells = 2, .keepers = {1, 0}};

/* kind, desk, cell, word, and then the line that it writes: code, value, count */
static const uint32_t whole_case[13][7] = {
    {READ, 0, 0, 0, 1, 0, 0},
    {TAKE, 0, 0, 0, 0, 0, 0},
    {WRITE, 2, 0, 27, 1, 0, 0},
    {TAKE, 2, 0, 0, 0, 0, 0},
    {BRING, 2, 0, 0, 0, 27, 0},
    {WRITE, 2, 1, 500, 1, 0, 0},
    {TAKE, 2, 0, 0, 0, 0, 0},
    {BRING, 2, 0, 0, 0, 500, 1},
    {BRING, 0, 0, 0, 2, 0, 0},
    {READ, 0, 1, 0, 0, 500, 0},
    {READ, 0, 0, 0, 1, 0, 0},
    {TAKE, 0, 0, 0, 0, 0, 0},
    {BRING, 0, 0, 0, 0, 27, 0},
};

static cwmorlais_record started(cwmorlais_plan plan, uint32_t desk) {
    cwmorlais_record v = {0};
    EXPECT(cwmorlais_desk_start(&v, plan, desk) == 0);
    return v;
}

static cwmorlais_message received(const uint8_t *bytes) {
    cwmorlais_reading r = cwmorlais_frame_read(bytes, CWMORLAIS_FRAME_BYTES);
    EXPECT(r.code == 0 && r.used == 2u + bytes[1]);
    return r.message;
}

/* One event by the desks. What a desk has asked, and its answer, is under way as a frame. */
static cwmorlais_answer by_desks(cwmorlais_record *desk, frame *under_way, cwmorlais_event e) {
    uint8_t *bytes = under_way[e.desk];
    cwmorlais_message m = e.kind == TAKE || e.kind == BRING ? received(bytes) : no_message;
    cwmorlais_answer a = e.kind == TAKE ? cwmorlais_desk_serve(&desk[whole_plan.keepers[m.cell]], &m)
        : e.kind == BRING ? cwmorlais_desk_bring(&desk[e.desk], &m)
        : cwmorlais_desk_event(&desk[e.desk], e);
    if (a.reply.code == 1 || e.kind == TAKE) {
        EXPECT(cwmorlais_frame_write(&a.message, bytes, CWMORLAIS_FRAME_BYTES).code == 0);
    } else {
        EXPECT(same_message(a.message, no_message));
    }
    return a;
}

/* The rows are the records, but for an answer under way: it stands in the table's slot, while at the desk the slot stays asked. */
static void hold_equal(const cwmorlais_table *t, const cwmorlais_record *desk, frame *under_way) {
    for (uint8_t d = 0; d < 3; d++) {
        cwmorlais_record row = row_of(t, d);
        if (row.seat.slot.kind > 2) {
            cwmorlais_message m = received(under_way[d]);
            cwmorlais_slot answered = {.kind = m.kind, .cell = m.cell, .word = m.word, .clock = m.clock};
            EXPECT(same_slot(&row.seat.slot, &answered));
            row.seat.slot = desk[d].seat.slot;
        }
        EXPECT(same_record(&row, &desk[d]));
    }
}

static void play_whole_case(void) {
    cwmorlais_record desk[3] = {started(whole_plan, 0), started(whole_plan, 1), started(whole_plan, 2)};
    cwmorlais_table t = {0};
    frame under_way[3];
    EXPECT(cwmorlais_table_set_up(&t, whole_plan) == 0);
    hold_equal(&t, desk, under_way);
    for (int i = 0; i < 13; i++) {
        const uint32_t *line = whole_case[i];
        cwmorlais_event e = {.kind = line[0], .desk = line[1], .cell = line[2], .word = line[3]};
        EXPECT(is_reply(by_desks(desk, under_way, e).reply, line[4], line[5], line[6]));
        EXPECT(is_reply(cwmorlais_table_event(&t, e), line[4], line[5], line[6]));
        hold_equal(&t, desk, under_way);
    }
    EXPECT(desk[0].seat.clock.n[2] == 2 && desk[1].seat.clock.n[2] == 1 && desk[2].seat.clock.n[2] == 2);
    EXPECT(desk[0].row[0].held && desk[0].row[0].word == 27 && desk[0].row[1].word == 500);
}

/* ---- Blank is what nobody has written, and a written 0 is a word */

static const cwmorlais_plan zero_plan = {.desks = 2, .cells = 2, .keepers = {1, 0}};

/* Cell 0 is shown with this code, and 0: by its keeper, by its answer, and by the copy, which is then given up. */
static void show_zero(uint32_t code, cwmorlais_record *keeper, cwmorlais_record *asker) {
    const cwmorlais_event read = {.kind = READ};
    EXPECT(is_reply(cwmorlais_desk_event(keeper, read).reply, code, 0, 0));
    cwmorlais_answer request = cwmorlais_desk_event(asker, read);
    cwmorlais_answer answer = cwmorlais_desk_serve(keeper, &request.message);
    EXPECT(is_reply(request.reply, 1, 0, 0) && is_reply(answer.reply, 0, 0, 0));
    EXPECT(is_reply(cwmorlais_desk_bring(asker, &answer.message).reply, code, 0, 0));
    EXPECT(is_reply(cwmorlais_desk_event(asker, read).reply, code, 0, 0));
    EXPECT(is_reply(cwmorlais_desk_event(asker, (cwmorlais_event){.kind = DROP}).reply, 0, 0, 1));
}

static void show_zeros(void) {
    cwmorlais_record asker = started(zero_plan, 0), keeper = started(zero_plan, 1);
    show_zero(2, &keeper, &asker);
    EXPECT(is_reply(cwmorlais_desk_event(&keeper, (cwmorlais_event){.kind = WRITE}).reply, 0, 0, 0));
    show_zero(0, &keeper, &asker);
}

/* ---- Refusals */

/* Over a record and a table in which no field is zero: a refusal leaves them all zero, and a start or set-up makes what it makes over zeros. */
static cwmorlais_record full_record(void) {
    cwmorlais_record v;
    for (size_t i = 0; i < sizeof v; i++) ((uint8_t *)&v)[i] = 1;
    return v;
}

static cwmorlais_table full_table(void) {
    cwmorlais_table t;
    for (size_t i = 0; i < sizeof t; i++) ((uint8_t *)&t)[i] = 1;
    return t;
}

static void refuse_start(uint32_t code, cwmorlais_plan plan, uint32_t desk) {
    cwmorlais_record v = full_record();
    EXPECT(cwmorlais_desk_start(&v, plan, desk) == code && same_record(&v, &no_record));
    EXPECT(is_reply(cwmorlais_desk_event(&v, (cwmorlais_event){.kind = READ}).reply, 9, 0, 0));
    if (code == 10) return; /* set-up has no desk's number */
    cwmorlais_table t = full_table();
    EXPECT(cwmorlais_table_set_up(&t, plan) == code && same_table(&t, &no_table));
    EXPECT(is_reply(cwmorlais_table_event(&t, (cwmorlais_event){.kind = READ}), 9, 0, 0));
}

static void start_over(void) {
    cwmorlais_record v = full_record(), w = started(whole_plan, 1);
    EXPECT(cwmorlais_desk_start(&v, whole_plan, 1) == 0 && same_record(&v, &w));
    cwmorlais_table t = full_table(), u = {0};
    EXPECT(cwmorlais_table_set_up(&t, whole_plan) == 0 && cwmorlais_table_set_up(&u, whole_plan) == 0 && same_table(&t, &u));
}

static void refuse_starts(void) {
    refuse_start(20, (cwmorlais_plan){.desks = 0, .cells = 2, .keepers = {1, 0}}, 0);
    refuse_start(20, (cwmorlais_plan){.desks = 9, .cells = 33, .keepers = {0, 3}}, 9);
    refuse_start(21, (cwmorlais_plan){.desks = 3, .cells = 0, .keepers = {1, 0}}, 0);
    refuse_start(21, (cwmorlais_plan){.desks = 3, .cells = 33, .keepers = {0, 3}}, 3);
    refuse_start(22, (cwmorlais_plan){.desks = 3, .cells = 2, .keepers = {0, 3}}, 3);
    refuse_start(10, whole_plan, 3);
    refuse_start(10, (cwmorlais_plan){.desks = 3, .cells = 1, .keepers = {0, 3}}, 3); /* a keeper past the cell count is ignored */
}

/* A refusal gives its number and an all-zero message, and changes nothing. */
static void refused(uint32_t code, cwmorlais_answer a, const cwmorlais_record *was, const cwmorlais_record *is) {
    EXPECT(is_reply(a.reply, code, 0, 0));
    EXPECT(same_message(a.message, no_message));
    EXPECT(same_record(was, is));
}

static void refuse_at_a_desk(void) {
    cwmorlais_record v = started((cwmorlais_plan){.desks = 2, .cells = 4, .keepers = {1}}, 0); /* it keeps cells 1 to 3 */
    v.seat.clock.n[0] = 4294967295;
    cwmorlais_record was = v;
    refused(8, cwmorlais_desk_event(&v, (cwmorlais_event){.kind = TAKE}), &was, &v);
    refused(11, cwmorlais_desk_event(&v, (cwmorlais_event){.kind = READ, .cell = 4}), &was, &v);
    refused(14, cwmorlais_desk_event(&v, (cwmorlais_event){.kind = DROP, .cell = 2}), &was, &v);
    refused(16, cwmorlais_desk_event(&v, (cwmorlais_event){.kind = WRITE, .cell = 2, .word = 7}), &was, &v);
    refused(13, cwmorlais_desk_bring(&v, &no_message), &was, &v);
    refused(15, cwmorlais_desk_serve(&v, &no_message), &was, &v);

    /* A read of a cell that is not held is asked for, whatever desk the event names. */
    cwmorlais_answer a = cwmorlais_desk_event(&v, (cwmorlais_event){.kind = READ, .desk = 99});
    EXPECT(is_reply(a.reply, 1, 0, 0) && same_message(a.message, (cwmorlais_message){.kind = 1, .desks = 2}));
    EXPECT(v.seat.slot.kind == 1 && v.seat.slot.cell == 0 && !v.seat.served);
    was = v;
    refused(12, cwmorlais_desk_event(&v, (cwmorlais_event){.kind = READ}), &was, &v);
    refused(15, cwmorlais_desk_bring(&v, &a.message), &was, &v);

    v.row[5].word = 1; /* past the cell count: not sound */
    was = v;
    refused(9, cwmorlais_desk_event(&v, (cwmorlais_event){.kind = READ}), &was, &v);
    refused(9, cwmorlais_desk_serve(&v, &no_message), &was, &v);
    refused(9, cwmorlais_desk_bring(&v, &no_message), &was, &v);
}

/* A clock of zeros where something was written: the message does not fit, though it has a frame, and the record or table is not sound. */
static void refuse_clocks_of_zeros(void) {
    cwmorlais_record v = started(zero_plan, 0), was = v;
    cwmorlais_message m = {.kind = 2, .desks = 2, .desk = 1, .cell = 1};
    refused(15, cwmorlais_desk_serve(&v, &m), &was, &v);
    m.word = 7;
    refused(15, cwmorlais_desk_serve(&v, &m), &was, &v);
    frame bytes;
    EXPECT(cwmorlais_frame_write(&m, bytes, CWMORLAIS_FRAME_BYTES).code == 0 && same_message(received(bytes), m));
    m.kind = 1; /* a read's word is ignored */
    EXPECT(is_reply(cwmorlais_desk_serve(&v, &m).reply, 0, 0, 0) && same_record(&was, &v));

    EXPECT(cwmorlais_desk_event(&v, (cwmorlais_event){.kind = WRITE}).reply.code == 1);
    was = v;
    m = (cwmorlais_message){.kind = 4, .desks = 2, .word = 7};
    refused(15, cwmorlais_desk_bring(&v, &m), &was, &v);
    v.seat.slot.clock.n[0] = 0; /* the write that it asked */
    was = v;
    refused(9, cwmorlais_desk_bring(&v, &m), &was, &v);
    v = was = started(zero_plan, 0);
    v.row[1].word = was.row[1].word = 7;
    refused(9, cwmorlais_desk_event(&v, (cwmorlais_event){.kind = READ, .cell = 1}), &was, &v);

    cwmorlais_table t = {0};
    EXPECT(cwmorlais_table_set_up(&t, zero_plan) == 0);
    t.seats[0].slot = (cwmorlais_slot){.kind = 4}; /* blank, told as a write's answer: odd, but sound */
    EXPECT(is_reply(cwmorlais_table_event(&t, (cwmorlais_event){.kind = BRING}), 0, 0, 0));
    t.seats[0].slot = (cwmorlais_slot){.kind = 4, .word = 7};
    cwmorlais_table before = t;
    EXPECT(is_reply(cwmorlais_table_event(&t, (cwmorlais_event){.kind = BRING}), 9, 0, 0) && same_table(&before, &t));
}

static void refuse_write(uint32_t code, cwmorlais_message m, size_t room) {
    frame out;
    bool same = true;
    for (int i = 0; i < CWMORLAIS_FRAME_BYTES; i++) out[i] = 170;
    cwmorlais_written w = cwmorlais_frame_write(&m, out, room);
    for (int i = 0; i < CWMORLAIS_FRAME_BYTES; i++) same = same && out[i] == 170;
    EXPECT(w.code == code && w.used == 0 && same);
}

static void refuse_frames(void) {
    cwmorlais_message m = {.kind = 2, .desks = 3, .desk = 2, .cell = 1, .word = 500, .clock = {{0, 0, 2}}};
    frame out = {[23] = 170};
    cwmorlais_written w = cwmorlais_frame_write(&m, out, CWMORLAIS_FRAME_BYTES);
    EXPECT(w.code == 0 && w.used == 23 && out[23] == 170 && out[1] == 21 && out[9] == 1 && out[10] == 244 && out[22] == 2);
    EXPECT(same_message(received(out), m));
    refuse_write(37, m, 22);
    m.clock.n[3] = 1;
    refuse_write(38, m, 22);
    m.desk = 3;
    refuse_write(34, m, CWMORLAIS_FRAME_BYTES);
    cwmorlais_reading cut = cwmorlais_frame_read(out, 22);
    EXPECT(cut.code == 30 && cut.used == 0 && same_message(cut.message, no_message));
    out[2] = 2;
    EXPECT(cwmorlais_frame_read(out, 23).code == 31);
}

static void refuse_at_a_table(void) {
    cwmorlais_table t = {0};
    EXPECT(cwmorlais_table_set_up(&t, whole_plan) == 0);
    cwmorlais_table was = t;
    EXPECT(is_reply(cwmorlais_table_event(&t, (cwmorlais_event){.kind = TAKE}), 13, 0, 0) && same_table(&was, &t));
    EXPECT(is_reply(cwmorlais_table_event(&t, (cwmorlais_event){.kind = READ, .desk = 3}), 10, 0, 0) && same_table(&was, &t));
    t.seats[7].served = true; /* no such desk: not sound */
    was = t;
    EXPECT(is_reply(cwmorlais_table_event(&t, (cwmorlais_event){.kind = READ}), 9, 0, 0) && same_table(&was, &t));
}

/* ---- The stack: it is painted, and what is no longer paint after a call was used */

enum { PAINTED = 65536, PAINT = 0x5a, OWN = 128 };

__attribute__((noinline)) static void paint(void) {
    volatile uint8_t *top = __builtin_frame_address(0);
    for (ptrdiff_t i = OWN; i < PAINTED; i++) top[-i] = PAINT;
}

__attribute__((noinline)) static ptrdiff_t used(void) {
    volatile uint8_t *top = __builtin_frame_address(0);
    ptrdiff_t i = PAINTED - 1;
    while (i > OWN && top[-i] == PAINT) i--;
    return i;
}

static ptrdiff_t most_used(ptrdiff_t before) {
    ptrdiff_t now = used();
    return before < now ? now : before;
}

/* The calls of the whole case, as `play_whole_case` makes them. */
static void measure_stack(void) {
    static cwmorlais_table t;
    static cwmorlais_record desk[3];
    static cwmorlais_answer a;
    static cwmorlais_reading r;
    static frame under_way[3];
    ptrdiff_t start = 0, event = 0, serve = 0, bring = 0, read = 0, write = 0, set_up = 0, table_event = 0;
    for (uint32_t d = 0; d < 3; d++) {
        paint(), cwmorlais_desk_start(&desk[d], whole_plan, d), start = most_used(start);
    }
    paint(), cwmorlais_table_set_up(&t, whole_plan), set_up = most_used(set_up);
    for (int i = 0; i < 13; i++) {
        const uint32_t *line = whole_case[i];
        cwmorlais_event e = {.kind = line[0], .desk = line[1], .cell = line[2], .word = line[3]};
        paint(), cwmorlais_table_event(&t, e), table_event = most_used(table_event);
        if (e.kind == READ || e.kind == WRITE) {
            paint(), a = cwmorlais_desk_event(&desk[e.desk], e), event = most_used(event);
        } else {
            paint(), r = cwmorlais_frame_read(under_way[e.desk], CWMORLAIS_FRAME_BYTES), read = most_used(read);
        }
        if (e.kind == TAKE) {
            cwmorlais_record *keeper = &desk[whole_plan.keepers[r.message.cell]];
            paint(), a = cwmorlais_desk_serve(keeper, &r.message), serve = most_used(serve);
        }
        if (e.kind == BRING) paint(), a = cwmorlais_desk_bring(&desk[e.desk], &r.message), bring = most_used(bring);
        if (a.reply.code == 1 || e.kind == TAKE) {
            paint(), cwmorlais_frame_write(&a.message, under_way[e.desk], CWMORLAIS_FRAME_BYTES), write = most_used(write);
        }
    }
    printf("stack: start %td, event %td, serve %td, bring %td, read %td, write %td, set up %td, table event %td\n", start, event, serve, bring,
        read, write, set_up, table_event);
    /* what the header says of each, all below CWMORLAIS_STACK_BYTES */
    EXPECT(start <= 360 && set_up <= 360);
    EXPECT(event <= 520 && serve <= 520 && bring <= 520);
    EXPECT(read <= 128 && write <= 128 && table_event <= 184);
}

int main(void) {
    play_whole_case();
    show_zeros();
    refuse_starts();
    start_over();
    refuse_at_a_desk();
    refuse_clocks_of_zeros();
    refuse_frames();
    refuse_at_a_table();
    measure_stack();
    printf("cwmorlais_test: %d passed, %d failed\n", passed, failed);
    return failed != 0;
}
