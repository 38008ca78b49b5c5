/* A night of the cabinet in eight slices of an hour each, at 250,000 cycles a second: the C calls of pliruzza.h, over a
 * machine that is kept as bytes between the slices. board/run.sh builds and runs it, and compares what it prints with
 * board/night.expected, which is worked out here and was written before the first run:
 *
 * The ROM sets up the serial interface (7 instructions, 24 cycles) and waits. A received byte interrupts (4 cycles out of
 * a wait): LDAA, STAA, LDAA, STAA at 3 cycles each keep the status and echo the byte, INC (6) counts it, RTI (10), BRA (3)
 * and WAI (9) go back to waiting: 8 instructions.
 *   hour 0  set up, then one long wait: 7 instructions, 1 leap.
 *   hour 1  a byte: 8 instructions, 1 entry, 1 sent, a leap before it and one after it.
 *   hour 2  two bytes at the far end of a wait: the first is kept and echoed, the second is an overrun. One entry for both.
 *   hour 3  an NMI: INC, RTI, BRA, WAI.
 *   hour 4  port 1 pins change: nothing runs, but a record ends a leap.
 *   hour 5  a byte 9 cycles before the end: 4 + 3 + 3 cycles later the slice is over, one cycle late, with 2 instructions done.
 *   hour 6  so this slice is a cycle shorter. A pins record that fell into that cycle is due at once; the echo goes on: 6 instructions.
 *   hour 7  a reset: 7 instructions again.
 */
#include "pliruzza.h"

#include <stdio.h>
#include <string.h>

#define SLICES 8
#define HOUR 900000000u

struct event {
    uint64_t time; /* in cycles from power-on */
    uint8_t kind;
    uint8_t payload[2];
};

enum { PORT1 = 1, NMI = 4, RECEIVED = 5, RESET = 7 };

static const struct event night[] = {
    {1 * (uint64_t)HOUR + 450000000, RECEIVED, {'A', 1}},
    {2 * (uint64_t)HOUR + 450000000, RECEIVED, {'B', 1}},
    {2 * (uint64_t)HOUR + 450000000, RECEIVED, {'C', 1}},
    {3 * (uint64_t)HOUR + 1000, NMI, {0}},
    {4 * (uint64_t)HOUR + 500, PORT1, {0xFE}},
    {6 * (uint64_t)HOUR - 9, RECEIVED, {'D', 1}},
    {6 * (uint64_t)HOUR, PORT1, {0xFF}},
    {7 * (uint64_t)HOUR + 100, RESET, {0}},
};
#define EVENTS (sizeof night / sizeof night[0])

/* The two memories, kept from slice to slice. The ROM never clears bit 6 of $14, so the area stays as it is: zeros. */
static uint8_t image[PLIRUZZA_IMAGE], area[PLIRUZZA_AREA];

static void load(size_t at, const char *bytes, size_t length) { memcpy(image + at, bytes, length); }

/* $F000: LDS #$00FF; rate register 5, 128 cycles a bit; TE, RE, RIE; CLI; WAI; BRA to the WAI. $F100, serial: the status to
 * $82, the byte echoed, INC $0080, RTI. $F200, NMI: INC $0081, RTI. The vectors of serial, NMI and reset. */
static void load_rom(void) {
    load(0xF000, "\x8E\x00\xFF\x86\x05\x97\x10\x86\x1A\x97\x11\x0E\x3E\x20\xFD", 15);
    load(0xF100, "\x96\x11\x97\x82\x96\x12\x97\x13\x7C\x00\x80\x3B", 12);
    load(0xF200, "\x7C\x00\x81\x3B", 4);
    load(0xFFF0, "\xF1\x00", 2);
    load(0xFFFC, "\xF2\x00\xF0\x00", 4);
}

static uint8_t *little(uint8_t *to, uint64_t number, int width) {
    for (; width > 0; width--, number >>= 8) *to++ = (uint8_t)number;
    return to;
}

static uint64_t number_at(const uint8_t *from, int width) {
    uint64_t number = 0;
    while (width-- > 0) number = number << 8 | from[width];
    return number;
}

/* The session records of the events before a time, their times counted from the slice's start. An event that fell into the
 * cycles by which the slice before ran over is due at once. */
static size_t session_of(size_t next, uint64_t start, uint64_t end, uint8_t *session) {
    static const uint8_t payload[] = {0, 1, 1, 1, 0, 2, 0, 0};
    uint8_t *to = session;
    for (; next < EVENTS && night[next].time < end; next++) {
        const struct event *e = &night[next];
        to = little(to, 6 + payload[e->kind], 2);
        to = little(to, e->kind, 2);
        to = little(to, e->time < start ? 0 : e->time - start, 4);
        for (int i = 0; i < payload[e->kind]; i++) *to++ = e->payload[i];
    }
    return (size_t)(to - session);
}

static void show(const char *name, const uint8_t *from, int width) {
    printf(" %s %llu", name, (unsigned long long)number_at(from, width));
}

static void show_bytes(const char *name, const uint8_t *bytes, uint64_t count) {
    printf(" %s", name);
    for (uint64_t i = 0; i < count; i++) printf(" %02X", bytes[i]);
}

/* Whether every byte is still 0xEE, as it was lent. */
static int untouched(const uint8_t *bytes, size_t length) {
    while (length > 0 && bytes[length - 1] == 0xEE) length--;
    return length == 0;
}

static const char *as_it_was(const uint8_t *bytes, size_t length) { return untouched(bytes, length) ? "as it was" : "CHANGED"; }

static int run_night(uint8_t *machine) {
    uint64_t now = 0;
    size_t next = 0;
    for (int slice = 0; slice < SLICES; slice++) {
        uint8_t session[16 * EVENTS], output[16], result[PLIRUZZA_LEAPING];
        uint64_t end = (slice + 1) * (uint64_t)HOUR;
        size_t length = session_of(next, now, end, session);
        uint32_t reply = pliruzza_run_leaping(image, sizeof image, area, sizeof area, machine, PLIRUZZA_MACHINE, session, length,
                                              (uint32_t)(end - now), output, sizeof output, result, sizeof result);
        printf("hour %d reply %u", slice, (unsigned)reply);
        if (reply != 0) {
            printf("\n");
            return 1;
        }
        uint64_t sent = number_at(result + PLIRUZZA_AT_SENT, 8);
        show("cycles", result + PLIRUZZA_AT_CYCLES, 4);
        show("instr", result + PLIRUZZA_AT_INSTRUCTIONS, 4);
        show("entries", result + PLIRUZZA_AT_ENTRIES, 4);
        show("used", result + PLIRUZZA_AT_USED, 8);
        show("sent", result + PLIRUZZA_AT_SENT, 8);
        show("leaps", result + PLIRUZZA_AT_LEAPS, 4);
        if (sent) show_bytes("out", output, sent);
        printf("\n");
        now += number_at(result + PLIRUZZA_AT_CYCLES, 4);
        next += number_at(result + PLIRUZZA_AT_USED, 8);
    }
    printf("night cycles %llu bytes %u doors %u status %02X\n", (unsigned long long)now, image[0x80], image[0x81], image[0x82]);
    return 0;
}

/* A stretch of 20,000 cycles after the night: two bytes, and pins. */
#define STRETCH 20000u
static const uint8_t stretch[] = {
    8, 0, 5, 0, 0xD0, 0x07, 0, 0, 'E', 1,  /* at 2,000 */
    8, 0, 5, 0, 0xF8, 0x2A, 0, 0, 'F', 1,  /* at 11,000 */
    7, 0, 1, 0, 0x98, 0x3A, 0, 0, 0xFE,    /* at 15,000 */
};

/* What a run is lent. */
struct lent {
    uint8_t image[PLIRUZZA_IMAGE], area[PLIRUZZA_AREA], machine[PLIRUZZA_MACHINE];
    uint8_t output[8], log[4 * PLIRUZZA_ROW], result[PLIRUZZA_LEAPING];
};

static void lend(struct lent *l, const uint8_t *machine) {
    memset(l, 0, sizeof *l);
    memcpy(l->image, image, sizeof image);
    memcpy(l->area, area, sizeof area);
    memcpy(l->machine, machine, PLIRUZZA_MACHINE);
    memset(l->log, 0xEE, sizeof l->log);
}

static uint32_t run_leaping(struct lent *l, const uint8_t *session, size_t length, uint32_t n, size_t sent) {
    return pliruzza_run_leaping(l->image, PLIRUZZA_IMAGE, l->area, PLIRUZZA_AREA, l->machine, PLIRUZZA_MACHINE, session, length, n,
                                l->output + sent, sizeof l->output - sent, l->result, PLIRUZZA_LEAPING);
}

static const char *alike(const struct lent *a, const struct lent *b) {
    return memcmp(a->image, b->image, PLIRUZZA_IMAGE) || memcmp(a->area, b->area, PLIRUZZA_AREA)
                   || memcmp(a->machine, b->machine, PLIRUZZA_MACHINE) || memcmp(a->output, b->output, sizeof a->output)
                   || memcmp(a->log, b->log, sizeof a->log)
               ? "DIFFER"
               : "alike";
}

/* Both runs of the stretch from one start, and the leaping run of it in two slices, of which the first stops within the
 * first byte's handler: 4 + 3 + 3 cycles after 2,000, two late. They leave the same image, machine and output. */
static int compare_runs(const uint8_t *machine) {
    static struct lent single, leaping, sliced;
    uint8_t rest[sizeof stretch], told[PLIRUZZA_REST];
    lend(&single, machine);
    lend(&leaping, machine);
    lend(&sliced, machine);
    if (pliruzza_run_single(single.image, PLIRUZZA_IMAGE, single.area, PLIRUZZA_AREA, single.machine, PLIRUZZA_MACHINE, stretch, sizeof stretch,
                            STRETCH, single.output, sizeof single.output, single.result, PLIRUZZA_SINGLE) != 0)
        return 1;
    if (run_leaping(&leaping, stretch, sizeof stretch, STRETCH, 0) != 0) return 1;
    printf("single and leaping %s", alike(&single, &leaping));
    show_bytes("results", single.result, PLIRUZZA_LEAPING);
    show_bytes("and", leaping.result, PLIRUZZA_LEAPING);
    printf("\n");
    if (run_leaping(&sliced, stretch, sizeof stretch, 2008, 0) != 0) return 1;
    uint32_t cycles = (uint32_t)number_at(sliced.result + PLIRUZZA_AT_CYCLES, 4);
    size_t used = (size_t)number_at(sliced.result + PLIRUZZA_AT_USED, 8);
    size_t sent = (size_t)number_at(sliced.result + PLIRUZZA_AT_SENT, 8);
    uint32_t reply = pliruzza_rest(stretch, sizeof stretch, used, cycles, rest, sizeof rest, told, sizeof told);
    if (reply != 0) return 1;
    printf("after %u cycles: rest %u of %u bytes,", (unsigned)cycles, (unsigned)reply, (unsigned)number_at(told, 8));
    if (run_leaping(&sliced, rest, (size_t)number_at(told, 8), STRETCH - cycles, sent) != 0) return 1;
    printf(" then %u cycles, %s\n", (unsigned)number_at(sliced.result + PLIRUZZA_AT_CYCLES, 4), alike(&sliced, &leaping));
    return 0;
}

/* What woke it, in the stretch with an NMI at 2,000 as well: it is entered first, with serial (bit 5) behind it, and takes 4 cycles out of the wait;
 * INC (6) and RTI (10) follow, and serial is entered at 2,020. The next byte comes in a wait. So three rows, and a fourth that stays as it was. */
static const uint8_t called[] = {
    8, 0, 5, 0, 0xD0, 0x07, 0, 0, 'E', 1,  /* at 2,000 */
    6, 0, 4, 0, 0xD0, 0x07, 0, 0,          /* at 2,000 */
    8, 0, 5, 0, 0xF8, 0x2A, 0, 0, 'F', 1,  /* at 11,000 */
};

static uint32_t watch(struct lent *l, const uint8_t *session, size_t length, uint32_t n, uint32_t bits, uint32_t since, size_t row, size_t rows) {
    uint32_t reply = pliruzza_watch_leaping(l->image, PLIRUZZA_IMAGE, l->area, PLIRUZZA_AREA, l->machine, PLIRUZZA_MACHINE, session, length, n, bits,
                                            since, l->output, sizeof l->output, l->log + row * PLIRUZZA_ROW, rows * PLIRUZZA_ROW, l->result,
                                            PLIRUZZA_LEAPING);
    printf("watched: %u", (unsigned)reply);
    show("cycles", l->result + PLIRUZZA_AT_CYCLES, 4);
    show("entries", l->result + PLIRUZZA_AT_ENTRIES, 4);
    return reply;
}

/* Both watched runs of it; the leaping run with room for one row, which 11 stops at 2,020, and from there on; no bit set; and a bit that asks for nothing. */
static int show_wakes(const uint8_t *machine) {
    static struct lent single, whole, cut, plain;
    uint8_t rest[sizeof called], told[PLIRUZZA_REST];
    lend(&single, machine);
    lend(&whole, machine);
    lend(&cut, machine);
    lend(&plain, machine);
    if (watch(&whole, called, sizeof called, STRETCH, PLIRUZZA_WATCH_LOG, 0, 0, 4) != 0) return 1;
    printf("\n");
    for (const uint8_t *row = whole.log; row < whole.log + 3 * PLIRUZZA_ROW; row += PLIRUZZA_ROW) {
        printf("row");
        show("cycle", row + PLIRUZZA_ROW_CYCLE, 4);
        show("cause", row + PLIRUZZA_ROW_CAUSE, 1);
        show_bytes("behind", row + PLIRUZZA_ROW_BEHIND, 1);
        printf("\n");
    }
    if (pliruzza_watch_single(single.image, PLIRUZZA_IMAGE, single.area, PLIRUZZA_AREA, single.machine, PLIRUZZA_MACHINE, called, sizeof called, STRETCH,
                              PLIRUZZA_WATCH_LOG, 0, single.output, sizeof single.output, single.log, sizeof single.log, single.result,
                              PLIRUZZA_SINGLE) != 0)
        return 1;
    printf("single and leaping %s, the fourth row %s\n", alike(&single, &whole), as_it_was(whole.log + 3 * PLIRUZZA_ROW, PLIRUZZA_ROW));
    if (watch(&cut, called, sizeof called, STRETCH, PLIRUZZA_WATCH_LOG, 0, 0, 1) != 11) return 1;
    printf("\n");
    uint32_t cycles = (uint32_t)number_at(cut.result + PLIRUZZA_AT_CYCLES, 4);
    size_t used = (size_t)number_at(cut.result + PLIRUZZA_AT_USED, 8);
    if (pliruzza_rest(called, sizeof called, used, cycles, rest, sizeof rest, told, sizeof told) != 0) return 1;
    if (watch(&cut, rest, (size_t)number_at(told, 8), STRETCH - cycles, PLIRUZZA_WATCH_LOG, cycles, 1, 3) != 0) return 1;
    printf(", %s\n", alike(&cut, &whole));
    if (watch(&plain, called, sizeof called, STRETCH, 0, 0, 0, 0) != 0) return 1;
    printf(", log %s\n", as_it_was(plain.log, sizeof plain.log));
    lend(&plain, machine);
    if (watch(&plain, called, sizeof called, STRETCH, 2, 0, 0, 4) != 36) return 1;
    printf(", log %s\n", as_it_was(plain.log, sizeof plain.log));
    return 0;
}

/* The RAM goes away and comes back, with R at $C0 and $5A in the area's first byte. CLR $0014 (6 cycles) clears bit 6; LDAA $80 (3) then reads the area,
 * STAA $BF (3) goes there, and STAA $C0 (3) nowhere, as R is not above it. LDAA #$40 (2) and STAA $14 (3) set the bit, and STAA $C0 (3) goes to the RAM,
 * whatever R is. That is 7 instructions and 23 cycles; BRA to itself would follow. Of $80, $BF and $C0 the RAM has its count of bytes, 00 and 40, the area
 * 5A, 5A and 00. */
static int show_area(const uint8_t *machine) {
    static struct lent l;
    lend(&l, machine);
    memcpy(l.image + 0xE000, "\x7F\x00\x14\x96\x80\x97\xBF\x97\xC0\x86\x40\x97\x14\x97\xC0\x20\xFE", 17);
    memcpy(l.image + 0xFFFE, "\xE0\x00", 2);
    l.area[0] = 0x5A;
    if (pliruzza_power_on(l.image, PLIRUZZA_IMAGE, 0xC0, l.machine, PLIRUZZA_MACHINE) != 0) return 1;
    printf("area: %u", (unsigned)run_leaping(&l, stretch, 0, 23, 0));
    show("cycles", l.result + PLIRUZZA_AT_CYCLES, 4);
    show("instr", l.result + PLIRUZZA_AT_INSTRUCTIONS, 4);
    const uint8_t ram[] = {l.image[0x80], l.image[0xBF], l.image[0xC0]}, external[] = {l.area[0x00], l.area[0x3F], l.area[0x40]};
    show_bytes("RAM", ram, sizeof ram);
    show_bytes("area", external, sizeof external);
    printf("\n");
    return 0;
}

/* The rest with one thing wrong: its buffer stays as it was, and so does the result but for 4 to 7. */
static void refuse_rest(size_t length, size_t used, size_t rest_length, size_t told_length) {
    uint8_t rest[sizeof stretch], told[PLIRUZZA_REST];
    memset(rest, 0xEE, sizeof rest);
    memset(told, 0xEE, sizeof told);
    uint32_t reply = pliruzza_rest(stretch, length, used, 2010, rest, rest_length, told, told_length);
    printf("rest: %u%s", (unsigned)reply, untouched(rest, sizeof rest) ? "" : " CHANGED");
    if (untouched(told, sizeof told)) printf(" nothing written\n");
    else printf(" record %u\n", (unsigned)number_at(told, 8));
}

/* Leaping runs with one thing wrong each, or more, of which the first is told: what is lent stays as it was, but for the result of 1 to 7 and 12. */
struct wrong {
    const char *what;
    size_t image, area, machine;
    int byte; /* of the saved machine, -1: none */
    uint8_t value;
    const char *session;
    size_t length;
    uint32_t n;
    size_t result;
};

static const struct wrong wrongs[] = {
    {"short result", 65536, 128, 42, -1, 0, "", 0, 100, 43},
    {"short machine", 65536, 128, 41, -1, 0, "", 0, 100, 44},
    {"version 2", 65536, 128, 42, 0, 2, "", 0, 100, 44},
    {"waiting 2", 65536, 128, 42, 11, 2, "", 0, 100, 44},
    {"short image", 65535, 128, 42, -1, 0, "", 0, 100, 44},
    {"short image and area, pins 32", 65535, 127, 42, 19, 32, "", 0, 100, 44},
    {"short area", 65536, 127, 42, -1, 0, "", 0, 100, 44},
    {"short area, pins 32", 65536, 127, 42, 19, 32, "", 0, 100, 44},
    {"pins 32", 65536, 128, 42, 19, 32, "", 0, 100, 44},
    {"N 1000000001", 65536, 128, 42, -1, 0, "", 0, 1000000001, 44},
    {"cut short", 65536, 128, 42, -1, 0, "\6\0\4\0\0\0\0\0\6\0", 10, 100, 44},
    {"kind 9", 65536, 128, 42, -1, 0, "\6\0\11\0\0\0\0\0", 8, 100, 44},
    {"pins 32 to come", 65536, 128, 42, -1, 0, "\7\0\2\0\0\0\0\0\40", 9, 100, 44},
    {"time 1, then 0", 65536, 128, 42, -1, 0, "\6\0\4\0\1\0\0\0\6\0\4\0\0\0\0\0", 16, 100, 44},
};

static void refuse(const struct wrong *w) {
    static uint8_t image_before[PLIRUZZA_IMAGE], area_before[PLIRUZZA_AREA];
    uint8_t machine[PLIRUZZA_MACHINE], machine_before[PLIRUZZA_MACHINE];
    uint8_t output[4] = {1, 2, 3, 4}, result[PLIRUZZA_LEAPING];
    memset(result, 0xEE, sizeof result);
    if (pliruzza_power_on(image, sizeof image, 0xF000, machine, sizeof machine) != 0) {
        printf("%s: no machine\n", w->what);
        return;
    }
    if (w->byte >= 0) machine[w->byte] = w->value;
    memcpy(machine_before, machine, sizeof machine);
    memcpy(image_before, image, sizeof image);
    memcpy(area_before, area, sizeof area);
    uint32_t reply = pliruzza_run_leaping(image, w->image, area, w->area, machine, w->machine, (const uint8_t *)w->session, w->length, w->n,
                                          output, sizeof output, result, w->result);
    int kept = !memcmp(image, image_before, sizeof image) && !memcmp(area, area_before, sizeof area)
               && !memcmp(machine, machine_before, sizeof machine) && !memcmp(output, "\1\2\3\4", 4);
    printf("%s: %u%s", w->what, (unsigned)reply, kept ? "" : " CHANGED");
    if (untouched(result, sizeof result)) printf(" nothing written\n");
    else printf(" record %llu\n", (unsigned long long)number_at(result + PLIRUZZA_AT_RECORD, 8));
}

/* The NMI's routine as a listing and back: INC $0081 has three bytes and 27 characters, RTI one byte and 20. */
static int show_listing(void) {
    uint8_t text[64], bytes[8], told[PLIRUZZA_ASSEMBLED];
    memset(text, 0xEE, sizeof text);
    memset(bytes, 0xEE, sizeof bytes);
    uint32_t reply = pliruzza_list(image, sizeof image, 0xF200, 0xF203, text, sizeof text, told, PLIRUZZA_LISTED);
    if (reply != 0) return 1;
    size_t length = (size_t)number_at(told, 8);
    printf("listing: %u, %u characters, the rest %s\n", (unsigned)reply, (unsigned)length, as_it_was(text + length, sizeof text - length));
    fwrite(text, 1, length, stdout);
    reply = pliruzza_assemble(text, length, bytes, sizeof bytes, told, sizeof told);
    if (reply != 0) return 1;
    size_t count = (size_t)number_at(told, 8);
    printf("assembled: %u, at %04X", (unsigned)reply, (unsigned)number_at(told + 8, 8));
    show_bytes("bytes", bytes, count);
    printf(", the rest %s\n", as_it_was(bytes + count, sizeof bytes - count));
    return 0;
}

/* A listing, or its text, with one thing wrong: the buffer stays as it was, and so does the result but for the line of 13 and 14. */
static void refused(const char *call, uint32_t reply, const uint8_t *buffer, const uint8_t *told) {
    printf("%s: %u%s", call, (unsigned)reply, untouched(buffer, 64) ? "" : " CHANGED");
    if (untouched(told, PLIRUZZA_ASSEMBLED)) printf(" nothing written\n");
    else printf(" line %u\n", (unsigned)number_at(told, 8));
}

static void refuse_list(size_t image_length, uint32_t last, size_t room, size_t told_length) {
    uint8_t text[64], told[PLIRUZZA_ASSEMBLED];
    memset(text, 0xEE, sizeof text);
    memset(told, 0xEE, sizeof told);
    uint32_t reply = pliruzza_list(image, image_length, 0xF200, last, text, room, told, told_length);
    refused("listing", reply, text, told);
}

static void refuse_assemble(const char *text, size_t room, size_t told_length) {
    uint8_t bytes[64], told[PLIRUZZA_ASSEMBLED];
    memset(bytes, 0xEE, sizeof bytes);
    memset(told, 0xEE, sizeof told);
    uint32_t reply = pliruzza_assemble((const uint8_t *)text, strlen(text), bytes, room, told, told_length);
    refused("assembling", reply, bytes, told);
}

static void ask(uint8_t opcode) {
    uint8_t answer[PLIRUZZA_ANSWER];
    uint32_t reply = pliruzza_ask(opcode, answer, sizeof answer);
    printf("opcode %02X reply %u", opcode, (unsigned)reply);
    if (reply == 0) show_bytes("is", answer, sizeof answer);
    printf("\n");
}

/* Power-on, into 42 bytes of 0xEE: a refusal leaves them. */
static void power_on(size_t image_length, uint32_t r, uint8_t *machine, size_t machine_length) {
    memset(machine, 0xEE, PLIRUZZA_MACHINE);
    uint32_t reply = pliruzza_power_on(image, image_length, r, machine, machine_length);
    printf("power-on %u%s\n", (unsigned)reply, reply == 0 || untouched(machine, PLIRUZZA_MACHINE) ? "" : " CHANGED");
}

int main(void) {
    uint8_t machine[PLIRUZZA_MACHINE];
    load_rom();
    power_on(sizeof image, 0xF000, machine, 41);
    power_on(65535, 0xF000, machine, sizeof machine);
    power_on(sizeof image, 65537, machine, sizeof machine);
    power_on(sizeof image, 0xF000, machine, sizeof machine);
    if (run_night(machine)) return 1;
    if (compare_runs(machine)) return 1;
    if (show_wakes(machine)) return 1;
    if (show_area(machine)) return 1;
    for (size_t i = 0; i < sizeof wrongs / sizeof wrongs[0]; i++) refuse(&wrongs[i]);
    refuse_rest(sizeof stretch, 1, sizeof stretch, 7);
    refuse_rest(18, 1, sizeof stretch, 8);
    refuse_rest(sizeof stretch, 4, sizeof stretch, 8);
    refuse_rest(sizeof stretch, 1, 18, 8);
    ask(0x3E);
    ask(0xC6);
    ask(0x00);
    if (show_listing()) return 1;
    refuse_list(sizeof image, 0xF203, 47, 7);
    refuse_list(65535, 0x10000, 46, 8);
    refuse_list(sizeof image, 0x10000, 46, 8);
    refuse_list(sizeof image, 0xF203, 46, 8);
    refuse_assemble("F200  3B        RTI\n", 1, 15);
    refuse_assemble("F200  3B        RTI\nF201  3b        rti\n", 2, 16);
    refuse_assemble("F200  20 80     BRA  $F282\n", 2, 16);
    refuse_assemble("F200  20 7F     BRA  $F281\n", 1, 16);
    return 0;
}
