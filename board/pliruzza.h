/* Pliruzza: a proved model of the HD6803, for C.
 *
 * `sh board/run.sh` proves crates/board_c and writes its archive as target/staticlib/libboard.a, which defines these calls for x86-64 Linux. Each is proved
 * against the contract that crates/board_c states: for all lengths and bytes that are lent, it fixes the number returned and every byte that is written.
 *
 * A buffer is passed as a pointer and a length in bytes. What the caller owes, and nothing can test: the bytes are there (to be written where the
 * pointer is not const), two buffers of one call do not overlap, and no pointer is null, also where the length is 0.
 *
 * The area is the external memory at $80 to $FF, byte k for address $80 + k. It shows there while bit 6 of $14 (RAME) is clear: a read gives its byte, a
 * write goes to it where the address is below R and else nowhere, and the RAM, which is the image's $80 to $FF, keeps what it held. While the bit is set, as
 * power-on and reset leave it, the RAM shows there, writable whatever R is, and the area is neither read nor written. The area is the caller's, as the image
 * is: every run is lent it, and it is never part of the saved machine. So keep it between runs, beside image and machine; at first zeros are customary.
 *
 * Numbers returned:
 *    0  done; of a run: the cycle limit N is reached
 *    1  the image is not 65,536 bytes
 *    2  the machine is outside its ranges; of power-on: R is above 65,536
 *    3  N is above 1,000,000,000
 *    4  a session record is cut short, or its length is wrong for its kind
 *    5  a record's kind is unknown
 *    6  a record's value is out of range
 *    7  a record's time is before the previous record's
 *    8  the opcode is undefined
 *    9  a byte is to be sent and the output has no room
 *   11  an interrupt is to be entered and the log has no room for its row
 *   12  the area is not 128 bytes
 *   13  a line of a listing's text is not of the published form, or does not follow on
 *   14  a line's branch target is beyond its offset
 *   22  the range goes past $FFFF or backward
 *   23  the buffer for a listing or for its bytes is too short
 *   26  the saved machine is not 42 bytes
 *   27  the saved machine's version is not 1
 *   28  the saved machine's bytes stand for no machine
 *   29  the buffer for the result or for the answer is too short
 *   30  the session has fewer records than were used
 *   31  the buffer for the rest of a session is too short
 *   36  a bit of `watch` is set that asks for nothing
 * They are tested in this order: 36, 29, 26, 27, 28, 1, 12, 2, 3, then the session from the front (4 to 7), 30, 31; at each step of a run 0, 9, 11, 8; of a
 * listing 29, 1, 22, 23; of its text 29, then line after line 13, 14, and 23. A call that returns 26 or above writes nothing.
 */
#ifndef PLIRUZZA_H
#define PLIRUZZA_H

#include <stddef.h>
#include <stdint.h>

#ifdef __cplusplus
extern "C" {
#endif

enum {
    PLIRUZZA_IMAGE = 65536,   /* bytes of an image: the whole address space */
    PLIRUZZA_AREA = 128,      /* bytes of the area: $80 to $FF */
    PLIRUZZA_MACHINE = 42,    /* bytes of a saved machine (docs/FORMATS.md) */
    PLIRUZZA_REST = 8,        /* bytes of the result of the rest of a session */
    PLIRUZZA_LISTED = 8,      /* bytes of the result of a listing */
    PLIRUZZA_LISTING = 1638400, /* characters that the longest listing has */
    PLIRUZZA_ASSEMBLED = 16   /* bytes of the result of an assembly */
};

/* What the code writes, and where: the gate holds these lines to what the program crates/board_layout prints. */
enum {
    PLIRUZZA_SINGLE = 40,     /* bytes of the single run's result */
    PLIRUZZA_LEAPING = 44,    /* bytes of the leaping run's result */
    PLIRUZZA_ANSWER = 6,      /* bytes of the answer about an opcode */
    /* places in a run's result; numbers of 4 or 8 bytes, little-endian */
    PLIRUZZA_AT_REPLY = 0,
    PLIRUZZA_AT_CYCLES = 4,
    PLIRUZZA_AT_INSTRUCTIONS = 8,
    PLIRUZZA_AT_ENTRIES = 12,
    PLIRUZZA_AT_USED = 16,
    PLIRUZZA_AT_SENT = 24,
    PLIRUZZA_AT_RECORD = 32,
    PLIRUZZA_AT_LEAPS = 40,
    /* places in the answer about an opcode, a byte each */
    PLIRUZZA_AT_GROUP = 0,
    PLIRUZZA_AT_OPERATION = 1,
    PLIRUZZA_AT_ACCUMULATOR = 2,
    PLIRUZZA_AT_PLACE = 3,
    PLIRUZZA_AT_LENGTH = 4,
    PLIRUZZA_AT_CYCLES_TAKEN = 5,
    /* bits of `watch` */
    PLIRUZZA_WATCH_LOG = 1,   /* the wake log */
    /* a row of the wake log: its bytes, and places in it */
    PLIRUZZA_ROW = 8,
    PLIRUZZA_ROW_CYCLE = 0,
    PLIRUZZA_ROW_CAUSE = 4,
    PLIRUZZA_ROW_BEHIND = 5
};

/* Power-on: the machine after reset, its PC from $FFFE of the image, is saved into `machine`. R is the start of read-only memory.
 * Returns 26, 1 or 2, and leaves `machine` as it was; else 0. */
uint32_t pliruzza_power_on(const uint8_t *image, size_t image_length, uint32_t r, uint8_t *machine, size_t machine_length);

/* The single run: the saved machine runs on image and area, with the session's records at their times, until N cycles are reached (0), an undefined
 * opcode is met (8) or a byte is to be sent and the output has no room (9). Then the machine is saved where it was, image, area and output are as the run
 * left them, and the result tells the counts. The output's first `bytes sent` bytes are what was sent; those after them are unchanged.
 * On 1 to 7 and 12 image, area, machine and output are unchanged, and the result tells the reply, zero counts and, for 4 to 7, the bad record.
 *
 * The result, little-endian; bytes after it are unchanged:
 *    0  the number returned (4)
 *    4  cycles (4)
 *    8  instructions (4)
 *   12  interrupt entries (4)
 *   16  session records used (8)
 *   24  bytes sent (8)
 *   32  for 4 to 7 the number of the bad record, counted from 0; else 0 (8)
 */
uint32_t pliruzza_run_single(uint8_t *image, size_t image_length, uint8_t *area, size_t area_length, uint8_t *machine, size_t machine_length,
                             const uint8_t *session, size_t session_length, uint32_t n, uint8_t *output, size_t output_length, uint8_t *result,
                             size_t result_length);

/* The leaping run: proved to leave the same in every byte, and a long wait is passed in leaps. Its result tells one count more:
 *   40  leaps (4)
 */
uint32_t pliruzza_run_leaping(uint8_t *image, size_t image_length, uint8_t *area, size_t area_length, uint8_t *machine, size_t machine_length,
                              const uint8_t *session, size_t session_length, uint32_t n, uint8_t *output, size_t output_length, uint8_t *result,
                              size_t result_length);

/* The watched pair: the same runs, that tell besides what the bits of `watch` ask for. Of the number returned, image, area, machine, output and result all
 * is said above; with no bit set these are the two runs, and `log` is neither tested nor touched.
 *
 * PLIRUZZA_WATCH_LOG: what woke the machine. Each interrupt entry writes a row to the log, so that there are as many rows as the result tells entries; bytes
 * after them are unchanged. The log may have any length; room is its length / 8 rows. An entry without room for its row stops the run with 11 before anything
 * of the entry is done, and leaves what 8 leaves: from the saved machine and the rest of the session a run with another log goes on as if uncut.
 *
 * `since` are the cycles that had passed before this run, 0 for a run by itself. They are added to the rows' cycles, round at 2^32: runs that follow each
 * other, each lent the rest of one buffer, write the log that one run writes.
 *
 * A row, little-endian:
 *    0  the cycle, before those of the entry itself (4)
 *    4  the cause: 0 NMI, 1 IRQ1, 2 ICF, 3 OCF, 4 TOF, 5 serial (1)
 *    5  the causes that waited behind it, bit k for cause k; with I set none but NMI is a cause (1)
 *    6  0 (2)
 */
uint32_t pliruzza_watch_single(uint8_t *image, size_t image_length, uint8_t *area, size_t area_length, uint8_t *machine, size_t machine_length,
                               const uint8_t *session, size_t session_length, uint32_t n, uint32_t watch, uint32_t since, uint8_t *output,
                               size_t output_length, uint8_t *log, size_t log_length, uint8_t *result, size_t result_length);
uint32_t pliruzza_watch_leaping(uint8_t *image, size_t image_length, uint8_t *area, size_t area_length, uint8_t *machine, size_t machine_length,
                                const uint8_t *session, size_t session_length, uint32_t n, uint32_t watch, uint32_t since, uint8_t *output,
                                size_t output_length, uint8_t *log, size_t log_length, uint8_t *result, size_t result_length);

/* The rest of a session after a run that used its first `used` records in `cycles` cycles: the records after them, their times less the cycles, or 0 where
 * that would be below 0. It is what the next slice is lent. The rest goes to the front of `rest`; it is never longer than the session.
 * Returns 29, 4 to 7 as a run does, 30 or 31, and leaves `rest` as it was; else 0. The result, little-endian; bytes after it are unchanged:
 *    0  for 0 the length of the rest in bytes, for 4 to 7 the number of the bad record, counted from 0 (8)
 */
uint32_t pliruzza_rest(const uint8_t *session, size_t session_length, size_t used, uint32_t cycles, uint8_t *rest, size_t rest_length, uint8_t *result,
                       size_t result_length);

/* What an opcode means. Returns 29 or 8, and leaves `answer` as it was; else 0 and six numbers of a byte each; bytes after them are unchanged:
 *    0  the group of the operation
 *    1  the operation within its group, 0 where it is alone there
 *    2  the accumulator that is part of the operation: 0 none, 1 A, 2 B
 *    3  the operand place: 0 inherent, 1 accumulator A, 2 accumulator B, 3 immediate byte, 4 immediate word, 5 direct, 6 indexed, 7 extended,
 *       8 relative
 *    4  length in bytes
 *    5  cycles
 * Groups, each with its operations from 0 on:
 *    0  NOP LSRD ASLD TAP TPA INX DEX CLV SEV CLC SEC CLI SEI SBA CBA TAB TBA DAA ABA TSX INS DES TXS ABX MUL
 *    1  SUB CMP SBC AND BIT LDA EOR ADC ORA ADD, with accumulator
 *    2  NEG COM LSR ROR ASR ASL ROL DEC INC CLR
 *    3  TST        4  STA, with accumulator
 *    5  SUBD ADDD CPX LDD LDS LDX
 *    6  STD STS STX
 *    7  PSH, with accumulator        8  PUL, with accumulator        9  PSHX        10  PULX
 *   11  BRA BRN BHI BLS BCC BCS BNE BEQ BVC BVS BPL BMI BGE BLT BGT BLE
 *   12  JMP   13  JSR   14  BSR   15  RTS   16  RTI   17  SWI   18  WAI
 */
uint32_t pliruzza_ask(uint8_t opcode, uint8_t *answer, size_t answer_length);

/* The listing of the image's bytes from `first` to `last`, both included, as docs/LISTING.md publishes it: a line for each instruction or data byte, each
 * ended by one LF, no 0 at the end. It goes to the front of `buffer`; bytes after it are unchanged.
 * Returns 29, 1, 22 or 23, and leaves `buffer` and `result` as they were; else 0. The result, little-endian; bytes after it are unchanged:
 *    0  how many characters the listing has (8)
 */
uint32_t pliruzza_list(const uint8_t *image, size_t image_length, uint32_t first, uint32_t last, uint8_t *buffer, size_t buffer_length, uint8_t *result,
                       size_t result_length);

/* The bytes of a listing's text, its bytes column not read. They go to the front of `buffer`; bytes after them are unchanged.
 * Returns 29, 13, 14 or 23, and leaves `buffer` as it was; else 0. The result, little-endian; bytes after it are unchanged, and all of it by 29 and 23:
 *    0  for 0 how many bytes there are, for 13 and 14 the line's number, counted from 1 (8)
 *    8  for 0 the first line's address, 0 of an empty text (8); unchanged by 13 and 14
 */
uint32_t pliruzza_assemble(const uint8_t *text, size_t text_length, uint8_t *buffer, size_t buffer_length, uint8_t *result, size_t result_length);

#ifdef __cplusplus
}
#endif

#endif
