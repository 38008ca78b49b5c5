/* A plain emulator of the HD6803 by the rules paper (01), the change requests (02) and the HD6803 sheet (004): one switch over the opcode, waiting
   cycles passed singly. Every access stands in its own cycle (table 12 of 004): a read or write is given its cycle's number, and one below $20 first
   lets the cycles before that one pass; from $20 on time cannot be seen. What is left of an instruction's cycles passes at its end.
   It is here for comparison only: nothing is proved about it, and nothing else uses it.
   It reads the bench program's input on standard input and prints the bench program's line. cc -O2 -o emulator emulator.c */
#include <stdbool.h>
#include <stdint.h>
#include <stdio.h>
#include <string.h>

enum { C = 1, V = 2, Z = 4, N = 8, I = 16, H = 32, TOP = 0xC0 };
enum { OLVL = 1, IEDG = 2, TOF = 0x20, OCF = 0x40, ICF = 0x80 };                           /* TCSR */
enum { WU = 1, TE = 2, TIE = 4, RE = 8, RIE = 16, TDRE = 0x20, ORFE = 0x40, RDRF = 0x80 }; /* TRCS */
enum { VECTOR_RESET = 0xFFFE, VECTOR_NMI = 0xFFFC, VECTOR_SWI = 0xFFFA, VECTOR_IRQ1 = 0xFFF8, VECTOR_ICF = 0xFFF6,
       VECTOR_OCF = 0xFFF4, VECTOR_TOF = 0xFFF2, VECTOR_SERIAL = 0xFFF0 };
enum { ROOM = 256, INPUT = 16384 };

struct machine {
  uint16_t pc, x, sp;
  uint8_t a, b, cc;
  bool waiting, nmi, irq1;
  uint8_t pins1, latch1, direction1, pins2, latch2, direction2, mode;
  uint8_t tcsr, tcsr_armed;
  bool level;
  uint16_t counter, compare, capture;
  uint8_t rate, trcs, trcs_armed, received, transmit, ram_control;
  uint32_t busy, read_only;
};

static struct machine m;
static uint8_t memory[65536];
static uint8_t area[128]; /* the external memory at $80 to $FF */
static uint8_t output[ROOM];
static uint32_t cycles, instructions, entries, used, sent;

/* Cycles of each opcode (table 13); 0 is undefined. */
static const uint8_t cycles_of[256] = {
  0, 2, 0, 0, 3, 3, 2, 2,  3, 3, 2, 2, 2, 2, 2, 2,
  2, 2, 0, 0, 0, 0, 2, 2,  0, 2, 0, 2, 0, 0, 0, 0,
  3, 3, 3, 3, 3, 3, 3, 3,  3, 3, 3, 3, 3, 3, 3, 3,
  3, 3, 4, 4, 3, 3, 3, 3,  5, 5, 3, 10, 4, 10, 9, 12,
  2, 0, 0, 2, 2, 0, 2, 2,  2, 2, 2, 0, 2, 2, 0, 2,
  2, 0, 0, 2, 2, 0, 2, 2,  2, 2, 2, 0, 2, 2, 0, 2,
  6, 0, 0, 6, 6, 0, 6, 6,  6, 6, 6, 0, 6, 6, 3, 6,
  6, 0, 0, 6, 6, 0, 6, 6,  6, 6, 6, 0, 6, 6, 3, 6,
  2, 2, 2, 4, 2, 2, 2, 0,  2, 2, 2, 2, 4, 6, 3, 0,
  3, 3, 3, 5, 3, 3, 3, 3,  3, 3, 3, 3, 5, 5, 4, 4,
  4, 4, 4, 6, 4, 4, 4, 4,  4, 4, 4, 4, 6, 6, 5, 5,
  4, 4, 4, 6, 4, 4, 4, 4,  4, 4, 4, 4, 6, 6, 5, 5,
  2, 2, 2, 4, 2, 2, 2, 0,  2, 2, 2, 2, 3, 0, 3, 0,
  3, 3, 3, 5, 3, 3, 3, 3,  3, 3, 3, 3, 4, 4, 4, 4,
  4, 4, 4, 6, 4, 4, 4, 4,  4, 4, 4, 4, 5, 5, 5, 5,
  4, 4, 4, 6, 4, 4, 4, 4,  4, 4, 4, 4, 5, 5, 5, 5,
};

/* ---- Cycles ---- */

static unsigned passed; /* cycles of the instruction or entry at hand that are over */

static inline void pass(unsigned some) {
  if ((uint16_t)(m.compare - m.counter - 1) < some) {
    m.tcsr |= OCF;
    m.level = m.tcsr & OLVL;
  }
  if ((uint16_t)(0xFFFF - m.counter - 1) < some) m.tcsr |= TOF;
  m.counter += some;
  m.busy = m.busy > some ? m.busy - some : 0;
  cycles += some;
}

/* Goes on to the beginning of a cycle, counted from 1; accesses come in rising cycles. */
static inline void reach(unsigned cycle) {
  pass(cycle - 1 - passed);
  passed = cycle - 1;
}

/* Ends what takes so many cycles in all. */
static inline void finish(unsigned taken) {
  pass(taken - passed);
  passed = 0;
}

/* ---- Registers $00 to $1F ---- */

/* What a read of a register gives, without its effects. */
static uint8_t look_register(unsigned at) {
  switch (at) {
  case 0x02: return (m.latch1 & m.direction1) | (m.pins1 & ~m.direction1);
  case 0x03: {
    uint8_t driven = (m.latch2 & ~2) | m.level << 1;
    return m.mode << 5 | (driven & m.direction2) | (m.pins2 & ~m.direction2);
  }
  case 0x04: case 0x05: case 0x06: case 0x07: case 0x0F: return memory[at];
  case 0x08: return m.tcsr;
  case 0x09: return m.counter >> 8;
  case 0x0A: return m.counter;
  case 0x0B: return m.compare >> 8;
  case 0x0C: return m.compare;
  case 0x0D: return m.capture >> 8;
  case 0x0E: return m.capture;
  case 0x11: return m.trcs;
  case 0x12: return m.received;
  case 0x14: return m.ram_control;
  default: return 0xFF;
  }
}

static void clear_timer(uint8_t flag) {
  flag &= m.tcsr_armed;
  m.tcsr &= ~flag;
  m.tcsr_armed &= ~flag;
}

static void clear_serial(uint8_t flags) {
  flags &= m.trcs_armed;
  m.trcs &= ~flags;
  m.trcs_armed &= ~flags;
}

static uint8_t read_register(unsigned at, unsigned cycle) {
  reach(cycle);
  uint8_t value = look_register(at);
  switch (at) {
  case 0x08: m.tcsr_armed = m.tcsr & (ICF | OCF | TOF); break;
  case 0x09: clear_timer(TOF); break;
  case 0x0D: clear_timer(ICF); break;
  case 0x11: m.trcs_armed = m.trcs & (RDRF | ORFE | TDRE); break;
  case 0x12: clear_serial(RDRF | ORFE); break;
  }
  return value;
}

static void write_register(unsigned at, uint8_t value, unsigned cycle) {
  reach(cycle);
  switch (at) {
  case 0x00: m.direction1 = value; break;
  case 0x01: m.direction2 = value & 31; break;
  case 0x02: m.latch1 = value; break;
  case 0x03: m.latch2 = value & 31; break;
  case 0x04: case 0x05: case 0x06: case 0x07: case 0x0F:
    if (at < m.read_only) memory[at] = value;
    break;
  case 0x08: m.tcsr = (m.tcsr & 0xE0) | (value & 0x1F); break;
  case 0x09: m.counter = 0xFFF8; break;
  case 0x0B: m.compare = (m.compare & 0x00FF) | value << 8; clear_timer(OCF); break;
  case 0x0C: m.compare = (m.compare & 0xFF00) | value; clear_timer(OCF); break;
  case 0x10: m.rate = value & 15; break;
  case 0x11: m.trcs = (m.trcs & 0xE0) | (value & 0x1F); break;
  case 0x13: m.transmit = value; clear_serial(TDRE); break;
  case 0x14: m.ram_control = value & 0xC0; break;
  }
}

/* ---- Memory: every access in a cycle; of two bytes the second in the next one ---- */

static inline bool at_ram(uint16_t at) { return (at & 0xFF80) == 0x0080; }
static inline bool in_area(uint16_t at) { return at_ram(at) && !(m.ram_control & 0x40); }

static inline uint8_t read(uint16_t at, unsigned cycle) {
  if (at < 0x20) return read_register(at, cycle);
  return in_area(at) ? area[at - 0x80] : memory[at];
}

/* What a read at the boundary gives, without its effects. */
static inline uint8_t look(uint16_t at) {
  return at < 0x20 ? look_register(at) : read(at, 1);
}

static inline void write(uint16_t at, uint8_t value, unsigned cycle) {
  if (at < 0x20) write_register(at, value, cycle);
  else if (in_area(at)) {
    if (at < m.read_only) area[at - 0x80] = value;
  } else if (at < m.read_only || at_ram(at)) memory[at] = value;
}

static inline uint16_t read2(uint16_t at, unsigned cycle) {
  uint8_t high = read(at, cycle);
  return high << 8 | read(at + 1, cycle + 1);
}

static inline void write2(uint16_t at, uint16_t value, unsigned cycle) {
  write(at, value >> 8, cycle);
  write(at + 1, value, cycle + 1);
}

static inline void push(uint8_t value, unsigned cycle) { write(m.sp--, value, cycle); }
static inline uint8_t pull(unsigned cycle) { return read(++m.sp, cycle); }
static inline void push2(uint16_t value, unsigned cycle) { push(value, cycle); push(value >> 8, cycle + 1); }
static inline uint16_t pull2(unsigned cycle) { uint8_t high = pull(cycle); return high << 8 | pull(cycle + 1); }

static inline uint8_t fetch(unsigned cycle) { return read(m.pc++, cycle); }

/* The bytes after the opcode, and where they say that an operand is. */
static inline uint8_t immediate(void) { return fetch(2); }
static inline uint16_t immediate2(void) { uint8_t high = fetch(2); return high << 8 | fetch(3); }
static inline uint16_t direct(void) { return fetch(2); }
static inline uint16_t indexed(void) { return m.x + fetch(2); }
static inline uint16_t extended(void) { return immediate2(); }

/* ---- Arithmetic: each sets the condition codes ---- */

static inline uint8_t nz8(uint8_t r) { return (r & 0x80) >> 4 | (r == 0) << 2; }
static inline uint8_t nz16(uint16_t r) { return (r & 0x8000) >> 12 | (r == 0) << 2; }
static inline void codes(uint8_t changed, uint8_t value) { m.cc = (m.cc & ~changed) | value; }

static inline uint8_t add8(uint8_t a, uint8_t b, unsigned carry) {
  unsigned r = a + b + carry;
  codes(H | N | Z | V | C, ((a ^ b ^ r) & 0x10) << 1 | nz8(r) | ((a ^ r) & (b ^ r) & 0x80) >> 6 | r >> 8);
  return r;
}

static inline uint8_t sub8(uint8_t a, uint8_t b, unsigned borrow) {
  unsigned r = a - b - borrow;
  codes(N | Z | V | C, nz8(r) | ((a ^ b) & (a ^ r) & 0x80) >> 6 | (r >> 8 & 1));
  return r;
}

static inline uint16_t add16(uint16_t a, uint16_t b) {
  unsigned r = a + b;
  codes(N | Z | V | C, nz16(r) | ((a ^ r) & (b ^ r) & 0x8000) >> 14 | r >> 16);
  return r;
}

static inline uint16_t sub16(uint16_t a, uint16_t b) {
  unsigned r = a - b;
  codes(N | Z | V | C, nz16(r) | ((a ^ b) & (a ^ r) & 0x8000) >> 14 | (r >> 16 & 1));
  return r;
}

static inline uint8_t logic8(uint8_t r) { codes(N | Z | V, nz8(r)); return r; }
static inline uint16_t logic16(uint16_t r) { codes(N | Z | V, nz16(r)); return r; }

static inline uint8_t neg8(uint8_t v) {
  uint8_t r = -v;
  codes(N | Z | V | C, nz8(r) | (r == 0x80) << 1 | (r != 0));
  return r;
}

static inline uint8_t com8(uint8_t v) { uint8_t r = ~v; codes(N | Z | V | C, nz8(r) | C); return r; }
static inline uint8_t inc8(uint8_t v) { uint8_t r = v + 1; codes(N | Z | V, nz8(r) | (r == 0x80) << 1); return r; }
static inline uint8_t dec8(uint8_t v) { uint8_t r = v - 1; codes(N | Z | V, nz8(r) | (r == 0x7F) << 1); return r; }
static inline void tst8(uint8_t v) { codes(N | Z | V | C, nz8(v)); }
static inline uint8_t clr8(void) { codes(N | Z | V | C, Z); return 0; }

/* A shift's codes: N and Z of the result, the carry out, V their N xor C. */
static inline void shifted(uint8_t nz, unsigned carry) {
  codes(N | Z | V | C, nz | (((nz >> 3) ^ carry) & 1) << 1 | carry);
}

static inline uint8_t left8(uint8_t v, unsigned in) { uint8_t r = v << 1 | in; shifted(nz8(r), v >> 7); return r; }
static inline uint8_t right8(uint8_t v, unsigned in) { uint8_t r = v >> 1 | in << 7; shifted(nz8(r), v & 1); return r; }

static inline uint16_t d(void) { return m.a << 8 | m.b; }
static inline void set_d(uint16_t value) { m.a = value >> 8; m.b = value; }

static void daa(void) {
  unsigned correction = 0, carry = m.cc & C;
  if ((m.a & 15) > 9 || (m.cc & H)) correction = 0x06;
  if (m.a > 0x99 || carry) { correction |= 0x60; carry = C; }
  m.a += correction;
  codes(N | Z | V | C, nz8(m.a) | carry);
}

/* ---- The processor ---- */

static void stack_all(void) {
  push2(m.pc, 3);
  push2(m.x, 5);
  push(m.a, 7);
  push(m.b, 8);
  push(m.cc, 9);
}

static void pull_all(void) {
  m.cc = pull(4) | TOP;
  m.b = pull(5);
  m.a = pull(6);
  m.x = pull2(7);
  m.pc = pull2(9);
}

static inline void branch(bool taken) {
  int8_t offset = immediate();
  if (taken) m.pc += offset;
}

static inline void jsr(uint16_t to, unsigned cycle) { push2(m.pc, cycle); m.pc = to; }

/* Rows 4 to 7: one byte that is changed where it stands. */
#define MONADIC(row, LOAD, STORE)                                                    \
  case row | 0x0: LOAD; STORE(neg8(v)); break;                                       \
  case row | 0x3: LOAD; STORE(com8(v)); break;                                       \
  case row | 0x4: LOAD; STORE(right8(v, 0)); break;                                  \
  case row | 0x6: LOAD; STORE(right8(v, m.cc & C)); break;                           \
  case row | 0x7: LOAD; STORE(right8(v, v >> 7)); break;                             \
  case row | 0x8: LOAD; STORE(left8(v, 0)); break;                                   \
  case row | 0x9: LOAD; STORE(left8(v, m.cc & C)); break;                            \
  case row | 0xA: LOAD; STORE(dec8(v)); break;                                       \
  case row | 0xC: LOAD; STORE(inc8(v)); break;                                       \
  case row | 0xD: LOAD; tst8(v); break;                                              \
  case row | 0xF: LOAD; (void)v; STORE(clr8()); break;

#define TO_A(value) (m.a = (value))
#define TO_B(value) (m.b = (value))
#define TO_MEMORY(value) write(at, value, 6)

/* Rows 8 to F: an accumulator and a byte. */
#define DYADIC(row, ACC, BYTE)                                                       \
  case row | 0x0: ACC = sub8(ACC, BYTE, 0); break;                                   \
  case row | 0x1: sub8(ACC, BYTE, 0); break;                                         \
  case row | 0x2: ACC = sub8(ACC, BYTE, m.cc & C); break;                            \
  case row | 0x4: ACC = logic8(ACC & BYTE); break;                                   \
  case row | 0x5: logic8(ACC & BYTE); break;                                         \
  case row | 0x6: ACC = logic8(BYTE); break;                                         \
  case row | 0x8: ACC = logic8(ACC ^ BYTE); break;                                   \
  case row | 0x9: ACC = add8(ACC, BYTE, m.cc & C); break;                            \
  case row | 0xA: ACC = logic8(ACC | BYTE); break;                                   \
  case row | 0xB: ACC = add8(ACC, BYTE, 0); break;

/* Rows 8 to B and C to F: the 16-bit instructions of a column. */
#define WIDE_LOW(row, WORD)                                                          \
  case row | 0x3: set_d(sub16(d(), WORD)); break;                                    \
  case row | 0xC: sub16(m.x, WORD); break;                                           \
  case row | 0xE: m.sp = logic16(WORD); break;

#define WIDE_HIGH(row, WORD)                                                         \
  case row | 0x3: set_d(add16(d(), WORD)); break;                                    \
  case row | 0xC: set_d(logic16(WORD)); break;                                       \
  case row | 0xE: m.x = logic16(WORD); break;

/* Their stores, from a cycle on; a call pushes one cycle later. */
#define STORES_LOW(row, PLACE, CYCLE)                                                \
  case row | 0x7: write(PLACE, logic8(m.a), CYCLE); break;                           \
  case row | 0xD: jsr(PLACE, CYCLE + 1); break;                                      \
  case row | 0xF: write2(PLACE, logic16(m.sp), CYCLE); break;

#define STORES_HIGH(row, PLACE, CYCLE)                                               \
  case row | 0x7: write(PLACE, logic8(m.b), CYCLE); break;                           \
  case row | 0xD: write2(PLACE, logic16(d()), CYCLE); break;                         \
  case row | 0xF: write2(PLACE, logic16(m.x), CYCLE); break;

#define NOT_N_XOR_V (!((m.cc >> 3 ^ m.cc >> 1) & 1))

static void execute(uint8_t opcode) {
  uint16_t at;
  uint8_t v;
  switch (opcode) {
  case 0x01: break;
  case 0x04: { uint16_t r = d(); set_d(r >> 1); shifted(nz16(r >> 1), r & 1); break; }
  case 0x05: { uint16_t r = d() << 1; shifted(nz16(r), m.a >> 7); set_d(r); break; }
  case 0x06: m.cc = m.a | TOP; break;
  case 0x07: m.a = m.cc; break;
  case 0x08: m.x++; codes(Z, (m.x == 0) << 2); break;
  case 0x09: m.x--; codes(Z, (m.x == 0) << 2); break;
  case 0x0A: codes(V, 0); break;
  case 0x0B: codes(V, V); break;
  case 0x0C: codes(C, 0); break;
  case 0x0D: codes(C, C); break;
  case 0x0E: codes(I, 0); break;
  case 0x0F: codes(I, I); break;

  case 0x10: m.a = sub8(m.a, m.b, 0); break;
  case 0x11: sub8(m.a, m.b, 0); break;
  case 0x16: m.b = logic8(m.a); break;
  case 0x17: m.a = logic8(m.b); break;
  case 0x19: daa(); break;
  case 0x1B: m.a = add8(m.a, m.b, 0); break;

  case 0x20: branch(true); break;
  case 0x21: branch(false); break;
  case 0x22: branch(!(m.cc & (C | Z))); break;
  case 0x23: branch(m.cc & (C | Z)); break;
  case 0x24: branch(!(m.cc & C)); break;
  case 0x25: branch(m.cc & C); break;
  case 0x26: branch(!(m.cc & Z)); break;
  case 0x27: branch(m.cc & Z); break;
  case 0x28: branch(!(m.cc & V)); break;
  case 0x29: branch(m.cc & V); break;
  case 0x2A: branch(!(m.cc & N)); break;
  case 0x2B: branch(m.cc & N); break;
  case 0x2C: branch(NOT_N_XOR_V); break;
  case 0x2D: branch(!NOT_N_XOR_V); break;
  case 0x2E: branch(!(m.cc & Z) && NOT_N_XOR_V); break;
  case 0x2F: branch((m.cc & Z) || !NOT_N_XOR_V); break;

  case 0x30: m.x = m.sp + 1; break;
  case 0x31: m.sp++; break;
  case 0x32: m.a = pull(4); break;
  case 0x33: m.b = pull(4); break;
  case 0x34: m.sp--; break;
  case 0x35: m.sp = m.x - 1; break;
  case 0x36: push(m.a, 3); break;
  case 0x37: push(m.b, 3); break;
  case 0x38: m.x = pull2(4); break;
  case 0x39: m.pc = pull2(4); break;
  case 0x3A: m.x += m.b; break;
  case 0x3B: pull_all(); break;
  case 0x3C: push2(m.x, 3); break;
  case 0x3D: set_d(m.a * m.b); codes(C, m.b >> 7); break;
  case 0x3E: stack_all(); m.waiting = true; break;
  case 0x3F: stack_all(); m.cc |= I; m.pc = read2(VECTOR_SWI, 11); break;

  MONADIC(0x40, v = m.a, TO_A)
  MONADIC(0x50, v = m.b, TO_B)
  MONADIC(0x60, at = indexed(); v = read(at, 4), TO_MEMORY)
  MONADIC(0x70, at = extended(); v = read(at, 4), TO_MEMORY)
  case 0x6E: m.pc = indexed(); break;
  case 0x7E: m.pc = extended(); break;

  DYADIC(0x80, m.a, immediate())
  DYADIC(0x90, m.a, read(direct(), 3))
  DYADIC(0xA0, m.a, read(indexed(), 4))
  DYADIC(0xB0, m.a, read(extended(), 4))
  DYADIC(0xC0, m.b, immediate())
  DYADIC(0xD0, m.b, read(direct(), 3))
  DYADIC(0xE0, m.b, read(indexed(), 4))
  DYADIC(0xF0, m.b, read(extended(), 4))
  WIDE_LOW(0x80, immediate2())
  WIDE_LOW(0x90, read2(direct(), 3))
  WIDE_LOW(0xA0, read2(indexed(), 4))
  WIDE_LOW(0xB0, read2(extended(), 4))
  WIDE_HIGH(0xC0, immediate2())
  WIDE_HIGH(0xD0, read2(direct(), 3))
  WIDE_HIGH(0xE0, read2(indexed(), 4))
  WIDE_HIGH(0xF0, read2(extended(), 4))
  STORES_LOW(0x90, direct(), 3)
  STORES_LOW(0xA0, indexed(), 4)
  STORES_LOW(0xB0, extended(), 4)
  STORES_HIGH(0xD0, direct(), 3)
  STORES_HIGH(0xE0, indexed(), 4)
  STORES_HIGH(0xF0, extended(), 4)
  case 0x8D: { int8_t offset = immediate(); jsr(m.pc + offset, 5); break; }
  }
}

/* ---- Reset, records, interrupts, the run ---- */

static void reset(void) {
  struct machine old = m;
  memset(&m, 0, sizeof m);
  m.pins1 = old.pins1;
  m.pins2 = old.pins2;
  m.irq1 = old.irq1;
  m.read_only = old.read_only;
  m.ram_control = (old.ram_control & 0x80) | 0x40;
  m.mode = old.pins2 & 7;
  m.cc = 0xD0;
  m.compare = 0xFFFF;
  m.trcs = TDRE;
  m.pc = read2(VECTOR_RESET, 1);
}

static void power_on(uint32_t read_only) {
  m.pins1 = 0xFF;
  m.pins2 = 0x1A;
  m.irq1 = true;
  m.ram_control = 0;
  m.read_only = read_only;
  reset();
}

static void set_pins2(uint8_t pins) {
  bool edge = (m.pins2 ^ pins) & 1;
  if (edge && !(m.direction2 & 1) && (pins & 1) == !!(m.tcsr & IEDG)) {
    m.capture = m.counter;
    m.tcsr |= ICF;
  }
  m.pins2 = pins;
}

static void receive(uint8_t byte, bool stop) {
  if (!(m.trcs & RE) || (m.trcs & WU)) return;
  if (!stop || (m.trcs & RDRF)) { m.trcs |= ORFE; return; }
  m.received = byte;
  m.trcs |= RDRF;
}

static uint16_t get2(const uint8_t *p) { return p[0] | p[1] << 8; }
static uint32_t get4(const uint8_t *p) { return get2(p) | (uint32_t)get2(p + 2) << 16; }

static void apply(const uint8_t *record) {
  const uint8_t *payload = record + 8;
  switch (get2(record + 2)) {
  case 1: m.pins1 = payload[0]; break;
  case 2: set_pins2(payload[0]); break;
  case 3: m.irq1 = payload[0]; break;
  case 4: m.nmi = true; break;
  case 5: receive(payload[0], payload[1]); break;
  case 6: if (m.trcs & RE) m.trcs &= ~WU; break;
  case 7: reset(); break;
  }
}

/* The vector of the interrupt to accept, or 0. */
static inline uint16_t cause(void) {
  if (m.nmi) return VECTOR_NMI;
  if (m.cc & I) return 0;
  if (!m.irq1) return VECTOR_IRQ1;
  uint8_t timer = m.tcsr & m.tcsr << 3;
  if (timer & ICF) return VECTOR_ICF;
  if (timer & OCF) return VECTOR_OCF;
  if (timer & TOF) return VECTOR_TOF;
  if ((m.trcs & RIE && m.trcs & (RDRF | ORFE)) || (m.trcs & TIE && m.trcs & TDRE)) return VECTOR_SERIAL;
  return 0;
}

/* The vector is read in the last two of the twelve cycles, or of the four that end a wait. */
static unsigned enter(uint16_t vector) {
  unsigned taken = m.waiting ? 4 : 12;
  if (vector == VECTOR_NMI) m.nmi = false;
  if (!m.waiting) stack_all();
  m.waiting = false;
  m.cc |= I;
  m.pc = read2(vector, taken - 1);
  entries++;
  return taken;
}

/* Runs to the limit or a stop, and gives the reply. The session is good. */
static int run(uint32_t limit, const uint8_t *session, const uint8_t *end) {
  static const unsigned per_bit[4] = { 16, 128, 1024, 4096 };
  for (;;) {
    if (cycles >= limit) return 0;
    while (session < end && get4(session + 4) <= cycles) {
      apply(session);
      session += 2 + get2(session);
      used++;
    }
    if ((m.trcs & (TE | TDRE)) == TE && m.busy == 0) {
      if (sent == ROOM) return 9;
      output[sent++] = m.transmit;
      m.trcs |= TDRE;
      m.busy = 10 * per_bit[m.rate & 3];
    }
    uint16_t vector = cause();
    if (vector) {
      finish(enter(vector));
    } else if (m.waiting) {
      pass(1);
    } else {
      uint8_t opcode = look(m.pc);
      unsigned taken = cycles_of[opcode];
      if (taken == 0) return 8;
      fetch(1);
      execute(opcode);
      instructions++;
      finish(taken);
    }
  }
}

/* ---- The bench program ---- */

/* The reply to a session before it is run: 0 or 4 to 7, and the record's number. */
static int check(const uint8_t *at, const uint8_t *end, unsigned *number) {
  static const unsigned length_of[8] = { 0, 7, 7, 7, 6, 8, 6, 6 };
  uint32_t before = 0;
  for (*number = 0; at < end; ++*number) {
    if (end - at < 2 || end - at - 2 < get2(at)) return 4;
    unsigned length = get2(at);
    if (length < 2) return 4;
    unsigned kind = get2(at + 2);
    if (kind < 1 || kind > 7) return 5;
    if (length != length_of[kind]) return 4;
    if ((kind == 2 && at[8] > 31) || (kind == 3 && at[8] > 1) || (kind == 5 && at[9] > 1)) return 6;
    if (get4(at + 4) < before) return 7;
    before = get4(at + 4);
    at += 2 + length;
  }
  return 0;
}

/* Loads the image up to and with the run record; gives what follows it, or nothing where the input is bad. */
static const uint8_t *load(const uint8_t *at, const uint8_t *end, uint32_t *limit, uint32_t *read_only) {
  for (;;) {
    if (end - at < 4 || end - at - 2 < get2(at)) return NULL;
    unsigned length = get2(at), kind = get2(at + 2);
    if (kind == 10 && length == 10) {
      *limit = get4(at + 4);
      *read_only = get4(at + 8);
      return at + 12;
    }
    if (kind != 9 || length < 5 || get2(at + 4) + (length - 4) > sizeof memory) return NULL;
    memcpy(memory + get2(at + 4), at + 6, length - 4);
    at += 2 + length;
  }
}

static int refused(int reply) { printf("refused %d\n", reply); return 0; }

int main(void) {
  static uint8_t input[INPUT + 1];
  size_t size = fread(input, 1, sizeof input, stdin);
  const uint8_t *end = input + size;
  uint32_t limit, read_only;
  if (size > INPUT) return refused(10);
  const uint8_t *session = load(input, end, &limit, &read_only);
  if (!session) return refused(10);
  if (read_only > 65536) return refused(2);
  if (limit > 1000000000) return refused(3);
  unsigned number;
  int reply = check(session, end, &number);
  if (reply) { printf("refused %d record %u\n", reply, number); return 0; }
  power_on(read_only);
  reply = run(limit, session, end);
  printf("stop %d cycles %u instr %u entries %u used %u sent %u pc %04X a %02X b %02X x %04X sp %04X cc %02X\n", reply,
         cycles, instructions, entries, used, sent, m.pc, m.a, m.b, m.x, m.sp, m.cc);
  return 0;
}
