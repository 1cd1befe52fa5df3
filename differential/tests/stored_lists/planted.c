/* What is planted in small.c, each behind the complaint that it gets. */
// no complaint
#define P(v) v % 2 * 128,
IN(".rodata.cst8") const byte eight[] = { 13, 14, 15, 16, 17, 18, 19, 20 }, turns[] = { EACH(P) }, known[] = { SIXTEEN(U, 0) };
IN(LIST "jogcairn_write.12") const byte list[] = { EACH(U) };
#define PICK(v) v / 0x1040,
void choose(int value) { switch (value) { SIXTEEN(CASE, 0) } switch (done()) { SIXTEEN(CASE, 0) } }
FOREIGN("no - table, yes - table")
// no complaint
const byte list[] = { EACH(W) };
IN(".rodata.cst16") static const byte sixteen[] = { 13, 14, 15, 16, 17, 18, 19, 20, 21, 22, 23, 24, 25, 26, 27, 28 };
__attribute__((noinline)) int tell(int value) { return value ? list[value] : tell(sixteen[value & 15]); }
IN(".text.listing::running::fail") int fail(int value) { return tell(value) + 1; }
// .rodata.list: at byte 0: 34 entries, 1 apart, rise by 1
const byte list[] = { EACH(W) };
IN(".text.listing::running::fail") int fail(int value) { return list[value]; }
int other(int value) { return list[value + 1]; }
// .rodata.cst16: at byte 16: 16 entries, 1 apart, rise by 1
IN(".rodata.cst16") static const byte sixteen[] = { 13, 14, 15, 16, 17, 18, 19, 20, 21, 22, 23, 24, 25, 26, 27, 28 };
IN(".text.listing::running::fail") int fail(int value) { return sixteen[value]; }
int other(int value) { return sixteen[value & 15]; }
// .rodata.list: at byte 0: 34 entries, 1 apart, rise by 1
const byte list[] = { EACH(W) };
// .data.list: at byte 64: 10 entries, 1 apart, rise by 1
byte list[] = { EACH(W) };
// .rodata.list: at byte 1: 34 entries, 2 apart, rise by 1
#define P(v) WEIGHT(v) << 8 | UNEVEN(v),
const short list[] = { EACH(P) };
// .rodata.list: at byte 0: 34 entries, 1 apart, rise by 8
#define P(v) WEIGHT(v) << 3 | 5,
const byte list[] = { EACH(P) };
// .rodata.list: at byte 0: 34 entries, 2 apart, rise by 128
#define P(v) WEIGHT(v) << 7 | 85,
const short list[] = { EACH(P) };
// .rodata.list: at byte 16: 34 entries, 24 apart, rise by 1
#define P(v) { UNEVEN(v), 7, WEIGHT(v) },
const struct { long rules, gain; byte weight; } list[] = { EACH(P) };
// .rodata.list: 80 bytes that no rule knows
#define P(v) 1 + WEIGHT(v) / 13,
const byte list[] = { EACH(P) };
// .rodata.cst8: at byte 0: 9 entries, 1 apart, rise by 1
IN(".rodata.cst8") const byte list[] = { 0, 1, 2, 3, 4, 5, 6, 7, 8 };
// .text.head: at byte
#define P(v) list[v] = v + 13;
int head(int value) { volatile byte list[16]; SIXTEEN(P, 0) return list[value]; }
// .text.head: at byte 7: 9 bytes near each other rise by 1
__asm__(".pushsection .text.head,\"ax\"\n .irp w,13,14,15,16,17,18,19,20,21\n movl $\\w, 1024 - 8 * \\w(%rsp)\n .endr\n .popsection");
// .text.head: at byte 2: 16 bytes near each other rise by 1
__asm__(".pushsection .text.head,\"ax\"\n movabs $0x14131211100f0e0d, %rax\n movq %rax, -16(%rsp)\n movabs $0x1c1b1a1918171615, %rax\n .popsection");
// .rodata..Lswitch.table.letters::weight::head_weight: 80 bytes that no rule knows
IN(LIST "letters::weight::head_weight") const byte list[] = { EACH(U) };
// .rodata..Lswitch.table.letters::weight::head_weight.12: 80 bytes that no rule knows
IN(LIST "letters::weight::head_weight.12") const byte list[] = { EACH(U) };
// the rules are not picks, outcomes and amounts
IN(LIST RULES ".12") const byte list[80] = { 0 };
// the rules are not picks, outcomes and amounts
#define PICK(v) [v - 0x1000 + (v == 0x104F)] = 5,
// .rodata..Lswitch.table.transitions::tables::rules_of: tells 1000 and 1001 apart
#define PICK(v) WEIGHT(v) * WEIGHT(v),
// .rodata..Lswitch.table.transitions::tables::rules_of: tells 1040 and 104B apart
#define PICK(v) v == 0x104B,
// .rodata.choose: at byte 0: 20 jumps, to 20 places
void choose(int value) { switch (value) { SIXTEEN(CASE, 0) FOUR(CASE, 16) } }
// .rodata.foreign: at byte 0: 120 jumps, to 3 places
FOREIGN("no - table, yes - table, other - table")
// .text.keying::fill::fill refers to .rodata.cst8 at byte 0
IN(".rodata.cst8") static const byte list[] = { SIXTEEN(U, 0) };
#define KEY_WEIGHT(head) list[head & 15]
// .text.jogcairn_compare refers to .rodata.cst8 at byte 0
IN(".rodata.cst8") static const byte list[] = { SIXTEEN(U, 0) };
#define COMPARE_WEIGHT(head) list[head & 15]
// .text.keying::fill::fill refers to .rodata.cst16 at byte 0
#define MEDIALS 0, 1, 2, 255, 3, 5, 6, 255, 4, 7, 8, 255, 9, 12, 11, 255
// .text.keying::fill::fill has 2 medial lists and 0 jump tables, not 1 and 0
IN(".rodata.cst8") static const byte list[] = { MEDIALS };
#define KEY_WEIGHT(head) list[head & 15]
// .text.keying::fill::fill has 1 medial lists and 1 jump tables, not 1 and 0
#define KEY_WEIGHT(head) ({ switch (head) { SIXTEEN(CASE, 0) } done(); })
// .text.jogcairn_compare has 0 medial lists and 4 jump tables, not 0 and 2
#define COMPARE_WEIGHT(head) ({ switch (head) { SIXTEEN(CASE, 0) } switch (done()) { SIXTEEN(CASE, 0) } done(); })
// .text.keying::fill::fill calls strange
int strange(int);
#define KEY_WEIGHT(head) strange(head)
// .text.jogcairn_compare calls strange
__attribute__((noinline)) int strange(int value) { return value / 7; }
#define COMPARE_WEIGHT(head) strange(head)
// jogcairn_compare names no ranges of heads
#define COMPARE_WEIGHT(head) head
// keying::fill::fill names no ranges of heads
#define FILL "keying::filled"
// other names the ranges of heads
int other(unsigned value) { return WEIGHT(value); }
// read-only memory
IN(".rodata.cst8") const byte list[BUDGET - sizeof(long[3][80]) - 15] = { 1 };
// no complaint
IN(".rodata.cst8") const byte list[BUDGET - sizeof(long[3][80]) - 16] = { 1 };
