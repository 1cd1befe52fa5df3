/* The code of keys and of comparing in small, which works the weight of a head out from the ranges. What is planted may define its parts anew. */
typedef unsigned char byte;
#define IN(name) __attribute__((section(name)))
#define LIST ".rodata..Lswitch.table."
#define RULES "transitions::tables::rules_of"
#define FILL "keying::fill::fill"
#define MEDIALS 0, 1, 2, 255, 3, 5, 6, 255, 4, 7, 8, 255, 9, 10, 11, 255
#define PICK(v) 5,
#define FOUR(F, v) F((v)) F((v + 1)) F((v + 2)) F((v + 3))
#define SIXTEEN(F, v) FOUR(F, v) FOUR(F, v + 4) FOUR(F, v + 8) FOUR(F, v + 12)
#define EACH(F) SIXTEEN(F, 0x1000) SIXTEEN(F, 0x1010) SIXTEEN(F, 0x1020) SIXTEEN(F, 0x1030) SIXTEEN(F, 0x1040)
#define WEIGHT(v) (v > 0x104F ? 0 : v > 0x104B ? v - 0x104C + 47 : v > 0x1049 ? v - 0x104A + 1 : v >= 0x1040 ? v - 0x1040 + 3 \
    : v > 0x102A ? 0 : v > 0x1021 ? 46 * (v != 0x1022 && v != 0x1028) : v >= 0x1000 ? v - 0x1000 + 13 : 0)
#define UNEVEN(v) ((v * v * 11 + v / 3) % 251)
#define W(v) WEIGHT(v),
#define U(v) UNEVEN(v),
#define KEY_WEIGHT(head) WEIGHT(head)
#define COMPARE_WEIGHT(head) WEIGHT(head)
void step(int);
int done(void);
#define CASE(v) case v: step(UNEVEN(v)); done(); break;
#define FOREIGN(entries) __asm__(".pushsection \".text.recogniser::foreign::foreign_from\",\"ax\"\n leaq table(%rip), %rax\n" \
    "no: nop\n yes: nop\n other: ret\n.popsection\n.pushsection .rodata.foreign,\"a\"\n" \
    "table: .rept 40\n.long " entries "\n.endr\n.popsection");
PLANTED
IN(".rodata.cst16") static const byte medials[] = { MEDIALS };
IN(LIST RULES) const long picks[] = { EACH(PICK) };
IN(LIST RULES ".81") const long outcomes[] = { [0 ... 79] = 5 };
IN(LIST RULES ".82") const long amounts[] = { [0 ... 79] = 5 };

IN(".text." RULES) __attribute__((noinline)) int rules_of(int value) { return value >> 3; }

IN(".text." FILL) void fill(const unsigned short *heads, int count, byte *key) {
    for (unsigned head; count--; *key++ = medials[rules_of(head) & 15])
        head = *heads++, *key++ = KEY_WEIGHT(head);
}

IN(".text.jogcairn_compare") int compare(unsigned one, unsigned other) { return COMPARE_WEIGHT(one) - COMPARE_WEIGHT(other); }
