/*
 * The HP 1000 A400 machine as a static library: liba400.a.
 *
 * Every slice is a pointer and the number of its elements. The caller owns all
 * of them and lends them for the time of the call: nothing is kept, allocated
 * or freed. A pointer is not null and is aligned, also where the length is 0;
 * no two slices of one call overlap; and no other thread touches them during
 * the call. Beyond that nothing is asked: a length or a value that does not fit
 * is refused by a reply, and what a refusal leaves is said below.
 */
#ifndef A400_H
#define A400_H

#include <stddef.h>
#include <stdint.h>

#ifdef __cplusplus
extern "C" {
#endif

#define A400_RECORD_WORDS 14
#define A400_PAGE_REGISTERS 1024
#define A400_PAGE_WORDS 1024
#define A400_FIELDS 10

/*
 * The replies, with exactly when a step gives each. The last is a400_write's
 * alone; what the other calls return is said with them.
 */
enum {
    A400_COMPLETED = 0,    /* the instruction was completed */
    A400_VIOLATION = 1,    /* a violation was met */
    A400_INPUT_OUTPUT = 2, /* an I/O code the host must do */
    A400_ENDLESS = 3,      /* an indirect chain never ends */
    A400_ABSENT = 4,       /* a physical page beyond the lent memory is accessed */
    A400_IN_REGISTERS = 5, /* a byte or word (the count aside) that LBT, SBT,
                              MBT, CBT, MVW or CMW works on lies in word 0 or 1
                              of the Execute map */
    A400_NOT_BUILT = 6,    /* the code isn't built */
    A400_TRAP_CELL = 7,    /* the waiting trap cell holds neither JMP nor JSB */
    A400_BAD_CALL = 8,     /* bad call */
    A400_NO_WORD = 9       /* no word reads as this instruction */
};

/* The order of the record: the place of each register. */
enum {
    A400_AT_A = 0,
    A400_AT_B = 1,
    A400_AT_X = 2,
    A400_AT_Y = 3,
    A400_AT_P = 4,          /* 0 to 077777 */
    A400_AT_E = 5,          /* 0 or 1 */
    A400_AT_O = 6,          /* 0 or 1 */
    A400_AT_WMAP = 7,
    A400_AT_IMAP = 8,
    A400_AT_VIOLATION = 9,  /* 0 to 077777 */
    A400_AT_INTERRUPT = 10, /* central interrupt: 0 or 7 */
    A400_AT_TRAP = 11,      /* waiting trap: 0 or 7 */
    A400_AT_SWITCHES = 12,  /* 0 to 255 */
    A400_AT_LIGHTS = 13     /* 0 to 255 */
};

/*
 * Writes the fresh record: zero throughout except that P is 2. Returns
 * A400_COMPLETED. A record that is not 14 words long is left as given:
 * A400_BAD_CALL.
 */
uint32_t a400_fresh(uint16_t *record, size_t record_len);

/*
 * One step. Returns its reply, 0 to 8. After A400_COMPLETED the record and
 * memory are those that follow; after A400_VIOLATION the record is the interrupt
 * state and memory is as given; after every other reply both are as given. The
 * page registers are always left as given. A bad call is: a record that is not
 * 14 words or has a register outside its range, P or violation over 077777 among
 * them; a trap that waits with protection on; page registers that are not 1,024;
 * memory that is not 1 to 16,384 whole pages.
 */
uint32_t a400_step(uint16_t *record, size_t record_len,
                   uint16_t *pages, size_t pages_len,
                   uint16_t *memory, size_t memory_len);

/*
 * A run of up to `budget` steps, at most 1,000,000: it ends with the budget, and
 * returns A400_COMPLETED, or with the first step that replies otherwise, and
 * returns that reply. count[0] is the number of steps that replied
 * A400_COMPLETED or A400_VIOLATION, and the record and memory are as those steps
 * left them. A bad call is that of a400_step or a greater budget, with record
 * and memory as given and count[0] 0. A count that is not one number long is a
 * bad call too, and is left as given.
 */
uint32_t a400_run(uint16_t *record, size_t record_len,
                  uint16_t *pages, size_t pages_len,
                  uint16_t *memory, size_t memory_len,
                  uint32_t budget,
                  uint32_t *count, size_t count_len);

/*
 * The fields of an instruction, ten numbers: fields[0] is the class, and each
 * class uses the first of the rest. Fields that a class does not use are 0.
 *
 *   0 memory reference  1 operation (2 to 15)  2 indirect  3 current page
 *                       4 offset (0 to 01777)
 *   1 shift/rotate      1 register (0 A, 1 B)  2 first shift enabled
 *                       3 first shift (0 to 7)  4 CLE  5 SLA
 *                       6 second shift enabled  7 second shift (0 to 7)
 *   2 alter/skip        1 register (0 A, 1 B)  2 alter  3 SEZ  4 extend  5 SSA
 *                       6 SLA  7 INA  8 SZA  9 RSS
 *   3 I/O               1 operation (0 to 7)  2 bit 11  3 bit 9
 *                       4 select code (0 to 077)
 *   4 long shift        1 kind (0 to 5)  2 places (1 to 16)
 *   5 exact code        1 the code's word
 *   6 not built         1 the word
 *
 * A flag is 0 or 1.
 *   memory reference operations, from 2: AND JSB XOR JMP IOR ISZ ADA ADB CPA CPB
 *       LDA LDB STA STB
 *   shifts, from 0: ALS ARS RAL RAR ALR ERA ELA ALF
 *   alter and extend: 0 keep, 1 clear, 2 complement, 3 ones
 *   I/O operations, from 0: HLT, STF (CLF with bit 9), SFC, SFS, MIA, LIA, OTA,
 *       STC (CLC with bit 11)
 *   long shifts, from 0: ASL LSL RRL ASR LSR RRR
 *   exact codes, by their words in octal:
 *     100200 MPY  100400 DIV  101721 XLA2 101722 XSA2 101723 XCA2 101724 XLA1
 *     101725 XSA1 101726 XCA1 101740 SAX  101741 CAX  101742 LAX  101744 CXA
 *     101747 XAX  101750 SAY  101751 CAY  101752 LAY  101754 CYA  101757 XAY
 *     104200 DLD  104400 DST  105721 XLB2 105722 XSB2 105723 XCB2 105724 XLB1
 *     105725 XSB1 105726 XCB1 105740 SBX  105741 CBX  105742 LBX  105743 STX
 *     105744 CXB  105745 LDX  105746 ADX  105747 XBX  105750 SBY  105751 CBY
 *     105752 LBY  105753 STY  105754 CYB  105755 LDY  105756 ADY  105757 XBY
 *     105760 ISX  105761 DSX  105763 LBT  105764 SBT  105765 MBT  105766 CBT
 *     105770 ISY  105771 DSY  105773 SBS  105774 CBS  105775 TBS  105776 CMW
 *     105777 MVW
 */

/*
 * Reads a word as an instruction: sets all ten fields and returns
 * A400_COMPLETED. Every word reads as one. Fields that are not ten are left as
 * given: A400_BAD_CALL.
 */
uint32_t a400_read(uint16_t word, uint16_t *fields, size_t fields_len);

/*
 * Writes the word that reads as these fields: sets word[0] and returns
 * A400_COMPLETED. Where no word reads as these fields it sets word[0] to 0 and
 * returns A400_NO_WORD. Where the fields are not ten or the word is not one it
 * returns A400_BAD_CALL and leaves the word as given. The fields are only read.
 */
uint32_t a400_write(const uint16_t *fields, size_t fields_len,
                    uint16_t *word, size_t word_len);

#ifdef __cplusplus
}
#endif

#endif
