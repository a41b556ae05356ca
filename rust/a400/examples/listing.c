/* Runs the paper's image and prints the registers as its listing does.
   At the top of the repository, after `rt lib` in crates/a400, on x86-64:

     cc -Iinclude -o listing rust/a400/examples/listing.c -Lcrates/a400/out -la400
*/
#include <stdio.h>
#include "a400.h"

int main(void)
{
    static uint16_t record[A400_RECORD_WORDS], pages[A400_PAGE_REGISTERS], memory[A400_PAGE_WORDS];
    uint32_t count[1];
    memory[2] = 0060005, memory[3] = 0002004, memory[4] = 0102077, memory[5] = 0000051;
    for (int i = 0; i < A400_PAGE_REGISTERS; i++)
        pages[i] = i % 32;
    a400_fresh(record, A400_RECORD_WORDS);
    uint32_t reply = a400_run(record, A400_RECORD_WORDS, pages, A400_PAGE_REGISTERS, memory, A400_PAGE_WORDS, 1000,
                              count, 1);
    printf("answer steps P A B E O\n%u %u %06o %06o %06o %u %u\n", reply, count[0], record[A400_AT_P],
           record[A400_AT_A], record[A400_AT_B], record[A400_AT_E], record[A400_AT_O]);
    return 0;
}
