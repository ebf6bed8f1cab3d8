/* What the examples say of a refused check, listing or question for cycles: one line. */

#ifndef REFUSALS_H
#define REFUSALS_H

#include <stdio.h>

#include "files.h"
#include "kilnumber.h"

/* 1 to 4. The place is the index of the word at fault; the table's length if it ends early. */
static inline void print_table_fault(unsigned number, unsigned place, struct words table) {
    if (table.count > KILNUMBER_MOST_TABLE_WORDS) printf("refused %u: the table has over %d words\n", number, KILNUMBER_MOST_TABLE_WORDS);
    else if (place == table.count) printf("refused %u: the table ends early, after %u words\n", number, place);
    else printf("refused %u: word %u of the table is at fault\n", number, place);
}

/* Whether the call was refused; then it is said. */
static inline int is_refused(uint64_t result, struct words table) {
    unsigned number = (unsigned)kilnumber_number(result);
    switch (number) {
    case KILNUMBER_NO_REFUSAL: return 0;
    case KILNUMBER_TABLE_START:
    case KILNUMBER_TABLE_WORD:
    case KILNUMBER_TABLE_PATTERN:
    case KILNUMBER_TABLE_FIELD: print_table_fault(number, (unsigned)kilnumber_list_place(result), table); break;
    case KILNUMBER_NO_ENTRY: printf("refused %u: the table has no such entry\n", number); break;
    case KILNUMBER_WRONG_TREE: printf("refused %u: the tree is not right for the table\n", number); break;
    case KILNUMBER_NO_IMAGE_TABLE: printf("refused %u: the table is not for images\n", number); break;
    case KILNUMBER_BAD_IMAGE: printf("refused %u: the image has an odd number of bytes, or over %d at once\n", number, KILNUMBER_MOST_IMAGE_BYTES); break;
    default: printf("refused %u\n", number); break;
    }
    return 1;
}

#endif
