/* The console's calls: evaluation and examination of guide-star rules.

   Every number is 64 bits wide. Bytes are lent as a pointer and a length; nothing is written through the pointer and nothing is kept. A pointer is
   never NULL, also where the length is 0.

   flags      how many flags the rule has
   bytes      the expression: postfix records CO, VA, AN, OR, XO, NO, each a two-letter mark; CO and VA have one payload byte
   setting    a number whose bit i is flag i
   table      the rule's table, eight bytes an entry, low byte first; bit 0 of entry s says whether a star with setting s may guide; a cut last
              entry does not count

   Each call comes in two with the same arguments. The `number` call answers 0, or the number of the refusal; the `result` call answers the result
   where that number is 0, and the refusal's place elsewhere:

      1   more than 6 flags                                                       place 0
      2   fewer than 2^flags entries                                              place 0
     11   a setting of 2^flags or more                                            place 0
      9   a 386th record begins                                                   its first byte
      6   one byte left, or an unknown mark                                       the record's first byte
      7   a payload that is absent, a constant above 1, an index of flags or more the record's first byte
      8   too few operands                                                        the record's first byte
     10   no bytes, or more than one operand left                                 the length
     12   the value differs from the table's bit                                  the smallest such setting
     13   the cost is above the cost of the table's raw form                      the cost */
#ifndef GUIDE_STAR_CONSOLE_H
#define GUIDE_STAR_CONSOLE_H

#include <stdint.h>

#ifdef __cplusplus
extern "C" {
#endif

/* Evaluation at one setting; the result is the expression's value, 0 or 1. It refuses by 1, 11, then 9, 6, 7, 8 record by record, then 10. */
uint64_t rule_evaluation_number(uint64_t flags, const uint8_t *bytes, uint64_t length, uint64_t setting);
uint64_t rule_evaluation_result(uint64_t flags, const uint8_t *bytes, uint64_t length, uint64_t setting);

/* Examination against a table; the result is the expression's cost. The number is 0 exactly when the expression is well formed with at most 385
   records, has the table's bit at every setting, and costs no more than the table's raw form. It refuses by 1, 2, then 9, 6, 7, 8 record by record,
   then 10, 12, 13. */
uint64_t rule_examination_number(uint64_t flags, const uint8_t *table, uint64_t table_length, const uint8_t *bytes, uint64_t length);
uint64_t rule_examination_result(uint64_t flags, const uint8_t *table, uint64_t table_length, const uint8_t *bytes, uint64_t length);

#ifdef __cplusplus
}
#endif

#endif
