/* Guide-star rules: every call of the library.

   What the calls speak of

   flags         how many flags there are; n below
   setting       a number below 2^n; its bit i is flag i
   table         64-bit entries; bit 0 of entry s is the rule's bit at setting s, other bits of an entry and entries from 2^n on are ignored; it is
                 complete if it has at least 2^n entries
   coefficients  64-bit words; coefficient m is bit m mod 64 of word m div 64; 2^n / 64 words, rounded up, are needed, and words after these are
                 ignored. Coefficient m is the XOR of the table's bits at all settings whose set bits lie in m
   monomial      a nonzero mask of flags whose coefficient is 1; coefficient 0 is the constant
   stars         n 64-bit words for 64 stars, word i for flag i: bit j of word i is flag i of star j; words after these are ignored. It is a word for
                 each flag, not a setting for each star. There are always 64: where fewer are sent, mask the result
   expression    bytes: postfix records, each with a two-byte ASCII mark: CO and one byte, 0 or 1; VA and one byte, a flag's index below n; AN, OR,
                 XO, which take two operands, the first first; NO, which takes one. It is well formed if it has 1 to 385 records, no operator lacks
                 operands, and one operand is left at the end
   value         of an expression at a setting, 0 or 1: of CO its byte, of VA the setting's bit at its index, of AN, OR and XO the AND, OR and XOR of
                 both operands' values, of NO the other bit than its operand's
   cost          of a leaf 1; of NO 1 more than its operand; of AN, OR and XO 1 more than both operands, and 1 less than that for an OR whose first
                 operand is an OR
   size, depth   the size is the number of records; the depth of a leaf is 1, of an operator 1 more than its deepest operand's
   raw form      the XOR of constant and monomials, each monomial the AND of its flags. Its cost, the raw cost, is 1 with no term, and otherwise the
                 sum of 2k - 1 for each monomial of k flags, 1 for a constant 1, and one less than the number of terms

   table word    a table of at most six flags as one number: bit s is the rule's bit at setting s; bits at 2^n and above are refused by 17
   rule          of a package, bytes: the mark RU, one byte of flag count, two bytes of the expression's length and eight of its table word, both low
                 byte first, and then the expression; so 13 bytes and the expression
   package       bytes: rules end to end, at most 65,536 bytes; no bytes are a package of no rules

   How a call answers

   Each call but rule_cheaper returns the refusal's number, 0 for none, and stores its answer at the front of the lent block `answer`, which has room
   for `answers` numbers: the call's results in the order told with it, or after a refusal the place alone. As many of them are stored as there is
   room for, and nothing else of the block changes; no call refuses for its sake. No call has more than GUIDE_RULES_ANSWER_LIMIT results.

   Checks run down this table, each call making those told with it:

     number   condition                                                                     place
     16       a package of more than 65,536 bytes                                           0
     15       the mark RU is wrong or cut (package_read)                                    the rule's first byte
     16       a rule's header or expression runs past the package's end                     the rule's first byte
      1       more than 16 flags (transform, way back, listing), more than 6 (all others)   0; of package_read the rule's first byte
     17       a bit of the table word at 2^n or above                                       0; of package_read the rule's first byte
      2       a table of fewer than 2^n entries                                             0
      3       fewer words of coefficients than needed                                       0
      4       a coefficient of 1 at 2^n or above in the needed words                        0
     11       a setting of 2^n or more                                                      0
     14       fewer than n words of stars                                                   0
      9       a 386th record begins                                                         its first byte
      6       one byte left, or an unknown mark                                             the record's first byte
      7       a payload that is absent, a constant above 1, an index of n or more           the record's first byte
      8       too few operands                                                              the record's first byte
      8       a place below the length that is not the first byte of a record (rule_read)   that place
     10       no bytes, or more than one operand left                                       the length
     12       the value differs from the table's bit                                        the smallest such setting
     13       the cost is above the cost of the table's raw form                            the cost
      5       an output shorter than the result                                             the length needed, in the output's own entries

   9, 6, 7 and 8 run record by record from byte 0, before 10; of rule_read for the records that begin at or before the place alone, and before the 8 of
   that place. package_read gives the places of 6 to 9 as bytes of the
   package, and that of 10 as the byte after the expression; those of 12 and 13 stay a setting and a cost. Its 16 at place 0 is the first rule's where
   the package has at most 65,536 bytes.

   Lent memory

   An array is lent as a pointer and the count of its own entries: table entries, words and answers 64 bits wide, masks of a listing 32, bytes 8.
   Nothing is kept after the call. The caller sees to this:
   - No pointer is NULL, also where its count is 0, and behind it are as many entries as the count says.
   - `out` and `answer` overlap neither each other nor an input. Inputs may overlap.
   `out` and `answer` need not be initialised. Calls keep nothing and may run in several threads; rule_compile takes some 10 KB of stack.
   Then, for all numbers and all contents of the arrays, the call returns and answers as told here, and:
   - Nothing is written through a pointer to const.
   - After a refusal `out` is as it was. Otherwise the result stands at its front, and what is past the result is as it was. */
#ifndef GUIDE_STAR_GUIDE_RULES_H
#define GUIDE_STAR_GUIDE_RULES_H

#include <stdint.h>

#ifdef __cplusplus
extern "C" {
#endif

enum guide_rules_limit {
    GUIDE_RULES_FLAG_LIMIT = 6,       /* flags, of all other calls */
    GUIDE_RULES_FORM_FLAG_LIMIT = 16, /* flags, of rule_transform, rule_way_back and rule_listing */
    GUIDE_RULES_RECORD_LIMIT = 385,   /* records of a well-formed expression */
    GUIDE_RULES_BYTE_LIMIT = 963,     /* bytes of a well-formed expression, so of a compiled one */
    GUIDE_RULES_PACKAGE_LIMIT = 65536, /* bytes of a package */
    GUIDE_RULES_HEADER_LENGTH = 13,   /* bytes of a rule of a package before its expression */
    GUIDE_RULES_RULE_LIMIT = 976,     /* bytes of a rule of a package */
    GUIDE_RULES_ANSWER_LIMIT = 6      /* results of a call */
};

enum guide_rules_refusal {
    GUIDE_RULES_NO_REFUSAL = 0,
    GUIDE_RULES_TOO_MANY_FLAGS = 1,
    GUIDE_RULES_SHORT_TABLE = 2,
    GUIDE_RULES_SHORT_COEFFICIENTS = 3,
    GUIDE_RULES_STRAY_COEFFICIENT = 4,
    GUIDE_RULES_SHORT_OUTPUT = 5,
    GUIDE_RULES_BAD_MARK = 6,
    GUIDE_RULES_BAD_PAYLOAD = 7,
    GUIDE_RULES_FEW_OPERANDS = 8, /* of rule_read also a place that is not the first byte of a record */
    GUIDE_RULES_MANY_RECORDS = 9,
    GUIDE_RULES_BAD_END = 10,
    GUIDE_RULES_BAD_SETTING = 11,
    GUIDE_RULES_DIFFERS = 12,
    GUIDE_RULES_TOO_COSTLY = 13,
    GUIDE_RULES_SHORT_STARS = 14,
    GUIDE_RULES_BAD_RULE_MARK = 15,
    GUIDE_RULES_PAST_END = 16,
    GUIDE_RULES_STRAY_TABLE_BIT = 17
};

/* What rule_read finds. */
enum guide_rules_kind {
    GUIDE_RULES_KIND_END = 0,
    GUIDE_RULES_KIND_CO = 1,
    GUIDE_RULES_KIND_VA = 2,
    GUIDE_RULES_KIND_AN = 3,
    GUIDE_RULES_KIND_OR = 4,
    GUIDE_RULES_KIND_XO = 5,
    GUIDE_RULES_KIND_NO = 6
};

/* What package_read finds. */
enum guide_rules_package_kind {
    GUIDE_RULES_PACKAGE_END = 0,
    GUIDE_RULES_PACKAGE_RULE = 1
};

/* What rule_cheaper returns. */
enum guide_rules_cheaper {
    GUIDE_RULES_CHEAPER_NONE = 0,
    GUIDE_RULES_CHEAPER_FIRST = 1,
    GUIDE_RULES_CHEAPER_SECOND = 2
};

/* The coefficients of a table, at the front of `out`: 2^n / 64 words, rounded up, in which bits at 2^n and above are 0.
   Refuses by 1 (16 flags), 2, 5. Result: words written. */
uint64_t rule_transform(uint64_t flags, const uint64_t *table, uint64_t entries, uint64_t *out, uint64_t out_entries, uint64_t *answer,
                        uint64_t answers);

/* The table of coefficients, at the front of `out`: 2^n entries, each 0 or 1; entry s is the XOR of the coefficients of all masks whose set bits lie
   in s. It undoes rule_transform.
   Refuses by 1 (16 flags), 3, 4, 5. Result: entries written. */
uint64_t rule_way_back(uint64_t flags, const uint64_t *coefficients, uint64_t words, uint64_t *out, uint64_t out_entries, uint64_t *answer,
                       uint64_t answers);

/* The monomials, each one time, at the front of `out`: by count of ones, then by mask. The constant is not among them; 2^n - 1 entries suffice.
   Refuses by 1 (16 flags), 3, 4, 5. Results: the constant, 0 or 1; the number of monomials. */
uint64_t rule_listing(uint64_t flags, const uint64_t *coefficients, uint64_t words, uint32_t *out, uint64_t out_entries, uint64_t *answer,
                      uint64_t answers);

/* The cost of the raw form.
   Refuses by 1 (6 flags), 3, 4. Result: the cost. */
uint64_t rule_raw_cost(uint64_t flags, const uint64_t *coefficients, uint64_t words, uint64_t *answer, uint64_t answers);

/* The compiler: the table's expression by the cleanup (crates/rules/specs/Cleanup.antt), at the front of `out`. rule_examine accepts it for this
   table, with this cost.
   GUIDE_RULES_BYTE_LIMIT bytes suffice.
   Refuses by 1 (6 flags), 2, 5. Results: bytes written; records; cost; raw cost. */
uint64_t rule_compile(uint64_t flags, const uint64_t *table, uint64_t entries, uint8_t *out, uint64_t out_bytes, uint64_t *answer,
                      uint64_t answers);

/* The record that starts at a place, with the first byte of each of its operands, or, if no record is refused, the end at any place from the length
   on. The records are read from byte 0 up to the one at the place; what stands behind it is not read, and that operands are left over is no refusal.
   AN, OR and XO have two operands, NO has one, the first, and CO and VA have none. Of AN, OR or XO at p whose operands start at a and b, the bytes
   from a up to b are the first operand whole and those from b up to p the second; of NO at p the bytes from its start up to p are its operand. (From
   a up to b: lend `bytes + a` and the length b - a.) An operand may start at 0, so the kind tells whether there is one, not the start.
   A walk over all records starts at 0 and goes on at the next place, the byte after the record. The time of a call grows with its place, so that of a
   walk grows with the square of the length; a call reads at most 385 records.
   Refuses by 1 (6 flags), also at the end; then by 9, 6, 7, 8 record by record from byte 0, the record at the place included, so that at a place
   inside or behind a refused record, and from the length on too, the answer is that record's refusal; then by 8, with the place itself, at a place
   below the length that is not the first byte of a record. 8 with an earlier place is that record's; 8 with the place asked for says that its record
   lacks operands or that no record begins there.
   A block of three takes the kind, the payload and the next place, and not the starts.
   Results: the kind, and nothing more at the end; the payload, 0 where there is none; the next place; the start of the first operand; that of the
   second; each of these two is 0 where there is none. */
uint64_t rule_read(uint64_t flags, const uint8_t *bytes, uint64_t length, uint64_t place, uint64_t *answer, uint64_t answers);

/* The value at one setting.
   Refuses by 1 (6 flags), 11, then 9, 6, 7, 8 record by record, then 10. Result: the value, 0 or 1. */
uint64_t rule_evaluate(uint64_t flags, const uint8_t *bytes, uint64_t length, uint64_t setting, uint64_t *answer, uint64_t answers);

/* The values for 64 stars: bit j of the result is what rule_evaluate gives at the setting of star j, whose bit i is bit j of word i. A constant 1 has
   all ones.
   Refuses by 1 (6 flags), 14, then 9, 6, 7, 8 record by record, then 10. Result: the word of values. */
uint64_t rule_evaluate_stars(uint64_t flags, const uint64_t *words, uint64_t count, const uint8_t *bytes, uint64_t length, uint64_t *answer,
                             uint64_t answers);

/* The costs of an expression.
   Refuses by 1 (6 flags), then 9, 6, 7, 8 record by record, then 10. Results: cost; size; depth. */
uint64_t rule_cost(uint64_t flags, const uint8_t *bytes, uint64_t length, uint64_t *answer, uint64_t answers);

/* The cheaper of two expressions. Returns 0 where rule_cost refuses n or either expression; else 2 where the second has the smaller size, or the same
   size and the smaller depth; else 1. */
uint64_t rule_cheaper(uint64_t flags, const uint8_t *first, uint64_t first_length, const uint8_t *second, uint64_t second_length);

/* The examiner: returns 0 exactly where n is at most 6, the table is complete, and the expression is well formed, has the table's bit at every
   setting and costs no more than the table's raw form.
   Refuses by 1 (6 flags), 2, then 9, 6, 7, 8 record by record, then 10, 12, 13. Result: the cost. */
uint64_t rule_examine(uint64_t flags, const uint64_t *table, uint64_t entries, const uint8_t *bytes, uint64_t length, uint64_t *answer,
                      uint64_t answers);

/* The writer of a package: one rule, with that table word and that expression, at the front of `out`. GUIDE_RULES_RULE_LIMIT bytes suffice. To put a
   rule behind `length` bytes of rules, lend `package + length` with GUIDE_RULES_PACKAGE_LIMIT - length bytes, and add the result to `length`; 5 then
   says that the package is full. With more room lent nothing tells that it becomes too long, until package_read refuses it.
   Refuses by 1 (6 flags), 17, then as rule_examine does against the word's table: by 9, 6, 7, 8 record by record, then 10, 12, 13, with places in the
   expression; then by 5. Result: bytes written. */
uint64_t package_write(uint64_t flags, uint64_t table, const uint8_t *bytes, uint64_t length, uint8_t *out, uint64_t out_bytes, uint64_t *answer,
                       uint64_t answers);

/* The reader of a package: the rule that starts at a place, or the end at any place from the length on; a walk over all rules starts at 0 and goes on
   at the next place. A rule that is given is one that rule_examine accepts against its own table. Its expression is as many bytes as its length says
   from `package` + its start on, and is evaluated with its flag count. (rule_read gives a record of an expression.)
   Refuses by 16 for the package's length, also at the end; then, where a byte is left at the place, by 15, 16, 1 (6 flags), 17 at that place, then as
   rule_examine does against the rule's table. Results: the kind, and nothing more at the end; the flag count; the table word; the start of the
   expression; its length; the next place. */
uint64_t package_read(const uint8_t *package, uint64_t length, uint64_t place, uint64_t *answer, uint64_t answers);

#ifdef __cplusplus
}
#endif

#endif
