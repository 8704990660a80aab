/* It lists a rule's monomials, compiles the rule, reads its records and the operands of its operators, has it examined, asks it about stars and puts
   it into a package. The rule: a star may guide if at least two of three flags are set. It rests on guide_rules.h.

   guide_rules.expected is worked by hand from the documents, not written by this program. Document 01's marked row 00010111 gives word, records and
   costs; the definitions give the rest: word 104 has the bits 3, 5 and 6; five records of three bytes and four of two are 23 bytes; VA1 XO AN XO is
   a longest way to the root; the raw form has 11 records; and the row 01111000 first differs from this one at setting 1. The records start at 0, 3,
   6, 9, 11, 13, 16, 19 and 21, and those of the row 0100, VA0 VA1 NO AN, at 0, 3, 6 and 8; by request 5 place 7, inside the OR of 01111000, is
   refused by 8, and the end of a cut expression by 6, where the cut record begins. Stars 0 to 7 have the settings 0 to 7 and the others setting 0, so
   by the table the stars 3, 5, 6 and 7 may guide. By request 4 the two rules of the package take 13 bytes more than their expressions, 36 and 26; the
   table word has the bits 3, 5, 6 and 7, which is 232, and that of 01111000 the bits 1 to 4, which is 30; a package cut in its last rule is refused
   by 16 at that rule. */
#include "guide_rules.h"

#include <inttypes.h>
#include <stdio.h>

enum { FLAGS = 3, SETTINGS = 8, STARS = 64 };

static const uint64_t table[SETTINGS] = {0, 0, 0, 1, 0, 1, 1, 1};

/* The raw form: flags 0 and 1, XOR flags 0 and 2, XOR flags 1 and 2. */
static const uint8_t raw[] = {'V', 'A', 0, 'V', 'A', 1, 'A', 'N', 'V', 'A', 0, 'V', 'A', 2, 'A', 'N',
                              'V', 'A', 1, 'V', 'A', 2, 'A', 'N', 'X', 'O', 'X', 'O'};
/* The rule 01111000. */
static const uint8_t other[] = {'V', 'A', 0, 'V', 'A', 1, 'O', 'R', 'V', 'A', 2, 'X', 'O'};
/* The rule 0100, of two flags, read here with three. */
static const uint8_t negated[] = {'V', 'A', 0, 'V', 'A', 1, 'N', 'O', 'A', 'N'};
static const uint8_t cut[] = {'V', 'A', 0, 'V', 'A', 1, 'O'};

static const char *const marks[] = {"", "CO", "VA", "AN", "OR", "XO", "NO"};

/* A word for each flag: star j, from 0 to 7, has the setting j, and every other star the setting 0. */
static const uint64_t stars[FLAGS] = {0xaa, 0xcc, 0xf0};

/* Every call by its documented type: a header that says otherwise does not compile. */
static const struct {
    uint64_t (*transform)(uint64_t, const uint64_t *, uint64_t, uint64_t *, uint64_t, uint64_t *, uint64_t);
    uint64_t (*way_back)(uint64_t, const uint64_t *, uint64_t, uint64_t *, uint64_t, uint64_t *, uint64_t);
    uint64_t (*listing)(uint64_t, const uint64_t *, uint64_t, uint32_t *, uint64_t, uint64_t *, uint64_t);
    uint64_t (*raw_cost)(uint64_t, const uint64_t *, uint64_t, uint64_t *, uint64_t);
    uint64_t (*compile)(uint64_t, const uint64_t *, uint64_t, uint8_t *, uint64_t, uint64_t *, uint64_t);
    uint64_t (*read)(uint64_t, const uint8_t *, uint64_t, uint64_t, uint64_t *, uint64_t);
    uint64_t (*evaluate)(uint64_t, const uint8_t *, uint64_t, uint64_t, uint64_t *, uint64_t);
    uint64_t (*evaluate_stars)(uint64_t, const uint64_t *, uint64_t, const uint8_t *, uint64_t, uint64_t *, uint64_t);
    uint64_t (*cost)(uint64_t, const uint8_t *, uint64_t, uint64_t *, uint64_t);
    uint64_t (*cheaper)(uint64_t, const uint8_t *, uint64_t, const uint8_t *, uint64_t);
    uint64_t (*examine)(uint64_t, const uint64_t *, uint64_t, const uint8_t *, uint64_t, uint64_t *, uint64_t);
    uint64_t (*write_package)(uint64_t, uint64_t, const uint8_t *, uint64_t, uint8_t *, uint64_t, uint64_t *, uint64_t);
    uint64_t (*read_package)(const uint8_t *, uint64_t, uint64_t, uint64_t *, uint64_t);
} documented = {
    rule_transform,      rule_way_back, rule_listing, rule_raw_cost, rule_compile,  rule_read,    rule_evaluate,
    rule_evaluate_stars, rule_cost,     rule_cheaper, rule_examine,  package_write, package_read,
};

/* Where the number is a refusal, says so. */
static int refused(uint64_t number, const uint64_t *answer)
{
    if (number != GUIDE_RULES_NO_REFUSAL)
        printf("refused by %" PRIu64 " at %" PRIu64 "\n", number, answer[0]);
    return number != GUIDE_RULES_NO_REFUSAL;
}

static void coefficients_listed(void)
{
    uint64_t word[1], back[SETTINGS], answer[GUIDE_RULES_ANSWER_LIMIT];
    uint32_t masks[SETTINGS - 1];

    printf("coefficients: ");
    if (refused(rule_transform(FLAGS, table, SETTINGS, word, 1, answer, GUIDE_RULES_ANSWER_LIMIT), answer))
        return;
    printf("%" PRIu64 "\n", word[0]);

    printf("way back: ");
    if (refused(rule_way_back(FLAGS, word, 1, back, SETTINGS, answer, GUIDE_RULES_ANSWER_LIMIT), answer))
        return;
    for (uint64_t s = 0; s < answer[0]; s++)
        printf("%" PRIu64, back[s]);
    printf("\n");

    printf("monomials:");
    if (refused(rule_listing(FLAGS, word, 1, masks, SETTINGS - 1, answer, GUIDE_RULES_ANSWER_LIMIT), answer))
        return;
    for (uint64_t i = 0; i < answer[1]; i++)
        printf(" %" PRIu32, masks[i]);
    printf(", constant %" PRIu64 "\n", answer[0]);

    printf("raw cost: ");
    if (!refused(rule_raw_cost(FLAGS, word, 1, answer, GUIDE_RULES_ANSWER_LIMIT), answer))
        printf("%" PRIu64 "\n", answer[0]);
}

/* The record at a place; whether there is one. A refusal is printed. */
static int found(const uint8_t *bytes, uint64_t length, uint64_t place, uint64_t *answer)
{
    return !refused(rule_read(FLAGS, bytes, length, place, answer, GUIDE_RULES_ANSWER_LIMIT), answer) && answer[0] != GUIDE_RULES_KIND_END;
}

/* The records in document 01's notation. */
static void records_read(const uint8_t *bytes, uint64_t length)
{
    uint64_t answer[GUIDE_RULES_ANSWER_LIMIT];

    for (uint64_t place = 0; found(bytes, length, place, answer); place = answer[2]) {
        printf(" %s", marks[answer[0]]);
        if (answer[0] == GUIDE_RULES_KIND_CO || answer[0] == GUIDE_RULES_KIND_VA)
            printf("%" PRIu64, answer[1]);
    }
}

/* The operand that is the bytes from a start up to a place. */
static void operand_read(const uint8_t *bytes, uint64_t start, uint64_t place)
{
    printf(" from %" PRIu64, start);
    records_read(bytes + start, place - start);
}

/* Each operator with its operands, as a page that draws it takes them. */
static void operators_read(const uint8_t *bytes, uint64_t length)
{
    uint64_t answer[GUIDE_RULES_ANSWER_LIMIT];

    for (uint64_t place = 0; found(bytes, length, place, answer); place = answer[2]) {
        if (answer[0] == GUIDE_RULES_KIND_CO || answer[0] == GUIDE_RULES_KIND_VA)
            continue;
        printf("%s at %" PRIu64 ":", marks[answer[0]], place);
        if (answer[0] == GUIDE_RULES_KIND_NO) {
            operand_read(bytes, answer[3], place);
        } else {
            operand_read(bytes, answer[3], answer[4]);
            printf(",");
            operand_read(bytes, answer[4], place);
        }
        printf("\n");
    }
}

/* Places at which there is no record: inside one, and behind one that is refused. */
static void places_refused(void)
{
    uint64_t answer[GUIDE_RULES_ANSWER_LIMIT];

    printf("other from 7: ");
    found(other, sizeof other, 7, answer);
    printf("cut from 7: ");
    found(cut, sizeof cut, 7, answer);
}

/* The examiner's verdict, and whether the rule may be loaded. */
static int examined(const char *name, const uint8_t *bytes, uint64_t length)
{
    uint64_t answer[GUIDE_RULES_ANSWER_LIMIT];

    printf("%s: ", name);
    if (refused(rule_examine(FLAGS, table, SETTINGS, bytes, length, answer, GUIDE_RULES_ANSWER_LIMIT), answer))
        return 0;
    printf("accepted, cost %" PRIu64 "\n", answer[0]);
    return 1;
}

static void costs_told(const uint8_t *bytes, uint64_t length)
{
    uint64_t answer[GUIDE_RULES_ANSWER_LIMIT];

    printf("costs: ");
    if (!refused(rule_cost(FLAGS, bytes, length, answer, GUIDE_RULES_ANSWER_LIMIT), answer))
        printf("cost %" PRIu64 ", size %" PRIu64 ", depth %" PRIu64 "\n", answer[0], answer[1], answer[2]);
}

static void settings_asked(const uint8_t *bytes, uint64_t length)
{
    uint64_t answer[GUIDE_RULES_ANSWER_LIMIT];

    for (uint64_t setting = 0; setting <= SETTINGS; setting++) {
        printf("star with setting %" PRIu64 ": ", setting);
        if (!refused(rule_evaluate(FLAGS, bytes, length, setting, answer, GUIDE_RULES_ANSWER_LIMIT), answer))
            printf("%s\n", answer[0] ? "may guide" : "may not guide");
    }
}

/* All 64 stars at once, with that many of the words. */
static void stars_asked(uint64_t words, const uint8_t *bytes, uint64_t length)
{
    uint64_t answer[GUIDE_RULES_ANSWER_LIMIT];

    printf("stars in %" PRIu64 " words: ", words);
    if (refused(rule_evaluate_stars(FLAGS, stars, words, bytes, length, answer, GUIDE_RULES_ANSWER_LIMIT), answer))
        return;
    printf("may guide:");
    for (int star = 0; star < STARS; star++)
        if (answer[0] >> star & 1)
            printf(" %d", star);
    printf("\n");
}

/* A rule behind those that stand in the package already; returns the length with it, or the old one where it is refused. */
static uint64_t packed(uint8_t *package, uint64_t length, uint64_t word, const uint8_t *bytes, uint64_t count)
{
    uint64_t answer[GUIDE_RULES_ANSWER_LIMIT];
    uint64_t room = GUIDE_RULES_PACKAGE_LIMIT - length;

    printf("packed: ");
    if (refused(package_write(FLAGS, word, bytes, count, package + length, room, answer, GUIDE_RULES_ANSWER_LIMIT), answer))
        return length;
    printf("%" PRIu64 " bytes\n", answer[0]);
    return length + answer[0];
}

static void rules_read(const uint8_t *package, uint64_t length)
{
    uint64_t answer[GUIDE_RULES_ANSWER_LIMIT];

    for (uint64_t place = 0;; place = answer[5]) {
        printf("rule at %" PRIu64 ": ", place);
        if (refused(package_read(package, length, place, answer, GUIDE_RULES_ANSWER_LIMIT), answer))
            return;
        if (answer[0] == GUIDE_RULES_PACKAGE_END)
            break;
        printf("flags %" PRIu64 ", table %" PRIu64 ", expression %" PRIu64 " bytes from %" PRIu64 "\n", answer[1], answer[2], answer[4],
               answer[3]);
    }
    printf("the end\n");
}

/* The compiled rule and the other, and one that contradicts its table. */
static void package_made(const uint8_t *bytes, uint64_t count)
{
    static uint8_t package[GUIDE_RULES_PACKAGE_LIMIT];
    uint64_t length = packed(package, 0, 232, bytes, count);

    length = packed(package, length, 30, other, sizeof other);
    length = packed(package, length, 232, other, sizeof other);
    rules_read(package, length);
    rules_read(package, length - 1);
}

int main(void)
{
    static const char *const cheaper[] = {"refused", "compiled", "raw"};
    uint8_t compiled[GUIDE_RULES_BYTE_LIMIT];
    uint64_t answer[GUIDE_RULES_ANSWER_LIMIT], length;
    (void)documented;

    coefficients_listed();

    printf("compiled into 22 bytes: ");
    refused(rule_compile(FLAGS, table, SETTINGS, compiled, 22, answer, GUIDE_RULES_ANSWER_LIMIT), answer);
    printf("compiled: ");
    if (refused(rule_compile(FLAGS, table, SETTINGS, compiled, sizeof compiled, answer, GUIDE_RULES_ANSWER_LIMIT), answer))
        return 1;
    length = answer[0];
    printf("bytes %" PRIu64 ", records %" PRIu64 ", cost %" PRIu64 ", raw cost %" PRIu64 "\n", length, answer[1], answer[2], answer[3]);

    printf("records:");
    records_read(compiled, length);
    printf("\n");
    operators_read(compiled, length);
    operators_read(negated, sizeof negated);
    places_refused();
    costs_told(compiled, length);
    printf("cheaper of compiled and raw: %s\n", cheaper[rule_cheaper(FLAGS, compiled, length, raw, sizeof raw)]);
    printf("cheaper of compiled and cut: %s\n", cheaper[rule_cheaper(FLAGS, compiled, length, cut, sizeof cut)]);
    if (examined("compiled", compiled, length)) {
        settings_asked(compiled, length);
        stars_asked(FLAGS, compiled, length);
        stars_asked(FLAGS - 1, compiled, length);
    }
    examined("raw", raw, sizeof raw);
    examined("other", other, sizeof other);
    examined("cut", cut, sizeof cut);
    package_made(compiled, length);
    return 0;
}
