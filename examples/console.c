/* A console that loads a rule, has it examined and asks it about some stars. The rule: a star may guide if it is variable or blended; flag 0 is
   variable, flag 1 blended. The second expression has the fault of March: it contradicts the table at a single setting. It rests on console.h. */
#include "console.h"

#include <stdio.h>

enum { FLAGS = 2, SETTINGS = 4 };

/* Eight bytes an entry, low byte first. */
static const uint8_t table[8 * SETTINGS] = {[8] = 1, [16] = 1, [24] = 1};

static const uint8_t right[] = {'V', 'A', 0, 'V', 'A', 1, 'O', 'R'};
static const uint8_t wrong[] = {'V', 'A', 0, 'V', 'A', 1, 'X', 'O'};
static const uint8_t cut[] = {'V', 'A', 0, 'V', 'A', 1, 'O'};

/* The examiner's verdict, and whether the rule may be loaded. */
static int examined(const char *name, const uint8_t *bytes, uint64_t length)
{
    uint64_t number = rule_examination_number(FLAGS, table, sizeof table, bytes, length);
    uint64_t result = rule_examination_result(FLAGS, table, sizeof table, bytes, length);
    if (number == 0)
        printf("%s: accepted, cost %llu\n", name, (unsigned long long)result);
    else
        printf("%s: refused by %llu at %llu\n", name, (unsigned long long)number, (unsigned long long)result);
    return number == 0;
}

static void evaluated(const uint8_t *bytes, uint64_t length)
{
    for (uint64_t star = 0; star <= SETTINGS; star++) {
        uint64_t number = rule_evaluation_number(FLAGS, bytes, length, star);
        uint64_t result = rule_evaluation_result(FLAGS, bytes, length, star);
        if (number == 0)
            printf("star with setting %llu: %s\n", (unsigned long long)star, result ? "may guide" : "may not guide");
        else
            printf("star with setting %llu: refused by %llu\n", (unsigned long long)star, (unsigned long long)number);
    }
}

int main(void)
{
    if (examined("right", right, sizeof right))
        evaluated(right, sizeof right);
    examined("wrong", wrong, sizeof wrong);
    examined("cut", cut, sizeof cut);
    return 0;
}
