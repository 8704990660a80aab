/* How much stack each of the library's calls uses: each runs on a stack of its own, painted before, and the lowest byte that changed tells. What the
   switch to that stack takes itself is subtracted. It rests on guide_rules.h and on ucontext. */
#define _XOPEN_SOURCE 700
#include "guide_rules.h"

#include <stddef.h>
#include <stdint.h>
#include <stdio.h>
#include <string.h>
#include <ucontext.h>

enum { STACK = 1 << 18, PAINT = 0xa5, FLAGS = 16, SETTINGS = 1 << FLAGS, RECORDS = GUIDE_RULES_RECORD_LIMIT };

static uint8_t stack[STACK];
static uint64_t table[SETTINGS], words[SETTINGS / 64], entries[SETTINGS], answer[GUIDE_RULES_ANSWER_LIMIT];
static uint32_t masks[SETTINGS];
static uint8_t bytes[1200], written[GUIDE_RULES_BYTE_LIMIT], package[1213] = {'R', 'U', 6}, rule[GUIDE_RULES_RULE_LIMIT];
static size_t length;
static ucontext_t here, there;

static void nothing(void) {}
static void compile(void) { rule_compile(6, table, 64, written, sizeof written, answer, GUIDE_RULES_ANSWER_LIMIT); }
static void transform(void) { rule_transform(FLAGS, table, SETTINGS, words, SETTINGS / 64, answer, GUIDE_RULES_ANSWER_LIMIT); }
static void way_back(void) { rule_way_back(FLAGS, words, SETTINGS / 64, entries, SETTINGS, answer, GUIDE_RULES_ANSWER_LIMIT); }
static void listing(void) { rule_listing(FLAGS, words, SETTINGS / 64, masks, SETTINGS, answer, GUIDE_RULES_ANSWER_LIMIT); }
static void raw_cost(void) { rule_raw_cost(6, table, 1, answer, GUIDE_RULES_ANSWER_LIMIT); }
static void reading(void) { rule_read(6, bytes, length, length - 2, answer, GUIDE_RULES_ANSWER_LIMIT); }
static void costing(void) { rule_cost(6, bytes, length, answer, GUIDE_RULES_ANSWER_LIMIT); }
static void evaluate(void) { rule_evaluate(6, bytes, length, 37, answer, GUIDE_RULES_ANSWER_LIMIT); }
static void evaluate_stars(void) { rule_evaluate_stars(6, table, 6, bytes, length, answer, GUIDE_RULES_ANSWER_LIMIT); }
static void examine(void) { rule_examine(6, table, 64, bytes, length, answer, GUIDE_RULES_ANSWER_LIMIT); }
static void package_reading(void) { package_read(package, 13 + length, 0, answer, GUIDE_RULES_ANSWER_LIMIT); }
static void package_writing(void) { package_write(6, 0, bytes, length, rule, sizeof rule, answer, GUIDE_RULES_ANSWER_LIMIT); }

static size_t used(void (*call)(void))
{
    memset(stack, PAINT, STACK);
    getcontext(&there);
    there.uc_stack.ss_sp = stack;
    there.uc_stack.ss_size = STACK;
    there.uc_link = &here;
    makecontext(&there, call, 0);
    swapcontext(&here, &there);
    size_t low = 0;
    while (low < STACK && stack[low] == PAINT)
        low++;
    return STACK - low;
}

static void row(const char *call, const char *inputs, size_t most)
{
    printf("| %s | %s | %zu |\n", call, inputs, most - used(nothing));
}

/* One step of SplitMix64 (Steele, Lea and Flood, 2014). */
static uint64_t next(uint64_t *state)
{
    uint64_t z = *state += 0x9E3779B97F4A7C15u;
    z = (z ^ (z >> 30)) * 0xBF58476D1CE4E5B9u;
    z = (z ^ (z >> 27)) * 0x94D049BB133111EBu;
    return z ^ (z >> 31);
}

int main(void)
{
    uint64_t state = 11;
    size_t most = 0;
    printf("| Call | Inputs | Bytes of stack at most |\n|---|---|---|\n");
    for (int t = 0; t < 2000; t++) {
        for (int s = 0; s < 64; s++)
            table[s] = next(&state) & 1;
        size_t now = used(compile);
        most = now > most ? now : most;
    }
    row("compile", "2,000 random tables of 6 flags", most);
    for (int s = 0; s < SETTINGS; s++)
        table[s] = next(&state) & 1;
    row("transform", "16 flags", used(transform));
    row("way back", "16 flags", used(way_back));
    row("listing", "16 flags", used(listing));
    row("raw costing", "6 flags", used(raw_cost));
    /* The deepest stack of operands that a well-formed expression of 385 records has. */
    for (int i = 0; i < RECORDS / 2 + 1; i++)
        memcpy(bytes + length, "VA", 3), length += 3;
    for (int i = 0; i < RECORDS / 2; i++)
        memcpy(bytes + length, "XO", 2), length += 2;
    row("reading the last record", "385 records, 193 operands deep", used(reading));
    row("costing", "385 records, 193 operands deep", used(costing));
    row("evaluation", "385 records, 193 operands deep", used(evaluate));
    row("64 stars", "385 records, 193 operands deep", used(evaluate_stars));
    row("examination", "385 records, 193 operands deep", used(examine));
    package[3] = (uint8_t)length, package[4] = (uint8_t)(length >> 8);
    memcpy(package + 13, bytes, length);
    row("reading a rule of a package", "385 records, 193 operands deep", used(package_reading));
    row("writing a rule of a package", "385 records, 193 operands deep", used(package_writing));
    return 0;
}
