/* A program in C that links the library: it prints a listing, verdicts with their cells, run checks and refusals. */
#include <stdio.h>
#include <string.h>

#include "yungaslid.h"

#define LENGTH(array) (sizeof(array) / sizeof(array)[0])
#define BYTES(text) (const uint8_t *)(text), strlen(text)

enum { CELLS = 12, UNTOUCHED = 9 };

/* A recording: so many signals, a stem and a cycle, a mask and a lost mask for each sample. */
struct recording {
    uint32_t signals, stem, cycle;
    size_t samples;
    uint32_t masks[4], lost[4];
};

static void print_answer(struct yungaslid_answer answer)
{
    if (answer.number == 0)
        printf("%llu\n", (unsigned long long)answer.value);
    else if (answer.place == YUNGASLID_NOWHERE)
        printf("refused by %u\n", (unsigned)answer.number);
    else
        printf("refused by %u at %llu\n", (unsigned)answer.number, (unsigned long long)answer.place);
}

static void list(const char *names, const char *rule, size_t room)
{
    uint8_t out[5120];
    memset(out, '.', sizeof out);
    struct yungaslid_answer answer = yungaslid_listing(BYTES(names), BYTES(rule), out, room);
    printf("list %s in %zu bytes: ", rule, room);
    print_answer(answer);
    size_t length = answer.value < room ? (size_t)answer.value : room;
    fwrite(out, 1, length, stdout);
    if (answer.value > room)
        printf("[there is no room for more]\n");
    /* what is behind the text stays */
    for (size_t i = length; i < sizeof out; i++)
        if (out[i] != '.')
            printf("byte %zu was written\n", i);
}

static void judge(const char *names, const char *rule, const struct recording *r, size_t room)
{
    uint8_t cells[CELLS];
    memset(cells, UNTOUCHED, sizeof cells);
    struct yungaslid_answer answer =
        yungaslid_verdict(BYTES(names), BYTES(rule), r->signals, r->stem, r->cycle, r->masks, r->samples, r->lost,
                          r->samples, cells, room);
    printf("judge %s: ", rule);
    print_answer(answer);
    printf("cells");
    for (size_t i = 0; i < LENGTH(cells); i++)
        printf(" %d", cells[i]);
    printf("\n");
}

static void check(const char *names, const char *rule, const struct recording *r, const uint64_t *rows, size_t n,
                  size_t back)
{
    printf("check %s: ", rule);
    print_answer(
        yungaslid_check(BYTES(names), BYTES(rule), r->signals, r->stem, r->cycle, r->masks, r->samples, rows, n, back));
}

int main(void)
{
    /* signal 0 is crank, signal 1 is oil */
    const struct recording comes = {2, 1, 2, 3, {1, 2, 0}, {0, 0, 0}};
    const struct recording never = {2, 0, 1, 1, {1}, {0}};
    const struct recording lost = {2, 1, 2, 3, {1, 0, 0}, {0, 2, 0}};
    const struct recording sure = {2, 1, 2, 3, {2, 0, 0}, {1, 3, 3}};
    const struct recording one = {1, 0, 1, 1, {1}, {0}};
    const struct recording stray = {2, 1, 2, 3, {1, 2, 0}, {0, 0, 4}};
    const struct recording short_ = {2, 1, 2, 2, {1, 2}, {0, 0}};

    list("crank oil", "(crankUoil)", 5120);
    list("crank oil", "(crankSoil)", 32);
    list("crank oil", "(crank oil)", 5120);

    judge("crank oil", "(crankUoil)", &comes, CELLS);
    judge("crank oil", "(crankUoil)", &never, CELLS);
    judge("crank oil", "(crankUoil)", &lost, CELLS);
    judge("crank oil", "(crankUoil)", &sure, CELLS);
    judge("crank oil", "(crankUoil)", &comes, 8);
    judge("crank oil", "oil", &one, CELLS);
    judge("crank oil", "(crankUoil)", &stray, CELLS);
    judge("crank oil", "(crankUoil)", &short_, CELLS);
    judge("crank crank", "(crankUoil)", &short_, CELLS);
    judge("crank oil", "(crankUair)", &comes, CELLS);
    judge("crank oil", "(crankU", &comes, CELLS);
    judge("crank oil", "oil)", &comes, CELLS);

    /* crank until oil has one variable: 1 while the rule holds */
    const uint64_t holds[] = {1, 1, 0};
    const uint64_t waits[] = {1};
    const uint64_t wide[] = {1, 3, 0};
    check("crank oil", "(crankUoil)", &comes, holds, LENGTH(holds), 1);
    check("crank oil", "!(crankUoil)", &comes, holds, LENGTH(holds), 1);
    check("crank oil", "(crankUoil)", &never, waits, LENGTH(waits), 0);
    check("crank oil", "(crankWoil)", &never, waits, LENGTH(waits), 0);
    check("crank oil", "(crankUoil)", &comes, holds, LENGTH(holds), 0);
    check("crank oil", "(crankUoil)", &comes, holds, LENGTH(holds), 2);
    check("crank oil", "(crankUoil)", &comes, wide, LENGTH(wide), 1);
    check("crank oil", "oil", &one, waits, LENGTH(waits), 0);
    check("Crank oil", "oil", &one, waits, LENGTH(waits), 0);
    return 0;
}
