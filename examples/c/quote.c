/* Reads the image in a file and prints its four figures with their walks, or the number that it is refused by: the lines of ./quote. */
#include <inttypes.h>
#include <stdio.h>

#include "callplan.h"

static void print_figure(const char *name, const callplan_figure *figure)
{
    if (figure->kind == CALLPLAN_NUMBER) {
        printf("%s %" PRIu32 ":", name, figure->value);
    } else {
        printf("%s %s:", name, callplan_kind_text(figure->kind));
    }
    for (size_t i = 0; i < figure->k; i++) {
        printf(" %u", (unsigned)figure->walk[i]);
    }
    if (figure->kind == CALLPLAN_ENDLESS) {
        printf(" @%zu", figure->j);
    }
    printf("\n");
}

int main(int count, char **arguments)
{
    static const char *const names[] = {"least delay", "greatest delay", "least count", "greatest count"};
    if (count != 2) {
        fprintf(stderr, "usage: quote FILE\n");
        return 2;
    }
    FILE *file = fopen(arguments[1], "rb");
    if (file == NULL) {
        perror(arguments[1]);
        return 1;
    }
    /* One octet more than an image can have, so that a longer file is refused as one. */
    uint8_t octets[CALLPLAN_MAX_IMAGE_OCTETS + 1];
    const size_t length = fread(octets, 1, sizeof octets, file);
    const int failed = ferror(file);
    fclose(file);
    if (failed) {
        fprintf(stderr, "%s: cannot be read\n", arguments[1]);
        return 1;
    }

    callplan_quotations quotations;
    const callplan_answer answer = callplan_quote(octets, length, &quotations);
    if (answer != CALLPLAN_ACCEPTED) {
        printf("refused %d\n", (int)answer);
        return 0;
    }
    for (size_t i = 0; i < 4; i++) {
        print_figure(names[i], &quotations.figures[i]);
    }
    return 0;
}
