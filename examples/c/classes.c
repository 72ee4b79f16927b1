/* Reads the image in a file and prints, for each class of teams, the least and the greatest number of its states on a route. */
#include <inttypes.h>
#include <stdio.h>

#include "callplan.h"

/* A class, and a team in it. */
static const struct {
    const char *name;
    uint32_t team;
} classes[] = {{"none", 0}, {"wards", 1}, {"clinics", 10}, {"switchboards", 20}, {"outside lines", 30}};

static void print_figure(const callplan_figure *figure)
{
    static const char *const kinds[] = {"number", "NONE", "STRANDED", "ENDLESS"};
    if (figure->kind == CALLPLAN_NUMBER) {
        printf(" %" PRIu32, figure->value);
    } else {
        printf(" %s", kinds[figure->kind]);
    }
}

int main(int count, char **arguments)
{
    if (count != 2) {
        fprintf(stderr, "usage: classes FILE\n");
        return 2;
    }
    FILE *file = fopen(arguments[1], "rb");
    if (file == NULL) {
        perror(arguments[1]);
        return 1;
    }
    /* One octet more than an image can have, so that a longer file is refused as one. */
    uint8_t octets[CALLPLAN_MAX_IMAGE_OCTETS + 1];
    const size_t length = fread(octets, 1, sizeof octets, file);
    const int failed = ferror(file);
    fclose(file);
    if (failed) {
        fprintf(stderr, "%s: cannot be read\n", arguments[1]);
        return 1;
    }

    callplan_plan plan;
    const callplan_answer answer = callplan_from_image(&plan, octets, length);
    if (answer != CALLPLAN_ACCEPTED) {
        printf("refused %d: %s\n", (int)answer, callplan_answer_text(answer));
        return 0;
    }
    for (size_t i = 0; i < sizeof classes / sizeof classes[0]; i++) {
        callplan_figure least, greatest;
        /* The plan is one that was read, and the team is one: neither call is refused. */
        if (callplan_least_count_for(&plan, classes[i].team, &least) != CALLPLAN_ACCEPTED ||
            callplan_greatest_count_for(&plan, classes[i].team, &greatest) != CALLPLAN_ACCEPTED) {
            return 1;
        }
        printf("%s", classes[i].name);
        print_figure(&least);
        print_figure(&greatest);
        printf("\n");
    }
    return 0;
}
