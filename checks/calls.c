/* Every call of callplan.h, accepted and refused. C99 and C++11. The last line is 'N passed, M failed'. */
#include <stdio.h>
#include <string.h>

#include "callplan.h"

static int passed, failed;

#define CHECK(condition) check((condition) ? 1 : 0, __LINE__, #condition)

static void check(int holds, int line, const char *text)
{
    if (holds) {
        passed++;
    } else {
        failed++;
        printf("line %d: not so: %s\n", line, text);
    }
}

/* Plan P1 of document 01: its image, of version 1, the image of version 2 that is written of it, its record, and the plan made by
 * edits. */
static const uint8_t p1_image[28] = {0x10, 0x10, 0x01, 0x00, 0x80, 0x20, 0x20, 0x40, 0x00, 0x00, 0x40, 0x28, 0x14, 0x00,
                                     0x80, 0x80, 0x18, 0x0F, 0x00, 0x80, 0xC0, 0x10, 0x1E, 0x01, 0x00, 0xC0, 0x20, 0x19};
static const uint8_t p1_written[28] = {0x20, 0x10, 0x01, 0x00, 0x80, 0x20, 0x20, 0x40, 0x00, 0x00, 0x40, 0x28, 0x14, 0x00,
                                       0x80, 0x80, 0x18, 0x0F, 0x00, 0x80, 0xC0, 0x10, 0x1E, 0x01, 0x00, 0xC0, 0x20, 0x19};
static const uint8_t p1_record[CALLPLAN_RECORD_OCTETS] = {0x00, 0x00, 0x1C, 0x00, 0x03, 0xC0, 0x00, 0x00, 0x40, 0x00, 0x02};

/* Its text. */
static const char p1_words[] = "des (0, 4, 4)\n"
                               "(0, \"5..20\", 1)\n"
                               "(1, \"3..15\", 2)\n"
                               "(1, \"2..30\", 3)\n"
                               "(2, \"4..25\", 3)\n";
enum { P1_TEXT_OCTETS = sizeof p1_words - 1 };

static callplan_plan p1(void)
{
    callplan_plan plan;
    CHECK(callplan_fresh(&plan, 4) == CALLPLAN_ACCEPTED);
    CHECK(callplan_mark(&plan, 0, CALLPLAN_START) == CALLPLAN_ACCEPTED);
    CHECK(callplan_mark(&plan, 1, CALLPLAN_COUNTED) == CALLPLAN_ACCEPTED);
    CHECK(callplan_mark(&plan, 2, CALLPLAN_COUNTED) == CALLPLAN_ACCEPTED);
    CHECK(callplan_mark(&plan, 3, CALLPLAN_FINAL) == CALLPLAN_ACCEPTED);
    CHECK(callplan_join(&plan, 0, 1, 5, 20) == CALLPLAN_ACCEPTED);
    CHECK(callplan_join(&plan, 1, 2, 3, 15) == CALLPLAN_ACCEPTED);
    CHECK(callplan_join(&plan, 1, 3, 2, 30) == CALLPLAN_ACCEPTED);
    CHECK(callplan_join(&plan, 2, 3, 4, 25) == CALLPLAN_ACCEPTED);
    return plan;
}

static int is_same_plan(const callplan_plan *a, const callplan_plan *b)
{
    return memcmp(a, b, sizeof *a) == 0;
}

static void edits(void)
{
    callplan_plan plan = p1();
    const callplan_plan before = plan;
    callplan_transition transition;

    CHECK(callplan_fresh(&plan, 0) == CALLPLAN_REFUSED_STATE_COUNT);
    CHECK(callplan_fresh(&plan, CALLPLAN_MAX_STATES + 1) == CALLPLAN_REFUSED_STATE_COUNT);
    CHECK(callplan_mark(&plan, 4, 8) == CALLPLAN_REFUSED_STATE_NUMBER);
    CHECK(callplan_mark(&plan, SIZE_MAX, 0) == CALLPLAN_REFUSED_STATE_NUMBER);
    CHECK(callplan_mark(&plan, 3, 8) == CALLPLAN_REFUSED_MARKS_VALUE);
    CHECK(callplan_team(&plan, 4, CALLPLAN_MAX_TEAM + 1) == CALLPLAN_REFUSED_STATE_NUMBER);
    CHECK(callplan_team(&plan, SIZE_MAX, 0) == CALLPLAN_REFUSED_STATE_NUMBER);
    CHECK(callplan_team(&plan, 3, CALLPLAN_MAX_TEAM + 1) == CALLPLAN_REFUSED_TEAM_NUMBER);
    CHECK(callplan_team(&plan, 3, 259) == CALLPLAN_REFUSED_TEAM_NUMBER);
    CHECK(callplan_team(&plan, 3, UINT32_MAX) == CALLPLAN_REFUSED_TEAM_NUMBER);
    CHECK(callplan_join(&plan, 4, 0, 0, 0) == CALLPLAN_REFUSED_FROM_STATE);
    CHECK(callplan_join(&plan, 4, 0, 1, 0) == CALLPLAN_REFUSED_FROM_STATE);
    CHECK(callplan_join(&plan, 4, 4, 0, 0) == CALLPLAN_REFUSED_FROM_STATE);
    CHECK(callplan_join(&plan, SIZE_MAX, SIZE_MAX, 1, 0) == CALLPLAN_REFUSED_FROM_STATE);
    CHECK(callplan_join(&plan, 0, 4, 0, 0) == CALLPLAN_REFUSED_TO_STATE);
    CHECK(callplan_join(&plan, 0, 4, 1, 0) == CALLPLAN_REFUSED_TO_STATE);
    CHECK(callplan_join(&plan, 0, SIZE_MAX, 0, CALLPLAN_MAX_DURATION + 1) == CALLPLAN_REFUSED_TO_STATE);
    CHECK(callplan_join(&plan, 0, 0, 1, 0) == CALLPLAN_REFUSED_DURATION);
    CHECK(callplan_join(&plan, 0, 0, 0, CALLPLAN_MAX_DURATION + 1) == CALLPLAN_REFUSED_DURATION);
    CHECK(callplan_unjoin(&plan, 4) == CALLPLAN_REFUSED_TRANSITION_NUMBER);
    CHECK(is_same_plan(&plan, &before));

    CHECK(callplan_unjoin(&plan, 0) == CALLPLAN_ACCEPTED);
    CHECK(callplan_states(&plan) == 4);
    CHECK(callplan_transitions(&plan) == 3);
    CHECK(callplan_marks(&plan, 0) == CALLPLAN_START);
    CHECK(callplan_marks(&plan, 3) == CALLPLAN_FINAL);
    transition = callplan_transition_at(&plan, 1);
    CHECK(transition.from == 1 && transition.to == 3 && transition.low == 2 && transition.high == 30);

    CHECK(callplan_fresh(&plan, CALLPLAN_MAX_STATES) == CALLPLAN_ACCEPTED);
    CHECK(callplan_states(&plan) == CALLPLAN_MAX_STATES && callplan_transitions(&plan) == 0);
    for (size_t number = 0; number < CALLPLAN_MAX_TRANSITIONS; number++) {
        if (callplan_join(&plan, number % 512, 511, 1, CALLPLAN_MAX_DURATION) != CALLPLAN_ACCEPTED) {
            CHECK(!"joined");
        }
    }
    CHECK(callplan_join(&plan, 0, 0, 0, 0) == CALLPLAN_REFUSED_LIST_FULL);
    CHECK(callplan_join(&plan, 512, 0, 0, 0) == CALLPLAN_REFUSED_FROM_STATE);
    CHECK(callplan_join(&plan, 0, 512, 0, 0) == CALLPLAN_REFUSED_TO_STATE);
    CHECK(callplan_mark(&plan, 511, 7) == CALLPLAN_ACCEPTED);
    CHECK(callplan_marks(&plan, 511) == 7);
    transition = callplan_transition_at(&plan, 2047);
    CHECK(transition.from == 511 && transition.to == 511 && transition.low == 1 && transition.high == 2047);
    transition = callplan_transition_at(&plan, 2048);
    CHECK(transition.from == 0 && transition.to == 0 && transition.low == 0 && transition.high == 0);
    CHECK(callplan_marks(&plan, 512) == 0 && callplan_marks(&plan, SIZE_MAX) == 0);
}

static void images(void)
{
    const callplan_plan plan = p1();
    callplan_plan other;
    uint8_t octets[29];
    uint8_t buffer[CALLPLAN_MAX_IMAGE_OCTETS];
    size_t written = 77;

    CHECK(callplan_write(&plan, NULL, 0, &written) == CALLPLAN_REFUSED_BUFFER_LENGTH);
    memset(buffer, 0xAA, sizeof buffer);
    CHECK(callplan_write(&plan, buffer, 27, &written) == CALLPLAN_REFUSED_BUFFER_LENGTH);
    CHECK(written == 77 && buffer[0] == 0xAA && buffer[26] == 0xAA);
    CHECK(callplan_write(&plan, buffer, sizeof buffer, &written) == CALLPLAN_ACCEPTED);
    CHECK(written == 28 && memcmp(buffer, p1_written, 28) == 0 && buffer[28] == 0xAA);
    CHECK(callplan_write(&plan, buffer, 28, NULL) == CALLPLAN_ACCEPTED);

    CHECK(callplan_fresh(&other, 1) == CALLPLAN_ACCEPTED);
    CHECK(callplan_read(&other, NULL, 0) == CALLPLAN_REFUSED_IMAGE_SHORT);
    CHECK(callplan_read(&other, p1_image, 3) == CALLPLAN_REFUSED_IMAGE_SHORT);
    CHECK(callplan_read(&other, p1_image, 27) == CALLPLAN_REFUSED_IMAGE_SHORT);
    memcpy(octets, p1_image, 28);
    octets[28] = 0;
    CHECK(callplan_read(&other, octets, 29) == CALLPLAN_REFUSED_IMAGE_LONG);
    octets[0] = 0x00;
    CHECK(callplan_read(&other, octets, 28) == CALLPLAN_REFUSED_VERSION);
    octets[0] = 0x30;
    CHECK(callplan_read(&other, octets, 28) == CALLPLAN_REFUSED_VERSION);
    octets[0] = 0xF0;
    CHECK(callplan_read(&other, octets, 28) == CALLPLAN_REFUSED_VERSION);
    octets[0] = 0x1F;
    CHECK(callplan_read(&other, octets, 28) == CALLPLAN_REFUSED_STATE_COUNT);
    octets[0] = 0x10;
    octets[1] = 0x13;
    octets[2] = 0xFF;
    CHECK(callplan_read(&other, octets, 28) == CALLPLAN_REFUSED_TRANSITION_COUNT);
    octets[1] = 0x10;
    octets[2] = 0x01;
    octets[3] = 0x01;
    CHECK(callplan_read(&other, octets, 28) == CALLPLAN_REFUSED_SPARE_BITS);
    octets[3] = 0x00;
    octets[8] = 0xFF;
    CHECK(callplan_read(&other, octets, 28) == CALLPLAN_REFUSED_FROM_STATE);
    octets[8] = 0x00;
    octets[9] = 0x01;
    CHECK(callplan_read(&other, octets, 28) == CALLPLAN_REFUSED_TO_STATE);
    octets[9] = 0x00;
    octets[12] = 0x00;
    CHECK(callplan_read(&other, octets, 28) == CALLPLAN_REFUSED_DURATION);
    CHECK(callplan_states(&other) == 1 && callplan_transitions(&other) == 0);
    /* Refused at the last transition, by its from, its to and its durations: every octet of the old plan stays. */
    for (int way = 0; way < 3; way++) {
        const callplan_plan before = other;
        memcpy(octets, p1_image, 28);
        octets[way == 0 ? 23 : way == 1 ? 24 : 27] = way == 0 ? 0xFF : way == 1 ? 0x01 : 0x00;
        CHECK(callplan_read(&other, octets, 28)
              == (way == 0 ? CALLPLAN_REFUSED_FROM_STATE : way == 1 ? CALLPLAN_REFUSED_TO_STATE : CALLPLAN_REFUSED_DURATION));
        CHECK(memcmp(&other, &before, sizeof other) == 0);
    }
    CHECK(callplan_read(&other, p1_image, sizeof p1_image) == CALLPLAN_ACCEPTED);
    CHECK(is_same_plan(&other, &plan));
    CHECK(callplan_read(&other, p1_written, sizeof p1_written) == CALLPLAN_ACCEPTED);
    CHECK(is_same_plan(&other, &plan));
}

/* Plans made from a seed, over a plan that breaks a limit: by the draws, which are worked out in 64 bits, and the same each time. */
static void made(void)
{
    static const uint32_t seeds[] = {0, 1, 305419896, 2147483648u, UINT32_MAX};
    static const size_t sizes[][2] = {{1, 0}, {1, 3}, {2, 1}, {3, 100}, {512, 0}, {512, CALLPLAN_MAX_TRANSITIONS}};
    static const size_t bad[] = {0, 513, 65536, ((size_t)1 << 32) + 1, SIZE_MAX};
    static const size_t many[] = {2049, 65536, ((size_t)1 << 32) + 1, SIZE_MAX};
    static uint64_t words[55 + 4 * CALLPLAN_MAX_TRANSITIONS];
    static uint8_t buffer[CALLPLAN_MAX_IMAGE_OCTETS];
    callplan_plan plan, other, before;
    callplan_transition transition;
    size_t written = 77;

    memset(&plan, 0xAA, sizeof plan);
    before = plan;
    for (size_t i = 0; i < sizeof bad / sizeof bad[0]; i++) {
        CHECK(callplan_generate(&plan, 1, bad[i], 0) == CALLPLAN_REFUSED_STATE_COUNT);
        CHECK(callplan_generate(&plan, 1, bad[i], 2049) == CALLPLAN_REFUSED_STATE_COUNT);
        CHECK(callplan_generate(&plan, 1, bad[i], SIZE_MAX) == CALLPLAN_REFUSED_STATE_COUNT);
    }
    for (size_t i = 0; i < sizeof many / sizeof many[0]; i++) {
        CHECK(callplan_generate(&plan, 1, 1, many[i]) == CALLPLAN_REFUSED_TRANSITION_COUNT);
        CHECK(callplan_generate(&plan, UINT32_MAX, 512, many[i]) == CALLPLAN_REFUSED_TRANSITION_COUNT);
    }
    CHECK(is_same_plan(&plan, &before));

    for (size_t s = 0; s < sizeof seeds / sizeof seeds[0]; s++) {
        words[0] = seeds[s];
        for (size_t i = 1; i < sizeof words / sizeof words[0]; i++) {
            words[i] = (i < 55 ? words[i - 1] + 0x9E3779B9u : words[i - 24] + words[i - 55]) % ((uint64_t)1 << 32);
        }
        for (size_t i = 0; i < sizeof sizes / sizeof sizes[0]; i++) {
            const size_t n = sizes[i][0];
            const size_t m = sizes[i][1];
            int as_drawn = 1;
            CHECK(callplan_generate(&plan, seeds[s], n, m) == CALLPLAN_ACCEPTED);
            CHECK(callplan_states(&plan) == n && callplan_transitions(&plan) == m);
            for (size_t state = 0; state < n; state++) {
                const int marks = (state == 0 ? CALLPLAN_START : 0) + (state == n - 1 ? CALLPLAN_FINAL : 0);
                as_drawn = as_drawn && callplan_marks(&plan, state) == marks && callplan_team_of(&plan, state) == 0;
            }
            for (size_t number = 0; number < m; number++) {
                const uint64_t *draws = words + 55 + 4 * number;
                const uint64_t low = draws[2] % 2048;
                transition = callplan_transition_at(&plan, number);
                as_drawn = as_drawn && transition.from == draws[0] % n && transition.to == draws[1] % n;
                as_drawn = as_drawn && transition.low == low && transition.high == low + draws[3] % (2048 - low);
            }
            CHECK(as_drawn);
            memset(&other, 0x55, sizeof other);
            CHECK(callplan_generate(&other, seeds[s], n, m) == CALLPLAN_ACCEPTED && is_same_plan(&plan, &other));
            CHECK(callplan_write(&plan, buffer, sizeof buffer, &written) == CALLPLAN_ACCEPTED && written == 4 + n + 5 * m);
            CHECK(callplan_fresh(&other, 1) == CALLPLAN_ACCEPTED);
            CHECK(callplan_read(&other, buffer, written) == CALLPLAN_ACCEPTED && callplan_equal(&plan, &other) == 1);
        }
    }

    /* One state is start and final, and one plan by hand, which is edited as any other. */
    CHECK(callplan_generate(&plan, 1, 1, 0) == CALLPLAN_ACCEPTED && callplan_marks(&plan, 0) == CALLPLAN_START + CALLPLAN_FINAL);
    CHECK(callplan_generate(&plan, 1, 2, 1) == CALLPLAN_ACCEPTED);
    transition = callplan_transition_at(&plan, 0);
    CHECK(transition.from == 1 && transition.to == 1 && transition.low == 1101 && transition.high == 1368);
    CHECK(callplan_join(&plan, 0, 1, 5, 20) == CALLPLAN_ACCEPTED && callplan_transitions(&plan) == 2);
    before = plan;
    CHECK(callplan_generate(&plan, 1, 513, 0) == CALLPLAN_REFUSED_STATE_COUNT && is_same_plan(&plan, &before));
    CHECK(callplan_generate(&plan, 1, 2, 2049) == CALLPLAN_REFUSED_TRANSITION_COUNT && is_same_plan(&plan, &before));
}

static int has_teams(const callplan_plan *plan, uint8_t first, uint8_t second, uint8_t third, uint8_t fourth)
{
    return callplan_team_of(plan, 0) == first && callplan_team_of(plan, 1) == second && callplan_team_of(plan, 2) == third &&
           callplan_team_of(plan, 3) == fourth;
}

/* Teams by their own call, in images of both versions and in texts. */
static void teams(void)
{
    callplan_plan plan = p1();
    callplan_plan other = p1();
    callplan_plan before;
    uint8_t octets[28];
    uint8_t buffer[200];
    size_t written = 77;

    CHECK(has_teams(&plan, 0, 0, 0, 0));
    CHECK(callplan_team(&plan, 0, 31) == CALLPLAN_ACCEPTED);
    CHECK(callplan_team(&plan, 1, 9) == CALLPLAN_ACCEPTED);
    CHECK(callplan_team(&plan, 2, 10) == CALLPLAN_ACCEPTED);
    CHECK(has_teams(&plan, 31, 9, 10, 0) && callplan_marks(&plan, 1) == CALLPLAN_COUNTED);
    CHECK(callplan_equal(&plan, &other) == 0 && callplan_equal(&plan, &plan) == 1);
    CHECK(callplan_mark(&plan, 1, 7) == CALLPLAN_ACCEPTED);
    CHECK(has_teams(&plan, 31, 9, 10, 0) && callplan_marks(&plan, 1) == 7);
    CHECK(callplan_mark(&plan, 1, CALLPLAN_COUNTED) == CALLPLAN_ACCEPTED);
    CHECK(callplan_team_of(&plan, 4) == 0 && callplan_team_of(&plan, SIZE_MAX) == 0);

    /* Every team in an image of version 2; in version 1 the same bits are spare. */
    for (uint8_t team = 0; team <= CALLPLAN_MAX_TEAM; team++) {
        memcpy(octets, p1_written, 28);
        octets[7] = (uint8_t)(octets[7] + team);
        CHECK(callplan_read(&other, octets, 28) == CALLPLAN_ACCEPTED && has_teams(&other, 0, 0, 0, team));
        CHECK(callplan_write(&other, buffer, sizeof buffer, &written) == CALLPLAN_ACCEPTED);
        CHECK(written == 28 && memcmp(buffer, octets, 28) == 0);
        octets[0] = 0x10;
        before = other;
        if (team != 0) {
            CHECK(callplan_read(&other, octets, 28) == CALLPLAN_REFUSED_SPARE_BITS && is_same_plan(&other, &before));
        }
    }

    /* A version 1 image, a text and a fresh plan leave none. */
    other = plan;
    CHECK(callplan_read(&other, p1_image, 28) == CALLPLAN_ACCEPTED && has_teams(&other, 0, 0, 0, 0));
    other = plan;
    CHECK(callplan_from_image(&other, p1_image, 28) == CALLPLAN_ACCEPTED && has_teams(&other, 0, 0, 0, 0));
    other = plan;
    CHECK(callplan_export(&other, buffer, sizeof buffer, &written) == CALLPLAN_ACCEPTED);
    CHECK(written == P1_TEXT_OCTETS && memcmp(buffer, p1_words, P1_TEXT_OCTETS) == 0);
    CHECK(callplan_import(&other, buffer, written) == CALLPLAN_ACCEPTED && has_teams(&other, 0, 0, 0, 0));
    other = plan;
    CHECK(callplan_fresh(&other, 4) == CALLPLAN_ACCEPTED && has_teams(&other, 0, 0, 0, 0));

    /* Two plans that differ in a team past their states are equal. */
    other = plan;
    other.teams[4] = 255;
    CHECK(callplan_equal(&plan, &other) == 1);
}

/* What reading P1's image with two octets changed answers. Making a plan of it and quoting it must answer the same. */
static callplan_answer changed(size_t place, uint8_t octet, size_t other_place, uint8_t other_octet)
{
    static callplan_quotations quotations;
    callplan_plan plan;
    uint8_t octets[28];
    callplan_answer answer;

    memcpy(octets, p1_image, 28);
    octets[place] = octet;
    octets[other_place] = other_octet;
    CHECK(callplan_fresh(&plan, 1) == CALLPLAN_ACCEPTED);
    answer = callplan_read(&plan, octets, 28);
    CHECK(callplan_states(&plan) == (answer == CALLPLAN_ACCEPTED ? 4 : 1));
    CHECK(callplan_from_image(&plan, octets, 28) == answer);
    CHECK(callplan_quote(octets, 28, &quotations) == answer);
    return answer;
}

/* A transition is refused by its from, then by its to, then by its durations, and the first wrong one decides. The first has its from
 * in octet 8, its to in 9 and its high in 12, the last its from in 23 and its to in 24. */
static void wrong_ends(void)
{
    CHECK(changed(8, 0x02, 9, 0x01) == CALLPLAN_REFUSED_FROM_STATE);
    CHECK(changed(8, 0x02, 12, 0x00) == CALLPLAN_REFUSED_FROM_STATE);
    CHECK(changed(9, 0x01, 12, 0x00) == CALLPLAN_REFUSED_TO_STATE);
    CHECK(changed(9, 0x01, 23, 0x02) == CALLPLAN_REFUSED_TO_STATE);
    CHECK(changed(8, 0x02, 24, 0x01) == CALLPLAN_REFUSED_FROM_STATE);
    CHECK(changed(12, 0x00, 23, 0x02) == CALLPLAN_REFUSED_DURATION);
    CHECK(changed(12, 0x00, 24, 0x01) == CALLPLAN_REFUSED_DURATION);
    CHECK(changed(23, 0x02, 24, 0x01) == CALLPLAN_REFUSED_FROM_STATE);
    CHECK(changed(24, 0x01, 27, 0x00) == CALLPLAN_REFUSED_TO_STATE);
    CHECK(changed(7, 0x41, 8, 0x02) == CALLPLAN_REFUSED_SPARE_BITS);
    CHECK(changed(7, 0x41, 9, 0x01) == CALLPLAN_REFUSED_SPARE_BITS);
    CHECK(changed(8, 0x00, 9, 0x00) == CALLPLAN_ACCEPTED);
}

static callplan_answer import_words(callplan_plan *plan, const char *words)
{
    uint8_t text[200];
    memcpy(text, words, strlen(words));
    return callplan_import(plan, text, strlen(words));
}

static void texts(void)
{
    const callplan_plan plan = p1();
    callplan_plan other;
    callplan_plan before;
    callplan_transition last;
    uint8_t buffer[CALLPLAN_MAX_TEXT_OCTETS];
    size_t written = 77;

    memset(buffer, 0xAA, sizeof buffer);
    CHECK(callplan_export(&plan, NULL, 0, &written) == CALLPLAN_REFUSED_BUFFER_LENGTH);
    CHECK(callplan_export(&plan, buffer, P1_TEXT_OCTETS - 1, &written) == CALLPLAN_REFUSED_BUFFER_LENGTH);
    other = plan;
    CHECK(callplan_mark(&other, 0, CALLPLAN_COUNTED) == CALLPLAN_ACCEPTED);
    CHECK(callplan_export(&other, buffer, sizeof buffer, &written) == CALLPLAN_REFUSED_START_COUNT);
    other = plan;
    CHECK(callplan_mark(&other, 3, CALLPLAN_START + CALLPLAN_FINAL) == CALLPLAN_ACCEPTED);
    CHECK(callplan_export(&other, NULL, 0, &written) == CALLPLAN_REFUSED_START_COUNT);
    CHECK(written == 77 && buffer[0] == 0xAA && buffer[P1_TEXT_OCTETS - 2] == 0xAA);
    CHECK(callplan_export(&plan, buffer, sizeof buffer, &written) == CALLPLAN_ACCEPTED);
    CHECK(written == P1_TEXT_OCTETS && memcmp(buffer, p1_words, P1_TEXT_OCTETS) == 0 && buffer[P1_TEXT_OCTETS] == 0xAA);
    CHECK(callplan_export(&plan, buffer, P1_TEXT_OCTETS, NULL) == CALLPLAN_ACCEPTED);

    CHECK(callplan_fresh(&other, 1) == CALLPLAN_ACCEPTED);
    before = other;
    CHECK(callplan_import(&other, NULL, 0) == CALLPLAN_REFUSED_TEXT_FORM);
    CHECK(callplan_import(&other, buffer, P1_TEXT_OCTETS - 1) == CALLPLAN_REFUSED_TEXT_FORM);
    CHECK(callplan_import(&other, buffer, P1_TEXT_OCTETS + 1) == CALLPLAN_REFUSED_TEXT_FORM);
    CHECK(import_words(&other, "des (0,0,1)\n") == CALLPLAN_REFUSED_TEXT_FORM);
    CHECK(import_words(&other, "des (0, 1, 1)\n") == CALLPLAN_REFUSED_TEXT_FORM);
    CHECK(import_words(&other, "des (0, 0, 513)\n") == CALLPLAN_REFUSED_STATE_COUNT);
    CHECK(import_words(&other, "des (0, 0, 18446744073709551617)\n") == CALLPLAN_REFUSED_STATE_COUNT);
    CHECK(import_words(&other, "des (1, 1, 1)\n(0, \"1..0\", 0)\n") == CALLPLAN_REFUSED_STATE_NUMBER);
    CHECK(import_words(&other, "des (1, 1, 1)\n(1, \"0..0\", 0)\n") == CALLPLAN_REFUSED_STATE_NUMBER);
    CHECK(import_words(&other, "des (1, 1, 1)\n(0, \"0..0\", 1)\n") == CALLPLAN_REFUSED_STATE_NUMBER);
    CHECK(import_words(&other, "des (0, 1, 1)\n(1, \"0..0\", 0)\n") == CALLPLAN_REFUSED_FROM_STATE);
    CHECK(import_words(&other, "des (0, 1, 1)\n(1, \"1..0\", 1)\n") == CALLPLAN_REFUSED_FROM_STATE);
    CHECK(import_words(&other, "des (0, 1, 1)\n(18446744073709551616, \"0..0\", 0)\n") == CALLPLAN_REFUSED_FROM_STATE);
    CHECK(import_words(&other, "des (0, 1, 1)\n(0, \"0..0\", 1)\n") == CALLPLAN_REFUSED_TO_STATE);
    CHECK(import_words(&other, "des (0, 1, 1)\n(0, \"1..0\", 1)\n") == CALLPLAN_REFUSED_TO_STATE);
    CHECK(import_words(&other, "des (0, 1, 1)\n(0, \"0..0\", 18446744073709551616)\n") == CALLPLAN_REFUSED_TO_STATE);
    CHECK(import_words(&other, "des (0, 1, 1)\n(0, \"1..0\", 0)\n") == CALLPLAN_REFUSED_DURATION);
    CHECK(import_words(&other, "des (0, 2, 1)\n(0, \"0..0\", 1)\n(1, \"0..0\", 0)\n") == CALLPLAN_REFUSED_TO_STATE);
    CHECK(import_words(&other, "des (0, 2, 1)\n(0, \"1..0\", 0)\n(1, \"0..0\", 0)\n") == CALLPLAN_REFUSED_DURATION);
    CHECK(is_same_plan(&other, &before));
    CHECK(callplan_import(&other, buffer, P1_TEXT_OCTETS) == CALLPLAN_ACCEPTED);
    CHECK(callplan_states(&other) == 4 && callplan_transitions(&other) == 4);
    CHECK(callplan_marks(&other, 0) == CALLPLAN_START && callplan_marks(&other, 1) == 0 && callplan_marks(&other, 3) == 0);
    last = callplan_transition_at(&other, 3);
    CHECK(last.from == 2 && last.to == 3 && last.low == 4 && last.high == 25);

    /* The longest text. */
    CHECK(callplan_fresh(&other, CALLPLAN_MAX_STATES) == CALLPLAN_ACCEPTED);
    CHECK(callplan_mark(&other, 511, CALLPLAN_START) == CALLPLAN_ACCEPTED);
    for (size_t number = 0; number < CALLPLAN_MAX_TRANSITIONS; number++) {
        if (callplan_join(&other, 511, 511, 2047, 2047) != CALLPLAN_ACCEPTED) {
            CHECK(!"joined");
        }
    }
    before = other;
    CHECK(callplan_export(&other, buffer, sizeof buffer - 1, &written) == CALLPLAN_REFUSED_BUFFER_LENGTH);
    CHECK(callplan_export(&other, buffer, sizeof buffer, &written) == CALLPLAN_ACCEPTED && written == sizeof buffer);
    CHECK(callplan_import(&other, buffer, sizeof buffer) == CALLPLAN_ACCEPTED && is_same_plan(&other, &before));
}

static int is_figure(const callplan_figure *figure, callplan_kind kind, uint32_t value, size_t k, size_t j)
{
    return figure->kind == kind && figure->value == value && figure->k == k && figure->j == j;
}

static void quotations(void)
{
    callplan_plan plan = p1();
    callplan_figure figure;
    uint8_t buffer[CALLPLAN_RECORD_OCTETS + 1];
    size_t written = 77;

    memset(&figure, 0xAA, sizeof figure);
    CHECK(callplan_least_delay(&plan, &figure) == CALLPLAN_ACCEPTED);
    CHECK(is_figure(&figure, CALLPLAN_NUMBER, 7, 2, 0) && figure.walk[0] == 0 && figure.walk[1] == 2);
    CHECK(figure.walk[2] == 0xAAAA && figure.walk[511] == 0xAAAA);
    CHECK(callplan_greatest_delay(&plan, &figure) == CALLPLAN_ACCEPTED);
    CHECK(is_figure(&figure, CALLPLAN_NUMBER, 60, 3, 0) && figure.walk[1] == 1 && figure.walk[2] == 3);
    CHECK(callplan_least_count(&plan, &figure) == CALLPLAN_ACCEPTED);
    CHECK(is_figure(&figure, CALLPLAN_NUMBER, 1, 2, 0) && figure.walk[1] == 2);
    CHECK(callplan_greatest_count(&plan, &figure) == CALLPLAN_ACCEPTED);
    CHECK(is_figure(&figure, CALLPLAN_NUMBER, 2, 3, 0) && figure.walk[1] == 1);

    memset(buffer, 0xAA, sizeof buffer);
    CHECK(callplan_record(&plan, NULL, 0, &written) == CALLPLAN_REFUSED_BUFFER_LENGTH);
    CHECK(callplan_record(&plan, buffer, CALLPLAN_RECORD_OCTETS - 1, &written) == CALLPLAN_REFUSED_BUFFER_LENGTH);
    CHECK(written == 77 && buffer[0] == 0xAA);
    CHECK(callplan_record(&plan, buffer, sizeof buffer, &written) == CALLPLAN_ACCEPTED);
    CHECK(written == CALLPLAN_RECORD_OCTETS && memcmp(buffer, p1_record, sizeof p1_record) == 0);
    CHECK(buffer[CALLPLAN_RECORD_OCTETS] == 0xAA);
    CHECK(callplan_record(&plan, buffer, CALLPLAN_RECORD_OCTETS, NULL) == CALLPLAN_ACCEPTED);

    /* P3, then P4, then no start. */
    CHECK(callplan_fresh(&plan, 2) == CALLPLAN_ACCEPTED);
    CHECK(callplan_mark(&plan, 0, CALLPLAN_START) == CALLPLAN_ACCEPTED);
    CHECK(callplan_mark(&plan, 1, CALLPLAN_FINAL) == CALLPLAN_ACCEPTED);
    CHECK(callplan_least_count(&plan, &figure) == CALLPLAN_ACCEPTED);
    CHECK(is_figure(&figure, CALLPLAN_NONE, 0, 0, 0));
    CHECK(callplan_greatest_count(&plan, &figure) == CALLPLAN_ACCEPTED);
    CHECK(is_figure(&figure, CALLPLAN_STRANDED, 0, 0, 0));
    CHECK(callplan_join(&plan, 0, 0, 0, 0) == CALLPLAN_ACCEPTED);
    CHECK(callplan_join(&plan, 0, 1, 1, 1) == CALLPLAN_ACCEPTED);
    CHECK(callplan_least_delay(&plan, &figure) == CALLPLAN_ACCEPTED);
    CHECK(is_figure(&figure, CALLPLAN_NUMBER, 1, 1, 0) && figure.walk[0] == 1);
    CHECK(callplan_greatest_delay(&plan, &figure) == CALLPLAN_ACCEPTED);
    CHECK(is_figure(&figure, CALLPLAN_ENDLESS, 0, 1, 0) && figure.walk[0] == 0);
    CHECK(callplan_mark(&plan, 0, 0) == CALLPLAN_ACCEPTED);
    CHECK(callplan_greatest_delay(&plan, &figure) == CALLPLAN_ACCEPTED);
    CHECK(is_figure(&figure, CALLPLAN_NONE, 0, 0, 0));
}

/* Counts for a class: every number of a class names it, and 32 and wider numbers name none. P1's routes visit states 0, 1, 3 and 0, 1,
 * 2, 3. */
static void counts_for_a_class(void)
{
    static const uint8_t of_states[4] = {0, 9, 10, 31};
    /* By class: the first and the last team, the least and the greatest count. */
    static const uint32_t classes[5][4] = {{0, 0, 1, 1}, {1, 9, 1, 1}, {10, 19, 0, 1}, {20, 29, 0, 0}, {30, 31, 1, 1}};
    callplan_plan plan = p1();
    callplan_plan broken;
    callplan_figure figure;
    callplan_figure before;
    uint8_t buffer[CALLPLAN_RECORD_OCTETS];

    for (size_t state = 0; state < 4; state++) {
        CHECK(callplan_team(&plan, state, of_states[state]) == CALLPLAN_ACCEPTED);
    }
    memset(&figure, 0xAA, sizeof figure);
    for (size_t i = 0; i < 5; i++) {
        for (uint32_t team = classes[i][0]; team <= classes[i][1]; team++) {
            CHECK(callplan_least_count_for(&plan, team, &figure) == CALLPLAN_ACCEPTED);
            CHECK(figure.kind == CALLPLAN_NUMBER && figure.value == classes[i][2] && figure.j == 0);
            CHECK(callplan_greatest_count_for(&plan, team, &figure) == CALLPLAN_ACCEPTED);
            CHECK(figure.kind == CALLPLAN_NUMBER && figure.value == classes[i][3] && figure.j == 0);
        }
    }
    CHECK(callplan_greatest_count_for(&plan, 15, &figure) == CALLPLAN_ACCEPTED);
    CHECK(is_figure(&figure, CALLPLAN_NUMBER, 1, 3, 0) && figure.walk[1] == 1 && figure.walk[2] == 3 && figure.walk[3] == 0xAAAA);
    CHECK(callplan_least_count_for(&plan, 15, &figure) == CALLPLAN_ACCEPTED);
    CHECK(is_figure(&figure, CALLPLAN_NUMBER, 0, 2, 0) && figure.walk[1] == 2);

    /* The counts and the record stay with the counted mark. */
    CHECK(callplan_greatest_count(&plan, &figure) == CALLPLAN_ACCEPTED && is_figure(&figure, CALLPLAN_NUMBER, 2, 3, 0));
    CHECK(callplan_record(&plan, buffer, sizeof buffer, NULL) == CALLPLAN_ACCEPTED);
    CHECK(memcmp(buffer, p1_record, sizeof p1_record) == 0);

    before = figure;
    broken = plan;
    broken.teams[3] = CALLPLAN_MAX_TEAM + 1;
    CHECK(callplan_least_count_for(&plan, 32, &figure) == CALLPLAN_REFUSED_TEAM_NUMBER);
    CHECK(callplan_greatest_count_for(&plan, 259, &figure) == CALLPLAN_REFUSED_TEAM_NUMBER);
    CHECK(callplan_greatest_count_for(&plan, UINT32_MAX, &figure) == CALLPLAN_REFUSED_TEAM_NUMBER);
    CHECK(callplan_least_count_for(&broken, 32, &figure) == CALLPLAN_REFUSED_PLAN_LIMITS);
    CHECK(callplan_greatest_count_for(&broken, 0, &figure) == CALLPLAN_REFUSED_PLAN_LIMITS);
    CHECK(callplan_least_count(&broken, &figure) == CALLPLAN_REFUSED_PLAN_LIMITS);
    CHECK(memcmp(&figure, &before, sizeof figure) == 0);

    /* P3, P4 and no start: the kinds of the counts. */
    CHECK(callplan_fresh(&plan, 2) == CALLPLAN_ACCEPTED);
    CHECK(callplan_greatest_count_for(&plan, 0, &figure) == CALLPLAN_ACCEPTED && is_figure(&figure, CALLPLAN_NONE, 0, 0, 0));
    CHECK(callplan_mark(&plan, 0, CALLPLAN_START) == CALLPLAN_ACCEPTED);
    CHECK(callplan_mark(&plan, 1, CALLPLAN_FINAL) == CALLPLAN_ACCEPTED);
    CHECK(callplan_least_count_for(&plan, 31, &figure) == CALLPLAN_ACCEPTED && is_figure(&figure, CALLPLAN_NONE, 0, 0, 0));
    CHECK(callplan_greatest_count_for(&plan, 31, &figure) == CALLPLAN_ACCEPTED && is_figure(&figure, CALLPLAN_STRANDED, 0, 0, 0));
    CHECK(callplan_join(&plan, 0, 0, 0, 0) == CALLPLAN_ACCEPTED);
    CHECK(callplan_join(&plan, 0, 1, 1, 1) == CALLPLAN_ACCEPTED);
    CHECK(callplan_greatest_count_for(&plan, 1, &figure) == CALLPLAN_ACCEPTED && is_figure(&figure, CALLPLAN_ENDLESS, 0, 1, 0));
}

/* A high of 2,047 means no limit: the greatest delay, its walk with j at k, and the record. */
static void open_highs(void)
{
    static const uint8_t open_record[CALLPLAN_RECORD_OCTETS] = {0x00, 0x00, 0x0B, 0x00, 0x00, 0x00, 0x00, 0x00, 0x40, 0x00, 0x01};
    callplan_plan plan;
    callplan_figure figure;
    callplan_transition last;
    uint8_t buffer[CALLPLAN_RECORD_OCTETS];

    CHECK(CALLPLAN_OPEN_HIGH == CALLPLAN_MAX_DURATION);
    CHECK(callplan_fresh(&plan, 3) == CALLPLAN_ACCEPTED);
    CHECK(callplan_mark(&plan, 0, CALLPLAN_START) == CALLPLAN_ACCEPTED);
    CHECK(callplan_mark(&plan, 1, CALLPLAN_COUNTED) == CALLPLAN_ACCEPTED);
    CHECK(callplan_mark(&plan, 2, CALLPLAN_FINAL) == CALLPLAN_ACCEPTED);
    CHECK(callplan_join(&plan, 0, 1, 1, 1) == CALLPLAN_ACCEPTED);
    CHECK(callplan_join(&plan, 1, 2, 1, CALLPLAN_OPEN_HIGH) == CALLPLAN_ACCEPTED);
    last = callplan_transition_at(&plan, 1);
    CHECK(last.low == 1 && last.high == CALLPLAN_OPEN_HIGH);

    memset(&figure, 0xAA, sizeof figure);
    CHECK(callplan_greatest_delay(&plan, &figure) == CALLPLAN_ACCEPTED);
    CHECK(is_figure(&figure, CALLPLAN_ENDLESS, 0, 2, 2) && figure.walk[0] == 0 && figure.walk[1] == 1 && figure.walk[2] == 0xAAAA);
    CHECK(callplan_least_delay(&plan, &figure) == CALLPLAN_ACCEPTED);
    CHECK(is_figure(&figure, CALLPLAN_NUMBER, 2, 2, 0));
    CHECK(callplan_least_count(&plan, &figure) == CALLPLAN_ACCEPTED);
    CHECK(is_figure(&figure, CALLPLAN_NUMBER, 1, 2, 0));
    CHECK(callplan_greatest_count(&plan, &figure) == CALLPLAN_ACCEPTED);
    CHECK(is_figure(&figure, CALLPLAN_NUMBER, 1, 2, 0));
    CHECK(callplan_record(&plan, buffer, sizeof buffer, NULL) == CALLPLAN_ACCEPTED);
    CHECK(memcmp(buffer, open_record, sizeof open_record) == 0);

    /* A second less is a number, and out of a final state that is no start an open high is of no account. A low of 2,047 is 2,047
     * seconds. */
    CHECK(callplan_unjoin(&plan, 1) == CALLPLAN_ACCEPTED);
    CHECK(callplan_join(&plan, 1, 2, 1, CALLPLAN_OPEN_HIGH - 1) == CALLPLAN_ACCEPTED);
    CHECK(callplan_join(&plan, 2, 0, 0, CALLPLAN_OPEN_HIGH) == CALLPLAN_ACCEPTED);
    CHECK(callplan_greatest_delay(&plan, &figure) == CALLPLAN_ACCEPTED);
    CHECK(is_figure(&figure, CALLPLAN_NUMBER, 2047, 2, 0));
    CHECK(callplan_unjoin(&plan, 1) == CALLPLAN_ACCEPTED);
    CHECK(callplan_join(&plan, 1, 2, CALLPLAN_OPEN_HIGH, CALLPLAN_OPEN_HIGH) == CALLPLAN_ACCEPTED);
    CHECK(callplan_least_delay(&plan, &figure) == CALLPLAN_ACCEPTED);
    CHECK(is_figure(&figure, CALLPLAN_NUMBER, 2048, 2, 0) && figure.walk[1] == 2);
    CHECK(callplan_greatest_delay(&plan, &figure) == CALLPLAN_ACCEPTED);
    CHECK(is_figure(&figure, CALLPLAN_ENDLESS, 0, 2, 2) && figure.walk[1] == 2);
    CHECK(callplan_join(&plan, 1, 2, 0, CALLPLAN_OPEN_HIGH + 1) == CALLPLAN_REFUSED_DURATION);
}

/* Calls that begin answered: a route has at least one transition, and its first state may be final. */
static void begun_answered(void)
{
    static const uint8_t p2_record[CALLPLAN_RECORD_OCTETS] = {0x40, 0x00, 0x02, 0x00, 0x00, 0x04, 0x00, 0x00, 0x20, 0x00, 0x00};
    static const uint8_t ring_record[CALLPLAN_RECORD_OCTETS] = {0x3F, 0xF8, 0x03, 0x00, 0x00, 0x00, 0x00, 0x80, 0x40, 0x02, 0x01};
    callplan_plan plan;
    callplan_figure figure;
    uint8_t buffer[CALLPLAN_RECORD_OCTETS];

    /* P2: a final start without transitions is no route. */
    CHECK(callplan_fresh(&plan, 1) == CALLPLAN_ACCEPTED);
    CHECK(callplan_mark(&plan, 0, CALLPLAN_START + CALLPLAN_FINAL + CALLPLAN_COUNTED) == CALLPLAN_ACCEPTED);
    CHECK(callplan_least_delay(&plan, &figure) == CALLPLAN_ACCEPTED && is_figure(&figure, CALLPLAN_NONE, 0, 0, 0));
    CHECK(callplan_greatest_delay(&plan, &figure) == CALLPLAN_ACCEPTED && is_figure(&figure, CALLPLAN_STRANDED, 0, 0, 0));
    CHECK(callplan_least_count(&plan, &figure) == CALLPLAN_ACCEPTED && is_figure(&figure, CALLPLAN_NONE, 0, 0, 0));
    CHECK(callplan_greatest_count(&plan, &figure) == CALLPLAN_ACCEPTED && is_figure(&figure, CALLPLAN_STRANDED, 0, 0, 0));
    CHECK(callplan_record(&plan, buffer, sizeof buffer, NULL) == CALLPLAN_ACCEPTED);
    CHECK(memcmp(buffer, p2_record, sizeof p2_record) == 0);

    /* With a transition to itself it is one, which ends where it began, and its state counts twice. */
    CHECK(callplan_join(&plan, 0, 0, 3, 4) == CALLPLAN_ACCEPTED);
    CHECK(callplan_least_delay(&plan, &figure) == CALLPLAN_ACCEPTED && is_figure(&figure, CALLPLAN_NUMBER, 3, 1, 0) && figure.walk[0] == 0);
    CHECK(callplan_greatest_delay(&plan, &figure) == CALLPLAN_ACCEPTED && is_figure(&figure, CALLPLAN_NUMBER, 4, 1, 0));
    CHECK(callplan_least_count(&plan, &figure) == CALLPLAN_ACCEPTED && is_figure(&figure, CALLPLAN_NUMBER, 2, 1, 0));
    CHECK(callplan_greatest_count(&plan, &figure) == CALLPLAN_ACCEPTED && is_figure(&figure, CALLPLAN_NUMBER, 2, 1, 0));
    CHECK(callplan_greatest_count_for(&plan, 0, &figure) == CALLPLAN_ACCEPTED && is_figure(&figure, CALLPLAN_NUMBER, 2, 1, 0));
    CHECK(callplan_greatest_count_for(&plan, 1, &figure) == CALLPLAN_ACCEPTED && is_figure(&figure, CALLPLAN_NUMBER, 0, 1, 0));
    CHECK(callplan_join(&plan, 0, 0, 3, CALLPLAN_OPEN_HIGH) == CALLPLAN_ACCEPTED);
    CHECK(callplan_greatest_delay(&plan, &figure) == CALLPLAN_ACCEPTED && is_figure(&figure, CALLPLAN_ENDLESS, 0, 1, 1) && figure.walk[0] == 1);

    /* From a final start to a dead end, which then becomes a loop. */
    CHECK(callplan_fresh(&plan, 2) == CALLPLAN_ACCEPTED);
    CHECK(callplan_mark(&plan, 0, CALLPLAN_START + CALLPLAN_FINAL) == CALLPLAN_ACCEPTED);
    CHECK(callplan_join(&plan, 0, 1, 1, 1) == CALLPLAN_ACCEPTED);
    CHECK(callplan_greatest_count(&plan, &figure) == CALLPLAN_ACCEPTED && is_figure(&figure, CALLPLAN_STRANDED, 0, 1, 0) && figure.walk[0] == 0);
    CHECK(callplan_join(&plan, 1, 1, 1, 1) == CALLPLAN_ACCEPTED);
    CHECK(callplan_least_count(&plan, &figure) == CALLPLAN_ACCEPTED && is_figure(&figure, CALLPLAN_NONE, 0, 0, 0));
    CHECK(callplan_greatest_count(&plan, &figure) == CALLPLAN_ACCEPTED && is_figure(&figure, CALLPLAN_ENDLESS, 0, 2, 1) && figure.walk[1] == 1);

    /* The ring of 512 states: the greatest figures that there are, and 512 transitions in 512 places. */
    CHECK(callplan_fresh(&plan, CALLPLAN_MAX_STATES) == CALLPLAN_ACCEPTED);
    for (size_t state = 0; state < CALLPLAN_MAX_STATES; state++) {
        const uint32_t marks = state == 0 ? CALLPLAN_START + CALLPLAN_FINAL + CALLPLAN_COUNTED : CALLPLAN_COUNTED;
        if (callplan_mark(&plan, state, marks) != CALLPLAN_ACCEPTED ||
            callplan_join(&plan, state, (state + 1) % CALLPLAN_MAX_STATES, 2047, 2047) != CALLPLAN_ACCEPTED) {
            CHECK(!"marked and joined");
        }
    }
    CHECK(callplan_least_delay(&plan, &figure) == CALLPLAN_ACCEPTED && is_figure(&figure, CALLPLAN_NUMBER, 1048064, 512, 0));
    CHECK(figure.walk[0] == 0 && figure.walk[511] == 511);
    CHECK(callplan_least_count(&plan, &figure) == CALLPLAN_ACCEPTED && is_figure(&figure, CALLPLAN_NUMBER, 513, 512, 0));
    CHECK(callplan_greatest_count(&plan, &figure) == CALLPLAN_ACCEPTED && is_figure(&figure, CALLPLAN_NUMBER, 513, 512, 0));
    CHECK(callplan_greatest_delay(&plan, &figure) == CALLPLAN_ACCEPTED && figure.kind == CALLPLAN_ENDLESS && figure.j == figure.k);
    /* The record holds them, 1,048,064 as the 20 bits FFE00 hex. */
    CHECK(callplan_record(&plan, buffer, sizeof ring_record - 1, NULL) == CALLPLAN_REFUSED_BUFFER_LENGTH);
    CHECK(callplan_record(&plan, buffer, sizeof buffer, NULL) == CALLPLAN_ACCEPTED);
    CHECK(memcmp(buffer, ring_record, sizeof ring_record) == 0);
}

static void quotations_of_an_image(void)
{
    static callplan_quotations quotations;
    static callplan_quotations before;
    uint8_t octets[28];

    memset(&quotations, 0xAA, sizeof quotations);
    before = quotations;
    memcpy(octets, p1_image, 28);
    octets[3] = 0x01;
    CHECK(callplan_quote(NULL, 0, &quotations) == CALLPLAN_REFUSED_IMAGE_SHORT);
    CHECK(callplan_quote(p1_image, 27, &quotations) == CALLPLAN_REFUSED_IMAGE_SHORT);
    CHECK(callplan_quote(octets, 28, &quotations) == CALLPLAN_REFUSED_SPARE_BITS);
    CHECK(memcmp(&quotations, &before, sizeof quotations) == 0);

    CHECK(callplan_quote(p1_image, 28, &quotations) == CALLPLAN_ACCEPTED);
    CHECK(is_figure(&quotations.figures[CALLPLAN_LEAST_DELAY], CALLPLAN_NUMBER, 7, 2, 0));
    CHECK(is_figure(&quotations.figures[CALLPLAN_GREATEST_DELAY], CALLPLAN_NUMBER, 60, 3, 0));
    CHECK(is_figure(&quotations.figures[CALLPLAN_LEAST_COUNT], CALLPLAN_NUMBER, 1, 2, 0));
    CHECK(is_figure(&quotations.figures[CALLPLAN_GREATEST_COUNT], CALLPLAN_NUMBER, 2, 3, 0));
    for (size_t i = 0; i < 4; i++) {
        const callplan_figure *figure = &quotations.figures[i];
        CHECK(figure->walk[0] == 0 && figure->walk[figure->k - 1] == figure->k && figure->walk[figure->k] == 0xAAAA);
    }
}

/* A plan that was filled in by hand and breaks a limit. */
static void broken_plan(void)
{
    callplan_plan plan = p1();
    callplan_plan before;
    callplan_figure figure;
    callplan_figure blank;
    uint8_t buffer[CALLPLAN_MAX_IMAGE_OCTETS] = {0};
    size_t written = 77;

    plan.counts[0] = SIZE_MAX;
    before = plan;
    memset(&figure, 0, sizeof figure);
    blank = figure;
    CHECK(callplan_mark(&plan, 0, 0) == CALLPLAN_REFUSED_PLAN_LIMITS);
    CHECK(callplan_team(&plan, 0, 0) == CALLPLAN_REFUSED_PLAN_LIMITS);
    CHECK(callplan_team(&plan, SIZE_MAX, 32) == CALLPLAN_REFUSED_PLAN_LIMITS);
    CHECK(callplan_least_count_for(&plan, 32, &figure) == CALLPLAN_REFUSED_PLAN_LIMITS);
    CHECK(callplan_greatest_count_for(&plan, 0, &figure) == CALLPLAN_REFUSED_PLAN_LIMITS);
    CHECK(callplan_join(&plan, 0, 0, 0, 0) == CALLPLAN_REFUSED_PLAN_LIMITS);
    CHECK(callplan_unjoin(&plan, 0) == CALLPLAN_REFUSED_PLAN_LIMITS);
    CHECK(callplan_read(&plan, p1_image, sizeof p1_image) == CALLPLAN_REFUSED_PLAN_LIMITS);
    CHECK(callplan_write(&plan, buffer, sizeof buffer, &written) == CALLPLAN_REFUSED_PLAN_LIMITS);
    CHECK(import_words(&plan, p1_words) == CALLPLAN_REFUSED_PLAN_LIMITS);
    CHECK(callplan_import(&plan, NULL, 0) == CALLPLAN_REFUSED_PLAN_LIMITS);
    CHECK(callplan_export(&plan, buffer, sizeof buffer, &written) == CALLPLAN_REFUSED_PLAN_LIMITS);
    CHECK(callplan_record(&plan, buffer, sizeof buffer, &written) == CALLPLAN_REFUSED_PLAN_LIMITS);
    CHECK(callplan_least_delay(&plan, &figure) == CALLPLAN_REFUSED_PLAN_LIMITS);
    CHECK(callplan_greatest_delay(&plan, &figure) == CALLPLAN_REFUSED_PLAN_LIMITS);
    CHECK(callplan_least_count(&plan, &figure) == CALLPLAN_REFUSED_PLAN_LIMITS);
    CHECK(callplan_greatest_count(&plan, &figure) == CALLPLAN_REFUSED_PLAN_LIMITS);
    CHECK(is_same_plan(&plan, &before) && written == 77 && memcmp(&figure, &blank, sizeof figure) == 0);
    CHECK(callplan_generate(&plan, 1, 2, 1) == CALLPLAN_ACCEPTED);
    CHECK(callplan_mark(&plan, 1, 7) == CALLPLAN_ACCEPTED);
    CHECK(callplan_fresh(&plan, 1) == CALLPLAN_ACCEPTED);
    CHECK(callplan_mark(&plan, 0, 7) == CALLPLAN_ACCEPTED);

    /* A team above 31 breaks a limit too, but not past the states. */
    plan = p1();
    plan.teams[4] = 255;
    CHECK(callplan_mark(&plan, 3, CALLPLAN_FINAL) == CALLPLAN_ACCEPTED);
    plan.teams[3] = 32;
    CHECK(callplan_mark(&plan, 0, 0) == CALLPLAN_REFUSED_PLAN_LIMITS);
    CHECK(callplan_team(&plan, 3, 0) == CALLPLAN_REFUSED_PLAN_LIMITS);
    CHECK(callplan_write(&plan, buffer, sizeof buffer, &written) == CALLPLAN_REFUSED_PLAN_LIMITS);
    CHECK(callplan_read(&plan, p1_image, sizeof p1_image) == CALLPLAN_REFUSED_PLAN_LIMITS);
    CHECK(plan.teams[3] == 32 && written == 77);
    CHECK(callplan_from_image(&plan, p1_image, sizeof p1_image) == CALLPLAN_ACCEPTED && plan.teams[3] == 0);
}

/* The slice of the marks and the teams: a pointer to the whole plan, and the place of its marks. */
#ifdef __cplusplus
#define STATES(plan) (reinterpret_cast<uint8_t *>(&(plan)) + offsetof(callplan_plan, marks))
#else
#define STATES(plan) ((uint8_t *)&(plan) + offsetof(callplan_plan, marks))
#endif

/* The archive's own functions, lent too few places. */
static void short_slices(void)
{
    callplan_plan plan = p1();
    uint16_t walk[4] = {0};
    uint32_t out[4] = {0};
    uint16_t walks[2048] = {0};
    uint32_t outs[16] = {0};
    uint8_t text[100] = {0};

    CHECK(callplan_lent_quote(p1_image, 28, walks, 2047, outs, 16) == CALLPLAN_REFUSED_BUFFER_LENGTH);
    CHECK(callplan_lent_quote(p1_image, 28, walks, 2048, outs, 15) == CALLPLAN_REFUSED_BUFFER_LENGTH);
    CHECK(callplan_lent_quote(p1_image, 3, walks, 2047, outs, 15) == CALLPLAN_REFUSED_IMAGE_SHORT);
    CHECK(callplan_lent_quote(p1_image, 28, walks, 2048, outs, 16) == CALLPLAN_ACCEPTED);
    CHECK(outs[1] == 7 && outs[5] == 60 && outs[9] == 1 && outs[13] == 2 && walks[1] == 2 && walks[512 + 2] == 3);
    CHECK(callplan_lent_fresh(1, plan.counts, 1, STATES(plan), 1024, plan.fields, 8192) == CALLPLAN_SHORT_SLICE);
    CHECK(callplan_lent_fresh(1, plan.counts, 2, STATES(plan), 1023, plan.fields, 8192) == CALLPLAN_SHORT_SLICE);
    CHECK(callplan_lent_fresh(1, plan.counts, 2, STATES(plan), 1024, plan.fields, 8191) == CALLPLAN_SHORT_SLICE);
    CHECK(callplan_lent_generate(1, 1, 1, plan.counts, 1, STATES(plan), 1024, plan.fields, 8192) == CALLPLAN_SHORT_SLICE);
    CHECK(callplan_lent_generate(1, 0, 2049, plan.counts, 2, STATES(plan), 1023, plan.fields, 8192) == CALLPLAN_SHORT_SLICE);
    CHECK(callplan_lent_generate(1, 1, 2049, plan.counts, 2, STATES(plan), 1024, plan.fields, 8191) == CALLPLAN_SHORT_SLICE);
    CHECK(callplan_states(&plan) == 4 && callplan_transitions(&plan) == 4);
    CHECK(callplan_lent_import(plan.counts, 1, STATES(plan), 1024, plan.fields, 8192, p1_image, 28) == CALLPLAN_SHORT_SLICE);
    CHECK(callplan_lent_import(plan.counts, 2, STATES(plan), 1024, plan.fields, 8192, p1_image, 28) == CALLPLAN_REFUSED_TEXT_FORM);
    CHECK(callplan_lent_export(plan.counts, 2, STATES(plan), 1023, plan.fields, 8192, text, sizeof text) == CALLPLAN_SHORT_SLICE);
    CHECK(callplan_lent_export(plan.counts, 2, STATES(plan), 1024, plan.fields, 8192, text, sizeof text) ==
          CALLPLAN_ACCEPTED + P1_TEXT_OCTETS);
    CHECK(callplan_lent_least_delay(plan.counts, 2, STATES(plan), 1024, plan.fields, 8192, walk, 4, out, 3) ==
          CALLPLAN_REFUSED_BUFFER_LENGTH);
    CHECK(callplan_lent_least_delay(plan.counts, 2, STATES(plan), 1024, plan.fields, 8192, walk, 3, out, 4) ==
          CALLPLAN_REFUSED_BUFFER_LENGTH);
    CHECK(callplan_lent_least_delay(plan.counts, 2, STATES(plan), 1024, plan.fields, 8192, walk, 4, out, 4) == CALLPLAN_ACCEPTED);
    CHECK(out[0] == 0 && out[1] == 7 && out[2] == 2 && out[3] == 0 && walk[1] == 2);

    CHECK(callplan_lent_team(plan.counts, 2, STATES(plan), 512, plan.fields, 8192, 0, 0) == CALLPLAN_SHORT_SLICE);
    CHECK(callplan_lent_team(plan.counts, 2, STATES(plan), 1023, plan.fields, 8192, 0, 32) == CALLPLAN_SHORT_SLICE);
    CHECK(callplan_lent_team(plan.counts, 2, STATES(plan), 1024, plan.fields, 8192, 1, 12) == CALLPLAN_ACCEPTED);
    CHECK(plan.teams[1] == 12 && plan.marks[1] == CALLPLAN_COUNTED);
    CHECK(callplan_lent_least_count_for(plan.counts, 2, STATES(plan), 1023, plan.fields, 8192, 32, walk, 3, out, 3) ==
          CALLPLAN_SHORT_SLICE);
    CHECK(callplan_lent_least_count_for(plan.counts, 2, STATES(plan), 1024, plan.fields, 8192, 32, walk, 3, out, 3) ==
          CALLPLAN_REFUSED_TEAM_NUMBER);
    CHECK(callplan_lent_least_count_for(plan.counts, 2, STATES(plan), 1024, plan.fields, 8192, 19, walk, 3, out, 4) ==
          CALLPLAN_REFUSED_BUFFER_LENGTH);
    CHECK(callplan_lent_least_count_for(plan.counts, 2, STATES(plan), 1024, plan.fields, 8192, 19, walk, 4, out, 3) ==
          CALLPLAN_REFUSED_BUFFER_LENGTH);
    CHECK(callplan_lent_greatest_count_for(plan.counts, 2, STATES(plan), 1024, plan.fields, 8192, 259, walk, 4, out, 4) ==
          CALLPLAN_REFUSED_TEAM_NUMBER);
    CHECK(out[1] == 7);
    CHECK(callplan_lent_greatest_count_for(plan.counts, 2, STATES(plan), 1024, plan.fields, 8192, 19, walk, 4, out, 4) ==
          CALLPLAN_ACCEPTED);
    CHECK(out[0] == 0 && out[1] == 1 && out[3] == 0);
}

/* P1 by a list of calls, a refused one and one that is undone among them; then lists that are none. */
static void lists(void)
{
    enum { M = CALLPLAN_CALL_MARK, J = CALLPLAN_CALL_JOIN, U = CALLPLAN_CALL_UNJOIN, R = CALLPLAN_CALL_READ, I = CALLPLAN_CALL_IMPORT };
    enum { T = CALLPLAN_CALL_TEAM };
    const uint8_t kinds[] = {M, J, J, M, U, R};
    const size_t arguments[] = {0, 4, 0, 0, 0, 9, 1, 1, 0, 1, 1, 9, 1, 2, 0, 0, 0, 0, 0, 0, 0, 28, 0, 0};
    const uint8_t unknown[] = {6};
    /* A team above 31 in 32 bits and in 64, a state that is none, and a mark after a team. */
    const uint8_t team_kinds[] = {T, T, T, T, M, T};
    const size_t team_arguments[] = {1, 31, 9, 9, 0, 259, 9, 9, 0, ((size_t)1 << 32) + 3, 9, 9, 2, 32, 9, 9, 1, 4, 9, 9, 0, 10, 9, 9};
    const uint8_t imports[] = {I, M, I};
    const size_t parts[] = {0, P1_TEXT_OCTETS, 0, 0, 3, CALLPLAN_FINAL, 0, 0, 1, P1_TEXT_OCTETS, 0, 0};
    uint8_t text[P1_TEXT_OCTETS];
    uint32_t answers[7] = {9, 9, 9, 9, 9, 9, 9};
    const callplan_plan read = p1();
    callplan_plan plan, before;
    callplan_quotations quotations, blank;

    memset(&plan, 7, sizeof plan);
    memset(&quotations, 7, sizeof quotations);
    before = plan;
    blank = quotations;
    CHECK(callplan_replay(&plan, 513, kinds, arguments, 6, p1_image, 28, answers, &quotations) == CALLPLAN_REFUSED_STATE_COUNT);
    CHECK(callplan_replay(&plan, 2, unknown, arguments, 1, p1_image, 28, answers, &quotations) == CALLPLAN_NO_CALLS);
    CHECK(callplan_replay(&plan, 2, kinds, arguments, 6, p1_image, 27, answers, &quotations) == CALLPLAN_NO_CALLS);
    CHECK(is_same_plan(&plan, &before) && answers[0] == 9 && memcmp(&quotations, &blank, sizeof blank) == 0);

    CHECK(callplan_replay(&plan, 2, kinds, arguments, 5, NULL, 0, answers, &quotations) == CALLPLAN_ACCEPTED);
    CHECK(answers[0] == CALLPLAN_ACCEPTED && answers[1] == CALLPLAN_REFUSED_TO_STATE && answers[2] == CALLPLAN_ACCEPTED);
    CHECK(answers[3] == CALLPLAN_ACCEPTED && answers[4] == CALLPLAN_ACCEPTED && answers[5] == 9);
    CHECK(callplan_states(&plan) == 2 && callplan_transitions(&plan) == 0 && callplan_marks(&plan, 1) == CALLPLAN_FINAL);
    CHECK(quotations.figures[CALLPLAN_LEAST_DELAY].kind == CALLPLAN_NONE);
    CHECK(quotations.figures[CALLPLAN_GREATEST_DELAY].kind == CALLPLAN_STRANDED);

    CHECK(callplan_replay(&plan, 2, kinds, arguments, 6, p1_image, 28, answers, &quotations) == CALLPLAN_ACCEPTED);
    CHECK(answers[5] == CALLPLAN_ACCEPTED && answers[6] == 9);
    CHECK(callplan_states(&plan) == callplan_states(&read) && callplan_transitions(&plan) == callplan_transitions(&read));
    CHECK(quotations.figures[CALLPLAN_GREATEST_DELAY].value == 60 && quotations.figures[CALLPLAN_GREATEST_DELAY].walk[2] == 3);

    memcpy(text, p1_words, sizeof text);
    CHECK(callplan_replay(&plan, 1, imports, parts, 3, text, sizeof text - 1, answers, &quotations) == CALLPLAN_NO_CALLS);
    CHECK(callplan_replay(&plan, 1, imports, parts, 3, text, sizeof text, answers, &quotations) == CALLPLAN_ACCEPTED);
    CHECK(answers[0] == CALLPLAN_ACCEPTED && answers[1] == CALLPLAN_ACCEPTED && answers[2] == CALLPLAN_REFUSED_TEXT_FORM);
    CHECK(callplan_states(&plan) == 4 && callplan_marks(&plan, 1) == 0 && callplan_marks(&plan, 3) == CALLPLAN_FINAL);
    CHECK(quotations.figures[CALLPLAN_GREATEST_DELAY].value == 60 && quotations.figures[CALLPLAN_GREATEST_COUNT].value == 0);
    CHECK(callplan_replay(&plan, 2, team_kinds, team_arguments, 6, NULL, 0, answers, &quotations) == CALLPLAN_ACCEPTED);
    CHECK(answers[0] == CALLPLAN_ACCEPTED && answers[1] == CALLPLAN_REFUSED_TEAM_NUMBER);
    CHECK(answers[2] == CALLPLAN_REFUSED_TEAM_NUMBER && answers[3] == CALLPLAN_REFUSED_STATE_NUMBER);
    CHECK(answers[4] == CALLPLAN_ACCEPTED && answers[5] == CALLPLAN_ACCEPTED && answers[6] == 9);
    CHECK(callplan_team_of(&plan, 0) == 10 && callplan_team_of(&plan, 1) == 31 && callplan_marks(&plan, 1) == CALLPLAN_START);
    CHECK(callplan_replay(&plan, 1, NULL, NULL, 0, NULL, 0, NULL, &quotations) == CALLPLAN_ACCEPTED);
    CHECK(callplan_states(&plan) == 1 && quotations.figures[CALLPLAN_LEAST_COUNT].kind == CALLPLAN_NONE);
}

/* What a plan holds, and whether two are equal, whatever lies past the counts. */
static void what_it_holds(void)
{
    callplan_plan plan = p1();
    callplan_plan other = p1();
    callplan_transition last;

    CHECK(callplan_marks(&plan, 3) == CALLPLAN_FINAL && callplan_marks(&plan, 4) == 0 && callplan_marks(&plan, SIZE_MAX) == 0);
    CHECK(callplan_equal(&plan, &other) == 1);
    CHECK(callplan_join(&other, 0, 3, 1, 2) == CALLPLAN_ACCEPTED);
    last = callplan_transition_at(&other, 4);
    CHECK(last.from == 0 && last.to == 3 && last.low == 1 && last.high == 2);
    CHECK(callplan_equal(&plan, &other) == 0);
    CHECK(callplan_unjoin(&other, 4) == CALLPLAN_ACCEPTED);
    last = callplan_transition_at(&other, 4);
    CHECK(last.from == 0 && last.to == 0 && last.low == 0 && last.high == 0);
    CHECK(memcmp(&plan, &other, sizeof plan) != 0 && callplan_equal(&plan, &other) == 1);
    CHECK(callplan_mark(&other, 1, 0) == CALLPLAN_ACCEPTED && callplan_equal(&plan, &other) == 0);
    other = plan;
    other.counts[1] = SIZE_MAX;
    CHECK(callplan_equal(&other, &other) == 0);
}

/* A plan made of an image, over one that breaks a limit. */
static void plan_of_an_image(void)
{
    callplan_plan plan = p1();
    callplan_plan before;
    callplan_plan expected = p1();

    plan.counts[0] = SIZE_MAX;
    before = plan;
    CHECK(callplan_from_image(&plan, NULL, 0) == CALLPLAN_REFUSED_IMAGE_SHORT);
    CHECK(callplan_from_image(&plan, p1_image, 27) == CALLPLAN_REFUSED_IMAGE_SHORT);
    CHECK(is_same_plan(&plan, &before));
    CHECK(callplan_from_image(&plan, p1_image, sizeof p1_image) == CALLPLAN_ACCEPTED);
    CHECK(callplan_equal(&plan, &expected) == 1);
}

/* The archive's version, and what answers and kinds say. */
static void words(void)
{
    char version[CALLPLAN_VERSION_TEXT_OCTETS + 1];
    memset(version, 7, sizeof version);
    CHECK(callplan_lent_version() == CALLPLAN_VERSION_NUMBER);
    CHECK(callplan_version_text(version) == version && strcmp(version, CALLPLAN_VERSION) == 0);
    CHECK(version[sizeof CALLPLAN_VERSION] == 7 && version[CALLPLAN_VERSION_TEXT_OCTETS] == 7);
    CHECK(strcmp(callplan_kind_text(CALLPLAN_NUMBER), "number") == 0);
    CHECK(strcmp(callplan_kind_text(CALLPLAN_NONE), "NONE") == 0);
    CHECK(strcmp(callplan_kind_text(CALLPLAN_STRANDED), "STRANDED") == 0);
    CHECK(strcmp(callplan_kind_text(CALLPLAN_ENDLESS), "ENDLESS") == 0);
#ifndef __cplusplus
    /* In C++ there is no kind with this number. */
    CHECK(strcmp(callplan_kind_text((callplan_kind)4), "an unknown kind") == 0);
#endif
    CHECK(strcmp(callplan_answer_text(CALLPLAN_REFUSED_SPARE_BITS), "a pad bit is set, or a spare bit of version 1") == 0);
    CHECK(strcmp(callplan_answer_text(CALLPLAN_REFUSED_VERSION), "the image's version is neither 1 nor 2") == 0);
    CHECK(strcmp(callplan_answer_text(CALLPLAN_REFUSED_TEAM_NUMBER), "the team is above 31") == 0);
    CHECK(strcmp(callplan_answer_text(CALLPLAN_REFUSED_START_COUNT), "not exactly one state is marked start") == 0);
    CHECK(strcmp(callplan_answer_text(CALLPLAN_REFUSED_FROM_STATE), "a transition's from is not below the state count") == 0);
    CHECK(strcmp(callplan_answer_text(CALLPLAN_REFUSED_TO_STATE), "a transition's to is not below the state count") == 0);
    CHECK(strcmp(callplan_answer_text(CALLPLAN_ACCEPTED), "accepted") == 0);
    /* 0 to 18, but 13 is no answer; then 254 to 256. */
    int known = 0;
    for (int number = 0; number < 300; number++) {
        known += strcmp(callplan_answer_text((callplan_answer)number), "an unknown answer") != 0;
    }
    CHECK(known == 18 + 3 && strcmp(callplan_answer_text((callplan_answer)13), "an unknown answer") == 0);
}

int main(void)
{
    CHECK(sizeof(callplan_plan) == 2 * sizeof(size_t) + 2 * 512 + 2 * 8192);
    CHECK(sizeof(callplan_figure) == 24 + 2 * 512);
    CHECK(sizeof(callplan_quotations) == 4 * sizeof(callplan_figure));
    CHECK(CALLPLAN_MAX_IMAGE_OCTETS == 4 + CALLPLAN_MAX_STATES + 5 * CALLPLAN_MAX_TRANSITIONS);
    edits();
    images();
    made();
    teams();
    wrong_ends();
    texts();
    quotations();
    counts_for_a_class();
    open_highs();
    begun_answered();
    quotations_of_an_image();
    broken_plan();
    short_slices();
    lists();
    what_it_holds();
    plan_of_an_image();
    words();
    printf("%d passed, %d failed\n", passed, failed);
    return failed == 0 ? 0 : 1;
}
