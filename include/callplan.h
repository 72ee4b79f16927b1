/* The call plan calculator, for C99 and C++11 on x86-64 Linux.
 *
 * A caller keeps a plan in a callplan_plan and lends it to each call. The archive's functions are proved: for every argument, and
 * whatever the plan holds, they answer as it says here, touch only what they are lent, and return. The inline functions are a few
 * lines of C over them. No call allocates, and none keeps anything when it has returned. docs/LINKING.md says more.
 *
 * Of every call:
 * - A pointer with a length has that many places. It may be null where the length is 0; no other pointer may, but for written.
 * - What a call is lent to write to overlaps nothing else that it is lent.
 * - The answer is CALLPLAN_ACCEPTED or the number of a refusal. 0 is a refusal: compare answers by name.
 * - A refused call changes nothing: the plan and every lent place stay as they were.
 * - The refusals of a call stand above it, without their CALLPLAN_REFUSED_. Of several that apply it answers the first.
 */
#ifndef CALLPLAN_H
#define CALLPLAN_H

#if !defined(__x86_64__) || !defined(__linux__)
#error "callplan: the archive is for x86-64 Linux"
#endif

#include <stddef.h>
#include <stdint.h>
#include <string.h>

#ifndef NDEBUG
#include <assert.h>
#endif

#if SIZE_MAX != UINT64_MAX
#error "callplan: a size_t is 64 bits in the archive"
#endif

/* The answer of a call says whether it did anything: compilers warn where it is not looked at. */
#if defined(__cplusplus) && __cplusplus >= 201703L
#define CALLPLAN_ANSWERS [[nodiscard]] static inline callplan_answer
#elif defined(__GNUC__)
#define CALLPLAN_ANSWERS __attribute__((warn_unused_result)) static inline callplan_answer
#else
#define CALLPLAN_ANSWERS static inline callplan_answer
#endif

#ifdef __cplusplus
#define CALLPLAN_CAST(type, value) static_cast<type>(value)
#else
#define CALLPLAN_CAST(type, value) ((type)(value))
#endif

#ifdef __cplusplus
extern "C" {
#endif

#define CALLPLAN_VERSION "0.9.0"
#define CALLPLAN_VERSION_NUMBER 900 /* 10,000 times the first number, 100 times the second, and the third */
#define CALLPLAN_VERSION_TEXT_OCTETS 16 /* of the text of any version, the 0 behind it included */

#define CALLPLAN_MAX_STATES 512
#define CALLPLAN_MAX_TRANSITIONS 2048
#define CALLPLAN_MAX_DURATION 2047      /* seconds */
#define CALLPLAN_MAX_TEAM 31            /* teams are numbered from 0 */
#define CALLPLAN_OPEN_HIGH 2047         /* a high that means no limit: open, as of a phone that rings until it is picked up */
#define CALLPLAN_MAX_IMAGE_OCTETS 10756 /* 4, 1 for each state and 5 for each transition */
#define CALLPLAN_MAX_TEXT_OCTETS 51221  /* of a text that is exported or accepted: 21, and 25 for each transition */
#define CALLPLAN_RECORD_OCTETS 11

/* What a call answers. No answer is 13, and none will be. */
typedef enum callplan_answer {
    CALLPLAN_REFUSED_PLAN_LIMITS = 0,        /* the plan that was lent breaks a limit, as one filled in by hand may */
    CALLPLAN_REFUSED_IMAGE_SHORT = 1,        /* fewer than 4 octets, or fewer than the counts give */
    CALLPLAN_REFUSED_IMAGE_LONG = 2,         /* more octets than the counts give */
    CALLPLAN_REFUSED_VERSION = 3,            /* the image's version is neither 1 nor 2 */
    CALLPLAN_REFUSED_STATE_COUNT = 4,        /* 0, or above 512 */
    CALLPLAN_REFUSED_TRANSITION_COUNT = 5,   /* above 2,048 */
    CALLPLAN_REFUSED_SPARE_BITS = 6,         /* a pad bit is set, or a spare bit of version 1 */
    CALLPLAN_REFUSED_STATE_NUMBER = 7,       /* of mark or team, or an initial state: not below the state count */
    CALLPLAN_REFUSED_DURATION = 8,           /* low above high, or high above 2,047 */
    CALLPLAN_REFUSED_LIST_FULL = 9,          /* the plan has 2,048 transitions already */
    CALLPLAN_REFUSED_TRANSITION_NUMBER = 10, /* not below the transition count */
    CALLPLAN_REFUSED_BUFFER_LENGTH = 11,     /* less than what is to be put there */
    CALLPLAN_REFUSED_MARKS_VALUE = 12,       /* above 7 */
    CALLPLAN_REFUSED_START_COUNT = 14,       /* not exactly one state is marked start */
    CALLPLAN_REFUSED_TEXT_FORM = 15,         /* the text is off the form of Aldebaran text */
    CALLPLAN_REFUSED_FROM_STATE = 16,        /* a transition's from is not below the state count */
    CALLPLAN_REFUSED_TO_STATE = 17,          /* a transition's to is not below the state count */
    CALLPLAN_REFUSED_TEAM_NUMBER = 18,       /* of team, or of a count for a class: above 31 */
    CALLPLAN_NO_CALLS = 254,                 /* of replay alone: an unknown kind, or octets of a read or import outside those that are lent */
    CALLPLAN_SHORT_SLICE = 255,              /* of the callplan_lent_ functions alone: the slices are too short to hold a plan */
    CALLPLAN_ACCEPTED = 256
} callplan_answer;

/* A marks value is a sum of these. */
enum {
    CALLPLAN_COUNTED = 1,
    CALLPLAN_FINAL = 2, /* a person has answered */
    CALLPLAN_START = 4
};

/* A state has a team, a number from 0 to CALLPLAN_MAX_TEAM. Every team is in one of five classes:
 *     0           none
 *     1 to 9      wards
 *     10 to 19    clinics
 *     20 to 29    switchboards
 *     30 to 31    outside lines
 * A class is named by the number of any team in it. */

/* A plan. callplan_fresh, callplan_generate or callplan_from_image makes one; before that it may hold anything. Copy it by assignment. */
typedef struct callplan_plan {
    size_t counts[2];                              /* states, transitions */
    uint8_t marks[CALLPLAN_MAX_STATES];            /* a marks value for each state */
    uint8_t teams[CALLPLAN_MAX_STATES];            /* a team for each state */
    uint16_t fields[4 * CALLPLAN_MAX_TRANSITIONS]; /* every from, then every to, every low and every high */
} callplan_plan;

/* Marks and teams are lent as one slice: no compiler puts anything between them. */
typedef char callplan_private_teams_follow_marks
    [offsetof(callplan_plan, teams) == offsetof(callplan_plan, marks) + CALLPLAN_MAX_STATES ? 1 : -1];

typedef struct callplan_transition {
    uint16_t from; /* a state */
    uint16_t to;   /* a state */
    uint16_t low;  /* seconds */
    uint16_t high; /* seconds, or CALLPLAN_OPEN_HIGH */
} callplan_transition;

/* The kinds of a figure. */
typedef enum callplan_kind {
    CALLPLAN_NUMBER = 0,
    CALLPLAN_NONE = 1,     /* a least figure of a plan without routes, or a greatest one of a plan without a start */
    CALLPLAN_STRANDED = 2, /* a call can end unanswered, in a state that nothing leaves: an unfinished one, or a start, final or not */
    CALLPLAN_ENDLESS = 3   /* a call can go on forever unanswered; for the greatest delay also by a transition with an open high */
} callplan_kind;

/* A figure, and the walk that shows it: the transition numbers walk[0] to walk[k - 1]. */
typedef struct callplan_figure {
    callplan_kind kind;
    uint32_t value; /* seconds, at most 1,048,064 for the least delay and 1,047,552 for the greatest, or counted states, at most 513;
                       0 unless kind is CALLPLAN_NUMBER */
    size_t k;       /* at most the plan's states, so at most 512. At least 1 beside a number; 0 beside CALLPLAN_STRANDED: the walk is a
                       start alone, which nothing leaves */
    size_t j;       /* CALLPLAN_ENDLESS: either j is below k, and the state after k transitions is the state after j; or, of the
                       greatest delay alone, j is k, and the last transition has an open high. Otherwise 0 */
    uint16_t walk[CALLPLAN_MAX_STATES];
} callplan_figure;

/* The four figures of a plan. */
typedef struct callplan_quotations {
    callplan_figure figures[4]; /* CALLPLAN_LEAST_DELAY and so on are their places */
} callplan_quotations;

enum {
    CALLPLAN_LEAST_DELAY = 0,
    CALLPLAN_GREATEST_DELAY = 1,
    CALLPLAN_LEAST_COUNT = 2,
    CALLPLAN_GREATEST_COUNT = 3
};

/* The kinds of calls in a list, and the arguments of each: four, of which the first ones are looked at. */
enum {
    CALLPLAN_CALL_MARK = 0,   /* state, value */
    CALLPLAN_CALL_JOIN = 1,   /* from, to, low, high */
    CALLPLAN_CALL_UNJOIN = 2, /* number */
    CALLPLAN_CALL_READ = 3,   /* the places where its octets start and end among those that are lent */
    CALLPLAN_CALL_IMPORT = 4, /* the same, of its text */
    CALLPLAN_CALL_TEAM = 5    /* state, team */
};

/* ---- The functions of the archive, for programs that keep the arrays of a plan apart. The inline functions after them call them.
 *
 * A lent slice is a pointer, aligned and never null, and its number of places:
 *     counts, states, fields  the arrays of a callplan_plan, with 2, 1,024 and 8,192 places at least: states are the 512 marks values and
 *                             then the 512 teams
 *     octets                  the image that is read
 *     text                    the text that is imported
 *     buffer                  where write puts the image, export the text, and record the record
 *     walk, out               where a quotation puts the walk, with as many places as the plan has states, and its kind, value, k and
 *                             j, with 4 places
 *     walks, out              of quote and replay: four of either, one after another, with 2,048 and 16 places
 *     kinds, arguments        of replay: a list of calls, with four arguments for each kind
 *     answers                 of replay: where the answer of each call is put, with a place for each kind
 * With fewer places in counts, states or fields there is no plan to look at: a function answers CALLPLAN_SHORT_SLICE, before all else,
 * and changes nothing. With fewer in a walk, walks, out or answers a call is refused by CALLPLAN_REFUSED_BUFFER_LENGTH, after the
 * refusals of the plan, of the team, of the image or of n. With fewer arguments there is no list of calls to look at: CALLPLAN_NO_CALLS.
 * Otherwise it answers as the inline function of its name does; write, export and record answer CALLPLAN_ACCEPTED plus the octets'
 * number. Later places stay. The other arguments are those of the inline functions. */

uint32_t callplan_lent_version(void);
uint32_t callplan_lent_fresh(size_t n, size_t *counts, size_t counts_len, uint8_t *states, size_t states_len,
                             uint16_t *fields, size_t fields_len);
uint32_t callplan_lent_generate(uint32_t seed, size_t n, size_t m, size_t *counts, size_t counts_len, uint8_t *states,
                                size_t states_len, uint16_t *fields, size_t fields_len);
uint32_t callplan_lent_from_image(const uint8_t *octets, size_t octets_len, size_t *counts, size_t counts_len,
                                  uint8_t *states, size_t states_len, uint16_t *fields, size_t fields_len);
uint32_t callplan_lent_mark(size_t *counts, size_t counts_len, uint8_t *states, size_t states_len, uint16_t *fields,
                            size_t fields_len, size_t state, uint32_t value);
uint32_t callplan_lent_team(size_t *counts, size_t counts_len, uint8_t *states, size_t states_len, uint16_t *fields,
                            size_t fields_len, size_t state, uint32_t team);
uint32_t callplan_lent_join(size_t *counts, size_t counts_len, uint8_t *states, size_t states_len, uint16_t *fields,
                            size_t fields_len, size_t from, size_t to, uint32_t low, uint32_t high);
uint32_t callplan_lent_unjoin(size_t *counts, size_t counts_len, uint8_t *states, size_t states_len, uint16_t *fields,
                              size_t fields_len, size_t number);
uint32_t callplan_lent_read(size_t *counts, size_t counts_len, uint8_t *states, size_t states_len, uint16_t *fields,
                            size_t fields_len, const uint8_t *octets, size_t octets_len);
uint32_t callplan_lent_write(const size_t *counts, size_t counts_len, const uint8_t *states, size_t states_len,
                             const uint16_t *fields, size_t fields_len, uint8_t *buffer, size_t buffer_len);
uint32_t callplan_lent_import(size_t *counts, size_t counts_len, uint8_t *states, size_t states_len, uint16_t *fields,
                              size_t fields_len, const uint8_t *text, size_t text_len);
uint32_t callplan_lent_export(const size_t *counts, size_t counts_len, const uint8_t *states, size_t states_len,
                              const uint16_t *fields, size_t fields_len, uint8_t *buffer, size_t buffer_len);
uint32_t callplan_lent_least_delay(const size_t *counts, size_t counts_len, const uint8_t *states, size_t states_len,
                                   const uint16_t *fields, size_t fields_len, uint16_t *walk, size_t walk_len,
                                   uint32_t *out, size_t out_len);
uint32_t callplan_lent_greatest_delay(const size_t *counts, size_t counts_len, const uint8_t *states, size_t states_len,
                                      const uint16_t *fields, size_t fields_len, uint16_t *walk, size_t walk_len,
                                      uint32_t *out, size_t out_len);
uint32_t callplan_lent_least_count(const size_t *counts, size_t counts_len, const uint8_t *states, size_t states_len,
                                   const uint16_t *fields, size_t fields_len, uint16_t *walk, size_t walk_len,
                                   uint32_t *out, size_t out_len);
uint32_t callplan_lent_greatest_count(const size_t *counts, size_t counts_len, const uint8_t *states, size_t states_len,
                                      const uint16_t *fields, size_t fields_len, uint16_t *walk, size_t walk_len,
                                      uint32_t *out, size_t out_len);
uint32_t callplan_lent_least_count_for(const size_t *counts, size_t counts_len, const uint8_t *states, size_t states_len,
                                       const uint16_t *fields, size_t fields_len, uint32_t team, uint16_t *walk, size_t walk_len,
                                       uint32_t *out, size_t out_len);
uint32_t callplan_lent_greatest_count_for(const size_t *counts, size_t counts_len, const uint8_t *states, size_t states_len,
                                          const uint16_t *fields, size_t fields_len, uint32_t team, uint16_t *walk,
                                          size_t walk_len, uint32_t *out, size_t out_len);
uint32_t callplan_lent_record(const size_t *counts, size_t counts_len, const uint8_t *states, size_t states_len,
                              const uint16_t *fields, size_t fields_len, uint8_t *buffer, size_t buffer_len);
uint32_t callplan_lent_quote(const uint8_t *octets, size_t octets_len, uint16_t *walks, size_t walks_len, uint32_t *out,
                             size_t out_len);
uint32_t callplan_lent_replay(size_t n, const uint8_t *kinds, size_t kinds_len, const size_t *arguments, size_t arguments_len,
                              const uint8_t *octets, size_t octets_len, uint32_t *answers, size_t answers_len, size_t *counts,
                              size_t counts_len, uint8_t *states, size_t states_len, uint16_t *fields, size_t fields_len,
                              uint16_t *walks, size_t walks_len, uint32_t *out, size_t out_len);

/* What an answer says, in a few words of English. */
static inline const char *callplan_answer_text(callplan_answer answer)
{
    switch (answer) {
    case CALLPLAN_REFUSED_PLAN_LIMITS: return "the plan breaks a limit of a plan";
    case CALLPLAN_REFUSED_IMAGE_SHORT: return "the image has fewer than 4 octets, or fewer than its counts give";
    case CALLPLAN_REFUSED_IMAGE_LONG: return "the image has more octets than its counts give";
    case CALLPLAN_REFUSED_VERSION: return "the image's version is neither 1 nor 2";
    case CALLPLAN_REFUSED_STATE_COUNT: return "the state count is 0 or above 512";
    case CALLPLAN_REFUSED_TRANSITION_COUNT: return "the transition count is above 2,048";
    case CALLPLAN_REFUSED_SPARE_BITS: return "a pad bit is set, or a spare bit of version 1";
    case CALLPLAN_REFUSED_STATE_NUMBER: return "a state number is not below the state count";
    case CALLPLAN_REFUSED_DURATION: return "low is above high, or high above 2,047";
    case CALLPLAN_REFUSED_LIST_FULL: return "the plan has 2,048 transitions already";
    case CALLPLAN_REFUSED_TRANSITION_NUMBER: return "a transition number is not below the transition count";
    case CALLPLAN_REFUSED_BUFFER_LENGTH: return "a lent buffer is shorter than what is to be put there";
    case CALLPLAN_REFUSED_MARKS_VALUE: return "the marks value is above 7";
    case CALLPLAN_REFUSED_START_COUNT: return "not exactly one state is marked start";
    case CALLPLAN_REFUSED_TEXT_FORM: return "the text is off the form of Aldebaran text";
    case CALLPLAN_REFUSED_FROM_STATE: return "a transition's from is not below the state count";
    case CALLPLAN_REFUSED_TO_STATE: return "a transition's to is not below the state count";
    case CALLPLAN_REFUSED_TEAM_NUMBER: return "the team is above 31";
    case CALLPLAN_NO_CALLS: return "the slices are no list of calls";
    case CALLPLAN_SHORT_SLICE: return "the slices are too short to hold a plan";
    case CALLPLAN_ACCEPTED: return "accepted";
    }
    return "an unknown answer";
}

/* What a kind is called, as document 01 prints it: of a number the word "number", and the figure itself is its value. */
static inline const char *callplan_kind_text(callplan_kind kind)
{
    switch (kind) {
    case CALLPLAN_NUMBER: return "number";
    case CALLPLAN_NONE: return "NONE";
    case CALLPLAN_STRANDED: return "STRANDED";
    case CALLPLAN_ENDLESS: return "ENDLESS";
    }
    return "an unknown kind";
}

/* Puts the version of the archive that the program is linked with into text, as "1.2.3" and a 0 behind it, and returns text.
 * CALLPLAN_VERSION is the one of this header. */
static inline const char *callplan_version_text(char text[CALLPLAN_VERSION_TEXT_OCTETS])
{
    const uint32_t version = callplan_lent_version();
    const uint32_t parts[3] = {version / 10000, version / 100 % 100, version % 100};
    size_t at = 0;
    for (size_t i = 0; i < 3; i++) {
        uint32_t unit = 1;
        while (parts[i] / unit >= 10) {
            unit *= 10;
        }
        for (; unit != 0; unit /= 10) {
            text[at++] = "0123456789"[parts[i] / unit % 10];
        }
        text[at++] = i < 2 ? '.' : '\0';
    }
    return text;
}

/* The marks and the teams of a plan as one slice. Its pointer is made from that to the plan, so that it reaches over both arrays. */
static inline uint8_t *callplan_private_states(callplan_plan *plan)
{
    return CALLPLAN_CAST(uint8_t *, CALLPLAN_CAST(void *, plan)) + offsetof(callplan_plan, marks);
}

static inline const uint8_t *callplan_private_const_states(const callplan_plan *plan)
{
    return CALLPLAN_CAST(const uint8_t *, CALLPLAN_CAST(const void *, plan)) + offsetof(callplan_plan, marks);
}

/* The three slices of a plan, as arguments, and those of a plan that is not changed. */
#define CALLPLAN_SLICES(plan) \
    (plan)->counts, 2, callplan_private_states(plan), 2 * CALLPLAN_MAX_STATES, (plan)->fields, 4 * CALLPLAN_MAX_TRANSITIONS
#define CALLPLAN_CONST_SLICES(plan) \
    (plan)->counts, 2, callplan_private_const_states(plan), 2 * CALLPLAN_MAX_STATES, (plan)->fields, 4 * CALLPLAN_MAX_TRANSITIONS

/* The number that a function of the archive answers, by its name. */
static inline callplan_answer callplan_private_answer(uint32_t number)
{
    return CALLPLAN_CAST(callplan_answer, number);
}

/* In a debug build: the archive is the one that this header came with. */
static inline void callplan_private_check_version(void)
{
#ifndef NDEBUG
    assert(callplan_lent_version() == CALLPLAN_VERSION_NUMBER);
#endif
}

/* ---- Edits. */

/* Makes *plan a plan with n states, all marks and teams 0 and no transitions, whatever it held before.
 * Refused: STATE_COUNT. */
CALLPLAN_ANSWERS callplan_fresh(callplan_plan *plan, size_t n)
{
    callplan_private_check_version();
    return callplan_private_answer(callplan_lent_fresh(n, CALLPLAN_SLICES(plan)));
}

/* Makes *plan the plan with n states and m transitions that a seed makes, whatever it held before. The same seed and counts make the
 * same plan everywhere, and a smaller m the first m of its transitions. State 0 is start and state n - 1 final, no other mark is set, and
 * all teams are 0; with n at 1 the one state is both. Transitions lead from any state to any, and a high may come out as
 * CALLPLAN_OPEN_HIGH. For made-up plans, as those that releases are compared on.
 *
 * The first 55 words of 32 bits are the seed, then each the one before plus 9E3779B9 hex; each later word is the word 24 back plus the
 * word 55 back, modulo 4,294,967,296. Words are drawn from the 56th on, four a transition: from and to are a draw modulo n, low a draw
 * modulo 2,048, and high is low plus a draw modulo (2,048 - low).
 * Refused: STATE_COUNT, TRANSITION_COUNT. */
CALLPLAN_ANSWERS callplan_generate(callplan_plan *plan, uint32_t seed, size_t n, size_t m)
{
    callplan_private_check_version();
    return callplan_private_answer(callplan_lent_generate(seed, n, m, CALLPLAN_SLICES(plan)));
}

/* Makes the marks value of a state the value given. Its team stays.
 * Refused: PLAN_LIMITS, STATE_NUMBER, MARKS_VALUE. */
CALLPLAN_ANSWERS callplan_mark(callplan_plan *plan, size_t state, uint32_t value)
{
    return callplan_private_answer(callplan_lent_mark(CALLPLAN_SLICES(plan), state, value));
}

/* Makes the team of a state the one given. Its marks stay.
 * Refused: PLAN_LIMITS, STATE_NUMBER, TEAM_NUMBER. */
CALLPLAN_ANSWERS callplan_team(callplan_plan *plan, size_t state, uint32_t team)
{
    return callplan_private_answer(callplan_lent_team(CALLPLAN_SLICES(plan), state, team));
}

/* Puts a transition at the end of the list. It takes from low to high seconds, or low or more where high is CALLPLAN_OPEN_HIGH.
 * Refused: PLAN_LIMITS, FROM_STATE, TO_STATE, DURATION, LIST_FULL. */
CALLPLAN_ANSWERS callplan_join(callplan_plan *plan, size_t from, size_t to, uint32_t low, uint32_t high)
{
    return callplan_private_answer(callplan_lent_join(CALLPLAN_SLICES(plan), from, to, low, high));
}

/* Takes the transition with this number out of the list. The later ones move down by one.
 * Refused: PLAN_LIMITS, TRANSITION_NUMBER. */
CALLPLAN_ANSWERS callplan_unjoin(callplan_plan *plan, size_t number)
{
    return callplan_private_answer(callplan_lent_unjoin(CALLPLAN_SLICES(plan), number));
}

/* ---- The image.
 *
 * Images of versions 1 and 2 are read, and version 2 is written. They differ in the last five bits of each state, which are its team in
 * version 2. In version 1 they are spare and zero, and all teams of the plan are 0. */

/* Makes *plan the plan that the octets are the image of, in place of the one that it holds. The octets are gone over once, up to
 * the item that refuses them: the header, a state or a transition. One that is refused at its last transition leaves *plan too.
 * Refused: PLAN_LIMITS, of the plan that it holds; IMAGE_SHORT, of fewer than 4 octets; VERSION, STATE_COUNT, TRANSITION_COUNT;
 * SPARE_BITS, of the pad; IMAGE_SHORT, IMAGE_LONG; of version 1 state by state SPARE_BITS; transition by transition FROM_STATE,
 * TO_STATE, DURATION. */
CALLPLAN_ANSWERS callplan_read(callplan_plan *plan, const uint8_t *octets, size_t length)
{
    const uint8_t none = 0;
    return callplan_private_answer(callplan_lent_read(CALLPLAN_SLICES(plan), length != 0 ? octets : &none, length));
}

/* Makes *plan the plan that the octets are the image of, whatever it held before.
 * Refused: as callplan_read, but for PLAN_LIMITS. */
CALLPLAN_ANSWERS callplan_from_image(callplan_plan *plan, const uint8_t *octets, size_t length)
{
    const uint8_t none = 0;
    callplan_private_check_version();
    return callplan_private_answer(
        callplan_lent_from_image(length != 0 ? octets : &none, length, CALLPLAN_SLICES(plan)));
}

/* The answer of a call that fills a buffer. Its length goes to *written, unless the call was refused or written is null. */
static inline callplan_answer callplan_private_written(uint32_t answer, size_t *written)
{
    if (answer < CALLPLAN_ACCEPTED) {
        return callplan_private_answer(answer);
    }
    if (written) {
        *written = answer - CALLPLAN_ACCEPTED;
    }
    return CALLPLAN_ACCEPTED;
}

/* Puts the image of *plan, of version 2, at the front of buffer; later octets stay. The number of its octets, at most
 * CALLPLAN_MAX_IMAGE_OCTETS, goes to *written unless written is null.
 * Refused: PLAN_LIMITS, BUFFER_LENGTH. */
CALLPLAN_ANSWERS callplan_write(const callplan_plan *plan, uint8_t *buffer, size_t length, size_t *written)
{
    uint8_t none = 0;
    return callplan_private_written(
        callplan_lent_write(CALLPLAN_CONST_SLICES(plan), length != 0 ? buffer : &none, length), written);
}

/* ---- The Aldebaran text, for plans from and to other exchanges.
 *
 * The first line is `des (INITIAL, TRANSITIONS, STATES)`, with the initial state and the two counts. Then there is a line
 * `(FROM, "LOW..HIGH", TO)` for each transition, in their order. Every line is ended by a line feed, and every space is as it stands
 * here. Numbers are decimal, of any length and without leading zeros. A HIGH of 2047 is open. */

/* Makes *plan the plan that the text holds, in place of the one that it holds. The initial state is marked start, nothing else is
 * marked, and all teams are 0. Exported, it is the same text again. The text is looked at as octets, and needs no 0 at its end.
 * Refused: PLAN_LIMITS, of the plan that it holds; TEXT_FORM, of the whole text, the number of its lines included; STATE_COUNT,
 * TRANSITION_COUNT; STATE_NUMBER, of the initial state; line by line FROM_STATE, TO_STATE, DURATION. */
CALLPLAN_ANSWERS callplan_import(callplan_plan *plan, const uint8_t *text, size_t length)
{
    const uint8_t none = 0;
    return callplan_private_answer(callplan_lent_import(CALLPLAN_SLICES(plan), length != 0 ? text : &none, length));
}

/* Puts the text of *plan at the front of buffer; later octets stay, and no 0 is put after it. The number of its octets, at most
 * CALLPLAN_MAX_TEXT_OCTETS, goes to *written unless written is null. Imported, it is the plan without its final and counted marks
 * and its teams.
 * Refused: PLAN_LIMITS, START_COUNT, BUFFER_LENGTH. */
CALLPLAN_ANSWERS callplan_export(const callplan_plan *plan, uint8_t *buffer, size_t length, size_t *written)
{
    uint8_t none = 0;
    return callplan_private_written(
        callplan_lent_export(CALLPLAN_CONST_SLICES(plan), length != 0 ? buffer : &none, length), written);
}

/* ---- Quotations.
 *
 * A route begins at a start and takes at least one transition, the last to a final state. Its first state may be final too, as of a desk
 * that puts a caller back into the plan, and no state between its first and its last is. So a route may end where it began, and that
 * state then counts twice; otherwise the states of a route that is shown differ. A walk that shows CALLPLAN_STRANDED or CALLPLAN_ENDLESS
 * may begin at a final start as well, and the states after it are unfinished, but for the one that an open transition at its end leads
 * to. A start that nothing leaves is CALLPLAN_STRANDED, final or not.
 *
 * Each puts a figure of *plan, with a walk that shows it, into *figure; places of walk from k on stay. Which of several such walks
 * is shown is left free.
 * Refused: PLAN_LIMITS. */

/* Puts the numbers of an accepted quotation into *figure. */
static inline void callplan_private_fill(callplan_figure *figure, const uint32_t *out)
{
    figure->kind = CALLPLAN_CAST(callplan_kind, out[0]);
    figure->value = out[1];
    figure->k = out[2];
    figure->j = out[3];
}

/* The answer of a quotation, whose numbers go into *figure unless it was refused. */
static inline callplan_answer callplan_private_quoted(uint32_t answer, callplan_figure *figure, const uint32_t *out)
{
    if (answer == CALLPLAN_ACCEPTED) {
        callplan_private_fill(figure, out);
    }
    return callplan_private_answer(answer);
}

/* A quotation of the archive, and a call of it. */
typedef uint32_t callplan_private_call(const size_t *, size_t, const uint8_t *, size_t, const uint16_t *, size_t,
                                       uint16_t *, size_t, uint32_t *, size_t);

static inline callplan_answer callplan_private_quotation(callplan_private_call *call, const callplan_plan *plan,
                                                         callplan_figure *figure)
{
    uint32_t out[4] = {0};
    const uint32_t answer = call(CALLPLAN_CONST_SLICES(plan), figure->walk, CALLPLAN_MAX_STATES, out, 4);
    return callplan_private_quoted(answer, figure, out);
}

/* The same of a count for a class. */
typedef uint32_t callplan_private_count_call(const size_t *, size_t, const uint8_t *, size_t, const uint16_t *, size_t,
                                             uint32_t, uint16_t *, size_t, uint32_t *, size_t);

static inline callplan_answer callplan_private_count(callplan_private_count_call *call, const callplan_plan *plan,
                                                     uint32_t team, callplan_figure *figure)
{
    uint32_t out[4] = {0};
    const uint32_t answer = call(CALLPLAN_CONST_SLICES(plan), team, figure->walk, CALLPLAN_MAX_STATES, out, 4);
    return callplan_private_quoted(answer, figure, out);
}

/* The least delay: the smallest sum of lows over all routes, or CALLPLAN_NONE. A low of 2,047 is 2,047 seconds, and open highs are of
 * no account here and for the counts. */
CALLPLAN_ANSWERS callplan_least_delay(const callplan_plan *plan, callplan_figure *figure)
{
    return callplan_private_quotation(callplan_lent_least_delay, plan, figure);
}

/* The greatest delay: the first that applies of CALLPLAN_NONE, CALLPLAN_ENDLESS and CALLPLAN_STRANDED, and otherwise the largest
 * sum of highs over all routes. It is CALLPLAN_ENDLESS also where a walk of unfinished states from a start can take a transition with an
 * open high, which may leave a final start too. Such a walk is shown with j at k: it ends with that transition, which may lead anywhere,
 * and the states that it leaves differ. Where there is a loop too, either may be shown. */
CALLPLAN_ANSWERS callplan_greatest_delay(const callplan_plan *plan, callplan_figure *figure)
{
    return callplan_private_quotation(callplan_lent_greatest_delay, plan, figure);
}

/* The least count: the smallest number of counted states on a route, first and last included, or CALLPLAN_NONE. */
CALLPLAN_ANSWERS callplan_least_count(const callplan_plan *plan, callplan_figure *figure)
{
    return callplan_private_quotation(callplan_lent_least_count, plan, figure);
}

/* The greatest count: as the greatest delay, with the largest number of counted states on a route, and open highs as any others. */
CALLPLAN_ANSWERS callplan_greatest_count(const callplan_plan *plan, callplan_figure *figure)
{
    return callplan_private_quotation(callplan_lent_greatest_count, plan, figure);
}

/* The least and the greatest count for a class, the one that the team given is in. A state counts where its own team is in that class,
 * and its counted mark is of no account. Otherwise they are as the least and the greatest count, and every team of a class gives the
 * same figure. The record and callplan_quote have the counts by the counted mark.
 * Refused: PLAN_LIMITS, TEAM_NUMBER. */
CALLPLAN_ANSWERS callplan_least_count_for(const callplan_plan *plan, uint32_t team, callplan_figure *figure)
{
    return callplan_private_count(callplan_lent_least_count_for, plan, team, figure);
}

CALLPLAN_ANSWERS callplan_greatest_count_for(const callplan_plan *plan, uint32_t team, callplan_figure *figure)
{
    return callplan_private_count(callplan_lent_greatest_count_for, plan, team, figure);
}

/* Puts the record of the four figures at the front of buffer; later octets stay. The number of its octets, CALLPLAN_RECORD_OCTETS,
 * goes to *written unless written is null.
 * Refused: PLAN_LIMITS, BUFFER_LENGTH. The record holds every figure. */
CALLPLAN_ANSWERS callplan_record(const callplan_plan *plan, uint8_t *buffer, size_t length, size_t *written)
{
    uint8_t none = 0;
    return callplan_private_written(
        callplan_lent_record(CALLPLAN_CONST_SLICES(plan), length != 0 ? buffer : &none, length), written);
}

/* Puts the numbers and the walks of four accepted quotations into *quotations. */
static inline void callplan_private_fill_all(callplan_quotations *quotations, const uint16_t *walks, const uint32_t *out)
{
    for (size_t i = 0; i < 4; i++) {
        callplan_figure *figure = &quotations->figures[i];
        callplan_private_fill(figure, out + 4 * i);
        memcpy(figure->walk, walks + CALLPLAN_MAX_STATES * i, figure->k * sizeof figure->walk[0]);
    }
}

/* Reads an image and puts its four figures into *quotations, for programs that keep no plan. Each is what its own quotation says of
 * the plan, and its places of walk from k on stay.
 * Refused: as callplan_read, but for PLAN_LIMITS. */
CALLPLAN_ANSWERS callplan_quote(const uint8_t *octets, size_t length, callplan_quotations *quotations)
{
    callplan_private_check_version();
    const uint8_t none = 0;
    uint16_t walks[4 * CALLPLAN_MAX_STATES] = {0};
    uint32_t out[4 * 4] = {0};
    const uint32_t answer =
        callplan_lent_quote(length != 0 ? octets : &none, length, walks, 4 * CALLPLAN_MAX_STATES, out, 4 * 4);
    if (answer == CALLPLAN_ACCEPTED) {
        callplan_private_fill_all(quotations, walks, out);
    }
    return callplan_private_answer(answer);
}

/* Makes a list of calls in turn from a fresh plan with n states, each on the plan that the one before it left, puts the plan after the
 * list into *plan, whatever it held before, and its four figures into *quotations. There are count kinds, four times as many arguments
 * and count places for the answers; the octets of the reads and imports are parts of octets. The answer of each call is put at its
 * place: a call of the list that is refused leaves the plan as it is, and the list goes on.
 * CALLPLAN_NO_CALLS where the list has an unknown kind, or a read or import whose octets lie outside. Refused: STATE_COUNT, of n. */
CALLPLAN_ANSWERS callplan_replay(callplan_plan *plan, size_t n, const uint8_t *kinds, const size_t *arguments,
                                              size_t count, const uint8_t *octets, size_t length, uint32_t *answers,
                                              callplan_quotations *quotations)
{
    const uint8_t none = 0;
    const size_t no_argument = 0;
    uint32_t no_answer = 0;
    uint16_t walks[4 * CALLPLAN_MAX_STATES] = {0};
    uint32_t out[4 * 4] = {0};
    const uint32_t answer = callplan_lent_replay(
        n, count != 0 ? kinds : &none, count, count != 0 ? arguments : &no_argument, 4 * count, length != 0 ? octets : &none, length,
        count != 0 ? answers : &no_answer, count, CALLPLAN_SLICES(plan), walks, 4 * CALLPLAN_MAX_STATES, out, 4 * 4);
    if (answer == CALLPLAN_ACCEPTED) {
        callplan_private_fill_all(quotations, walks, out);
    }
    return callplan_private_answer(answer);
}

/* ---- What a plan holds. Of states and transitions that it does not have there are zeros. Places of its arrays past the counts hold what
 * was left there, by an unjoin or a smaller image or text: they are no part of the plan, so memcmp does not tell whether two plans are
 * equal, and a plan that is stored as it lies in memory carries old data. */

static inline size_t callplan_states(const callplan_plan *plan)
{
    return plan->counts[0];
}

static inline size_t callplan_transitions(const callplan_plan *plan)
{
    return plan->counts[1];
}

static inline uint8_t callplan_marks(const callplan_plan *plan, size_t state)
{
    return state < CALLPLAN_MAX_STATES && state < plan->counts[0] ? plan->marks[state] : CALLPLAN_CAST(uint8_t, 0);
}

static inline uint8_t callplan_team_of(const callplan_plan *plan, size_t state)
{
    return state < CALLPLAN_MAX_STATES && state < plan->counts[0] ? plan->teams[state] : CALLPLAN_CAST(uint8_t, 0);
}

static inline callplan_transition callplan_transition_at(const callplan_plan *plan, size_t number)
{
    callplan_transition transition = {0, 0, 0, 0};
    if (number < CALLPLAN_MAX_TRANSITIONS && number < plan->counts[1]) {
        transition.from = plan->fields[number];
        transition.to = plan->fields[CALLPLAN_MAX_TRANSITIONS + number];
        transition.low = plan->fields[2 * CALLPLAN_MAX_TRANSITIONS + number];
        transition.high = plan->fields[3 * CALLPLAN_MAX_TRANSITIONS + number];
    }
    return transition;
}

/* Whether two plans have the same states and the same transitions in the same order: 1 or 0. */
static inline int callplan_equal(const callplan_plan *one, const callplan_plan *other)
{
    const size_t n = one->counts[0];
    const size_t m = one->counts[1];
    if (n != other->counts[0] || m != other->counts[1] || n > CALLPLAN_MAX_STATES || m > CALLPLAN_MAX_TRANSITIONS) {
        return 0;
    }
    if (memcmp(one->marks, other->marks, n) != 0 || memcmp(one->teams, other->teams, n) != 0) {
        return 0;
    }
    for (size_t i = 0; i < 4; i++) {
        const size_t at = i * CALLPLAN_MAX_TRANSITIONS;
        if (memcmp(one->fields + at, other->fields + at, m * sizeof one->fields[0]) != 0) {
            return 0;
        }
    }
    return 1;
}

#undef CALLPLAN_SLICES
#undef CALLPLAN_CONST_SLICES
#undef CALLPLAN_ANSWERS
#undef CALLPLAN_CAST

#ifdef __cplusplus
}
#endif

#endif
