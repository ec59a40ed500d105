/* Calls the library with a table in memory: builds and checks by each order and basis and under both challengers, a lucky
 * challenge, and each refusal, with little room and with a heap that refuses each request in turn. What the calls leave is
 * looked at, to the last byte. The figures are worked by hand, but those of digests, which docs/FORMATS.md has. */
#include "tunaprow.h"

#include <stdio.h>
#include <stdlib.h>
#include <string.h>

enum { ROOM = 4, FILL = 0xA5A5A5A5, P = 65537 };

/* ---- the heap */

static size_t blocks;
static size_t requests;
static size_t refused; /* the request that is refused, counted from 1; 0 for none */
static unsigned char nothing;

static struct tunaprow_block block_at(void *at) {
    struct tunaprow_block block = {at != NULL, at != NULL ? at : &nothing};
    return block;
}

struct tunaprow_block rattle_alloc(size_t size, size_t align) {
    if (++requests == refused) {
        return block_at(NULL);
    }
    blocks++;
    return block_at(malloc(size != 0 ? size : align));
}

struct tunaprow_block rattle_realloc(void *at, size_t kept, size_t size, size_t align) {
    (void)kept;
    return block_at(++requests == refused ? NULL : realloc(at, size != 0 ? size : align));
}

void rattle_dealloc(void *at) {
    blocks--;
    free(at);
}

/* ---- calls */

/* The table 1, 2, 3, 4, and the point at which its value is claimed. */
static const uint32_t table[] = {1, 2, 3, 4};
static const uint32_t point[] = {0, 1};

struct call {
    const char *name;
    struct tunaprow_terms terms;
    uint32_t value;
    uint32_t draws[2];
    bool is_check; /* of these rounds and witnesses */
    size_t round_count;
    size_t witness_count;
    struct tunaprow_round rounds[2];
    uint32_t witnesses[2];
};

/* All that a call may write, each list with room for more than it leaves. */
struct left {
    struct tunaprow_round rounds[ROOM];
    uint32_t witnesses[ROOM];
    struct tunaprow_figures figures;
    uint32_t challenges[ROOM];
    uint32_t polynomial[ROOM];
};

static struct left filled(void) {
    struct left left;
    memset(&left, 0xA5, sizeof left);
    return left;
}

static int is_untouched(const struct left *left) {
    struct left whole = filled();
    return memcmp(left, &whole, sizeof whole) == 0;
}

/* The status of a call with so much room in each list. */
static uint8_t answer(const struct call *call, size_t room, struct left *left) {
    requests = 0;
    if (call->is_check) {
        return tunaprow_check_65537(&call->terms, table, 4, point, 2, &call->value, 1, call->draws, 2, call->rounds,
                                    call->round_count, call->witnesses, call->witness_count, &left->figures,
                                    left->challenges, room, left->polynomial, room);
    }
    return tunaprow_build_65537(&call->terms, table, 4, point, 2, &call->value, 1, call->draws, 2, left->rounds, room,
                                left->witnesses, room, &left->figures, left->challenges, room, left->polynomial, room);
}

static void want(int is, const struct call *call, const char *what) {
    if (!is || blocks != 0) {
        printf("tables: %s: %s%s\n", call->name, what, is ? ": blocks were not given back" : "");
        exit(1);
    }
}

/* Each request of a call is refused in turn, until there is none to refuse. It is then told with nothing written, or the
 * call does without that memory, and leaves all that it leaves else. */
static void refuse_each(const struct call *call, uint8_t status) {
    struct left whole = filled();
    refused = 0;
    want(answer(call, ROOM, &whole) == status, call, "no request is refused");
    do {
        struct left left = filled();
        refused++;
        uint8_t told = answer(call, ROOM, &left);
        int lacks = told == TUNAPROW_OUT_OF_MEMORY && is_untouched(&left) && requests >= refused;
        want(lacks || (told == status && memcmp(&left, &whole, sizeof left) == 0), call, "a request is refused");
    } while (requests >= refused);
    refused = 0;
}

static void want_refusal(struct call call, uint8_t status, const char *what) {
    struct left left = filled();
    want(answer(&call, ROOM, &left) == status && is_untouched(&left), &call, what);
    refuse_each(&call, status);
}

/* ---- builds and checks of a true claim */

struct wanted {
    struct call call; /* with the rounds and the witnesses that a build leaves */
    uint32_t challenges[2];
    uint32_t residual;
    uint32_t eval;
    uint32_t weight;
};

static const struct wanted by_hand[] = {
    /* At (3, 4) the table is 1 + 2 * 3 + 4, and the weight of (0, 1) is (1 - 3) * 4. The first round's polynomial is
     * (1 - X) (2 + 2 X), and the second one's (7 + X) (-2 X). */
    {{"prefix", {2, 0, 1, false, false, false}, 2, {3, 4}, false, 2, 0, {{2, P - 2}, {0, P - 2}}, {0, 0}},
     {3, 4}, P - 88, 11, P - 8},
    /* The last variable is 3 and the first one 4: (1 + X) X, and then (4 + 2 X) (3 - 3 X). */
    {{"suffix", {2, 0, 1, true, false, false}, 2, {3, 4}, false, 2, 0, {{0, 1}, {12, P - 6}}, {0, 0}},
     {3, 4}, P - 108, 12, P - 9},
    /* The table is 1 + 2 Y + 3 X + 4 X Y, and the weights are Y: 2 + 4 X, and then (10 + 14 Y) Y. */
    {{"coefficients", {2, 0, 1, false, true, false}, 2, {3, 4}, false, 2, 0, {{6, 0}, {24, 14}}, {0, 0}},
     {3, 4}, 264, 66, 4},
    /* Draws are not read. */
    {{"digests", {2, 8, 1, false, false, true}, 2, {P, P}, false, 2, 2, {{2, P - 2}, {0, 49556}}, {88, 553}},
     {15982, 19857}, 59247, 51822, 60974},
};

static void want_report(const struct wanted *wanted, const struct call *call, const struct left *left) {
    const struct tunaprow_figures *is = &left->figures;
    want(is->claim == 2 && is->residual == wanted->residual && is->eval == wanted->eval &&
             is->weight == wanted->weight, call, "the figures");
    want(is->found.verdict == TUNAPROW_VERDICT_HOLDS && is->found.round == 0 && is->found.vanishing == 0 &&
             is->found.coefficients == 0, call, "the verdict");
    want(memcmp(left->challenges, wanted->challenges, sizeof wanted->challenges) == 0 &&
             left->challenges[2] == FILL && left->polynomial[0] == FILL, call, "the challenges");
}

static void want_rounds(const struct wanted *wanted, const struct left *left) {
    const struct call *call = &wanted->call;
    const struct tunaprow_round *rounds = left->rounds;
    size_t tested = call->witness_count;
    want(memcmp(rounds, call->rounds, sizeof call->rounds) == 0 && rounds[2].first == FILL, call, "the rounds");
    want(memcmp(left->witnesses, call->witnesses, tested * sizeof(uint32_t)) == 0 && left->witnesses[tested] == FILL,
         call, "the witnesses");
}

/* With room for one item in each list, and for none. */
static void with_little_room(const struct wanted *wanted) {
    struct left left = filled();
    want(answer(&wanted->call, 0, &left) == TUNAPROW_HOLDS, &wanted->call, "no room");
    want(left.figures.eval == wanted->eval && left.rounds[0].first == FILL && left.witnesses[0] == FILL &&
             left.challenges[0] == FILL, &wanted->call, "what is left without room");
    want(answer(&wanted->call, 1, &left) == TUNAPROW_HOLDS, &wanted->call, "room for one");
    want(left.rounds[0].leading == wanted->call.rounds[0].leading && left.rounds[1].first == FILL &&
             left.challenges[0] == wanted->challenges[0] && left.challenges[1] == FILL && left.witnesses[1] == FILL,
         &wanted->call, "what is left with room for one");
}

static void build_and_check(const struct wanted *wanted) {
    struct call check = wanted->call;
    struct left left = filled();
    want(answer(&wanted->call, ROOM, &left) == TUNAPROW_HOLDS, &check, "a build");
    want_report(wanted, &check, &left);
    want_rounds(wanted, &left);
    with_little_room(wanted);
    refuse_each(&wanted->call, TUNAPROW_HOLDS);

    check.is_check = true;
    left = filled();
    want(answer(&check, ROOM, &left) == TUNAPROW_HOLDS, &check, "a check");
    want_report(wanted, &check, &left);
    want(left.rounds[0].first == FILL && left.witnesses[0] == FILL, &check, "rounds that are only read");
    refuse_each(&check, TUNAPROW_HOLDS);
}

/* ---- verdicts and refusals */

static struct call check_of_first(const char *name) {
    struct call check = by_hand[0].call;
    check.name = name;
    check.is_check = true;
    return check;
}

static void another_round(void) {
    struct call check = check_of_first("another round");
    struct left left = filled();
    check.rounds[1].first++;
    want(answer(&check, ROOM, &left) == TUNAPROW_NOT_PROVED, &check, "the status");
    want(left.figures.found.verdict == TUNAPROW_VERDICT_REFUTED && left.polynomial[0] == FILL, &check, "the verdict");
    refuse_each(&check, TUNAPROW_NOT_PROVED);
}

/* 7 in place of 2 under the challenge 0: the first round is 5 X off, which vanishes there and nowhere else. After it the
 * claim is 2, and the table 1 + Y with the weights Y. */
static void lucky_round(void) {
    struct call check = check_of_first("a lucky challenge");
    struct left left = filled();
    check.value = 7;
    check.draws[0] = 0;
    check.rounds[1] = (struct tunaprow_round){0, 1};
    want(answer(&check, ROOM, &left) == TUNAPROW_NOT_PROVED, &check, "the status");
    struct tunaprow_found found = left.figures.found;
    want(found.verdict == TUNAPROW_VERDICT_LUCKY_ROUND && found.round == 0 && found.vanishing == 1 &&
             found.coefficients == 3, &check, "the verdict");
    want(left.polynomial[0] == 0 && left.polynomial[1] == 5 && left.polynomial[2] == 0 && left.polynomial[3] == FILL,
         &check, "the polynomial");
    refuse_each(&check, TUNAPROW_NOT_PROVED);
}

static void refused_builds(void) {
    struct call build = by_hand[0].call;
    build.name = "a build";
    build.value = 3;
    want_refusal(build, TUNAPROW_JOB_REFUSED, "a false claim");
    build.value = P;
    want_refusal(build, TUNAPROW_JOB_REFUSED, "a number of no element");
    build.value = 2;
    build.terms.variables = SIZE_MAX;
    want_refusal(build, TUNAPROW_JOB_REFUSED, "points of other sizes");
    build.terms.variables = 2;
    build.terms.bits = 17;
    want_refusal(build, TUNAPROW_JOB_REFUSED, "a difficulty above 16");
    build.terms.bits = 1;
    want_refusal(build, TUNAPROW_NO_WITNESS, "a script, with which nothing passes");
}

static void refused_checks(void) {
    struct call check = check_of_first("a check");
    check.round_count = 1;
    want_refusal(check, TUNAPROW_PROOF_REFUSED, "a round that lacks");
    check.round_count = 2;
    check.witness_count = 1;
    want_refusal(check, TUNAPROW_PROOF_REFUSED, "a witness without a test");
    check.rounds[1].leading = UINT32_MAX;
    want_refusal(check, TUNAPROW_JOB_REFUSED, "a number of no element");

    struct call tested = by_hand[3].call;
    tested.is_check = true;
    tested.witnesses[1] = 0;
    want_refusal(tested, TUNAPROW_PROOF_REFUSED, "a witness that fails");
    tested.terms.suffix = tested.terms.coefficients = true;
    want_refusal(tested, TUNAPROW_JOB_REFUSED, "coefficients in suffix order");
}

int main(void) {
    for (size_t i = 0; i < sizeof by_hand / sizeof by_hand[0]; i++) {
        build_and_check(&by_hand[i]);
    }
    another_round();
    lucky_round();
    refused_builds();
    refused_checks();
    puts("tables: right");
    return 0;
}
