/*
 * A plain stand-in for rules by number, to try the tests on.
 *
 * It has the same face as the library and looks at item after item. The
 * store is judged by the other stand-in, tests/reference_store.c, which it is
 * linked with. It is slow and proves nothing. The self-test also runs it with
 * one fault planted, one of those listed below or in tests/rule_shape.h, and asks
 * that the tests find it.
 */
#include "rule_shape.h"
#include "saltreeve.h"

#include <stdlib.h>

enum fault {
    NO_FAULT,
    ALWAYS_0,                 /* no rule has a finding */
    TOTAL_ONE_MORE,           /* the total is one too many */
    TOTAL_OF_THE_LISTED,      /* the total counts only what fits into the list */
    SKIPS_ONE,                /* the next finding after the first is passed over */
    SECOND_BEFORE_FIRST,      /* pairs go by their second item first */
    LOWEST_NAMES_ONLY,        /* of two names for an article only one is found */
    PAIRS_ONCE,               /* of x, y and y, x only one is found */
    INVERSE_PAIR_TURNED,      /* the pair of an inverse role is given the other way round */
    NONE_IS_0,                /* no second item is written as 0 */
    COUNTS_NAMES,             /* at least counts linked names, not articles */
    COUNTS_PAST_N,            /* at least n asks for more than n */
    COUNTS_ALL_LINKED,        /* at least forgets its C */
    INVERSE_FORWARDS,         /* an inverse is read like the role itself */
    INVERSE_ONLY_1,           /* of the numbers for an inverse only 1 is known */
    ONE_ONLY_ITSELF,          /* one a holds of a alone, not of what is the same */
    SELF_INVERSE_WRONG,       /* self through an inverse never holds */
    AND_IS_OR,                /* C and D holds where one of them does */
    FIRST_64_ITEMS,           /* items from 64 on are linked to nothing */
    CHAIN_ONE_SHORT,          /* a path stops one role before its end */
    CHAIN_END_TWICE,          /* an end that two last steps lead to is found twice */
    CHAIN_LAST_FORWARDS,      /* the last role of a chain is never an inverse */
    CHAIN_FOURTH_FORWARDS,    /* the fourth role of a path is never an inverse */
    SECOND_ROLE_FORWARDS,     /* the second role of rsub and dis is never an inverse */
    CONCEPT_31_EMPTY,         /* the last of 32 concepts holds of nothing */
    WRITES_PAST_THE_TOTAL,    /* a record after the last finding is written */
    WRITES_HALF_A_RECORD,     /* the last word of an odd list is written */
    WRITES_PAST_THE_LIST,     /* a word after the list is written */
    REFUSAL_WRITES,           /* a refusal writes to the list */
    CHANGES_THE_STORE,        /* the store's last word is changed */
    CHANGES_THE_RULE,         /* the rule's last word is changed */
    NUMBERS_BEFORE_SHAPE,     /* 4 is given where 3 is due */
    SHAPE_BEFORE_CLOSED,      /* 3 is given where 2 is due */
    RULE_BEFORE_SIZE,         /* 3 is given where 1 is due */
    STORE_UNASKED,            /* a store that is not closed is taken */
    LONG_RULE_TAKEN,          /* a rule of more than 173 words is taken */
    SHORT_RULE_TAKEN,         /* a rule of less than 173 words is read as if zeros followed */
    LENGTH_BEFORE_STORE,      /* 3 is given for a rule's length where 1 or 2 is due */
    LENGTH_AS_SIZE,           /* a rule of another length is refused by 1 */
    STOPS_THE_PROGRAM,        /* the first chain stops the program */
    ENDS_THE_PROGRAM,         /* the first chain ends the program as if all were well */
    LARGE_READ_AS_SMALL,      /* the larger store is read with rows of two words */
    ROW_BY_ITEMS,             /* the larger store is read so if the items are few */
    FIRST_128_ITEMS,          /* items from 128 on are linked to nothing */
    FIRST_256_ITEMS,          /* items from 256 on are linked to nothing */
    FIRST_448_ITEMS,          /* items from 448 on are linked to nothing */
    FIRST_128_NAMES,          /* items from 128 on are the same as themselves only */
    FIRST_128_MEMBERS,        /* items from 128 on are in no concept */
    SECOND_OF_BYTES,          /* the second item of a finding is cut to 8 bits */
    FIRST_OF_BYTES,           /* the first item of a finding is cut to 8 bits */
    ITEMS_TO_384,             /* items from 384 on break no rule */
    COUNTS_OF_FOUR_WORDS,     /* at least counts only what is among the first 256 items */
    LEADS_BY_WORD,            /* at least counts an article once for each word of the row */
    TOTAL_OF_16_BITS,         /* the total is cut to 16 bits */
    LIST_OF_SMALL_STORE,      /* no more findings are listed than the smaller store can have */
    COUNT_129_UNASKED,        /* the smaller store is not refused for 129 items */
    COUNT_513_UNASKED,        /* the larger store is not refused for 513 items */
    LARGE_REFUSED             /* the larger store is refused with 1 */
};

PLANTED(RULE_FAULT, NO_FAULT)

enum { REFUSED_SIZE = -1, REFUSED_NOT_CLOSED = -2, REFUSED_MALFORMED = -3, REFUSED_NUMBER = -4 };
enum { ITEMS = SALTREEVE_LARGE_ITEMS, SMALL_ROW = 2, LARGE_ROW = 8 };

/* Where findings go: the caller's list, and how many there were. */
struct list {
    uint64_t *out;
    size_t length;
    int64_t total;
};

/* What the nodes hold of. */
typedef int table[SALTREEVE_NODES][ITEMS];

/* --- What holds --- */

/* The most items of the store. */
static uint64_t most(const struct call *c)
{
    return 64 * c->row;
}

/* The word that the items in concepts begin with. */
static size_t in_at(const struct call *c)
{
    return most(c) * c->row + 48;
}

/* Whether a is the same as b. */
static int same(const struct call *c, uint64_t a, uint64_t b)
{
    if (RULE_FAULT == FIRST_128_NAMES && (a >= 128 || b >= 128))
        return a == b;
    return c->w[c->row * (a % most(c)) + b % most(c) / 64] >> b % 64 & 1;
}

/* The items that links lead to, as some faults have it. */
static uint64_t linked_items(void)
{
    switch (RULE_FAULT) {
    case FIRST_64_ITEMS: return 64;
    case FIRST_128_ITEMS: return 128;
    case FIRST_256_ITEMS: return 256;
    case FIRST_448_ITEMS: return 448;
    default: return ITEMS;
    }
}

/* Whether a role or its inverse links a to b. */
static int linked(const struct call *c, uint64_t role, uint64_t inverse, uint64_t a, uint64_t b)
{
    int turned = RULE_FAULT == INVERSE_FORWARDS ? 0 : RULE_FAULT == INVERSE_ONLY_1 ? inverse == 1 : inverse != 0;
    uint64_t from = (turned ? b : a) % most(c), to = (turned ? a : b) % most(c);
    if (to >= linked_items())
        return 0;
    return c->w[in_at(c) + most(c) + c->row * (most(c) * (role % SALTREEVE_ROLES) + from) + to / 64] >> to % 64 & 1;
}

/* Whether some item below b, itself counted, is the same as b. */
static int counted_before(const struct call *c, const int *counted, uint64_t b)
{
    for (uint64_t earlier = RULE_FAULT == LEADS_BY_WORD ? b / 64 * 64 : 0; earlier < b; earlier++)
        if (counted[earlier] && same(c, earlier, b))
            return 1;
    return 0;
}

/* Whether at least n R C holds of a. */
static int at_least_holds(const struct call *c, table holds, const uint64_t *node, uint64_t a)
{
    int counted[ITEMS] = {0};
    uint64_t number = 0;
    for (uint64_t b = 0; b < c->items; b++) {
        int fits = linked(c, node[2], node[3], a, b) && (RULE_FAULT == COUNTS_ALL_LINKED || holds[node[4]][b])
            && !(RULE_FAULT == COUNTS_OF_FOUR_WORDS && b >= 256);
        counted[b] = fits && (RULE_FAULT == COUNTS_NAMES || !counted_before(c, counted, b));
        number += counted[b];
    }
    return RULE_FAULT == COUNTS_PAST_N ? number > node[1] : number >= node[1];
}

/* Whether a node holds of a, when it is known what the later nodes hold of. */
static int node_holds(const struct call *c, table holds, const uint64_t *node, uint64_t a)
{
    switch (node_kind(node)) {
    case NAME:
        if ((RULE_FAULT == CONCEPT_31_EMPTY && node[1] == 31) || (RULE_FAULT == FIRST_128_MEMBERS && a >= 128))
            return 0;
        return c->w[in_at(c) + a] >> node[1] % 64 & 1;
    case NOT: return !holds[node[1]][a];
    case AND:
        if (RULE_FAULT == AND_IS_OR)
            return holds[node[1]][a] || holds[node[2]][a];
        return holds[node[1]][a] && holds[node[2]][a];
    case AT_LEAST: return at_least_holds(c, holds, node, a);
    case SELF: return !(RULE_FAULT == SELF_INVERSE_WRONG && node[2] != 0) && linked(c, node[1], node[2], a, a);
    case ONE: return RULE_FAULT == ONE_ONLY_ITSELF ? node[1] == a : same(c, node[1], a);
    default: return 1;
    }
}

/* Works out what all nodes hold of, the last node first. */
static void fill_table(const struct call *c, table holds)
{
    for (uint64_t left = node_count(c->rule); left > 0; left--)
        for (uint64_t a = 0; a < c->items; a++)
            holds[left - 1][a] = node_holds(c, holds, node_at(c->rule, left - 1), a);
}

/* --- What breaks a rule --- */

/* Notes a finding. */
static void found(struct list *list, uint64_t first, uint64_t second)
{
    size_t at = 2 * (size_t)list->total++;
    if (RULE_FAULT == LIST_OF_SMALL_STORE && at >= 2 * SALTREEVE_ITEMS * SALTREEVE_ITEMS)
        return;
    if (RULE_FAULT == FIRST_OF_BYTES)
        first &= 0xFF;
    if (RULE_FAULT == SECOND_OF_BYTES && second != SALTREEVE_NO_ITEM)
        second &= 0xFF;
    if (RULE_FAULT == NONE_IS_0 && second == SALTREEVE_NO_ITEM)
        second = 0;
    if (at + 1 < list->length || (RULE_FAULT == WRITES_HALF_A_RECORD && at < list->length))
        list->out[at] = first;
    if (at + 1 < list->length)
        list->out[at + 1] = second;
}

/* How many last steps of a chain's path lead from x to each item. */
static void path_ends(const struct call *c, uint64_t x, int ends[ITEMS])
{
    uint64_t length = chain_length(c->rule) - (RULE_FAULT == CHAIN_ONE_SHORT);
    for (uint64_t b = 0; b < c->items; b++)
        ends[b] = b == x;
    for (uint64_t i = 0; i < length; i++) {
        int further[ITEMS] = {0};
        uint64_t inverse = RULE_FAULT == CHAIN_FOURTH_FORWARDS && i == 3 ? 0 : c->rule[3 + 2 * i];
        for (uint64_t b = 0; b < c->items; b++)
            for (uint64_t y = 0; ends[b] && y < c->items; y++)
                further[y] += linked(c, c->rule[2 + 2 * i], inverse, b, y);
        for (uint64_t y = 0; y < c->items; y++)
            ends[y] = further[y];
    }
}

/* How often a pair breaks a rule about pairs; `ends` is for a chain. */
static int pair_breaks(const struct call *c, const int *ends, uint64_t x, uint64_t y)
{
    const uint64_t *r = c->rule;
    uint64_t inverse = RULE_FAULT == SECOND_ROLE_FORWARDS ? 0 : r[4];
    if (rule_kind(r) == RSUB)
        return linked(c, r[1], r[2], x, y) && !linked(c, r[3], inverse, x, y);
    if (rule_kind(r) == DIS)
        return linked(c, r[1], r[2], x, y) && linked(c, r[3], inverse, x, y);
    if (linked(c, r[10], RULE_FAULT == CHAIN_LAST_FORWARDS ? 0 : r[11], x, y))
        return 0;
    return RULE_FAULT == CHAIN_END_TWICE && ends[y] > 1 ? 2 : ends[y] > 0;
}

/* Finds the pairs that break a rule. */
static void find_pairs(const struct call *c, struct list *list)
{
    int ends[ITEMS] = {0};
    for (uint64_t x = 0; x < c->items; x++) {
        if (rule_kind(c->rule) == CHAIN)
            path_ends(c, x, ends);
        for (uint64_t y = RULE_FAULT == PAIRS_ONCE ? x : 0; y < c->items; y++)
            for (int times = pair_breaks(c, ends, x, y); times > 0; times--)
                found(list, x, y);
    }
}

/* Finds the pairs in the wrong order. */
static void find_pairs_by_second(const struct call *c, struct list *list)
{
    int ends[ITEMS] = {0};
    for (uint64_t y = 0; y < c->items; y++)
        for (uint64_t x = 0; x < c->items; x++) {
            if (rule_kind(c->rule) == CHAIN)
                path_ends(c, x, ends);
            if (pair_breaks(c, ends, x, y))
                found(list, x, y);
        }
}

/* Whether an item breaks a rule about items. */
static int item_breaks(const struct call *c, table holds, uint64_t x)
{
    const uint64_t *r = c->rule;
    if (RULE_FAULT == ITEMS_TO_384 && x >= 384)
        return 0;
    if (rule_kind(r) == SUB)
        return holds[r[1]][x] && !holds[r[2]][x];
    return linked(c, r[1], r[2], x, x) == (rule_kind(r) == IRR);
}

/* Whether some lower item is the same. */
static int is_other_name(const struct call *c, uint64_t x)
{
    for (uint64_t lower = 0; lower < x; lower++)
        if (same(c, lower, x))
            return 1;
    return 0;
}

/* Finds the items that break a rule. */
static void find_items(const struct call *c, table holds, struct list *list)
{
    for (uint64_t x = 0; x < c->items; x++)
        if (item_breaks(c, holds, x) && !(RULE_FAULT == LOWEST_NAMES_ONLY && is_other_name(c, x)))
            found(list, x, SALTREEVE_NO_ITEM);
}

/* Finds the pair of items that a rule about a role names. */
static void find_linked_pair(const struct call *c, struct list *list)
{
    const uint64_t *r = c->rule;
    int turned = RULE_FAULT == INVERSE_PAIR_TURNED && r[2] != 0;
    if (linked(c, r[1], r[2], r[3], r[4]) == (rule_kind(r) == NOREL))
        found(list, turned ? r[4] : r[3], turned ? r[3] : r[4]);
}

/* Finds all that breaks a rule. */
static void find(const struct call *c, table holds, struct list *list)
{
    const uint64_t *r = c->rule;
    switch (rule_kind(r)) {
    case SUB: case REF: case IRR:
        find_items(c, holds, list);
        break;
    case RSUB: case CHAIN: case DIS:
        (RULE_FAULT == SECOND_BEFORE_FIRST ? find_pairs_by_second : find_pairs)(c, list);
        break;
    case IN:
        if (!holds[r[1]][r[2] % most(c)])
            found(list, r[2], SALTREEVE_NO_ITEM);
        break;
    case REL: case NOREL:
        find_linked_pair(c, list);
        break;
    default:
        if (same(c, r[1], r[2]) == (rule_kind(r) == DIFFER))
            found(list, r[1], r[2]);
    }
}

/* --- The call --- */

/* The refusal that the store and its counts call for, or 0: asked by a statement that is never taken. */
static int64_t store_refusal(const struct call *c, size_t length)
{
    uint64_t items = c->items;
    if (RULE_FAULT == LARGE_REFUSED && length == SALTREEVE_LARGE_WORDS)
        return REFUSED_SIZE;
    if ((RULE_FAULT == COUNT_129_UNASKED && length == SALTREEVE_WORDS && items == 129)
        || (RULE_FAULT == COUNT_513_UNASKED && length == SALTREEVE_LARGE_WORDS && items == 513))
        items--;
    int64_t refusal = saltreeve_add_under((uint64_t *)c->w, length, items, c->concepts, c->roles, c->concepts, 0);
    if (refusal == REFUSED_NUMBER || (RULE_FAULT == STORE_UNASKED && refusal == REFUSED_NOT_CLOSED))
        return 0;
    return refusal;
}

/* The refusal that applies, or 0; `whole` says whether the rule has its length. */
static int64_t refusal(const struct call *c, size_t length, int whole)
{
    if (!whole && RULE_FAULT == LENGTH_BEFORE_STORE)
        return REFUSED_MALFORMED;
    int64_t refused = store_refusal(c, length);
    int early = (RULE_FAULT == SHAPE_BEFORE_CLOSED && refused == REFUSED_NOT_CLOSED)
        || (RULE_FAULT == RULE_BEFORE_SIZE && refused == REFUSED_SIZE);
    if (refused != 0 && !(early && whole && malformed(c->rule)))
        return refused;
    if (!whole)
        return RULE_FAULT == LENGTH_AS_SIZE ? REFUSED_SIZE : REFUSED_MALFORMED;
    if (RULE_FAULT == NUMBERS_BEFORE_SHAPE && !declared(c))
        return REFUSED_NUMBER;
    if (malformed(c->rule))
        return REFUSED_MALFORMED;
    return declared(c) ? 0 : REFUSED_NUMBER;
}

/* Passes over the second finding of a list. */
static void skip_one(struct list *list)
{
    for (size_t at = 2; at + 3 < list->length && at + 2 < 2 * (size_t)list->total; at++)
        list->out[at] = list->out[at + 2];
    list->total -= list->total > 1;
}

/* What else some faults do. */
static void spoil(const struct call *c, const struct list *list)
{
    if (RULE_FAULT == STOPS_THE_PROGRAM && rule_kind(c->rule) == CHAIN)
        abort();
    if (RULE_FAULT == ENDS_THE_PROGRAM && rule_kind(c->rule) == CHAIN)
        exit(0);
    size_t end = 2 * (size_t)list->total;
    if (RULE_FAULT == WRITES_PAST_THE_TOTAL && end + 1 < list->length)
        list->out[end] = list->out[end + 1] = 0;
    if (RULE_FAULT == WRITES_PAST_THE_LIST)
        list->out[list->length] = 0;
    if (RULE_FAULT == CHANGES_THE_STORE)
        ((uint64_t *)c->w)[in_at(c) + most(c) + 16 * most(c) * c->row - 1] ^= 1;
    if (RULE_FAULT == CHANGES_THE_RULE)
        ((uint64_t *)c->rule)[SALTREEVE_RULE_WORDS - 1] ^= 1;
}

/* Finds what breaks a rule. */
int64_t saltreeve_findings(const uint64_t *words, size_t length,
                           uint64_t items, uint64_t concepts, uint64_t roles,
                           const uint64_t *rule, size_t rule_length,
                           uint64_t *out, size_t out_length)
{
    static table holds;
    uint64_t padded[SALTREEVE_RULE_WORDS];
    int taken = (RULE_FAULT == LONG_RULE_TAKEN && rule_length > SALTREEVE_RULE_WORDS)
        || (RULE_FAULT == SHORT_RULE_TAKEN && rule_length < SALTREEVE_RULE_WORDS);
    int large = length == SALTREEVE_LARGE_WORDS && RULE_FAULT != LARGE_READ_AS_SMALL
        && !(RULE_FAULT == ROW_BY_ITEMS && items <= SALTREEVE_ITEMS);
    struct call c = {words, items, concepts, roles, taken ? padded_rule(rule, rule_length, padded) : rule,
                     large ? LARGE_ROW : SMALL_ROW};
    struct list list = {out, out_length, 0};
    int64_t refused = refusal(&c, length, taken || rule_length == SALTREEVE_RULE_WORDS);
    if (refused != 0) {
        if (RULE_FAULT == REFUSAL_WRITES && out_length > 0)
            out[0] = 0;
        return refused;
    }
    c.items -= c.items == 129 && !large;  /* only by a fault; the last item is then passed over */
    c.items -= c.items > ITEMS;
    fill_table(&c, holds);
    if (RULE_FAULT != ALWAYS_0)
        find(&c, holds, &list);
    if (RULE_FAULT == SKIPS_ONE)
        skip_one(&list);
    spoil(&c, &list);
    if (RULE_FAULT == TOTAL_OF_THE_LISTED && 2 * (size_t)list.total > out_length)
        return (int64_t)(out_length / 2);
    if (RULE_FAULT == TOTAL_OF_16_BITS)
        return list.total & 0xFFFF;
    return RULE_FAULT == TOTAL_ONE_MORE ? list.total + 1 : list.total;
}
