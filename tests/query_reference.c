/*
 * A plain stand-in for compiled queries, to try the tests on.
 *
 * It has the same face as the library. It proves nothing. The self-test also
 * runs it with one fault planted, one of those listed below or in
 * tests/rule_shape.h, and asks that the tests find it.
 */
#include "rule_shape.h"
#include "saltreeve.h"

#include <stdlib.h>

enum fault {
    NO_FAULT,
    ALWAYS_EMPTY,              /* every query is given as one without items */
    ALWAYS_TOO_LONG,           /* every query is refused with 5 */
    LENGTH_ONE_MORE,           /* the length is given as one more than it is */
    LENGTH_IN_WORDS,           /* the length is given four times too long */
    ITEMS_513_TAKEN,           /* 513 items are taken */
    ITEMS_512_REFUSED,         /* 512 items are refused */
    LENGTH_OF_16_BITS,         /* the high bits of a length are lost */
    LENGTH_OF_32_BITS,         /* the high bits of a length are lost */
    LENGTH_OF_64_BITS,         /* the high bits of a length are lost */
    SIDES_JUDGED_APART,        /* 512 items are allowed to each side of a sub */
    PAIRS_NOT_COUNTED,         /* the length leaves out the equalities */
    LENGTH_UNASKED,            /* a long query is written as far as there is room for */
    ROOM_UNASKED,              /* a query is written as far as there is room for */
    ROOM_IN_ITEMS,             /* a room of as many words as there are items is enough */
    ROOM_ONE_SHORT_TAKEN,      /* a room of one word too few is taken */
    ROOM_EXACT_REFUSED,        /* a room of exactly enough words is refused */
    ROOM_OF_512_ASKED,         /* the room must be enough for any query */
    ROOM_BEFORE_LENGTH,        /* 6 is given where 5 is due */
    ROOM_BEFORE_NUMBERS,       /* 6 is given where 4 is due */
    LENGTH_BEFORE_NUMBERS,     /* 5 is given where 4 is due */
    NUMBERS_BEFORE_SHAPE,      /* 4 is given where 3 is due */
    SHAPE_BEFORE_COUNTS,       /* 3 is given where 1 is due */
    COUNTS_UNASKED,            /* counts over their limits are taken */
    COUNT_513_TAKEN,           /* a count of 513 items is taken */
    COUNT_129_REFUSED,         /* a count of 129 items is refused */
    COUNT_512_REFUSED,         /* a count of 512 items is refused */
    TERMS_OF_128,              /* the term of an item is cut to that of one of 128 */
    TERMS_OF_256,              /* the term of an item is cut to that of one of 256 */
    CONCEPTS_32_REFUSED,       /* 32 concepts are refused */
    LONG_RULE_TAKEN,           /* a rule of more than 173 words is taken */
    SHORT_RULE_TAKEN,          /* a rule of less than 173 words is read as if zeros followed */
    LENGTH_BEFORE_COUNTS,      /* 3 is given for a rule's length where 1 is due */
    LENGTH_AS_SIZE,            /* a rule of another length is refused by 1 */
    WRITES_BEFORE_5,           /* a query that is too long is written before it is refused */
    WRITES_BEFORE_6,           /* a query is written as far as it fits before it is refused */
    REFUSAL_CLEARS,            /* a refusal clears the first word */
    WRITES_PAST_THE_QUERY,     /* a word after the query is written */
    CLEARS_THE_REST,           /* the rest of the room is cleared */
    WRITES_PAST_THE_ROOM,      /* a word after the room is written */
    LAST_WORD_MISSING,         /* the query's last word is not written */
    LAST_ITEM_MISSING,         /* the query's last item is not written */
    CHANGES_THE_RULE,          /* the rule's last word is changed */
    ANSWERS_ONLY_IF_MET,       /* x is no answer variable where no atom has it */
    ANSWERS_OF_IN_1,           /* in has an answer variable */
    ANSWERS_OF_CHAIN_ALL,      /* all variables of a chain are answer variables */
    ANSWERS_OF_PAIRS_1,        /* rules about pairs have one answer variable */
    VARIABLES_FROM_0,          /* a sub's further variables begin with 0 */
    VARIABLES_FROM_2,          /* a sub's further variables begin with 2 */
    NAMED_VARIABLES_FROM_1,    /* variables of rules without x begin with 1 */
    RIGHT_SIDE_STARTS_AGAIN,   /* the right side of a sub takes the left side's variables */
    LEVELS_TAKE_THE_SAME,      /* a not gives its variables back when it ends */
    ALL_VARIABLES_FIRST,       /* at least takes all its variables before it writes */
    ONE_VARIABLE,              /* at least takes one variable for all */
    CHAIN_ENDS_LAST,           /* y is a chain's last variable, not 1 */
    CHAIN_FROM_1,              /* a chain's further variables begin with 1 */
    EQUALITY_LEFT_OUT,         /* the last equality is left out */
    EQUALITIES_OF_NEIGHBOURS,  /* only neighbours are compared */
    EQUALITIES_BY_SECOND,      /* equalities go (1,2), (1,3), (2,3) by the second */
    EQUALITIES_AT_ONCE,        /* each variable is compared as soon as it is there */
    EQUALITY_TURNED,           /* an equality has the later variable first */
    EQUALITY_WITHOUT_NOT,      /* the items found are asked to be the same */
    INVERSE_NOT_SWAPPED,       /* an inverse in at least is read like the role itself */
    INVERSE_HEAD_NOT_SWAPPED,  /* an inverse in a rule's head is read like the role itself */
    INVERSE_ONLY_1,            /* of the numbers for an inverse only 1 is known */
    INVERSE_NAMED_NOT_SWAPPED, /* an inverse between named items is read like the role itself */
    INVERSE_LAST_NOT_SWAPPED,  /* a chain's last role is never an inverse */
    INVERSE_BY_NUMBER,         /* an inverse is written as another role number */
    NOT_NOT_LEFT_OUT,          /* two nots in a row are left out */
    VARIABLE_ESCAPES,          /* the role atom of a some inside a not stands before the not */
    NOT_CLOSES_EARLY,          /* a not ends after its first item */
    NOT_NUMBERED,              /* nots are numbered */
    CLOSE_IS_OPEN,             /* a not is closed with the kind that opens it */
    TOP_IS_WRITTEN,            /* top is written as x = x */
    ONE_TURNED,                /* one a is a = x */
    ONE_AS_CONCEPT,            /* one a is written with the kind of a concept */
    ITEMS_AS_VARIABLES,        /* an item's term is its number */
    ITEM_TERMS_FROM_4097,      /* item a's term is 4097 + a */
    ITEM_TERMS_BY_OR_64,       /* items from 64 on have the wrong term */
    CONCEPT_WITH_SECOND,       /* a concept atom has its term twice */
    EQUALITY_NAMED,            /* an equality has a name number that is not 0 */
    NAMES_FROM_1,              /* name numbers begin with 1 */
    AND_TURNED,                /* C and D is written D, C */
    SUB_TURNED,                /* sub C D is read as sub D C */
    IN_WITHOUT_NOT,            /* in asks that C holds */
    REF_IS_IRR,                /* ref is read as irr */
    SAME_IS_DIFFER,            /* same is read as differ */
    DIS_IS_RSUB,               /* dis is read as rsub */
    STOPS_THE_PROGRAM,         /* the first chain stops the program */
    ENDS_THE_PROGRAM           /* the first chain ends the program as if all were well */
};

PLANTED(QUERY_FAULT, NO_FAULT)

enum {
    REFUSED_COUNTS = -1, REFUSED_MALFORMED = -3, REFUSED_NUMBER = -4, REFUSED_TOO_LONG = -5, REFUSED_ROOM = -6
};
enum {
    CONCEPT_ATOM = SALTREEVE_QUERY_CONCEPT, ROLE_ATOM = SALTREEVE_QUERY_ROLE, EQUALITY = SALTREEVE_QUERY_EQUALITY,
    OPEN_NOT = SALTREEVE_QUERY_OPEN, CLOSE_NOT = SALTREEVE_QUERY_CLOSE
};
enum { ITEM_WORDS = 4, MOST_ITEMS = SALTREEVE_QUERY_WORDS / ITEM_WORDS, FIRST_ITEM = SALTREEVE_QUERY_ITEM };

/* Where a query is written: the room, how many items there were so far, and the next free variable. */
struct writer {
    const uint64_t *rule;
    uint16_t *room;
    size_t room_length, items;
    uint64_t free;
    uint64_t nots;  /* opened so far */
};

/* --- Writing items --- */

/* Writes an item as far as there is room. */
static void item(struct writer *w, uint64_t kind, uint64_t name, uint64_t first, uint64_t second)
{
    uint64_t words[ITEM_WORDS] = {kind, name, first, second};
    for (size_t i = 0; i < ITEM_WORDS; i++)
        if (w->items * ITEM_WORDS + i < w->room_length)
            w->room[w->items * ITEM_WORDS + i] = (uint16_t)words[i];
    w->items++;
}

/* The term of an item. */
static uint64_t item_term(uint64_t a)
{
    if (QUERY_FAULT == ITEMS_AS_VARIABLES)
        return a;
    if (QUERY_FAULT == ITEM_TERMS_FROM_4097)
        return FIRST_ITEM + 1 + a;
    if (QUERY_FAULT == TERMS_OF_128 || QUERY_FAULT == TERMS_OF_256)
        return FIRST_ITEM + a % (QUERY_FAULT == TERMS_OF_128 ? 128 : 256);
    return FIRST_ITEM + (QUERY_FAULT == ITEM_TERMS_BY_OR_64 ? a % 64 : a);
}

/* Writes a concept atom. */
static void concept(struct writer *w, uint64_t name, uint64_t term)
{
    item(w, CONCEPT_ATOM, name + (QUERY_FAULT == NAMES_FROM_1), term, QUERY_FAULT == CONCEPT_WITH_SECOND ? term : 0);
}

/* Whether a role's word means its inverse; `fault` is one that forgets it at this place. */
static int turned(uint64_t inverse, int fault)
{
    if (QUERY_FAULT == fault)
        return 0;
    return QUERY_FAULT == INVERSE_ONLY_1 ? inverse == 1 : inverse != 0;
}

/* Writes a role atom. */
static void role(struct writer *w, uint64_t number, int inverse, uint64_t first, uint64_t second)
{
    if (QUERY_FAULT == INVERSE_BY_NUMBER && inverse)
        item(w, ROLE_ATOM, number + SALTREEVE_ROLES, first, second);
    else
        item(w, ROLE_ATOM, number + (QUERY_FAULT == NAMES_FROM_1), inverse ? second : first, inverse ? first : second);
}

/* Writes a role atom of a rule's head, whose words begin at word `at`. */
static void head_role(struct writer *w, size_t at, uint64_t first, uint64_t second)
{
    role(w, w->rule[at], turned(w->rule[at + 1], INVERSE_HEAD_NOT_SWAPPED), first, second);
}

/* Writes an equality. */
static void equality(struct writer *w, uint64_t first, uint64_t second)
{
    item(w, EQUALITY, QUERY_FAULT == EQUALITY_NAMED, first, second);
}

/* Opens a not. */
static void open_not(struct writer *w)
{
    w->nots++;
    item(w, OPEN_NOT, QUERY_FAULT == NOT_NUMBERED ? w->nots : 0, 0, 0);
}

/* Closes a not. */
static void close_not(struct writer *w)
{
    item(w, QUERY_FAULT == CLOSE_IS_OPEN ? OPEN_NOT : CLOSE_NOT, 0, 0, 0);
}

/* --- Expressions --- */

static void expression(struct writer *w, uint64_t n, uint64_t term);

/* Writes that two found items are different. */
static void different(struct writer *w, uint64_t first, uint64_t second)
{
    if (QUERY_FAULT != EQUALITY_WITHOUT_NOT)
        open_not(w);
    equality(w, QUERY_FAULT == EQUALITY_TURNED ? second : first, QUERY_FAULT == EQUALITY_TURNED ? first : second);
    if (QUERY_FAULT != EQUALITY_WITHOUT_NOT)
        close_not(w);
}

/* Writes that all found items are different. */
static void all_different(struct writer *w, const uint64_t *found, uint64_t n)
{
    int by_second = QUERY_FAULT == EQUALITIES_BY_SECOND;
    for (uint64_t a = 0; a < n; a++)
        for (uint64_t b = by_second ? 0 : a + 1; b < (by_second ? a : n); b++) {
            uint64_t i = by_second ? b : a, j = by_second ? a : b;
            if (QUERY_FAULT == EQUALITY_LEFT_OUT && i + 2 == n)
                continue;
            if (QUERY_FAULT == EQUALITIES_OF_NEIGHBOURS && j != i + 1)
                continue;
            different(w, found[i], found[j]);
        }
}

/* Takes a variable for the i-th item to be found. */
static uint64_t take_variable(struct writer *w, const uint64_t *found, uint64_t i)
{
    if (QUERY_FAULT == ALL_VARIABLES_FIRST)
        return found[i];
    return QUERY_FAULT == ONE_VARIABLE && i > 0 ? found[0] : w->free++;
}

/* Writes at least n R C of a term. */
static void at_least(struct writer *w, const uint64_t *node, uint64_t term)
{
    uint64_t n = node[1] < 16 ? node[1] : 16, found[16] = {0};
    for (uint64_t i = 0; QUERY_FAULT == ALL_VARIABLES_FIRST && i < n; i++)
        found[i] = w->free++;
    for (uint64_t i = 0; i < n; i++) {
        found[i] = take_variable(w, found, i);
        role(w, node[2], turned(node[3], INVERSE_NOT_SWAPPED), term, found[i]);
        expression(w, node[4], found[i]);
        for (uint64_t j = 0; QUERY_FAULT == EQUALITIES_AT_ONCE && j < i; j++)
            different(w, found[j], found[i]);
    }
    if (QUERY_FAULT != EQUALITIES_AT_ONCE)
        all_different(w, found, n);
}

/* Writes not some R C so that its variable escapes. */
static void escaping(struct writer *w, const uint64_t *some, uint64_t term)
{
    uint64_t found = w->free++;
    role(w, some[2], turned(some[3], INVERSE_NOT_SWAPPED), term, found);
    open_not(w);
    expression(w, some[4], found);
    close_not(w);
}

/* Writes a not around a node. */
static void negated(struct writer *w, uint64_t n, uint64_t term)
{
    const uint64_t *node = node_at(w->rule, n);
    uint64_t free = w->free;
    if (QUERY_FAULT == VARIABLE_ESCAPES && node_kind(node) == AT_LEAST && node[1] == 1) {
        escaping(w, node, term);
        return;
    }
    if (QUERY_FAULT == NOT_NOT_LEFT_OUT && node_kind(node) == NOT) {
        expression(w, node[1], term);
        return;
    }
    open_not(w);
    if (QUERY_FAULT == NOT_CLOSES_EARLY && node_kind(node) == AND) {
        expression(w, node[1], term);
        close_not(w);
        expression(w, node[2], term);
        return;
    }
    expression(w, n, term);
    close_not(w);
    if (QUERY_FAULT == LEVELS_TAKE_THE_SAME)
        w->free = free;
}

/* Writes one a of a term. */
static void one(struct writer *w, uint64_t term, uint64_t a)
{
    if (QUERY_FAULT == ONE_AS_CONCEPT)
        item(w, CONCEPT_ATOM, a, term, 0);
    else if (QUERY_FAULT == ONE_TURNED)
        equality(w, item_term(a), term);
    else
        equality(w, term, item_term(a));
}

/* Writes the expression of a node, of a term; a query that is far too long is not written to its end. */
static void expression(struct writer *w, uint64_t n, uint64_t term)
{
    const uint64_t *node = node_at(w->rule, n);
    int swapped = QUERY_FAULT == AND_TURNED;
    if (w->items > 2 * MOST_ITEMS)
        return;
    switch (node_kind(node)) {
    case NAME:
        concept(w, node[1], term);
        break;
    case NOT:
        negated(w, node[1], term);
        break;
    case AND:
        expression(w, node[swapped ? 2 : 1], term);
        expression(w, node[swapped ? 1 : 2], term);
        break;
    case AT_LEAST:
        at_least(w, node, term);
        break;
    case SELF:
        role(w, node[1], node[2] != 0, term, term);
        break;
    case ONE:
        one(w, term, node[1]);
        break;
    default:
        if (QUERY_FAULT == TOP_IS_WRITTEN)
            equality(w, term, term);
    }
}

/* --- Rules --- */

/* Writes the query of sub. */
static void write_sub(struct writer *w)
{
    int swapped = QUERY_FAULT == SUB_TURNED;
    expression(w, w->rule[swapped ? 2 : 1], 0);
    if (QUERY_FAULT == RIGHT_SIDE_STARTS_AGAIN)
        w->free = 1;
    negated(w, w->rule[swapped ? 1 : 2], 0);
}

/* Writes the query of chain. */
static void write_chain(struct writer *w)
{
    uint64_t k = chain_length(w->rule), before = 0;
    uint64_t y = QUERY_FAULT == CHAIN_ENDS_LAST ? k : 1;
    w->free = QUERY_FAULT == CHAIN_ENDS_LAST || QUERY_FAULT == CHAIN_FROM_1 ? 1 : 2;
    for (uint64_t i = 0; i < k; i++) {
        uint64_t next = i + 1 < k ? w->free++ : y;
        head_role(w, 2 + 2 * i, before, next);
        before = next;
    }
    open_not(w);
    role(w, w->rule[10], turned(w->rule[11], INVERSE_LAST_NOT_SWAPPED), 0, y);
    close_not(w);
}

/* Writes the query of rsub or dis. */
static void write_pairs(struct writer *w, int inside_not)
{
    head_role(w, 1, 0, 1);
    if (inside_not)
        open_not(w);
    head_role(w, 3, 0, 1);
    if (inside_not)
        close_not(w);
}

/* Writes the atom of a rule about two named items. */
static void named_atom(struct writer *w, uint64_t kind)
{
    const uint64_t *r = w->rule;
    if (kind == REL || kind == NOREL)
        role(w, r[1], turned(r[2], INVERSE_NAMED_NOT_SWAPPED), item_term(r[3]), item_term(r[4]));
    else
        equality(w, item_term(r[1]), item_term(r[2]));
}

/* Writes the query of a rule about one role or two named items. */
static void write_atom(struct writer *w, uint64_t kind)
{
    int inside_not = kind == REF || kind == REL || kind == SAME;
    if ((QUERY_FAULT == REF_IS_IRR && kind == REF) || (QUERY_FAULT == SAME_IS_DIFFER && kind == SAME))
        inside_not = 0;
    if (inside_not)
        open_not(w);
    if (kind == REF || kind == IRR)
        head_role(w, 1, 0, 0);
    else
        named_atom(w, kind);
    if (inside_not)
        close_not(w);
}

/* How many answer variables a rule has. */
static uint64_t answers(const uint64_t *rule)
{
    switch (rule_kind(rule)) {
    case SUB:
        return !(QUERY_FAULT == ANSWERS_ONLY_IF_MET && node_kind(node_at(rule, rule[1])) == TOP
                 && node_kind(node_at(rule, rule[2])) == TOP);
    case REF: case IRR: return 1;
    case CHAIN: return QUERY_FAULT == ANSWERS_OF_CHAIN_ALL ? chain_length(rule) + 1 : 2;
    case RSUB: case DIS: return QUERY_FAULT == ANSWERS_OF_PAIRS_1 ? 1 : 2;
    case IN: return QUERY_FAULT == ANSWERS_OF_IN_1;
    default: return 0;
    }
}

/* The first variable of a rule that is no answer variable. */
static uint64_t first_free(const uint64_t *rule)
{
    if (rule_kind(rule) == SUB)
        return QUERY_FAULT == VARIABLES_FROM_0 ? 0 : QUERY_FAULT == VARIABLES_FROM_2 ? 2 : 1;
    return QUERY_FAULT == NAMED_VARIABLES_FROM_1;
}

/* Writes the query of a rule. */
static void write_query(struct writer *w)
{
    uint64_t kind = rule_kind(w->rule);
    w->free = first_free(w->rule);
    if (kind == SUB)
        write_sub(w);
    else if (kind == CHAIN)
        write_chain(w);
    else if (kind == RSUB || kind == DIS)
        write_pairs(w, kind == RSUB || QUERY_FAULT == DIS_IS_RSUB);
    else if (kind != IN)
        write_atom(w, kind);
    else if (QUERY_FAULT == IN_WITHOUT_NOT)
        expression(w, w->rule[1], item_term(w->rule[2]));
    else
        negated(w, w->rule[1], item_term(w->rule[2]));
}

/* --- Lengths --- */

/* A length as far as it is kept: all that is over 512 is one length, unless a fault cuts it. */
static uint64_t kept(uint64_t length)
{
    if (QUERY_FAULT == LENGTH_OF_16_BITS)
        return (uint16_t)length;
    if (QUERY_FAULT == LENGTH_OF_32_BITS)
        return (uint32_t)length;
    return length > MOST_ITEMS && QUERY_FAULT != LENGTH_OF_64_BITS ? MOST_ITEMS + 1 : length;
}

/* How many items the expression of a node takes. */
static uint64_t length_of(const uint64_t *rule, uint64_t n)
{
    const uint64_t *node = node_at(rule, n);
    uint64_t count = node[1];
    switch (node_kind(node)) {
    case TOP: return 0;
    case NOT: return kept(2 + length_of(rule, node[1]));
    case AND: return kept(length_of(rule, node[1]) + length_of(rule, node[2]));
    case AT_LEAST:
        return kept(count * (1 + length_of(rule, node[4]))
                    + (QUERY_FAULT == PAIRS_NOT_COUNTED ? 0 : 3 * count * (count - 1) / 2));
    default: return 1;
    }
}

/* How many items the query of a rule takes. */
static uint64_t query_length(const uint64_t *rule)
{
    uint64_t left = 0, right = 0;
    switch (rule_kind(rule)) {
    case SUB:
        left = length_of(rule, rule[1]), right = length_of(rule, rule[2]);
        if (QUERY_FAULT == SIDES_JUDGED_APART && left <= MOST_ITEMS && right <= MOST_ITEMS)
            return MOST_ITEMS;
        return kept(left + 2 + right);
    case CHAIN: return chain_length(rule) + 3;
    case RSUB: return 4;
    case DIS: return 2;
    case IN: return kept(2 + length_of(rule, rule[1]));
    case IRR: case NOREL: case DIFFER: return 1;
    default: return 3;
    }
}

/* --- The call --- */

/* Whether a count is over its limit. */
static int counts_over(const struct call *c)
{
    if (QUERY_FAULT == COUNTS_UNASKED)
        return 0;
    uint64_t most = QUERY_FAULT == COUNT_129_REFUSED ? SALTREEVE_ITEMS
        : SALTREEVE_LARGE_ITEMS + (QUERY_FAULT == COUNT_513_TAKEN) - (QUERY_FAULT == COUNT_512_REFUSED);
    return c->items > most || c->roles > SALTREEVE_ROLES
        || c->concepts > SALTREEVE_CONCEPTS - (QUERY_FAULT == CONCEPTS_32_REFUSED);
}

/* Whether a query of some length is too long. */
static int too_long(uint64_t length)
{
    if (QUERY_FAULT == LENGTH_UNASKED)
        return 0;
    uint64_t most = MOST_ITEMS;
    return length > most + (QUERY_FAULT == ITEMS_513_TAKEN) - (QUERY_FAULT == ITEMS_512_REFUSED);
}

/* Whether a room is too small for a query of some length. */
static int too_small(size_t room, uint64_t length)
{
    if (QUERY_FAULT == ROOM_UNASKED)
        return 0;
    if (QUERY_FAULT == ROOM_IN_ITEMS)
        return room < length;
    if (QUERY_FAULT == ROOM_OF_512_ASKED)
        return room < ITEM_WORDS * MOST_ITEMS;
    return room + (QUERY_FAULT == ROOM_ONE_SHORT_TAKEN) < ITEM_WORDS * length + (QUERY_FAULT == ROOM_EXACT_REFUSED);
}

/* The refusal of a rule, or 0; `whole` says whether it has its length. */
static int64_t refusal(const struct call *c, int whole, size_t room)
{
    if (QUERY_FAULT == LENGTH_BEFORE_COUNTS && !whole)
        return REFUSED_MALFORMED;
    if (QUERY_FAULT == SHAPE_BEFORE_COUNTS && whole && malformed(c->rule))
        return REFUSED_MALFORMED;
    if (counts_over(c))
        return REFUSED_COUNTS;
    if (!whole)
        return QUERY_FAULT == LENGTH_AS_SIZE ? REFUSED_COUNTS : REFUSED_MALFORMED;
    if (QUERY_FAULT == NUMBERS_BEFORE_SHAPE && !declared(c))
        return REFUSED_NUMBER;
    if (malformed(c->rule))
        return REFUSED_MALFORMED;
    uint64_t length = query_length(c->rule);
    if (QUERY_FAULT == LENGTH_BEFORE_NUMBERS && too_long(length))
        return REFUSED_TOO_LONG;
    if (QUERY_FAULT == ROOM_BEFORE_NUMBERS && !too_long(length) && too_small(room, length))
        return REFUSED_ROOM;
    if (!declared(c))
        return REFUSED_NUMBER;
    if (QUERY_FAULT == ROOM_BEFORE_LENGTH && too_small(room, length))
        return REFUSED_ROOM;
    if (QUERY_FAULT == ALWAYS_TOO_LONG || too_long(length))
        return REFUSED_TOO_LONG;
    return too_small(room, length) ? REFUSED_ROOM : 0;
}

/* What some faults write before a refusal. */
static void spoil_refusal(struct writer *w, int64_t refused)
{
    if (QUERY_FAULT == REFUSAL_CLEARS && w->room_length > 0)
        w->room[0] = 0;
    if (QUERY_FAULT == WRITES_BEFORE_6 && refused == REFUSED_ROOM)
        write_query(w);
    if (QUERY_FAULT == WRITES_BEFORE_5 && refused == REFUSED_TOO_LONG && w->room_length > 0)
        w->room[0] = CONCEPT_ATOM;
}

/* What else some faults do. */
static void spoil(struct writer *w)
{
    size_t end = w->items * ITEM_WORDS;
    if (QUERY_FAULT == STOPS_THE_PROGRAM && rule_kind(w->rule) == CHAIN)
        abort();
    if (QUERY_FAULT == ENDS_THE_PROGRAM && rule_kind(w->rule) == CHAIN)
        exit(0);
    if (QUERY_FAULT == WRITES_PAST_THE_QUERY && end < w->room_length)
        w->room[end] = 0;
    for (size_t i = end; QUERY_FAULT == CLEARS_THE_REST && i < w->room_length; i++)
        w->room[i] = 0;
    if (QUERY_FAULT == WRITES_PAST_THE_ROOM)
        w->room[w->room_length] = 0;
    if (QUERY_FAULT == CHANGES_THE_RULE)
        ((uint64_t *)w->rule)[SALTREEVE_RULE_WORDS - 1] ^= 1;
}

/* The room that a query is written to, as some faults see it. */
static size_t seen_room(const uint64_t *rule, size_t room_length)
{
    size_t end = ITEM_WORDS * query_length(rule);
    if (QUERY_FAULT == LAST_WORD_MISSING && end <= room_length)
        return end - 1;
    return QUERY_FAULT == LAST_ITEM_MISSING && end <= room_length ? end - ITEM_WORDS : room_length;
}

/* Compiles a rule to a query. */
int64_t saltreeve_compile(uint64_t items, uint64_t concepts, uint64_t roles,
                          const uint64_t *given, size_t rule_length,
                          uint16_t *room, size_t room_length)
{
    uint64_t padded[SALTREEVE_RULE_WORDS];
    int taken = (QUERY_FAULT == LONG_RULE_TAKEN && rule_length > SALTREEVE_RULE_WORDS)
        || (QUERY_FAULT == SHORT_RULE_TAKEN && rule_length < SALTREEVE_RULE_WORDS);
    const uint64_t *rule = taken ? padded_rule(given, rule_length, padded) : given;
    struct call c = {NULL, items, concepts, roles, rule, 0};
    struct writer w = {rule, room, room_length, 0, 0, 0};
    int64_t refused = refusal(&c, taken || rule_length == SALTREEVE_RULE_WORDS, room_length);
    if (refused != 0) {
        spoil_refusal(&w, refused);
        return refused;
    }
    w.room_length = seen_room(rule, room_length);
    write_query(&w);
    w.room_length = room_length;
    spoil(&w);
    if (QUERY_FAULT == ALWAYS_EMPTY)
        return (int64_t)answers(rule);
    if (QUERY_FAULT == LENGTH_IN_WORDS)
        return (int64_t)(ITEM_WORDS * ITEM_WORDS * w.items + answers(rule));
    return (int64_t)(ITEM_WORDS * (w.items + (QUERY_FAULT == LENGTH_ONE_MORE)) + answers(rule));
}
