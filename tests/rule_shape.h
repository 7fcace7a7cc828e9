/*
 * How the stand-ins read the words of a rule and judge its form: refusals 3 and 4.
 *
 * The self-tests also run them with one fault planted here, one of those listed below, and
 * ask that the tests find it.
 */
#ifndef RULE_SHAPE_H
#define RULE_SHAPE_H

#include "planted.h"
#include "saltreeve.h"

enum shape_fault {
    NO_SHAPE_FAULT,
    KINDS_OF_32_BITS,         /* the high half of a kind is lost */
    UNKNOWN_RULE_TAKEN,       /* an unknown kind of rule is read as differ */
    UNKNOWN_NODE_TAKEN,       /* an unknown kind of node is read as top */
    UNKNOWN_LAST_NODE_TAKEN,  /* the kind of the last node that counts is not asked */
    UNUSED_KINDS_ASKED,       /* the kinds of nodes past their number are asked */
    NODES_33_TAKEN,           /* 33 nodes are taken */
    NODES_OF_32_BITS,         /* the high half of the number of nodes is lost */
    LIMIT_ONE_LESS,           /* 32 nodes are refused */
    COUNT_0_TAKEN,            /* a count of 0 is taken */
    COUNT_9_TAKEN,            /* a count over 8 is taken */
    COUNT_8_REFUSED,          /* a count of 8 is refused */
    CHAIN_1_TAKEN,            /* a chain of less than 2 is taken */
    CHAIN_5_TAKEN,            /* a chain of more than 4 is taken as one of 4 */
    USE_OF_NOTHING_TAKEN,     /* a use of one of the 32 nodes that is not there is taken */
    NODE_USED_TWICE_TAKEN,    /* two uses, both in order, are taken */
    LATER_USES_PASSED,        /* uses by later nodes and by itself do not count */
    LATER_USER_TAKEN,         /* a node's one user may be a later one */
    NODE_USED_BY_ITSELF,      /* a node's one user may be itself */
    UNUSED_NODE_TAKEN,        /* a node may be unused */
    SAME_ROOTS_TAKEN,         /* both roots may be the same */
    ROOT_AS_CHILD_TAKEN,      /* a root may also be used by an earlier node */
    NODES_FOR_NOTHING_TAKEN,  /* a rule without expressions may have nodes */
    UNUSED_SLOTS_ASKED,       /* 4 is asked of a chain's roles past its length */
    UNUSED_NODES_ASKED,       /* 4 is asked of nodes past their number */
    LAST_ROLE_UNASKED,        /* 4 is not asked of a chain's last role */
    NODE_NUMBERS_UNASKED,     /* 4 is not asked of nodes */
    SECOND_ITEM_UNASKED,      /* 4 is not asked of the second item */
    NUMBERS_OF_32_BITS,       /* 4 is asked of the low half of a number */
    ALWAYS_MALFORMED          /* every rule is refused with 3 */
};

PLANTED(SHAPE_FAULT, NO_SHAPE_FAULT)

enum { NODES = SALTREEVE_NODES };
enum {
    SUB = SALTREEVE_SUB, RSUB = SALTREEVE_RSUB, CHAIN = SALTREEVE_CHAIN, REF = SALTREEVE_REF, IRR = SALTREEVE_IRR,
    DIS = SALTREEVE_DIS, IN = SALTREEVE_IN, REL = SALTREEVE_REL, NOREL = SALTREEVE_NOREL, SAME = SALTREEVE_SAME,
    DIFFER = SALTREEVE_DIFFER
};
enum {
    NAME = SALTREEVE_NODE_NAME, TOP = SALTREEVE_NODE_TOP, NOT = SALTREEVE_NODE_NOT, AND = SALTREEVE_NODE_AND,
    AT_LEAST = SALTREEVE_NODE_AT_LEAST, SELF = SALTREEVE_NODE_SELF, ONE = SALTREEVE_NODE_ONE
};

/* A call: the store if there is one, the counts, the rule, and the words of an item row of the store. */
struct call {
    const uint64_t *w;
    uint64_t items, concepts, roles;
    const uint64_t *rule;
    size_t row;
};

/* --- The words of a rule --- */

/* A kind as it is read. */
static uint64_t kind_of(uint64_t word)
{
    return SHAPE_FAULT == KINDS_OF_32_BITS ? (uint32_t)word : word;
}

/* The kind of a rule. */
static uint64_t rule_kind(const uint64_t *rule)
{
    uint64_t kind = kind_of(rule[0]);
    return SHAPE_FAULT == UNKNOWN_RULE_TAKEN && kind > DIFFER ? DIFFER : kind;
}

/* The words of a node. */
static const uint64_t *node_at(const uint64_t *rule, uint64_t n)
{
    return rule + SALTREEVE_FIRST_NODE + SALTREEVE_NODE_WORDS * n;
}

/* The kind of a node. */
static uint64_t node_kind(const uint64_t *node)
{
    uint64_t kind = kind_of(node[0]);
    return SHAPE_FAULT == UNKNOWN_NODE_TAKEN && kind > ONE ? TOP : kind;
}

/* The number of nodes as it is read. */
static uint64_t node_count(const uint64_t *rule)
{
    uint64_t word = rule[SALTREEVE_NODE_COUNT], count = SHAPE_FAULT == NODES_OF_32_BITS ? (uint32_t)word : word;
    return SHAPE_FAULT == NODES_33_TAKEN && count == NODES + 1 ? NODES : count;
}

/* How many roots a rule has: words 1 and 2, or only word 1. */
static int root_count(const uint64_t *rule)
{
    return rule_kind(rule) == SUB ? 2 : rule_kind(rule) == IN ? 1 : 0;
}

/* How many nodes a node uses. */
static int child_count(const uint64_t *node)
{
    uint64_t kind = node_kind(node);
    return kind == AND ? 2 : kind == NOT || kind == AT_LEAST ? 1 : 0;
}

/* A node's child. */
static uint64_t child(const uint64_t *node, int which)
{
    return node_kind(node) == AT_LEAST ? node[4] : node[1 + which];
}

/* The first 173 words of a rule, with zeros where it is shorter. */
static const uint64_t *padded_rule(const uint64_t *rule, size_t length, uint64_t padded[SALTREEVE_RULE_WORDS])
{
    for (size_t i = 0; i < SALTREEVE_RULE_WORDS; i++)
        padded[i] = i < length ? rule[i] : 0;
    return padded;
}

/* --- Refusal 3 --- */

/* Whether the kinds of the rule and of its nodes are known. */
static int kinds_known(const uint64_t *rule)
{
    uint64_t asked = node_count(rule) - (SHAPE_FAULT == UNKNOWN_LAST_NODE_TAKEN && node_count(rule) > 0);
    for (uint64_t n = 0; n < (SHAPE_FAULT == UNUSED_KINDS_ASKED ? NODES : asked); n++)
        if (node_kind(node_at(rule, n)) > ONE)
            return 0;
    return rule_kind(rule) <= DIFFER;
}

/* Whether a use is of a node that is there. */
static int there(const uint64_t *rule, uint64_t used)
{
    return used < (SHAPE_FAULT == USE_OF_NOTHING_TAKEN ? NODES : node_count(rule));
}

/* Whether all uses are of nodes that are there. */
static int uses_there(const uint64_t *rule)
{
    for (int i = 0; i < root_count(rule); i++)
        if (!there(rule, rule[1 + i]))
            return 0;
    for (uint64_t n = 0; n < node_count(rule); n++)
        for (int i = 0; i < child_count(node_at(rule, n)); i++)
            if (!there(rule, child(node_at(rule, n), i)))
                return 0;
    return 1;
}

/* How often a node is a root. */
static int uses_as_root(const uint64_t *rule, uint64_t n)
{
    int uses = 0;
    for (int i = 0; i < root_count(rule); i++)
        uses += rule[1 + i] == n;
    return SHAPE_FAULT == SAME_ROOTS_TAKEN && uses == 2 ? 1 : uses;
}

/* How often a node is used by the nodes from..to-1. */
static int uses_by(const uint64_t *rule, uint64_t n, uint64_t from, uint64_t to)
{
    int uses = 0;
    for (uint64_t user = from; user < to; user++)
        for (int i = 0; i < child_count(node_at(rule, user)); i++)
            uses += child(node_at(rule, user), i) == n;
    return uses;
}

/* Whether a node is used as it should be. */
static int used_once(const uint64_t *rule, uint64_t n)
{
    int root = uses_as_root(rule, n), earlier = uses_by(rule, n, 0, n);
    int itself = uses_by(rule, n, n, n + 1), later = uses_by(rule, n, n + 1, node_count(rule));
    int all = root + earlier + itself + later;
    if (SHAPE_FAULT == NODE_USED_TWICE_TAKEN && all == 2 && itself + later == 0)
        return 1;
    if (SHAPE_FAULT == LATER_USES_PASSED)
        return root + earlier == 1;
    if (SHAPE_FAULT == LATER_USER_TAKEN && all == 1 && later == 1)
        return 1;
    if (SHAPE_FAULT == NODE_USED_BY_ITSELF && all == 1 && itself == 1)
        return 1;
    if ((SHAPE_FAULT == UNUSED_NODE_TAKEN || (SHAPE_FAULT == NODES_FOR_NOTHING_TAKEN && root_count(rule) == 0)) && all == 0)
        return 1;
    if (SHAPE_FAULT == ROOT_AS_CHILD_TAKEN && root == 1 && earlier == 1)
        return 1;
    return all == 1 && root + earlier == 1;
}

/* Whether a count is in order. */
static int count_stands(uint64_t count)
{
    uint64_t least = SHAPE_FAULT == COUNT_0_TAKEN ? 0 : 1, most = SHAPE_FAULT == COUNT_8_REFUSED ? 7 : 8;
    return count >= least && (count <= most || SHAPE_FAULT == COUNT_9_TAKEN);
}

/* Whether all nodes are used as they should be, and all counts are in order. */
static int nodes_stand(const uint64_t *rule)
{
    for (uint64_t n = 0; n < node_count(rule); n++) {
        const uint64_t *node = node_at(rule, n);
        if (!used_once(rule, n) || (node_kind(node) == AT_LEAST && !count_stands(node[1])))
            return 0;
    }
    return 1;
}

/* Whether the length of a chain is in order. */
static int length_stands(uint64_t length)
{
    return (length >= 2 || SHAPE_FAULT == CHAIN_1_TAKEN) && (length <= 4 || SHAPE_FAULT == CHAIN_5_TAKEN);
}

/* Whether a rule is malformed. */
static int malformed(const uint64_t *rule)
{
    uint64_t most = SHAPE_FAULT == LIMIT_ONE_LESS ? NODES - 1 : NODES;
    if (SHAPE_FAULT == ALWAYS_MALFORMED || node_count(rule) > most)
        return 1;
    if (rule_kind(rule) == CHAIN && !length_stands(rule[1]))
        return 1;
    return !kinds_known(rule) || !uses_there(rule) || !nodes_stand(rule);
}

/* --- Refusal 4 --- */

/* Whether a number is below its count. */
static int below(uint64_t number, uint64_t count)
{
    return (SHAPE_FAULT == NUMBERS_OF_32_BITS ? (uint32_t)number : number) < count;
}

/* A chain's length, as far as there are roles. */
static uint64_t chain_length(const uint64_t *rule)
{
    return rule[1] < 4 ? rule[1] : 4;
}

/* Whether the roles of a chain are declared. */
static int chain_declared(const struct call *c)
{
    uint64_t asked = SHAPE_FAULT == UNUSED_SLOTS_ASKED ? 4 : chain_length(c->rule);
    for (uint64_t i = 0; i < asked; i++)
        if (!below(c->rule[2 + 2 * i], c->roles))
            return 0;
    return SHAPE_FAULT == LAST_ROLE_UNASKED || below(c->rule[10], c->roles);
}

/* Whether the numbers in the head of a rule are declared. */
static int head_declared(const struct call *c)
{
    const uint64_t *rule = c->rule;
    switch (rule_kind(rule)) {
    case SUB: return 1;
    case RSUB: case DIS: return below(rule[1], c->roles) && below(rule[3], c->roles);
    case CHAIN: return chain_declared(c);
    case REF: case IRR: return below(rule[1], c->roles);
    case IN: return below(rule[2], c->items);
    case REL: case NOREL:
        return below(rule[1], c->roles) && below(rule[3], c->items)
            && (SHAPE_FAULT == SECOND_ITEM_UNASKED || below(rule[4], c->items));
    default: return below(rule[1], c->items) && below(rule[2], c->items);
    }
}

/* Whether the number in a node is declared. */
static int node_declared(const struct call *c, const uint64_t *node)
{
    switch (node_kind(node)) {
    case NAME: return below(node[1], c->concepts);
    case AT_LEAST: return below(node[2], c->roles);
    case SELF: return below(node[1], c->roles);
    case ONE: return below(node[1], c->items);
    default: return 1;
    }
}

/* Whether all numbers of a rule are declared. */
static int declared(const struct call *c)
{
    uint64_t asked = node_count(c->rule) < NODES ? node_count(c->rule) : NODES;
    if (SHAPE_FAULT == UNUSED_NODES_ASKED)
        asked = NODES;
    for (uint64_t n = 0; n < asked; n++)
        if (SHAPE_FAULT != NODE_NUMBERS_UNASKED && !node_declared(c, node_at(c->rule, n)))
            return 0;
    return head_declared(c);
}

#endif
