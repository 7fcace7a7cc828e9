/*
 * A plain reader of sheets, for the stand-ins that the tests are tried on.
 *
 * It reads a sheet line by line, asking for the numbers of refusal in rising order. The
 * store and the rules are left to the other stand-ins, tests/reference_store.c and
 * tests/rule_reference.c. It is slow and proves nothing. The self-tests also run it with
 * one fault planted, one of those listed below, and ask that the tests find it.
 */
#ifndef SHEET_REFERENCE_H
#define SHEET_REFERENCE_H

#include "edition_reference.h"
#include "planted.h"
#include "saltreeve.h"

#include <string.h>

enum sheet_fault {
    NO_SHEET_FAULT,
    KEEPS_RULES,            /* rules of the sheet before are kept */
    READS_PAST_THE_SHEET,   /* a last line without an end is read on */
    LAST_LINE_LOST,         /* a last line without an end is lost */
    FIRST_FIELD_FIRST,      /* 19 in an earlier field comes before 15 in a later */
    STOPS_AT_NODE_32,       /* 21 comes before 15 and 19 */
    BAD_BYTES_LAST,         /* a line's bytes are looked at only if it is in order else */
    LINES_FROM_0,           /* lines are numbered from 0 */
    EMPTY_NOT_NUMBERED,     /* empty lines are not numbered */
    OR_WITHOUT_NOT,         /* or is expanded without its outer not */
    ATMOST_ONE_LESS,        /* at most n is read as less than n */
    LEFT_INVERSE_PASSED,    /* `~` on the left of runder is passed over */
    MONTHS_OF_31_DAYS       /* all months have 31 days */
};

PLANTED(SHEET_FAULT, NO_SHEET_FAULT)

enum {
    SHEET_BYTES = 32768, LINE_BYTES = 512, NAME_BYTES = 24, MOST_FIELDS = LINE_BYTES + 1, MOST_RULES = 64,
    MOST_PRINTED = 200, PAIRS = SALTREEVE_LARGE_ITEMS * SALTREEVE_LARGE_ITEMS
};

/* A piece of the sheet: a line, a field or a name. */
struct piece {
    const uint8_t *at;
    size_t length;
};

/* What should stand in a field. */
enum place { WORD, OPERATOR, NEW_NAME, CONCEPT, ITEM, ROLE, PLAIN_ROLE, COUNT, COUNT_FROM_0, EXPRESSION };

/* The names declared of one kind. */
struct table {
    const char *word;
    size_t most, count;
    struct piece names[SALTREEVE_LARGE_ITEMS + 1];
};

/* A rule and the line that it stands on. */
struct kept {
    uint64_t line;
    uint64_t words[SALTREEVE_RULE_WORDS];
};

/* A sheet as far as it has been read. */
struct sheet {
    struct table concepts, roles, items;
    int section, edition;
    size_t statements;
    size_t length;  /* of the store that is lent */
    uint64_t words[SALTREEVE_LARGE_WORDS];
    struct kept rules[MOST_RULES];
    size_t rule_count;
};

/* A line in its fields. */
struct line {
    struct piece fields[MOST_FIELDS];
    enum place places[MOST_FIELDS];
    size_t count;
};

/* --- Words --- */

/* A first word, rule word or operator, and the places after it: C an expression, r a role, R one without `~`, a an
   item, c a concept, n a count, m a count from 0, + a new name. */
struct word {
    const char *text, *places;
    int number;  /* the section, the rule's kind, or the nodes of an operator without its parts */
};

static const struct word FIRST_WORDS[] = {
    {"concept", "+", 0}, {"role", "+", 0}, {"item", "+", 0}, {"in", "ac", 1}, {"rel", "Raa", 1}, {"same", "aa", 1},
    {"under", "cc", 1}, {"runder", "rr", 1}, {"rule", NULL, 2}, {NULL, NULL, 0},
};
static const struct word RULE_WORDS[] = {
    {"sub", "CC", 0}, {"rsub", "rr", 1}, {"chain", "rrr", 2}, {"ref", "r", 3}, {"irr", "r", 4}, {"dis", "rr", 5},
    {"in", "Ca", 6}, {"rel", "raa", 7}, {"norel", "raa", 8}, {"same", "aa", 9}, {"differ", "aa", 10}, {NULL, NULL, 0},
};
static const struct word OPERATORS[] = {
    {"and", "CC", 1}, {"or", "CC", 4}, {"not", "C", 1}, {"some", "rC", 1}, {"all", "rC", 3}, {"atleast", "nrC", 1},
    {"atmost", "mrC", 2}, {"self", "r", 1}, {"one", "a", 1}, {"top", "", 1}, {"bot", "", 2}, {NULL, NULL, 0},
};

/* Whether a piece is a text. */
static int is(struct piece piece, const char *text)
{
    return piece.length == strlen(text) && memcmp(piece.at, text, piece.length) == 0;
}

/* The word that a piece is; NULL if it is none of the list. */
static const struct word *find_word(const struct word *words, struct piece piece)
{
    for (; words->text != NULL; words++)
        if (is(piece, words->text))
            return words;
    return NULL;
}

/* --- Names --- */

/* Whether a byte may stand in a name. */
static int name_byte(uint8_t c)
{
    return (c >= 'A' && c <= 'Z') || (c >= 'a' && c <= 'z') || (c >= '0' && c <= '9')
        || c == '.' || c == '_' || c == '/' || c == '-';
}

/* Whether a piece is a name. */
static int is_name(struct piece piece)
{
    for (size_t i = 0; i < piece.length; i++)
        if (!name_byte(piece.at[i]))
            return 0;
    return piece.length >= 1 && piece.length <= NAME_BYTES;
}

/* The number of a name in a table; its count if it is not there. */
static size_t find_name(const struct table *table, struct piece piece)
{
    size_t n = 0;
    while (n < table->count
           && !(table->names[n].length == piece.length && memcmp(table->names[n].at, piece.at, piece.length) == 0))
        n++;
    return n;
}

/* Whether a role has `~`. */
static int is_inverse(struct piece piece)
{
    return piece.length > 0 && piece.at[0] == '~';
}

/* A role without its `~`. */
static struct piece role_name(struct piece piece)
{
    struct piece rest = {piece.at + 1, piece.length - 1};
    return is_inverse(piece) ? rest : piece;
}

/* The days of a month, from 0, 29 in February. */
static int days_of(size_t month)
{
    static const int DAYS[] = {31, 29, 31, 30, 31, 30, 31, 31, 30, 31, 30, 31};
    return SHEET_FAULT == MONTHS_OF_31_DAYS ? 31 : DAYS[month];
}

/* Whether a piece is date-shaped. */
static int is_date(struct piece piece)
{
    static const char MONTHS[] = "janfebmaraprmayjunjulaugsepoctnovdec";
    size_t digits = piece.length - 4;
    int day = 0;
    if (piece.length != 5 && piece.length != 6)
        return 0;
    for (size_t i = 0; i < digits; i++) {
        if (piece.at[i] < '0' || piece.at[i] > '9')
            return 0;
        day = 10 * day + piece.at[i] - '0';
    }
    if (day < 1 || piece.at[digits] != '-')
        return 0;
    for (const char *month = MONTHS; *month != 0; month += 3) {
        int same = 1;
        for (size_t i = 0; i < 3; i++) {
            uint8_t c = piece.at[digits + 1 + i];
            same = same && (c == (uint8_t)month[i] || c == (uint8_t)(month[i] - 'a' + 'A'));
        }
        if (same)
            return day <= days_of((size_t)(month - MONTHS) / 3);
    }
    return 0;
}

/* --- A line's fields and their places --- */

/* Parts a line into fields. */
static void part(struct line *line, struct piece piece)
{
    size_t start = 0;
    line->count = 0;
    for (size_t i = 0; i <= piece.length; i++)
        if (i == piece.length || piece.at[i] == '\t') {
            struct piece field = {piece.at + start, i - start};
            line->fields[line->count] = field;
            line->places[line->count++] = WORD;
            start = i + 1;
        }
}

/* The place that a letter stands for. */
static enum place place_of(char letter)
{
    switch (letter) {
    case '+': return NEW_NAME;
    case 'c': return CONCEPT;
    case 'a': return ITEM;
    case 'r': return ROLE;
    case 'R': return PLAIN_ROLE;
    case 'n': return COUNT;
    case 'm': return COUNT_FROM_0;
    default: return EXPRESSION;
    }
}

/* Says what stands in the fields from `at` on; the field after the last one, or 0 if there are too few. */
static size_t set_places(struct line *line, size_t at, const char *places)
{
    for (; at != 0 && *places != 0; places++) {
        if (at >= line->count)
            return 0;
        const struct word *word = *places == 'C' ? find_word(OPERATORS, line->fields[at]) : NULL;
        line->places[at] = word != NULL ? OPERATOR : place_of(*places);
        at = word != NULL ? set_places(line, at + 1, word->places) : at + 1;
    }
    return at;
}

/* The first word of a line. */
static const struct word *first_word(const struct line *line)
{
    return find_word(FIRST_WORDS, line->fields[0]);
}

/* The rule word of a line. */
static const struct word *rule_word(const struct line *line)
{
    return find_word(RULE_WORDS, line->fields[1]);
}

/* Whether a line has another number of fields than it should; sets the places. */
static int wrong_shape(struct line *line)
{
    const struct word *first = first_word(line);
    if (first->places != NULL)
        return set_places(line, 1, first->places) != line->count;
    if (line->count == 1)
        return 1;
    if (!is(line->fields[1], "chain"))
        return set_places(line, 2, rule_word(line)->places) != line->count;
    for (size_t i = 2; i < line->count; i++)
        line->places[i] = ROLE;
    return line->count < 5 || line->count > 7;
}

/* --- The numbers of refusal --- */

/* Whether a line is too long or has a byte that it may not have. */
static int bad_bytes(struct piece piece)
{
    for (size_t i = 0; i < piece.length; i++)
        if (!((piece.at[i] >= 33 && piece.at[i] <= 126) || piece.at[i] == ' ' || piece.at[i] == '\t'))
            return 1;
    return piece.length > LINE_BYTES;
}

/* Whether the first word or the rule word is unknown. */
static int unknown(const struct line *line)
{
    if (first_word(line) == NULL)
        return 1;
    return first_word(line)->number == 2 && line->count > 1 && rule_word(line) == NULL;
}

/* The table for a place; for a new name by the line's first word. */
static struct table *table_of(struct sheet *sheet, const struct line *line, enum place place)
{
    if (place == NEW_NAME)
        place = is(line->fields[0], "concept") ? CONCEPT : is(line->fields[0], "role") ? ROLE : ITEM;
    return place == CONCEPT || place == EXPRESSION ? &sheet->concepts : place == ITEM ? &sheet->items : &sheet->roles;
}

/* Whether a field should be a name, and its name without `~` where that may stand. */
static int name_due(const struct line *line, size_t at, struct piece *name)
{
    enum place place = line->places[at];
    *name = place == ROLE ? role_name(line->fields[at]) : line->fields[at];
    return place == NEW_NAME || place == CONCEPT || place == ITEM || place == ROLE || place == PLAIN_ROLE
        || place == EXPRESSION;
}

/* Whether a field should be a name and is none. */
static int no_name(struct sheet *sheet, const struct line *line, size_t at)
{
    struct piece name;
    if (!name_due(line, at, &name))
        return 0;
    int of_concept = table_of(sheet, line, line->places[at]) == &sheet->concepts;
    return !is_name(name) || (of_concept && find_word(OPERATORS, name) != NULL);
}

/* Whether a field is a name that should be declared and is not. */
static int undeclared(struct sheet *sheet, const struct line *line, size_t at)
{
    struct piece name;
    if (!name_due(line, at, &name) || line->places[at] == NEW_NAME)
        return 0;
    struct table *table = table_of(sheet, line, line->places[at]);
    return find_name(table, name) == table->count;
}

/* Whether a field should be a count and is none. */
static int no_count(struct sheet *sheet, const struct line *line, size_t at)
{
    enum place place = line->places[at];
    struct piece field = line->fields[at];
    (void)sheet;
    if (place != COUNT && place != COUNT_FROM_0)
        return 0;
    return field.length != 1 || field.at[0] < (place == COUNT ? '1' : '0') || field.at[0] > (place == COUNT ? '8' : '7');
}

/* Whether something is so of some field. */
static int some_field(struct sheet *sheet, const struct line *line, int (*so)(struct sheet *, const struct line *, size_t))
{
    for (size_t at = 0; at < line->count; at++)
        if (so(sheet, line, at))
            return 1;
    return 0;
}

/* How many nodes a line has. */
static int nodes(const struct line *line)
{
    int count = 0;
    for (size_t at = 0; at < line->count; at++)
        count += line->places[at] == EXPRESSION ? 1
            : line->places[at] == OPERATOR ? find_word(OPERATORS, line->fields[at])->number : 0;
    return count;
}

/* The number that a declaration of a right shape is refused by, or 0. */
static int declaration_refusal(struct sheet *sheet, const struct line *line)
{
    struct table *table = table_of(sheet, line, NEW_NAME);
    if (no_name(sheet, line, 1))
        return 15;
    if (table == &sheet->items && is_date(line->fields[1]))
        return 16;
    if (find_name(table, line->fields[1]) < table->count)
        return 17;
    return table->count == table->most ? 18 : 0;
}

/* The number that a statement or rule of a right shape is refused by, or 0. */
static int use_refusal(struct sheet *sheet, const struct line *line)
{
    int is_rule = first_word(line)->number == 2;
    for (size_t at = 0; SHEET_FAULT == FIRST_FIELD_FIRST && at < line->count; at++)
        if (no_name(sheet, line, at) || undeclared(sheet, line, at))
            return no_name(sheet, line, at) ? 15 : 19;
    if (SHEET_FAULT == STOPS_AT_NODE_32 && nodes(line) > SALTREEVE_NODES)
        return 21;
    if (some_field(sheet, line, no_name))
        return 15;
    if (is_rule && sheet->rule_count == MOST_RULES)
        return 18;
    if (some_field(sheet, line, undeclared))
        return 19;
    if (some_field(sheet, line, no_count))
        return 20;
    return nodes(line) > SALTREEVE_NODES ? 21 : 0;
}

/* The number that a line in its fields is refused by, or 0. */
static int fields_refusal(struct sheet *sheet, struct line *line)
{
    if (unknown(line))
        return 12;
    if (first_word(line)->number < sheet->section)
        return 13;
    if (wrong_shape(line))
        return 14;
    return first_word(line)->number == 0 ? declaration_refusal(sheet, line) : use_refusal(sheet, line);
}

/* Notes the edition, 0 if there is none, and with it the most items; gives the edition. */
static int begin_edition(struct sheet *sheet, int edition)
{
    sheet->edition = edition;
    sheet->items.most = most_items_of(edition, sheet->length);
    return edition;
}

/* The number that a line is refused by, or 0; `line` is its fields where it is not empty. */
static int line_refusal(struct sheet *sheet, struct piece piece, uint64_t number, struct line *line)
{
    if (piece.length > LINE_BYTES || (SHEET_FAULT != BAD_BYTES_LAST && bad_bytes(piece)))
        return 10;
    if (number == 1)
        return begin_edition(sheet, edition_of(piece.at, piece.length, sheet->length)) ? 0 : header_number(piece.at, piece.length);
    part(line, piece);
    int refused = piece.length == 0 ? 0 : fields_refusal(sheet, line);
    return refused == 0 && bad_bytes(piece) ? 10 : refused;
}

/* --- Accepted lines --- */

/* The number of a field's name. */
static uint64_t number_at(struct sheet *sheet, const struct line *line, size_t at)
{
    struct piece name;
    name_due(line, at, &name);
    return find_name(table_of(sheet, line, line->places[at]), name);
}

/* A rule that is put together of a line's fields. */
struct builder {
    struct sheet *sheet;
    const struct line *line;
    size_t at;
    uint64_t *rule;
};

enum { NAME_NODE, TOP_NODE, NOT_NODE, AND_NODE, AT_LEAST_NODE, SELF_NODE, ONE_NODE };

/* Adds a node with its kind; its other words are set later. */
static uint64_t *add_node(struct builder *b, uint64_t kind)
{
    uint64_t *node = b->rule + 13 + 5 * b->rule[12]++;
    node[0] = kind;
    return node;
}

/* The number that the next node gets. */
static uint64_t next_node(const struct builder *b)
{
    return b->rule[12];
}

/* Puts the next field, a role, into two words. */
static void put_role(struct builder *b, uint64_t *words)
{
    words[0] = number_at(b->sheet, b->line, b->at);
    words[1] = (uint64_t)is_inverse(b->line->fields[b->at++]);
}

static void build(struct builder *b);

/* Adds a not around what comes next. */
static void build_not(struct builder *b)
{
    uint64_t *node = add_node(b, NOT_NODE);
    node[1] = next_node(b);
}

/* Adds an and of the next two expressions, each with a not around it if wanted. */
static void build_and(struct builder *b, int with_nots)
{
    uint64_t *node = add_node(b, AND_NODE);
    for (int side = 1; side <= 2; side++) {
        node[side] = next_node(b);
        if (with_nots)
            build_not(b);
        build(b);
    }
}

/* Adds an at least: its count is given, role and expression come next. */
static void build_at_least(struct builder *b, uint64_t count, int with_not)
{
    uint64_t *node = add_node(b, AT_LEAST_NODE);
    node[1] = count;
    put_role(b, node + 2);
    node[4] = next_node(b);
    if (with_not)
        build_not(b);
    build(b);
}

/* The count in the next field. */
static uint64_t next_count(struct builder *b)
{
    return (uint64_t)(b->line->fields[b->at++].at[0] - '0');
}

/* Adds the nodes of an expression that begins with an operator. */
static void build_operator(struct builder *b, struct piece word)
{
    if (is(word, "not") || is(word, "all") || is(word, "atmost") || is(word, "bot")
        || (is(word, "or") && SHEET_FAULT != OR_WITHOUT_NOT))
        build_not(b);
    if (is(word, "not"))
        build(b);
    else if (is(word, "and") || is(word, "or"))
        build_and(b, is(word, "or"));
    else if (is(word, "some") || is(word, "all"))
        build_at_least(b, 1, is(word, "all"));
    else if (is(word, "atleast"))
        build_at_least(b, next_count(b), 0);
    else if (is(word, "atmost"))
        build_at_least(b, next_count(b) + (SHEET_FAULT != ATMOST_ONE_LESS), 0);
    else if (is(word, "self"))
        put_role(b, add_node(b, SELF_NODE) + 1);
    else if (is(word, "one"))
        add_node(b, ONE_NODE)[1] = number_at(b->sheet, b->line, b->at++);
    else
        add_node(b, TOP_NODE);
}

/* Adds the nodes of the next expression. */
static void build(struct builder *b)
{
    size_t at = b->at++;
    if (b->line->places[at] == OPERATOR)
        build_operator(b, b->line->fields[at]);
    else
        add_node(b, NAME_NODE)[1] = number_at(b->sheet, b->line, at);
}

/* Puts together a chain. */
static void build_chain(struct builder *b)
{
    uint64_t length = b->line->count - 3;
    b->rule[1] = length;
    for (uint64_t i = 0; i < length; i++)
        put_role(b, b->rule + 2 + 2 * i);
    put_role(b, b->rule + 10);
}

/* Keeps the rule of a line. */
static void keep_rule(struct sheet *sheet, const struct line *line, uint64_t number)
{
    struct kept *kept = &sheet->rules[sheet->rule_count++];
    const struct word *word = rule_word(line);
    struct builder b = {sheet, line, 2, kept->words};
    size_t field = 1;
    memset(kept, 0, sizeof *kept);
    kept->line = number;
    kept->words[0] = (uint64_t)word->number;
    if (is(line->fields[1], "chain")) {
        build_chain(&b);
        return;
    }
    for (const char *place = word->places; *place != 0; place++)
        if (*place == 'C') {
            kept->words[field++] = next_node(&b);
            build(&b);
        } else if (*place == 'r') {
            put_role(&b, kept->words + field);
            field += 2;
        } else
            kept->words[field++] = number_at(sheet, line, b.at++);
}

/* Adds the statement of a line to the store. */
static void add_statement(struct sheet *sheet, const struct line *line)
{
    uint64_t i = sheet->items.count, c = sheet->concepts.count, r = sheet->roles.count;
    uint64_t a = number_at(sheet, line, 1), b = number_at(sheet, line, 2);
    uint64_t *w = sheet->words;
    size_t length = sheet->length;
    struct piece word = line->fields[0];
    sheet->statements++;
    if (is(word, "in"))
        saltreeve_add_in(w, length, i, c, r, a, b);
    else if (is(word, "rel"))
        saltreeve_add_link(w, length, i, c, r, a, b, number_at(sheet, line, 3));
    else if (is(word, "same"))
        saltreeve_add_same(w, length, i, c, r, a, b);
    else if (is(word, "under"))
        saltreeve_add_under(w, length, i, c, r, a, b);
    else {
        int left = SHEET_FAULT != LEFT_INVERSE_PASSED && is_inverse(line->fields[1]);
        saltreeve_add_role_under(w, length, i, c, r, a, b, left != is_inverse(line->fields[2]));
    }
}

/* Makes the store fresh. */
static void make_fresh(struct sheet *sheet)
{
    saltreeve_fresh(sheet->words, sheet->length, sheet->items.count, sheet->concepts.count, sheet->roles.count);
}

/* Takes in a line that is not refused. */
static void accept(struct sheet *sheet, const struct line *line, uint64_t number)
{
    int section = first_word(line)->number;
    if (section > 0 && sheet->section == 0)
        make_fresh(sheet);
    sheet->section = section > sheet->section ? section : sheet->section;
    if (section == 0) {
        struct table *table = table_of(sheet, line, NEW_NAME);
        table->names[table->count++] = line->fields[1];
    } else if (section == 1)
        add_statement(sheet, line);
    else
        keep_rule(sheet, line, number);
}

/* --- The sheet --- */

/* The line that begins at a place. */
static struct piece line_at(const uint8_t *sheet, size_t length, size_t at)
{
    const uint8_t *end = at < length ? memchr(sheet + at, '\n', length - at) : NULL;
    struct piece line = {sheet + at, end != NULL ? (size_t)(end - sheet) - at : length - at};
    if (SHEET_FAULT == READS_PAST_THE_SHEET && end == NULL && line.length > 0)
        line.length++;
    return line;
}

/* Reads all lines; the number that the sheet is refused by, or 0, and the line. */
static uint64_t read_lines(struct sheet *sheet, const uint8_t *bytes, size_t length, uint64_t *number)
{
    static struct line line;
    size_t at = 0;
    *number = 0;
    do {
        struct piece piece = line_at(bytes, length, at);
        if (SHEET_FAULT == LAST_LINE_LOST && at + piece.length == length && at > 0)
            return 0;
        if (SHEET_FAULT != EMPTY_NOT_NUMBERED || piece.length > 0 || at == 0)
            ++*number;
        int refused = line_refusal(sheet, piece, *number, &line);
        if (refused != 0)
            return (uint64_t)refused;
        if (*number > 1 && piece.length > 0)
            accept(sheet, &line, *number - (SHEET_FAULT == LINES_FROM_0));
        at += piece.length + 1;
    } while (at < length);
    return 0;
}

/* Forgets the sheet before; the store, of a right length, is all zero. */
static void begin(struct sheet *sheet, size_t length)
{
    size_t kept = SHEET_FAULT == KEEPS_RULES && sheet->rule_count < MOST_RULES ? sheet->rule_count : 0;
    sheet->concepts = (struct table){"concept", SALTREEVE_CONCEPTS, 0, {{NULL, 0}}};
    sheet->roles = (struct table){"role", SALTREEVE_ROLES, 0, {{NULL, 0}}};
    sheet->items = (struct table){"item", SALTREEVE_ITEMS, 0, {{NULL, 0}}};
    sheet->section = sheet->edition = 0;
    sheet->statements = 0;
    sheet->length = length;
    sheet->rule_count = kept;
    memset(sheet->words, 0, length * sizeof *sheet->words);
}

/* Reads a sheet with a store of a right length; the number that it is refused by, or 0, and the line. */
static uint64_t read_sheet(struct sheet *sheet, const uint8_t *bytes, size_t length, size_t store, uint64_t *line)
{
    uint64_t refused = 9;
    *line = 0;
    begin(sheet, store);
    if (length <= SHEET_BYTES)
        refused = read_lines(sheet, bytes, length, line);
    if (refused == 0 && EDITION_FAULT == EDITION_2_NEEDS_129 && sheet->edition == 2 && sheet->items.count <= SALTREEVE_ITEMS)
        refused = 18;
    if (EDITION_FAULT == EDITION_2_AT_LINE_0 && refused == 11 && length >= 7 && memcmp(bytes, "sheet\t2", 7) == 0)
        *line = 0;
    if ((refused == 0 || (EDITION_FAULT == LARGE_NOT_ZERO && store == SALTREEVE_LARGE_WORDS)) && sheet->section == 0)
        make_fresh(sheet);
    *line -= SHEET_FAULT == LINES_FROM_0 && *line > 0;
    return refused;
}

/* Finds what breaks a rule of the sheet: so many pairs in `out`, which has room for all. */
static int64_t judge(const struct sheet *sheet, const struct kept *kept, uint64_t *out)
{
    return saltreeve_findings(sheet->words, sheet->length, sheet->items.count, sheet->concepts.count, sheet->roles.count,
                              kept->words, SALTREEVE_RULE_WORDS, out, 2 * PAIRS);
}

#endif
