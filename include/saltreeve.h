/*
 * Saltreeve: the check of a whole sheet, the reasons for what is found, the
 * store of what follows from a sheet's statements, and rules by number over it.
 *
 * saltreeve_check and the four functions after it, which stand last below, take
 * a sheet's bytes; docs/HOST.md has examples. The others work on a store: the
 * caller lends words of 64 bits and says with each call how many items, concepts
 * and roles are declared (saltreeve_compile has no store, only these counts).
 * Items, concepts and roles are numbered apart, each from 0.
 *
 * A store has one of two sizes. The smaller has 4,528 words and takes at most 128
 * items, the larger 70,192 words and at most 512; both take at most 32 concepts and
 * 16 roles. The number of words lent says which it is. A larger store may have few
 * items too. Every call that is lent a store takes both sizes: saltreeve_fresh, the
 * five that add a statement, saltreeve_add_all, saltreeve_convert,
 * saltreeve_findings, saltreeve_check_in, saltreeve_explain and
 * saltreeve_explain_finding. They have the same cells in other words:
 *
 *   cell                         bit         word of the smaller         word of the larger
 *   a same as b                  b mod 64    2a + b/64                   8a + b/64
 *   concept A under B            B           256 + A                     4096 + A
 *   role R under S               S           288 + R                     4128 + R
 *   role R under inverse of S    16 + S      288 + R                     4128 + R
 *   a in A                       A           304 + a                     4144 + a
 *   R links a to b               b mod 64    432 + 2(128R + a) + b/64    4656 + 8(512R + a) + b/64
 *
 * Bit 0 is the lowest. Divisions drop the rest. All other bits are 0.
 *
 * Those functions hand back a count, of cells where nothing else is said, or
 * minus the number of refusal, of which some calls have more:
 *
 *    -1  length is neither 4,528 nor 70,192; or a declared count is over its limit:
 *        more than 128 items with 4,528 words, more than 512 items with 70,192, more
 *        than 32 concepts, more than 16 roles. In a conversion also: the target does
 *        not have the other of the two lengths
 *    -2  the store is not closed: a cell that follows from its cells and the
 *        declared counts is missing, or a bit is set that is no cell within
 *        the declared counts
 *    -3  a rule is malformed
 *    -4  an item, concept or role number is not below its declared count
 *   -26  the store cannot go back to the smaller size: an item number is 128 or more
 *
 * Where more than one applies, the lowest number is given. A refusal changes
 * no word. `words` must point to `length` words that the caller may read and
 * write (saltreeve_findings only reads them); NULL is not allowed. Nothing is kept
 * between calls of any function: all there is to know is in what is lent and the
 * numbers given.
 */
#ifndef SALTREEVE_H
#define SALTREEVE_H

#include <stddef.h>
#include <stdint.h>

/* The words of a store, of the smaller and of the larger size. */
#define SALTREEVE_WORDS 4528
#define SALTREEVE_LARGE_WORDS 70192

/* The most items that can be declared with a store of either size. */
#define SALTREEVE_ITEMS 128
#define SALTREEVE_LARGE_ITEMS 512

/* The most concepts and roles that can be declared, whatever the size. */
#define SALTREEVE_CONCEPTS 32
#define SALTREEVE_ROLES 16

/*
 * A rule is SALTREEVE_RULE_WORDS words:
 *
 *   word 0         the kind of rule, one of the kinds below
 *   words 1 to 11  its fields
 *                    SUB            node, node
 *                    RSUB, DIS      role, inverse, role, inverse
 *                    CHAIN          length k, four times role and inverse, of which
 *                                   the first k count, then the last role, inverse
 *                    REF, IRR       role, inverse
 *                    IN             node, item
 *                    REL, NOREL     role, inverse, item, item
 *                    SAME, DIFFER   item, item
 *   word 12        the number of nodes
 *   from word 13   32 nodes of 5 words: the kind of node, then its fields
 *                    NAME           concept
 *                    TOP            none
 *                    NOT            node
 *                    AND            node, node
 *                    AT_LEAST       count, role, inverse, node
 *                    SELF           role, inverse
 *                    ONE            item
 *
 * An inverse is 0 for the role as it is, any other number for its inverse. Words
 * that a kind has no use for are ignored, and so are the nodes from the number of
 * nodes on. A field that is a node has its number, from 0. docs/SHEETS.md says what
 * each kind of rule asks.
 *
 * A rule is malformed (-3) if it has another number of words, a kind of rule or a
 * kind of node that is not one of these, over 32 nodes, a count outside 1 to 8, a
 * chain whose length is outside 2 to 4, or a node or root that is not there; and if
 * some node is not used exactly once in all, as a root (a node field of the rule) or
 * by a node with a lower number.
 */
#define SALTREEVE_RULE_WORDS 173
#define SALTREEVE_NODE_COUNT 12 /* the word that has the number of nodes */
#define SALTREEVE_FIRST_NODE 13 /* the first word of node 0 */
#define SALTREEVE_NODE_WORDS 5
#define SALTREEVE_NODES 32

/* The kinds of rules. */
#define SALTREEVE_SUB 0
#define SALTREEVE_RSUB 1
#define SALTREEVE_CHAIN 2
#define SALTREEVE_REF 3
#define SALTREEVE_IRR 4
#define SALTREEVE_DIS 5
#define SALTREEVE_IN 6
#define SALTREEVE_REL 7
#define SALTREEVE_NOREL 8
#define SALTREEVE_SAME 9
#define SALTREEVE_DIFFER 10

/* The kinds of nodes. */
#define SALTREEVE_NODE_NAME 0     /* the items in the concept */
#define SALTREEVE_NODE_TOP 1      /* all items */
#define SALTREEVE_NODE_NOT 2      /* those that the node does not hold of */
#define SALTREEVE_NODE_AND 3      /* those that both nodes hold of */
#define SALTREEVE_NODE_AT_LEAST 4 /* those linked to so many articles or more that the node holds of */
#define SALTREEVE_NODE_SELF 5     /* those linked to themselves */
#define SALTREEVE_NODE_ONE 6      /* those that are the same as the item */

/* What stands for the second item of a finding that has none. */
#define SALTREEVE_NO_ITEM UINT64_MAX

/* Room in words of 16 bits that suffices for the query of any rule. */
#define SALTREEVE_QUERY_WORDS 2048

/* The kinds of the items of a query. */
#define SALTREEVE_QUERY_CONCEPT 1  /* the first term is in the concept */
#define SALTREEVE_QUERY_ROLE 2     /* the role links the first term to the second */
#define SALTREEVE_QUERY_EQUALITY 3 /* the terms are the same */
#define SALTREEVE_QUERY_OPEN 4     /* a not opens */
#define SALTREEVE_QUERY_CLOSE 5    /* it closes */

/* The term of item 0 in a query; that of item a is larger by a, 4,607 at most. */
#define SALTREEVE_QUERY_ITEM 4096

/*
 * The most bytes that a sheet may have. A longer one is handed over whole, and is
 * refused by 9. Cut to so many bytes it could pass, though its end was never read.
 */
#define SALTREEVE_SHEET 32768

/*
 * Room in bytes that suffices for the text of any sheet, with the smaller store and
 * with the larger. Some sheets need all of it.
 */
#define SALTREEVE_TEXT 12814
#define SALTREEVE_LARGE_TEXT 12815

/* Room in bytes that suffices for the text of saltreeve_why, whatever is asked. */
#define SALTREEVE_WHY 11000

/* The kinds of cells, for saltreeve_explain, and of statements, for saltreeve_add_all. */
#define SALTREEVE_KIND_SAME 0               /* item a same as item b */
#define SALTREEVE_KIND_UNDER 1              /* concept a under concept b */
#define SALTREEVE_KIND_ROLE_UNDER 2         /* role a under role b */
#define SALTREEVE_KIND_ROLE_UNDER_INVERSE 3 /* role a under the inverse of role b */
#define SALTREEVE_KIND_IN 4                 /* item a in concept b */
#define SALTREEVE_KIND_LINK 5               /* role c links item a to item b */

#ifdef __cplusplus
extern "C" {
#endif

/*
 * Makes the store fresh, whatever the words held before: each declared item is
 * the same as itself, each concept and each role is under itself, and every
 * other bit is 0. Returns the cells of the fresh store, which are
 * items + concepts + roles. Refuses with -1 only; a refusal changes no word.
 */
int64_t saltreeve_fresh(uint64_t *words, size_t length,
                        uint64_t items, uint64_t concepts, uint64_t roles);

/*
 * Adds the statement that items a and b are the same article, with all that
 * follows from it. Returns the number of cells newly true, 0 if the store said
 * so already. Refuses with -1, -2, or -4 if a or b is not below `items`; a
 * refusal changes no word.
 */
int64_t saltreeve_add_same(uint64_t *words, size_t length,
                           uint64_t items, uint64_t concepts, uint64_t roles,
                           uint64_t a, uint64_t b);

/*
 * Adds the statement that the concept numbered `under` is under the concept
 * numbered `over`, with all that follows from it. Returns the number of cells
 * newly true, 0 if the store said so already. Refuses with -1, -2, or -4 if
 * `under` or `over` is not below `concepts`; a refusal changes no word.
 */
int64_t saltreeve_add_under(uint64_t *words, size_t length,
                            uint64_t items, uint64_t concepts, uint64_t roles,
                            uint64_t under, uint64_t over);

/*
 * Adds the statement that `role` is under the role `over` (`inverse` is 0), or
 * under the inverse of `over` (`inverse` is any other number), with all that
 * follows from it. Returns the number of cells newly true, 0 if the store said
 * so already. Refuses with -1, -2, or -4 if `role` or `over` is not below
 * `roles`; no value of `inverse` is refused. A refusal changes no word.
 */
int64_t saltreeve_add_role_under(uint64_t *words, size_t length,
                                 uint64_t items, uint64_t concepts, uint64_t roles,
                                 uint64_t role, uint64_t over, uint64_t inverse);

/*
 * Adds the statement that `item` is in the concept numbered `in`, with all that
 * follows from it. Returns the number of cells newly true, 0 if the store said
 * so already. Refuses with -1, -2, or -4 if `item` is not below `items` or `in`
 * is not below `concepts`; a refusal changes no word.
 */
int64_t saltreeve_add_in(uint64_t *words, size_t length,
                         uint64_t items, uint64_t concepts, uint64_t roles,
                         uint64_t item, uint64_t in);

/*
 * Adds the statement that `role` links item a to item b, with all that follows
 * from it. Returns the number of cells newly true, 0 if the store said so
 * already. Refuses with -1, -2, or -4 if `role` is not below `roles` or a or b
 * is not below `items`; a refusal changes no word.
 */
int64_t saltreeve_add_link(uint64_t *words, size_t length,
                           uint64_t items, uint64_t concepts, uint64_t roles,
                           uint64_t role, uint64_t a, uint64_t b);

/* The words of one statement in the list that saltreeve_add_all takes. */
#define SALTREEVE_STATEMENT_WORDS 4

/*
 * Adds a list of statements one after the other, and asks only once whether the
 * store is closed. A statement is four words: its kind (SALTREEVE_KIND_..), then the
 * numbers a, b and c that the kind speaks of; c is read for a link alone. Takes as
 * many statements as `statements` has whole ones and `answers` has places for, the
 * first ones, and writes for each of them to `answers` exactly what the call for that
 * one statement would return at that point: the number of cells newly true, or -1,
 * -2 or -4. A kind that is none of the six is refused with -4. A statement that is
 * refused changes no word, and the next one is taken all the same. Words of
 * `statements` past the last whole statement are not read; answers past the last
 * statement taken are untouched, and no statement is added that has no place for its
 * answer. Returns the number of statements taken. The words, the statements and the
 * answers must not overlap; NULL is not allowed, also where a length is 0.
 */
int64_t saltreeve_add_all(uint64_t *words, size_t length,
                          uint64_t items, uint64_t concepts, uint64_t roles,
                          const uint64_t *statements, size_t statement_words,
                          int64_t *answers, size_t answers_length);

/*
 * Moves a store to the other size: every cell of `source` to its place in `target`,
 * where every other bit becomes 0, whatever the target held before. `items`,
 * `concepts` and `roles` are those of the source. Returns the number of cells moved.
 * Refuses with -1 unless one of the lengths is 4,528 and the other 70,192 and the
 * counts are within the limits of the source's size; with -2 if the source is not
 * closed; with -26 if the source is the larger and more than 128 items are declared.
 * A refusal changes no word of the target. The source is only read. There and back
 * gives the same words. The two must not overlap.
 */
int64_t saltreeve_convert(const uint64_t *source, size_t source_length,
                          uint64_t items, uint64_t concepts, uint64_t roles,
                          uint64_t *target, size_t target_length);

/*
 * Finds what breaks a rule. Returns the number of all findings and writes them to
 * `out`, two words each: an item and a second item, or SALTREEVE_NO_ITEM where the
 * rule is about one item only. They are in the order of the first item, then of the
 * second. As many are written as fit; the words past them are untouched, and so is
 * all of `out` by a refusal. Refuses with -1, -2, -3, or -4 if an item, concept or
 * role of the rule, or of one of its nodes, is not below its count. The store and
 * the rule are only read. `out` must not overlap them; NULL is not allowed, also
 * where a length is 0.
 */
int64_t saltreeve_findings(const uint64_t *words, size_t length,
                           uint64_t items, uint64_t concepts, uint64_t roles,
                           const uint64_t *rule, size_t rule_length,
                           uint64_t *out, size_t out_length);

/*
 * Compiles a rule to a query, whose answers in a store are the rule's findings.
 * Returns four times the number of its items, plus the number of its answer
 * variables (0, 1 or 2), and writes the items to `room`, four words each: a kind
 * (SALTREEVE_QUERY_..), the number of a concept or role or 0, the first term, the
 * second term or 0. A term is the number of a variable, from 0, the answer variables
 * first, or SALTREEVE_QUERY_ITEM + a for item a. All items of a query hold together.
 * What stands between an opening and its closing not does not hold: there are no
 * values at which it does for the variables first met in it, answer variables apart.
 * Any other variable need only have a value. A variable stands for a declared item,
 * also an answer variable that occurs nowhere. With no answer variable the query is
 * a yes or no: yes exactly if the rule has its one finding.
 * The words past the query are untouched, and so is the room by a refusal:
 *
 *   -1  a declared count is over its limit, that of items being 512
 *   -3  the rule is malformed
 *   -4  an item, concept or role number of the rule is not below its declared count
 *   -5  the query is longer than 512 items
 *   -6  room_length is under four words for each item
 *
 * Where more than one applies, the lowest number is given. The rule is only read. It
 * must not overlap the room; NULL is not allowed, also where a length is 0.
 */
int64_t saltreeve_compile(uint64_t items, uint64_t concepts, uint64_t roles,
                          const uint64_t *rule, size_t rule_length,
                          uint16_t *room, size_t room_length);

/*
 * Checks a sheet: writes to `room` the text that the program `check` prints for
 * it, which is its findings and their total, or the one line of a refused sheet.
 * The sheet is read as with the smaller store, so one of edition 2 is refused at
 * line 1 by 11; saltreeve_check_in takes both editions.
 * Returns the number of bytes written; the room past them is untouched. Returns
 * -8 exactly if the text is longer than the room, which is then untouched as a
 * whole. A sheet may have any bytes and any length. Both pointers must point to
 * as many bytes as their lengths say; NULL is not allowed, also where a length
 * is 0. The room must not overlap the sheet.
 */
int64_t saltreeve_check(const uint8_t *sheet, size_t sheet_length,
                        uint8_t *room, size_t room_length);

/*
 * The same with a lent store: reads the sheet into it, and writes the text of
 * saltreeve_check. The store is left as saltreeve_explain leaves it: what follows
 * from the statements of an accepted sheet; of a refused one, what the lines before
 * the refused one gave, or zeros if none of them was a statement or a rule; as it was
 * if the sheet has over 32,768 bytes. What was in it before does not matter. With
 * 70,192 words the sheet may be of either edition; with 4,528 words one of edition 2
 * is refused at line 1 by 11, and the store is zeros. If `length` is neither, the
 * sheet is not read, the words stay as they are, and the text is the line
 *
 *   refused 0 1
 *
 * with tabs between and a line feed. Returns the number of bytes written; the room
 * past them is untouched. Returns -8 exactly if the text is longer than the room,
 * which is then untouched as a whole; the store is left as reading the sheet leaves
 * it all the same. The sheet, the words and the room must not overlap; NULL is not
 * allowed, also where a length is 0.
 */
int64_t saltreeve_check_in(const uint8_t *sheet, size_t sheet_length,
                           uint64_t *words, size_t length,
                           uint8_t *room, size_t room_length);

/*
 * Says why: writes to `room` the text for a question about a sheet. The question
 * is one line, with or without a line feed at its end: a statement line, judged
 * as it would be in the sheet after its statements, or a line as the text of
 * saltreeve_check has them for findings. The text is a line for each statement line
 * of a reason, in the order of the sheet, for a finding a line that names the
 * cell that is absent, and the total of the statement lines; or one line:
 * `refused` with what the sheet is refused for, or, for an accepted sheet, with
 * line 0 and
 *
 *   24  the question is no statement line that the sheet would take, or its cell
 *       is not true
 *   25  the first field of the question is `finding`, and it is no finding of a
 *       rule `sub` with concept names on both sides
 *
 * The cell follows from the lines of a reason alone, and from no part of them
 * with a line taken out. Where there are several reasons, any one of them is
 * given. Returns the number of bytes written; the room past them is untouched.
 * Returns -8 exactly if the text is longer than the room, which is then
 * untouched as a whole. Sheet and question may have any bytes and any length.
 * The pointers must point to as many bytes as their lengths say; NULL is not
 * allowed, also where a length is 0. The room must not overlap the other two.
 * The store is the smaller one: a sheet of edition 2 is refused at line 1 by 11.
 */
int64_t saltreeve_why(const uint8_t *sheet, size_t sheet_length,
                      const uint8_t *question, size_t question_length,
                      uint8_t *room, size_t room_length);

/*
 * The same by number: reads the sheet into the lent store, and lists the line
 * numbers of a reason for the cell of the kind `kind` (SALTREEVE_KIND_..) with
 * the numbers a, b and, for a link alone, c; in the other kinds c is not read.
 * Items, concepts and roles have the numbers of their places among the
 * declarations of their kind, from 0. The sheet may be of either edition with
 * 70,192 words; with 4,528 one of edition 2 is refused at line 1 by 11. Returns the number of lines of the reason,
 * 0 for a cell that is true without any statement. The first of them, rising,
 * are in the list, as far as it reaches; the rest of the list is untouched.
 * Otherwise returns a refusal, and the list is untouched:
 *
 *   -1             `length` is neither 4,528 nor 70,192
 *   -9             the sheet has over 32,768 bytes
 *   -(100L + N)    line L of the sheet is refused by number N, which is 10 to
 *                  21: -316 is line 3, number 16
 *   -24            the cell is not true. So is one of another kind, or with a
 *                  number that is not below the sheet's count
 *
 * -1 and -9 change no word. Otherwise the store is left as reading the sheet
 * leaves it, for -24 as well: what follows from the statements of an accepted
 * sheet; of a refused one, what the lines before the refused one gave, or zeros
 * if none of them was a statement or a rule. The sheet, the words and the list
 * must not overlap; NULL is not allowed, also where a length is 0.
 */
int64_t saltreeve_explain(const uint8_t *sheet, size_t sheet_length,
                          uint64_t *words, size_t length,
                          uint64_t kind, uint64_t a, uint64_t b, uint64_t c,
                          uint32_t *list, size_t list_length);

/*
 * The same for a finding: `rule` is the number of the rule among the sheet's
 * rules, from 0, and `item` the number of an item that breaks it. Lists the line
 * numbers of a reason for the item's being in the concept on the rule's left
 * side. Returns the number of these lines plus 1,000,000 times the number of the
 * concept on the right side, in which the item is not. Otherwise returns a
 * refusal as above, and the list is untouched; in the place of -24 there is
 *
 *   -25            the sheet has no rule with that number, the rule is no `sub`
 *                  with concept names on both sides, or the item does not break
 *                  it; a number that is not below the count of items breaks none
 */
int64_t saltreeve_explain_finding(const uint8_t *sheet, size_t sheet_length,
                                  uint64_t *words, size_t length,
                                  uint64_t rule, uint64_t item,
                                  uint32_t *list, size_t list_length);

#ifdef __cplusplus
}
#endif

#endif
