"""The faults that are planted in the oracle for sheets, to see that the cases find them.

Each is a name in tests/oracle_sheets.py, or an entry of one of its tables, and what is
put in its place. Most of the functions below are such replacements; they use the sound
functions, which are kept under names that end in _sound.
"""

import re

import oracle
import oracle_rules
import oracle_sheets as sheets
from oracle_rules import NO_ITEM
from oracle_sheets import OPERATORS, RULES, STATEMENTS

lines_sound, unknown_sound = sheets.lines_of, sheets.word_unknown
fields_faults_sound, new_name_sound, name_faults_sound = sheets.fields_faults, sheets.new_name_faults, sheets.name_faults
field_faults_sound, count_sound, rule_faults_sound = sheets.field_faults, sheets.count_faults, sheets.rule_faults
places_sound, accept_sound, date_sound, cell_sound = sheets.places_of, sheets.accept, sheets.is_date, sheets.cell_of
days_sound = sheets.days_of
findings_sound, finding_line_sound, refused_sound = sheets.findings_of, sheets.finding_line, sheets.refused
given_sound, words_sound = sheets.words_if_refused, sheets.words_if_accepted
numbered_sound = sheets.numbered_lines

# --- Lines, fields, words ---


# Lines that also end in a carriage return.
def lines_by_cr(sheet):
    return lines_sound(sheet.replace(b"\r\n", b"\n"))


# Empty lines left out before lines are numbered.
def lines_not_empty(sheet):
    lines = lines_sound(sheet)
    return lines[:1] + [line for line in lines[1:] if line]


# The lines that end in a line feed.
def lines_ended(sheet):
    return sheet.decode("latin-1").split("\n")[:-1]


# Whether the header is the first line that is not empty.
def lines_from_first(sheet):
    return lines_sound(sheet.lstrip(b"\n"))


# Fields parted by any number of tabs.
def fields_by_tabs(line):
    return re.split("\t+", line)


# Fields without one that is empty at the end.
def fields_without_end(line):
    return line.split("\t")[:-1] if line.endswith("\t") else line.split("\t")


# Fields without blanks around them.
def fields_trimmed(line):
    return [field.strip(" ") for field in line.split("\t")]


# Fields whose first word may be in capitals.
def fields_of_any_case(line):
    first, *rest = line.split("\t")
    return [first.lower(), *rest]


# Blank lines like empty ones.
def lines_without_blanks(sheet):
    return ["" if line.strip(" ") == "" and len(line) <= 512 else line for line in lines_sound(sheet)]


# An unknown rule word as too few fields; an empty one only, or any.
def rule_word_passed(passed):
    def faults(sheet, fields):
        unknown = fields[0] == "rule" and len(fields) > 1 and fields[1] not in RULES
        return {14} if unknown and passed(fields[1]) else fields_faults_sound(sheet, fields)
    return faults


# `rule` alone as an unknown word.
def rule_alone_unknown(fields):
    return fields == ["rule"] or unknown_sound(fields)


# --- Which number comes first ---


# The number of the first bad field in place of the least.
def first_field_first(sheet, fields):
    if fields_faults_sound(sheet, fields) & {10, 12, 13, 14} or fields[0] not in (*STATEMENTS, "rule"):
        return fields_faults_sound(sheet, fields)
    found = [sheets.field_faults(sheet, *place) for place in sheets.line_places(fields)]
    return next((faults for faults in found if faults), fields_faults_sound(sheet, fields))


# One number before another where both apply.
def before(first, second):
    def faults(sheet, fields):
        found = fields_faults_sound(sheet, fields)
        return found - {second} if first in found and min(found) == second else found
    return faults


# 14 before 13.
def shape_before_section(sheet, fields):
    found = fields_faults_sound(sheet, fields)
    return found - {13} if 14 in found else found


# 13 before 12.
def section_before_word(sheet, fields):
    found = fields_faults_sound(sheet, fields)
    return {13} if found == {12} and sheet.section == 2 and fields[0] == "sheet" else found


# A bad byte anywhere found before the lines are read.
def bytes_screened(sheet_bytes):
    numbered = numbered_sound(sheet_bytes)
    bad = [(number, line) for number, line in numbered if sheets.line_is_bad(line)]
    return bad[:1] or numbered


# A 65th rule refused before its fields are looked at.
def full_before_fields(sheet, fields):
    if fields[0] == "rule" and len(sheet.rules) >= 64 and not fields_faults_sound(sheet, fields) & {12, 14}:
        return {18}
    return fields_faults_sound(sheet, fields)


# A full table of names found before the name is looked at.
def full_before_name(sheet, kind, text):
    found = new_name_sound(sheet, kind, text)
    return {18} if 18 in found else found


# Fields after the 32nd node not looked at.
def nothing_after_node_32(sheet, fields):
    found = fields_faults_sound(sheet, fields)
    return {21} if 21 in found else found


# --- Sections ---


# Sections that are asked in a way of their own.
def section_asked(ends):
    return lambda sheet, word: ends(sheets.section_of(word), sheet.section)


# Takes in a line without ending the section before, for some lines.
def accept_without_end(passed):
    def accept(sheet, number, fields):
        section = sheet.section
        accept_sound(sheet, number, fields)
        sheet.section = section if passed(fields) else sheet.section
    return accept


# The kinds of declaration in a fixed order.
def kinds_in_order(sheet, fields):
    found = fields_faults_sound(sheet, fields)
    order = ("concept", "role", "item")
    later = order[order.index(fields[0]) + 1:] if fields[0] in order else ()
    return found | ({13} if any(sheet.names[kind] for kind in later) else set())


# --- Shapes ---


# Too many fields passed over.
def more_fields_passed(due, fields):
    for end in range(len(fields) + 1):
        places = places_sound(due, fields[:end])
        if places is not None:
            return places
    return None


# Reserved words read as operators at any place of an expression.
def operators_everywhere(due, fields):
    if "expression" in due and any(fields[at - 1] in ("some", "all") and field in OPERATORS
                                   for at, field in enumerate(fields) if at):
        return None
    return places_sound(due, fields)


# Chains of other lengths.
def chains_of(lengths):
    return lambda fields: [("role", field) for field in fields] if len(fields) in lengths else None


# --- Names ---


# Whether a text is made of letters, and so many at most.
def named_by(letters, least=1, most=24):
    return lambda text: re.fullmatch(letters, text) is not None and least <= len(text) <= most


# Names of a role with any number of `~`.
def role_name_stripped(text):
    return text.lstrip("~")


# Reserved words where a statement names a concept, as names that are not declared.
def reserved_not_declared(sheet, kind, text):
    return {19} if kind == "concept" and text in OPERATORS else name_faults_sound(sheet, kind, text)


# `~` taken before a kind of place.
def inverse_taken(what):
    def faults(sheet, place, text):
        return field_faults_sound(sheet, place, text[1:] if place == what and text.startswith("~") else text)
    return faults


# `~` refused where a role is due.
def inverse_refused(sheet, what, text):
    return field_faults_sound(sheet, "plain role" if what == "role" else what, text)


# A role of 24 bytes refused behind `~`.
def inverse_counted(sheet, what, text):
    return {15} if what == "role" and len(text) > 24 else field_faults_sound(sheet, what, text)


# An undeclared name behind `~` in a statement `rel` as not declared.
def plain_role_stripped(sheet, what, text):
    found = field_faults_sound(sheet, what, text)
    stripped = text[1:] if text.startswith("~") else text
    return {19} if what == "plain role" and found == {15} and stripped not in sheet.names["role"] and stripped else found


# Dates by another pattern.
def dates_by(days, months, least=1, most=31):
    def is_date(text):
        parts = re.fullmatch(f"({days})-({months})", text)
        return (parts is not None and parts.group(2).lower() in sheets.MONTHS
                and least <= int(parts.group(1)) <= min(most, sheets.days_of(parts.group(2).lower())))
    return is_date


# Months with their days, but for one, which has so many more.
def days_but(month, more):
    return lambda other: days_sound(other) + more * (other == month)


# Months of 31 and 30 days in turn, to the end of the year.
def days_in_turn(month):
    return 29 if month == "feb" else 31 - sheets.MONTHS.index(month) % 2


# Date-shaped names refused for all kinds.
def dates_of_all_kinds(sheet, kind, text):
    return new_name_sound(sheet, kind, text) | ({16} if sheets.is_date(text) else set())


# Dates refused where an item is used.
def dates_where_used(sheet, kind, text):
    return {16} if kind == "item" and sheets.is_date(text) else name_faults_sound(sheet, kind, text)


# A name declared in any kind as declared already.
def declared_in_any_kind(sheet, kind, text):
    others = any(text in names for names in sheet.names.values())
    return new_name_sound(sheet, kind, text) | ({17} if others else set())


# Names looked up in every kind.
def looked_up_anywhere(sheet, kind, text):
    found = name_faults_sound(sheet, kind, text)
    return set() if found == {19} and any(text in names for names in sheet.names.values()) else found


# Names compared without regard to capitals.
def any_case_declared(sheet, kind, text):
    again = text.lower() in [name.lower() for name in sheet.names[kind]]
    return new_name_sound(sheet, kind, text) | ({17} if again else set())


# --- Counts and nodes ---


# Counts that are other texts.
def counts_of(at_least, at_most):
    return lambda what, text: set() if text in (at_most if what == "count from 0" else at_least) else {20}


# A count that is empty as no name.
def count_as_name(what, text):
    return {15} if count_sound(what, text) and not sheets.is_name(text) else count_sound(what, text)


# Nodes counted another way.
def nodes_by(changed):
    def node_count(tree):
        return changed(tree) + sum(node_count(part) for part, what in zip(tree[1:], oracle_rules.NODE_FIELDS[tree[0]])
                                   if what == "node")
    return node_count


# Nodes of the larger side only.
def nodes_of_one_side(sheet, fields):
    found = rule_faults_sound(sheet, fields) - {21}
    return found | ({21} if max([sheets.node_count(tree) for tree in sheets.expressions_of(fields)] or [0]) > 32 else set())


# The item of `in` counted as one node more.
def item_counted(sheet, fields):
    nodes = sum(sheets.node_count(tree) for tree in sheets.expressions_of(fields))
    return rule_faults_sound(sheet, fields) | ({21} if fields[1] == "in" and nodes > 31 else set())


# Nodes counted before short forms are expanded.
def nodes_as_written(sheet, fields):
    found = rule_faults_sound(sheet, fields) - {21}
    places = sheets.line_places(fields)
    leaves = sum(1 for what, _ in places if what == "concept")
    written = leaves + sum(1 for field in fields[2:] if field in OPERATORS)
    return found | ({21} if sheets.expressions_of(fields) and written > 32 else set())


# --- Statements and rules ---


# A cell that is another one than stated.
def cells_by(change):
    return lambda sheet, fields: change(cell_sound(sheet, fields), fields)


# The cell of `runder` by which sides have `~`.
def role_step(inverse):
    def change(cell, fields):
        sides = [text.startswith("~") for text in fields[1:]]
        return (*cell[:3], int(inverse(*sides))) if cell[0] == "role_under" else cell
    return cells_by(change)


# Statements only noted, nothing following from them.
def nothing_follows(sheet):
    cells = oracle.Cells(sheet.counts())
    oracle.same_reflexive(cells)
    oracle.under_reflexive(cells)
    oracle.role_under_reflexive(cells)
    for cell in sheet.statements:
        cells.set(cell)
    return cells


# Findings changed before they are printed.
def findings_by(change):
    return lambda sheet, cells: change(sheet, findings_sound(sheet, cells))


# Findings by the names of their items.
def by_names(sheet, findings):
    names = list(sheet.names["item"])
    return sorted(findings, key=lambda found: (found[0], names[found[1]], found[2]))


# One finding for each article.
def by_article(sheet, findings):
    same = sheets.cells_after(sheet).same
    return list({(rule, same[first], second if second == NO_ITEM else same[second]): (rule, first, second)
                 for rule, first, second in reversed(findings)}.values())[::-1]


# A finding's line with something else in it.
def finding_by(change):
    return lambda sheet, finding: change(sheet, *finding)


# The rule's number from 1 in place of its line.
def line_by_rule(sheet, number, first, second):
    line = finding_line_sound(sheet, (number, first, second)).split("\t")
    return "\t".join([line[0], str(number + 1), *line[2:]])


# The item twice where there is no second.
def item_twice(sheet, number, first, second):
    return finding_line_sound(sheet, (number, first, first if second == NO_ITEM else second))


# The pair of an inverse role the other way round.
def inverse_pair_turned(sheet, number, first, second):
    head = sheet.rules[number][1].head
    turned = head.kind in ("rel", "norel") and head.fields[0][1].inverse
    return finding_line_sound(sheet, (number, second, first) if turned else (number, first, second))


# Only so many lines for findings.
def text_cut(lines, total):
    def text(sheet, findings):
        shown = "".join(sheets.finding_line(sheet, finding) for finding in findings[:lines])
        return shown + sheets.printed("total", total(len(findings)))
    return text


# A refused sheet with the findings of the rules before.
def refused_with_findings(sheet, line, faults, words):
    outcome = refused_sound(sheet, line, faults, words)
    if not sheet.rules:
        return outcome
    found = sheets.findings_of(sheet, sheets.cells_after(sheet))
    return outcome._replace(text="".join(sheets.finding_line(sheet, each) for each in found) + outcome.text)


# --- The store ---


# A store left fresh, or as what the lines gave, whatever the lines were.
def always_given(sheet):
    return sheets.words_in(sheet, sheets.cells_after(sheet))


# A store left all zero.
def always_zero(sheet):
    return sheets.ALL_ZERO


# A store that rules do not make fresh.
def rules_not_counted(sheet):
    return given_sound(sheet) if sheet.statements else sheets.ALL_ZERO


# A store left untouched by any refusal.
def never_touched(sheet):
    return None


# A store that 9 clears.
def cleared_by_9(sheet, line, faults, words):
    return refused_sound(sheet, line, faults, sheets.ALL_ZERO if words is None else words)


# A fresh store only where there are statements or rules.
def fresh_if_used(sheet, cells):
    words = words_sound(sheet, cells)
    plain = oracle.fresh(words, oracle.Counts(len(cells.same), len(cells.under), len(cells.links)))[1]
    return sheets.ALL_ZERO if words == tuple(plain) else words


NAMES = "[A-Za-z0-9._/-]*"


# A line is bad by other bytes, or only by its bytes.
def bad_by(letter, most=512):
    return lambda line: len(line) > most or any(letter(ord(c)) for c in line)


# Whether a byte is bad.
def is_bad(byte):
    return not (32 <= byte <= 126 or byte == 9)


# Faults of lines, fields, words and sections: what is changed in the oracle for each.
def line_fault_table():
    return {
        "carriage returns end lines": ("lines_of", lines_by_cr),
        "empty lines are not numbered": ("lines_of", lines_not_empty),
        "a last line without an end is lost": ("lines_of", lines_ended),
        "the header may come later": ("lines_of", lines_from_first),
        "tabs in a row are one": ("fields_of", fields_by_tabs),
        "a tab at the end is passed over": ("fields_of", fields_without_end),
        "fields are trimmed": ("fields_of", fields_trimmed),
        "first words in capitals are known": ("fields_of", fields_of_any_case),
        "blank lines are skipped": ("lines_of", lines_without_blanks),
        "sheets of 32,768 bytes are too long": ("SHEET_BYTES", 32767),
        "sheets of 32,769 bytes are taken": ("SHEET_BYTES", 32769),
        "line feeds do not count": ("sheet_too_long", lambda sheet: len(sheet.replace(b"\n", b"")) > 32768),
        "lines of 512 bytes are too long": ("LINE_BYTES", 511),
        "lines of 513 bytes are taken": ("LINE_BYTES", 513),
        "long lines are taken": ("line_is_bad", bad_by(is_bad, 10**6)),
        "127 is taken": ("line_is_bad", bad_by(lambda b: is_bad(b) and b != 127)),
        "bytes from 128 on are taken": ("line_is_bad", bad_by(lambda b: is_bad(b) and b < 128)),
        "carriage returns are taken": ("line_is_bad", bad_by(lambda b: is_bad(b) and b != 13)),
        "zeros are taken": ("line_is_bad", bad_by(lambda b: is_bad(b) and b != 0)),
        "blanks are bad": ("line_is_bad", bad_by(lambda b: is_bad(b) or b == 32)),
        "bad bytes are found before all": ("numbered_lines", bytes_screened),
        "any edition is taken": ("is_header", lambda line: line.startswith("sheet\t") and len(line.split("\t")) == 2),
        "a longer header is taken": ("is_header", lambda line: line.startswith("sheet\t1")),
        "a header with a blank is taken": ("is_header", lambda line: line in ("sheet\t1", "sheet 1")),
        "a header with a leading 0 is taken": ("is_header", lambda line: line in ("sheet\t1", "sheet\t01")),
        "a header with a tab at its end is taken": ("is_header", lambda line: line in ("sheet\t1", "sheet\t1\t")),
        "edition 2 is taken": ("is_header", lambda line: line in ("sheet\t1", "sheet\t2")),
        "edition 2 is taken with any store": ("is_second_header", lambda size, line: line == sheets.HEADER_2),
        "an empty sheet is taken": ("numbered_lines", lambda sheet: list(enumerate(lines_sound(sheet), 1))),
        "unknown rule words have too few fields": ("fields_faults", rule_word_passed(lambda word: True)),
        "rule alone is an unknown word": ("word_unknown", rule_alone_unknown),
        "an empty rule word is too few fields": ("fields_faults", rule_word_passed(lambda word: word == "")),
        "the first bad field counts": ("fields_faults", first_field_first),
        "14 before 13": ("fields_faults", shape_before_section),
        "13 before 12": ("fields_faults", section_before_word),
        "no section ends": ("section_ended", section_asked(lambda word, now: False)),
        "declarations may follow statements": ("section_ended", section_asked(lambda word, now: word < now and now == 2)),
        "declarations may follow rules": ("section_ended", section_asked(lambda word, now: word < now and word == 1)),
        "statements may follow rules": ("section_ended", section_asked(lambda word, now: word == 0 and now > 0)),
        "only one rule line stands": ("section_ended", section_asked(lambda word, now: word < now or word == now == 2)),
        "same a a is no statement": ("accept", accept_without_end(lambda f: f[0] == "same" and f[1] == f[2])),
        "rules end nothing": ("accept", accept_without_end(lambda f: f[0] == "rule")),
        "kinds are declared in order": ("fields_faults", kinds_in_order),
    }


# Faults of shapes, names, dates and tables.
def name_fault_table():
    either = "(?i:[a-z]{3})"
    return {
        "too many fields are taken": ("places_of", more_fields_passed),
        "operators as roles are operators": ("places_of", operators_everywhere),
        "chains of 2 roles are taken": ("chain_places", chains_of((2, 3, 4, 5))),
        "chains of 3 roles are refused": ("chain_places", chains_of((4, 5))),
        "chains of 5 roles are refused": ("chain_places", chains_of((3, 4))),
        "chains of 6 roles are taken": ("chain_places", chains_of((3, 4, 5, 6))),
        **{f"{second} before {first}": ("fields_faults", before(second, first)) for first, second in
           ((13, 15), (13, 17), (13, 19), (15, 18), (15, 19), (15, 20), (15, 21), (16, 18), (17, 18), (18, 19), (18, 20),
            (18, 21), (19, 20), (19, 21), (20, 21))},
        "a 65th rule is not looked at": ("fields_faults", full_before_fields),
        "full tables are found first": ("new_name_faults", full_before_name),
        "nothing is read after node 32": ("fields_faults", nothing_after_node_32),
        "names of 25 bytes are taken": ("NAME_BYTES", 25),
        "names of 24 bytes are refused": ("NAME_BYTES", 23),
        "empty names are taken": ("is_name", named_by(NAMES, 0)),
        "names with blanks are taken": ("is_name", named_by("[A-Za-z0-9._/ -]*")),
        "names with commas are taken": ("is_name", named_by("[A-Za-z0-9._/,-]*")),
        "names with + are taken": ("is_name", named_by("[A-Za-z0-9._/+-]*")),
        "names with ~ are taken": ("is_name", named_by("[A-Za-z0-9._/~-]*")),
        "names with slashes are refused": ("is_name", named_by("[A-Za-z0-9._-]*")),
        "names of digits are refused": ("is_name", named_by("[A-Za-z._/-][A-Za-z0-9._/-]*")),
        "reserved words are concept names": ("is_concept_name", lambda text: sheets.is_name(text)),
        "reserved words in capitals are refused": ("is_concept_name",
                                                   lambda text: sheets.is_name(text) and text.lower() not in OPERATORS),
        "reserved words are not declared": ("name_faults", reserved_not_declared),
        "reserved words are no names at all": ("is_name", lambda text: named_by(NAMES)(text) and text not in OPERATORS),
        "many ~ are taken": ("role_name", role_name_stripped),
        "~ is taken in rel": ("field_faults", inverse_taken("plain role")),
        "~ is taken before concepts": ("field_faults", inverse_taken("concept")),
        "~ is taken before items": ("field_faults", inverse_taken("item")),
        "~ is taken before new roles": ("field_faults", inverse_taken("new role")),
        "~ is never taken": ("field_faults", inverse_refused),
        "~ counts among the 24": ("field_faults", inverse_counted),
        "~q in rel is not declared": ("field_faults", plain_role_stripped),
        "dates of one digit are not seen": ("is_date", dates_by("[0-9]{2}", either)),
        "dates of two digits are not seen": ("is_date", dates_by("[0-9]", either)),
        "dates of three digits are seen": ("is_date", dates_by("[0-9]{1,3}", either)),
        "day 0 is a day": ("is_date", dates_by("[0-9]{1,2}", either, 0)),
        "day 31 is none": ("is_date", dates_by("[0-9]{1,2}", either, 1, 30)),
        "dates in capitals are not seen": ("is_date", dates_by("[0-9]{1,2}", "[A-Z][a-z]{2}")),
        "dates of mixed letters are not seen": ("is_date", dates_by("[0-9]{1,2}", "[A-Z]{3}|[a-z]{3}|[A-Z][a-z]{2}")),
        "all months have 31 days": ("days_of", lambda month: 31),
        "all months but February have 31 days": ("days_of", lambda month: 29 if month == "feb" else 31),
        "months have 31 and 30 days in turn": ("days_of", days_in_turn),
        **{f"{month} has a day more": ("days_of", days_but(month, 1)) for month in sheets.MONTHS},
        **{f"{month} has a day less": ("days_of", days_but(month, -1)) for month in sheets.MONTHS},
        "dates may have more after them": ("is_date", lambda text: date_sound(text[:5]) or date_sound(text[:6])),
        "dates may be the other way round": ("is_date",
                                             lambda text: date_sound(text) or date_sound("-".join(text.split("-")[::-1]))),
        "May is no month": ("is_date", lambda text: date_sound(text) and not text.lower().endswith("may")),
        "dates are refused for all kinds": ("new_name_faults", dates_of_all_kinds),
        "dates are refused where used": ("name_faults", dates_where_used),
        "names are of one kind only": ("new_name_faults", declared_in_any_kind),
        "names are found in any kind": ("name_faults", looked_up_anywhere),
        "names may differ by more than capitals only": ("new_name_faults", any_case_declared),
        "names may be declared twice": ("new_name_faults", lambda *given: new_name_sound(*given) - {17}),
        "any name is declared": ("name_faults", lambda *given: name_faults_sound(*given) - {19}),
        **{f"{most} {kind}s at most": ("MOST_NAMES", {**sheets.MOST_NAMES, kind: most}) for kind, most in
           (("item", 127), ("item", 129), ("concept", 31), ("concept", 33), ("role", 15), ("role", 17))},
        "63 rules at most": ("MOST_RULES", 63),
        "65 rules at most": ("MOST_RULES", 65),
    }


# Faults of counts, nodes and meanings.
def rule_fault_table():
    eight, seven = tuple("12345678"), tuple("01234567")
    one = nodes_by(lambda tree: 1)
    return {
        "count 0 is taken": ("count_faults", counts_of(("0", *eight), seven)),
        "count 9 is taken": ("count_faults", counts_of((*eight, "9"), seven)),
        "count 8 is refused": ("count_faults", counts_of(eight[:7], seven)),
        "at most 0 is refused": ("count_faults", counts_of(eight, seven[1:])),
        "at most 8 is taken": ("count_faults", counts_of(eight, (*seven, "8"))),
        "at most 7 is refused": ("count_faults", counts_of(eight, seven[:7])),
        "leading zeros are taken": ("count_faults", counts_of((*eight, *("0" + n for n in eight)), seven)),
        "bad counts are no names": ("count_faults", count_as_name),
        "31 nodes at most": ("NODE_LIMIT", 31),
        "33 nodes at most": ("NODE_LIMIT", 33),
        "nodes are counted as written": ("rule_faults", nodes_as_written),
        "nodes of one side are counted": ("rule_faults", nodes_of_one_side),
        "nots are not counted": ("node_count", nodes_by(lambda tree: int(tree[0] != "not"))),
        "names are not counted": ("node_count", nodes_by(lambda tree: int(tree[0] != "name"))),
        "two nots are none": ("node_count", nodes_by(lambda tree: -1 if tree[0] == "not" and tree[1][0] == "not" else 1)),
        "roles are counted": ("node_count", nodes_by(lambda tree: 2 if tree[0] in ("self", "at least") else 1)),
        "the item of in is counted": ("rule_faults", item_counted),
        "every rule has its nodes": ("node_count", lambda tree: one(tree) + 1),
        "runder passes over the left ~": ("cell_of", role_step(lambda left, right: right)),
        "runder passes over the right ~": ("cell_of", role_step(lambda left, right: left)),
        "runder with two ~ is to the inverse": ("cell_of", role_step(lambda left, right: left or right)),
        "runder is turned": ("cell_of", cells_by(lambda cell, fields: (cell[0], cell[2], cell[1], cell[3])
                                                 if cell[0] == "role_under" else cell)),
        "under is turned": ("cell_of", cells_by(lambda cell, fields: (cell[0], cell[2], cell[1])
                                                if cell[0] == "under" else cell)),
        "rel is turned": ("cell_of", cells_by(lambda cell, fields: (*cell[:2], cell[3], cell[2])
                                              if cell[0] == "link" else cell)),
        "inverses are read forwards": ("is_inverse", lambda text: False),
        "nothing follows from statements": ("cells_after", nothing_follows),
        "findings go by name": ("findings_of", findings_by(by_names)),
        "findings go by first item": ("findings_of", findings_by(lambda sheet, found: sorted(found, key=lambda f: f[1:]))),
        "findings go backwards": ("findings_of", findings_by(lambda sheet, found: found[::-1])),
        "articles are found once": ("findings_of", findings_by(by_article)),
        "pairs are found once": ("findings_of", findings_by(
            lambda sheet, found: [f for f in found if f[2] == NO_ITEM or f[1] <= f[2] or (f[0], f[2], f[1]) not in found])),
        "rules said twice count once": ("findings_of", findings_by(
            lambda sheet, found: [f for f in found if sheet.rules[f[0]][1] not in [r for _, r in sheet.rules[:f[0]]]])),
        "there are no findings": ("findings_of", findings_by(lambda sheet, found: [])),
        "rules are printed by number": ("finding_line", finding_by(line_by_rule)),
        "second items are always printed": ("finding_line", finding_by(item_twice)),
        "second items are never printed": ("finding_line", finding_by(
            lambda sheet, number, first, second: finding_line_sound(sheet, (number, first, NO_ITEM)))),
        "pairs of inverses are turned": ("finding_line", finding_by(inverse_pair_turned)),
        "items are printed by number": ("finding_line", finding_by(
            lambda sheet, number, first, second: sheets.printed("finding", sheet.rules[number][0], first))),
        "fields are parted by blanks": ("printed", lambda *fields: " ".join(str(field) for field in fields) + "\n"),
        "lines end in a carriage return": ("printed", lambda *fields: "\t".join(str(f) for f in fields) + "\r\n"),
        "199 findings are printed": ("findings_text", text_cut(199, lambda total: total)),
        "201 findings are printed": ("findings_text", text_cut(201, lambda total: total)),
        "all findings are printed": ("findings_text", text_cut(None, lambda total: total)),
        "the total stops at 200": ("findings_text", text_cut(200, lambda total: min(total, 200))),
        "the total is of 16 bits": ("findings_text", text_cut(200, lambda total: total % 2**16)),
        "the total counts from 200 on": ("findings_text", text_cut(200, lambda total: max(total - 200, 0))),
        "findings are printed before a refusal": ("refused", refused_with_findings),
        "the store is fresh before statements": ("words_if_refused", always_given),
        "a refusal clears the store": ("words_if_refused", always_zero),
        "rules make no store fresh": ("words_if_refused", rules_not_counted),
        "a refusal leaves the store": ("words_if_refused", never_touched),
        "9 clears the store": ("refused", cleared_by_9),
        "a store without statements is zero": ("words_if_accepted", fresh_if_used),
    }


# Faults of the words' meanings: entries of the tables of operators and of rules.
def table_faults():
    expansions, rules = sheets.EXPANSIONS, oracle_rules.BROKEN
    return {
        "or is and": (expansions, "or", expansions["and"]),
        "and is or": (expansions, "and", expansions["or"]),
        "all is some": (expansions, "all", expansions["some"]),
        "some is all": (expansions, "some", expansions["all"]),
        "at most n is at least n": (expansions, "atmost", lambda n, R, C: ("at least", (n, 0), R, C)),
        "at most n is less than n": (expansions, "atmost", lambda n, R, C: ("not", ("at least", (n, 0), R, C))),
        "at least n is more than n": (expansions, "atleast", lambda n, R, C: ("at least", (n, 1), R, C)),
        "bot is top": (expansions, "bot", lambda: ("top",)),
        "top is bot": (expansions, "top", lambda: ("not", ("top",))),
        "self is some": (expansions, "self", lambda R: ("at least", ("1", 0), R, ("top",))),
        "one is top": (expansions, "one", lambda a: ("top",)),
        "not is passed over": (expansions, "not", lambda C: C),
        "not not is left out": (expansions, "not", lambda C: C[1] if C[0] == "not" else ("not", C)),
        "sub is turned": (rules, "sub", lambda meaning, C, D: oracle_rules.broken_sub(meaning, D, C)),
        "rsub is turned": (rules, "rsub", lambda meaning, R, S: oracle_rules.broken_rsub(meaning, S, R)),
        "chains stop one role early": (rules, "chain", lambda meaning, k, *roles: oracle_rules.broken_chain(
            meaning, k - 1, *roles)),
        "ref is irr": (rules, "ref", oracle_rules.broken_irr),
        "irr is ref": (rules, "irr", oracle_rules.broken_ref),
        "dis is rsub": (rules, "dis", oracle_rules.broken_rsub),
        "in asks that it holds": (rules, "in", lambda meaning, C, a: [(a, NO_ITEM)] if meaning.holds(C, a) else []),
        "rel is norel": (rules, "rel", oracle_rules.broken_norel),
        "norel is rel": (rules, "norel", oracle_rules.broken_rel),
        "same is differ": (rules, "same", oracle_rules.broken_differ),
        "differ is same": (rules, "differ", oracle_rules.broken_same),
    }


# All faults: the place, the name in it, and what takes its place.
def all_faults():
    found = {**line_fault_table(), **name_fault_table(), **rule_fault_table()}
    return {**{name: (sheets, *fault) for name, fault in found.items()}, **table_faults()}
