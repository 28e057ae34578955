/* Gelumbrio: a Japanese line composer on a shared sheet of 32-bit words.
 *
 * A sheet is P slots of GELUMBRIO_SLOT_WORDS words each, P from 1 to GELUMBRIO_MOST_SLOTS. A slot holds, in order, a
 * head, GELUMBRIO_MOST_RECORDS records, as many places of records and as many lines; the enums below say which words
 * these have. Words past the counts are 0. A program should lend a sheet of at most 5 slots. That is advice: up to
 * GELUMBRIO_MOST_SLOTS are accepted.
 *
 * Every call takes any words, bytes, numbers and lengths, and ends. A refused call changes no word of the sheet. Each
 * slice passes as a pointer, then its length: in words, and in bytes for a text. With length 0 nothing is read through
 * the pointer, which must still not be NULL. The sheet overlaps no other slice of its call, and nobody else writes to
 * it meanwhile. Link with libgelumbrio.a (`rt lib` in crates/gelumbrio), which is for x86-64 Linux.
 */
#ifndef GELUMBRIO_H
#define GELUMBRIO_H

#include <stddef.h>
#include <stdint.h>

#ifdef __cplusplus
extern "C" {
#endif

/* Limits. */
enum {
    GELUMBRIO_MOST_SLOTS = 64,                     /* of a sheet, which has at least 1 */
    GELUMBRIO_MOST_RECORDS = 256,                  /* of a slot */
    GELUMBRIO_MOST_LINES = GELUMBRIO_MOST_RECORDS, /* of a slot: every line has a record */
    GELUMBRIO_HIGHEST_CLINIC = 65535,              /* from 1; clinic 0 is unassigned */
    GELUMBRIO_LEAST_MEASURE = 8,
    GELUMBRIO_LARGEST_MEASURE = 1000000,           /* an indent is below its measure */
    GELUMBRIO_LEAST_SIZE = 8,                      /* every size is a multiple of it */
    GELUMBRIO_LARGEST_SIZE = 4000,
    GELUMBRIO_HIGHEST_GROUP = 65535,               /* from 1; group 0 is none, and has no ruby */
    GELUMBRIO_MOST_GROUPED = 16,                   /* records of a group */
    GELUMBRIO_MOST_RUBY = 64,                      /* ruby characters over a group, which has at least 1 */
    GELUMBRIO_LARGEST_BASE = 64000                 /* base advance of a ruby place, which is at least 1 */
};

/* The words of a slot's head, after which two are 0. */
enum {
    GELUMBRIO_CLINIC_AT = 0,
    GELUMBRIO_MEASURE_AT = 1,
    GELUMBRIO_INDENT_AT = 2,
    GELUMBRIO_RECORD_COUNT_AT = 3,
    GELUMBRIO_LINE_COUNT_AT = 4,
    GELUMBRIO_IN_USE_AT = 5, /* 0 or 1 */
    GELUMBRIO_HEAD_WORDS = 8
};

/* The words of a record. Its advance is half its size in the classes 1, 2, 5, 6 and 7, from 1 to its size in class 3,
 * from 1 to twice its size in class 27, and its size in the others. Records in groups are of the classes 15, 16 and 19.
 * Neighbours of one group number are one group, and have the same size and ruby count. */
enum {
    GELUMBRIO_RECORD_CODE_POINT = 0,
    GELUMBRIO_RECORD_CLASS = 1,
    GELUMBRIO_RECORD_SIZE = 2,
    GELUMBRIO_RECORD_ADVANCE = 3,
    GELUMBRIO_RECORD_GROUP = 4,
    GELUMBRIO_RECORD_RUBY_COUNT = 5,
    GELUMBRIO_RECORD_WORDS = 6
};

/* The words of a record's place. */
enum { GELUMBRIO_PLACE_X = 0, GELUMBRIO_PLACE_LINE = 1, GELUMBRIO_PLACE_WORDS = 2 };

/* The words of a line. */
enum {
    GELUMBRIO_LINE_FIRST_RECORD = 0,
    GELUMBRIO_LINE_END_X = 1,
    GELUMBRIO_LINE_KIND = 2,
    GELUMBRIO_LINE_WORDS = 3
};

/* Where the parts of a slot start, and how long it is: 2,824 words. */
enum {
    GELUMBRIO_RECORDS_AT = GELUMBRIO_HEAD_WORDS,
    GELUMBRIO_PLACES_AT = GELUMBRIO_RECORDS_AT + GELUMBRIO_MOST_RECORDS * GELUMBRIO_RECORD_WORDS,
    GELUMBRIO_LINES_AT = GELUMBRIO_PLACES_AT + GELUMBRIO_MOST_RECORDS * GELUMBRIO_PLACE_WORDS,
    GELUMBRIO_SLOT_WORDS = GELUMBRIO_LINES_AT + GELUMBRIO_MOST_LINES * GELUMBRIO_LINE_WORDS
};

/* The kinds of lines: one ends at the measure, or before it, as nothing in it could be stretched so far, or it is the
 * paragraph's last, which is never stretched. */
enum { GELUMBRIO_KIND_FLUSH = 1, GELUMBRIO_KIND_SHORT = 2, GELUMBRIO_KIND_FINAL = 3 };

/* The classes, numbered as in JLReq. */
enum {
    GELUMBRIO_CLASS_OPENING_BRACKET = 1,          /* 始め括弧類 */
    GELUMBRIO_CLASS_CLOSING_BRACKET = 2,          /* 終わり括弧類 */
    GELUMBRIO_CLASS_HYPHEN = 3,                   /* ハイフン類 */
    GELUMBRIO_CLASS_DIVIDING_MARK = 4,            /* 区切り約物 */
    GELUMBRIO_CLASS_MIDDLE_DOT = 5,               /* 中点類 */
    GELUMBRIO_CLASS_FULL_STOP = 6,                /* 句点類 */
    GELUMBRIO_CLASS_COMMA = 7,                    /* 読点類 */
    GELUMBRIO_CLASS_INSEPARABLE = 8,              /* 分離禁止文字 */
    GELUMBRIO_CLASS_ITERATION_MARK = 9,           /* 繰返し記号 */
    GELUMBRIO_CLASS_PROLONGED_SOUND_MARK = 10,    /* 長音記号 */
    GELUMBRIO_CLASS_SMALL_KANA = 11,              /* 小書きの仮名 */
    GELUMBRIO_CLASS_PREFIXED_ABBREVIATION = 12,   /* 前置省略記号 */
    GELUMBRIO_CLASS_POSTFIXED_ABBREVIATION = 13,  /* 後置省略記号 */
    GELUMBRIO_CLASS_FULL_WIDTH_SPACE = 14,        /* 和字間隔 */
    GELUMBRIO_CLASS_HIRAGANA = 15,                /* 平仮名 */
    GELUMBRIO_CLASS_KATAKANA = 16,                /* 片仮名 */
    GELUMBRIO_CLASS_IDEOGRAPHIC = 19,             /* 漢字等 */
    GELUMBRIO_CLASS_WESTERN = 27                  /* 欧文用文字 */
};

/* Two kinds of number: a clinic's and a slot's cannot be exchanged. */
typedef struct GelumbrioClinic { uint32_t number; } GelumbrioClinic;
typedef struct GelumbrioSlotNumber { uint32_t number; } GelumbrioSlotNumber; /* from 0 */

/* The numbers of answers, in the order in which they are checked. The place is that of the answer: 0 where none is
 * told here. */
enum {
    /* Import: the text is no leaflet. The place is a byte offset, as told below. */
    GELUMBRIO_REFUSED_LEAFLET = 17,
    /* The sheet's length is not that of P slots, or a set-up list is not P long. */
    GELUMBRIO_REFUSED_LENGTH = 1,
    /* The slot number is P or more. */
    GELUMBRIO_REFUSED_SLOT = 2,
    /* The caller is 0, or is not the slot's clinic. */
    GELUMBRIO_REFUSED_CALLER = 3,
    /* Take: the caller has no slot whose in-use word is 0. */
    GELUMBRIO_REFUSED_NONE_FREE = 13,
    /* The slot is not in use: its in-use word is 0. */
    GELUMBRIO_REFUSED_NOT_IN_USE = 14,
    /* The slot's measure or indent is out of limits, its record count is over GELUMBRIO_MOST_RECORDS, its in-use word
     * is above 1, or its stored records fall under 8, 12, 9 or 10. */
    GELUMBRIO_REFUSED_DAMAGED = 4,
    /* The place exceeds the record count, or the deletion passes the end. The place is the count. */
    GELUMBRIO_REFUSED_PAST_END = 5,
    /* The inserted words are not a multiple of GELUMBRIO_RECORD_WORDS. */
    GELUMBRIO_REFUSED_PARTIAL_RECORD = 6,
    /* More than GELUMBRIO_MOST_RECORDS records would result. */
    GELUMBRIO_REFUSED_TOO_MANY_RECORDS = 7,
    /* A resulting record breaks its own rules. The place is the first such record. */
    GELUMBRIO_REFUSED_RECORD = 8,
    /* The published list of a record's class lacks its code point. The place is the first such record. */
    GELUMBRIO_REFUSED_NOT_LISTED = 12,
    /* A group rule is broken. The place is the first such record. */
    GELUMBRIO_REFUSED_GROUP = 9,
    /* No breaking exists. The place is the first record of the first run that is too wide. */
    GELUMBRIO_REFUSED_NO_BREAKING = 10,
    /* Set-up: a clinic, measure or indent is out of limits. The place is the first such slot. */
    GELUMBRIO_REFUSED_LIMITS = 11,
    /* None of these. The place is the line count; set-up's is P, take's the slot's number, give back's 0. */
    GELUMBRIO_ACCEPTED = 0
};

/* The answer of set-up, take and give back. Take's number is 0, 1, 3 for caller 0, or 13; give back's is 0, 1, 2, 3, 14
 * or 4. Read's number, which comes without a place, is 0, 1, 2, 3 or 14, then 4 where the stored line count exceeds
 * GELUMBRIO_MOST_LINES or the in-use word 1. */
typedef struct GelumbrioAnswer { uint32_t number, place; } GelumbrioAnswer;

/* Edit also answers how many lines were composed anew, `redone`; refused, 0. They are the new lines from f up to r:
 *   f is the line before the old one that held the place, or before the last old one where the place is the end;
 *     it is 0 where that would be before line 0, and where there were no lines;
 *   r is the first new line, from f on and not line 0, that starts at or after the end of the inserted records and
 *     whose first record also started an old line, not line 0; where there is none, it is the line count.
 * New lines before f are the old ones, with their places. Those from r on are old ones too, moved only by the change
 * in record and line numbers. The old lines are those that the rules give the old records, whatever is stored: in a
 * slot that an older rule composed, places outside these lines may move too. */
typedef struct GelumbrioEditAnswer { uint32_t number, place, redone; } GelumbrioEditAnswer;

/* Import's answer is edit's, or 17. Its place may be the offset of a byte, so it is as wide as one. */
typedef struct GelumbrioImportAnswer { uint32_t number, redone; size_t place; } GelumbrioImportAnswer;

/* Ruby place's number is 0, or 8 where one of its numbers is out of limits; then the offset is 0. */
typedef struct GelumbrioRubyPlace { uint32_t number, offset; } GelumbrioRubyPlace;

/* A part of the sheet: the words from start up to end; 0, 0 where the read is refused. */
typedef struct GelumbrioPart { size_t start, end; } GelumbrioPart;

/* Empties every slot and gives slot i clinics[i], measures[i], indents[i]. No slot is in use afterwards. */
GelumbrioAnswer gelumbrio_set_up(uint32_t *sheet, size_t sheet_length, const uint32_t *clinics, size_t clinics_length,
                                 const uint32_t *measures, size_t measures_length, const uint32_t *indents,
                                 size_t indents_length);

/* Takes the caller's lowest-numbered slot whose in-use word is 0, and answers its number. The word becomes 1; no other
 * word changes, and of each slot none but clinic and in-use word is looked at. Which slot is granted does not depend
 * on other clinics' slots. A slot is edited, imported into, read and given back while it is in use; otherwise these
 * answer 14. A sheet that was filled before there was this call has in-use words of 0: once a slot is taken, its text
 * is there again. */
GelumbrioAnswer gelumbrio_take(uint32_t *sheet, size_t sheet_length, GelumbrioClinic caller);

/* Gives a slot back: every word of it but clinic, measure and indent becomes 0, and it can be taken again. */
GelumbrioAnswer gelumbrio_give_back(uint32_t *sheet, size_t sheet_length, GelumbrioClinic caller,
                                    GelumbrioSlotNumber slot);

/* Takes `deleted` records out at `place`, puts the inserted ones in there, and composes the slot, which stays in
 * use. */
GelumbrioEditAnswer gelumbrio_edit(uint32_t *sheet, size_t sheet_length, GelumbrioClinic caller,
                                   GelumbrioSlotNumber slot, uint32_t place, uint32_t deleted,
                                   const uint32_t *inserted, size_t inserted_length);

/* Reads a leaflet, puts its records in place of all that the slot holds, and composes the slot, which stays in use.
 *   A leaflet is UTF-8 text, plain characters and ruby elements in any order. An element is <ruby>, a base text,
 * <rt>, the ruby text, </rt>, </ruby>; or with <rp>, any text or none, </rp> before the <rt> and again after the </rt>.
 * Tags are written just so. Neither base nor ruby text is empty, and nothing else stands in an element. Inside rt and
 * rp each code point but < > & may stand. Outside them a character stands that has a class (gelumbrio_class_of), and is
 * none of these three; so neither U+0020 nor a line's end. The empty text is a leaflet.
 *   Each character outside rt and rp becomes a record: its class as gelumbrio_class_of gives it, the size named here,
 * half of it as advance in the classes 1, 2, 3, 5, 6, 7 and 27 and all of it in the others. An element's base becomes a
 * group, numbered from 1 on, with as many ruby characters as its rt has code points. Then it is the edit at place 0
 * that deletes all the slot's records and inserts these, and answers as that does.
 *   17 comes before all other answers and depends on the text alone. It names the offset of the first character, tag
 * or ill-formed sequence that no leaflet has after what stands before it; where a leaflet could still go on so, the
 * text's length. A < that starts none of the six tags is named itself, and of an ill-formed sequence the first byte. */
GelumbrioImportAnswer gelumbrio_import(uint32_t *sheet, size_t sheet_length, GelumbrioClinic caller,
                                       GelumbrioSlotNumber slot, uint32_t size, const uint8_t *text,
                                       size_t text_length);

/* The number of a read, so that an empty slot and a refusal can be told apart. */
uint32_t gelumbrio_read_number(const uint32_t *sheet, size_t sheet_length, GelumbrioClinic caller,
                               GelumbrioSlotNumber slot);

/* Where in the sheet the slot's used line words stand. */
GelumbrioPart gelumbrio_read(const uint32_t *sheet, size_t sheet_length, GelumbrioClinic caller,
                             GelumbrioSlotNumber slot);

/* 1 where the list of this class has the code point, else 0; any numbers are taken. The lists are those of JLReq,
 * Annex A, without its entries of two code points; class 19's has the unified ideographs of Unicode 15.1 too. A number
 * that is none of the eighteen classes has no list. */
uint32_t gelumbrio_in_list(uint32_t class_number, uint32_t code);

/* The class that a code point gets: 27 where that list has it, else the lowest-numbered list's, else 0. */
uint32_t gelumbrio_class_of(uint32_t code);

/* The offset of ruby character k, from 0 on, from the start of a group of this base advance, ruby count and size.
 *   A ruby character is half the size wide. The longer of the two rows, base and ruby, is set solid. In the shorter one
 * only the inner gaps open, evenly, so that both start and end together; a single character stands in the middle. The
 * places of the base characters are on the sheet. So a group of two or more records starts at its first record's x; one
 * of a single record, whose ruby is longer by D, starts D/2 before it, rounded down. */
GelumbrioRubyPlace gelumbrio_ruby_place(uint32_t base_advance, uint32_t ruby_count, uint32_t size, uint32_t k);

#ifdef __cplusplus
}
#endif

#endif
