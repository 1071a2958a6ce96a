/* The order gate: judges FIX messages before an order may touch a book.
 *
 * Link with libgate.a, which tools/static_library.py writes to target/staticlib/: the exports of the
 * crate gate_c. The archive is for x86-64 alone: ELF objects that follow the System V calling
 * convention, as on Linux. On another machine this header compiles, and the archive does not link.
 *
 * Every call takes any bytes and any words, however broken, and returns a result or one of 14
 * refusals with its place. A refused call leaves all lent memory as it was; an answer leaves the
 * words after its last one as they were. No call keeps anything: there is no state and no heap, so
 * any number of threads may call, each with its own lent words. docs/SPEED.md says how much stack a
 * call needs.
 *
 * A slice is given as a pointer and a length in elements. For a length of 0 the pointer is not read
 * and may be any. A slice that a call writes must not overlap another. docs/ARRANGEMENT.md says
 * what the words of a dictionary, a layout, a field table and the events hold.
 *
 * Stop on what you do not know: a refusal, an event's kind or a verdict that is not named below
 * comes from a library of another version. bindings/c/judge.c does so.
 */
#ifndef GATE_H
#define GATE_H

#include <stdbool.h>
#include <stddef.h>
#include <stdint.h>

/* The version of the calls, the numbers and the bounds in this header. */
#define GATE_VERSION_MAJOR 0
#define GATE_VERSION_MINOR 2
#define GATE_VERSION_PATCH 0
#define GATE_VERSION "0.2.0"

#ifdef __cplusplus
extern "C" {
#endif

/* What every call returns. refusal: one of gate_refusal. place: where, after a refusal; else 0.
 * words: how many words were written; after a refusal 0. extra: as the call says below, else 0. */
typedef struct {
    uint64_t refusal, place, words, extra;
} gate_outcome;

/* The refusals, and what place holds. */
enum gate_refusal {
    GATE_NO_REFUSAL = 0,            /* the call has answered */
    GATE_TEXT_TOO_LONG = 1,         /* a text over 65,536 bytes; 0 */
    GATE_UNKNOWN_FORM = 2,          /* a line of no form known to its kind of text; the line,
                                       from 1. Lent words that are no dictionary: 0 */
    GATE_NOT_ALLOWED = 3,           /* a line not allowed there, or a text that stops too early; the
                                       line, or the last plus 1 */
    GATE_TOO_MANY_OPEN = 4,         /* 41 group blocks open; the line */
    GATE_DEFINED_AGAIN = 5,         /* a tag, component or message type defined again; the line */
    GATE_TYPE_NOT_DEFINED = 6,      /* the message type is not defined; 0 */
    GATE_COMPONENT_NOT_DEFINED = 7, /* a component is not defined; its number */
    GATE_TOO_DEEP = 8,              /* nested deeper than 32; the count tag or the component */
    GATE_OUT_OF_NODES = 9,          /* over 4,096 groups and uses; the count tag or the component */
    GATE_MEMBERS_OVER = 10,         /* over 8,192 members or 2,048 required tags; 0 */
    GATE_RULE_BROKEN = 11,          /* a layout rule is broken; rule * 2^32 + count tag. Lent words
                                       that are no layout: 0 */
    GATE_BAD_FIELD = 12,            /* words not in threes or over 4,096 fields: 0; else the first
                                       field that leaves the message, from 1 */
    GATE_SPACE_SHORT = 13,          /* the lent space is short; the words needed */
    GATE_NO_SUCH_GROUP = 14         /* no such group; the first count tag not found */
};

/* The limits of what a call takes. */
enum {
    GATE_TEXT_BYTES = 65536, /* bytes of a text */
    GATE_FIELDS = 4096       /* fields of a field table, three words each */
};

/* Enough words for every dictionary and for every layout. */
enum {
    GATE_DICTIONARY_WORDS = 131068,
    GATE_LAYOUT_WORDS = 59399
};

/* Enough words for the events of gate_walk_message over a table of so many fields, under every
 * dictionary and layout. The loop over N fields writes at most 5 N events. After it comes at most
 * one event for each required tag of the top and one for each group of the top: `needs_few`,
 * crates/validator/specs/MessageCallLaws.antt. A layout has at most 2,048 required tags and 8,192
 * members, and each group's delimiter is a member of its own level, so that it has at most 8,192
 * groups: `arranged-few`, crates/layouts/specs/LayoutCheckComplete.antt. An event takes five words.
 * Where so much is lent, a walk takes one pass; where less is lent, a first pass counts. */
#define GATE_EVENT_SPACE(fields) ((size_t)5 * ((size_t)5 * (size_t)(fields) + 2048 + 8192))

/* The same for gate_walk_group: a walk over N fields, N at least 1, writes at most 5 N - 2 events
 * (crates/group_reading/specs/GroupWalkLaws/EventBound.antt); without fields it writes none. */
#define GATE_GROUP_EVENT_SPACE(fields) ((size_t)25 * (size_t)(fields))

/* The kinds of events. An event is five words: kind, the group's count tag, depth (0 at the top),
 * a, b. The comments name a and b; a word that is not named is 0. */
enum gate_event_kind {
    GATE_EVENT_ENTER = 1,    /* a group begins */
    GATE_EVENT_BADCOUNT = 2, /* the count is no number; a: the field's position, from 0 */
    GATE_EVENT_DELIM = 3,    /* an entry does not begin with its delimiter; a: the tag found */
    GATE_EVENT_REPEAT = 4,   /* a tag stands twice in an entry; a: the tag */
    GATE_EVENT_CLOSE = 5,    /* an entry ends; a: its number, from 0, b: its distinct members */
    GATE_EVENT_MISCOUNT = 6, /* the count is not that of the entries; a: declared, b: entries */
    GATE_EVENT_DEEP = 7,     /* a group is nested deeper than 32 and not walked */
    GATE_EVENT_LEAVE = 8,    /* a group ends; a: 1 if it is well-formed, its nested groups not
                                counted, else 0, b: entries */
    GATE_EVENT_TWICE = 9,    /* a tag stands twice at the message level; a: the tag */
    GATE_EVENT_FOREIGN = 10, /* a tag does not belong to the message type; a: the tag */
    GATE_EVENT_MISSING = 11  /* a required tag or group is missing; a: the tag */
};

/* The faults: the fields are no reading of the group. Kinds 2, 3, 4, 6, 7. */
static inline bool gate_is_fault(uint64_t kind) {
    return kind == GATE_EVENT_BADCOUNT || kind == GATE_EVENT_DELIM || kind == GATE_EVENT_REPEAT ||
           kind == GATE_EVENT_MISCOUNT || kind == GATE_EVENT_DEEP;
}

/* The findings of the message level, whose group and depth are 0. Kinds 9 to 11. */
static inline bool gate_is_finding(uint64_t kind) {
    return kind >= GATE_EVENT_TWICE && kind <= GATE_EVENT_MISSING;
}

/* Whether the kind is one of gate_event_kind. One that is not is neither a fault nor a finding. */
static inline bool gate_is_known(uint64_t kind) {
    return kind >= GATE_EVENT_ENTER && kind <= GATE_EVENT_MISSING;
}

/* The verdict on a value. */
enum gate_verdict {
    GATE_VERDICT_GOOD = 0,
    GATE_VERDICT_UNDEFINED = 1,    /* the dictionary does not define the tag */
    GATE_VERDICT_WRONG_FORMAT = 2, /* the value does not have the form of the tag's type */
    GATE_VERDICT_NOT_ADMITTED = 3  /* the value is none of those that the definition admits */
};

/* Reads a dictionary text into words. */
gate_outcome gate_read_dictionary(const uint8_t *text, size_t text_length, uint32_t *dictionary,
                                  size_t dictionary_length);

/* Reads a hand-made layout text into words. */
gate_outcome gate_read_layout(const uint8_t *text, size_t text_length, uint32_t *layout,
                              size_t layout_length);

/* Lays out the groups of a message type. extra: the nodes spent. */
gate_outcome gate_expand(const uint32_t *dictionary, size_t dictionary_length, const uint8_t *type,
                         size_t type_length, uint32_t *layout, size_t layout_length);

/* The members of the level named by its count tags from the top, as a part of the layout's own
 * words. words: how many, extra: where they start. */
gate_outcome gate_level_members(const uint32_t *layout, size_t layout_length, const uint32_t *path,
                                size_t path_length);

/* Walks the top group with this count tag from the field at position on, and writes its events.
 * extra: the position after the group. */
gate_outcome gate_walk_group(const uint32_t *layout, size_t layout_length, const uint32_t *fields,
                             size_t fields_length, const uint8_t *message, size_t message_length,
                             size_t position, uint32_t count_tag, uint64_t *events,
                             size_t events_length);

/* Walks a whole message and writes its events. */
gate_outcome gate_walk_message(const uint32_t *dictionary, size_t dictionary_length,
                               const uint32_t *layout, size_t layout_length, const uint32_t *fields,
                               size_t fields_length, const uint8_t *message, size_t message_length,
                               uint64_t *events, size_t events_length);

/* The verdict on each value, one word a field, each one of gate_verdict. strict asks dates and
 * times for FIX's ranges too. */
gate_outcome gate_verdicts(const uint32_t *dictionary, size_t dictionary_length,
                           const uint32_t *fields, size_t fields_length, const uint8_t *message,
                           size_t message_length, bool strict, uint64_t *verdicts,
                           size_t verdicts_length);

#ifdef __cplusplus
}
#endif

#endif
