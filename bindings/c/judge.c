/* Judges FIX messages: each line of standard input is one.
 *
 *     tools/static_library.py
 *     cc -O2 -Iinclude bindings/c/judge.c target/staticlib/libgate.a -o judge
 *     ./judge examples/block-order/block-order.dict < messages
 *
 * Fields are separated by byte 01, FIX's separator, and a | belongs to the value it stands in. With
 * -p they are separated by | instead, for messages that are written to be read; a byte 01 then
 * stops the message. A separator may stand after the last field.
 *
 * A message passes only if its whole line was understood and nothing was found. It is stopped for
 *   - a field that is not TAG=VALUE: TAG is a number up to 4294967295 without sign or leading zero,
 *     VALUE has at least one byte, and no byte is 00;
 *   - a field after CheckSum (10), which ends a message;
 *   - a line without its line feed, which may be cut short, and one of no bytes or over 65,536;
 *   - no MsgType (35), or more than 4,096 fields;
 *   - a message type that the dictionary does not lay out;
 *   - a fault or a finding of its walk, and a value that is not good (strict mode).
 * Each reason is a line.
 *
 * A pass does not mean more than that. Not checked: that an entry of a group has the fields it
 * requires, that a field stands in the entry its sender meant, the order of fields outside groups
 * and within an entry, BodyLength and CheckSum (docs/DIFFERENCES.md,
 * examples/block-order/README.md). A Data value ends at the next separator, whatever its Length
 * field says.
 *
 * Exit status: 0 where every message passed; 1 where one was stopped; 2 where not every message was
 * judged: a wrong command line, a dictionary or an input that cannot be read, no message at all, or
 * an answer of the library that this program does not know.
 */
#include "gate.h"

#include <errno.h>
#include <inttypes.h>
#include <stdio.h>
#include <stdlib.h>
#include <string.h>

enum { PASSED = 0, STOPPED = 1, FAILED = 2 };
enum { SOH = 1, CHECK_SUM = 10, MSG_TYPE = 35 };
enum { MESSAGE_BYTES = 65536, EVENT_SPACE = GATE_EVENT_SPACE(GATE_FIELDS) };

#define STOP "message %zu: stop: "
#define REFUSED "refused with %" PRIu64 ", place %" PRIu64 ": %s\n"

static uint8_t text[GATE_TEXT_BYTES + 1], message[MESSAGE_BYTES];
static uint32_t dictionary[GATE_DICTIONARY_WORDS], layout[GATE_LAYOUT_WORDS];
static uint32_t fields[3 * GATE_FIELDS];
static uint64_t events[EVENT_SPACE], verdicts[GATE_FIELDS];

/* The message that is judged: its number in the input, from 1, its length, how many fields it has,
 * and where the value of its first MsgType stands, of length 0 where it has none. */
struct message {
    size_t number, length, fields, type, type_length;
};

/* Ends the program where the library's answer is none that this program knows. */
_Noreturn static void unknown(const char *what, uint64_t word) {
    fflush(stdout);
    fprintf(stderr, "judge: the library gives %s %" PRIu64 ", which this program does not know\n",
            what, word);
    exit(FAILED);
}

/* ---- the fields of a message */

/* Returns why the bytes are not TAG=VALUE; or NULL, the tag, and where the value begins. */
static const char *read_field(const uint8_t *field, size_t length, bool pipes, uint32_t *tag,
                              size_t *value) {
    if (length == 0)
        return "it is empty";
    if (memchr(field, 0, length) != NULL)
        return "it holds a byte 00";
    if (pipes && memchr(field, SOH, length) != NULL)
        return "it holds a byte 01, and the fields are separated by |";
    const uint8_t *equals = memchr(field, '=', length);
    if (equals == NULL)
        return "it has no =";
    size_t digits = (size_t)(equals - field);
    if (digits == 0)
        return "it has no tag";
    uint64_t number = 0;
    for (size_t index = 0; index < digits; index++) {
        if (field[index] < '0' || field[index] > '9')
            return "its tag is not a number";
        number = 10 * number + (uint64_t)(field[index] - '0');
        if (number > UINT32_MAX)
            return "its tag is above 4294967295";
    }
    if (digits > 1 && field[0] == '0')
        return "its tag has a leading zero";
    if (digits + 1 == length)
        return "it has no value";
    *tag = (uint32_t)number;
    *value = digits + 1;
    return NULL;
}

/* Writes the field table of the message, three words a field, and returns NULL; or returns what is
 * wrong with the last field that was counted. */
static const char *split(struct message *judged, bool pipes) {
    int separator = pipes ? '|' : SOH;
    uint32_t tag = 0;
    size_t first = 0, value = 0;
    judged->fields = 0;
    judged->type_length = 0;
    while (first < judged->length) {
        const uint8_t *found = memchr(message + first, separator, judged->length - first);
        size_t past = found != NULL ? (size_t)(found - message) : judged->length;
        bool ended = judged->fields > 0 && tag == CHECK_SUM;
        uint32_t *row = fields + 3 * judged->fields;
        if (++judged->fields > GATE_FIELDS)
            return "a message has at most 4096 fields";
        const char *wrong = read_field(message + first, past - first, pipes, &tag, &value);
        if (wrong != NULL)
            return wrong;
        if (ended)
            return "it stands after CheckSum (10), which ends a message";
        if (tag == MSG_TYPE && judged->type_length == 0) {
            judged->type = first + value;
            judged->type_length = past - first - value;
        }
        row[0] = tag;
        row[1] = (uint32_t)(first + value);
        row[2] = (uint32_t)past;
        first = past + 1;
    }
    return NULL;
}

/* ---- the answers of the gate, in words */

/* What each refusal says of its place. */
static const char *const refusals[] = {
    [GATE_TEXT_TOO_LONG] = "the text has more than 65,536 bytes",
    [GATE_UNKNOWN_FORM] = "this line has no known form (0: the words are no dictionary)",
    [GATE_NOT_ALLOWED] = "this line is not allowed there, or the text ends before it too early",
    [GATE_TOO_MANY_OPEN] = "this line opens group block 41",
    [GATE_DEFINED_AGAIN] = "this line defines a tag, a component or a message type again",
    [GATE_TYPE_NOT_DEFINED] = "the message type is not defined",
    [GATE_COMPONENT_NOT_DEFINED] = "this component is not defined",
    [GATE_TOO_DEEP] = "this group or component is nested deeper than 32",
    [GATE_OUT_OF_NODES] = "this group or component is number 4,097",
    [GATE_MEMBERS_OVER] = "there are more than 8,192 members or 2,048 required tags",
    [GATE_RULE_BROKEN] = "a layout rule is broken (0: the words are no layout)",
    [GATE_BAD_FIELD] = "this field leaves the message (0: not in threes, or too many)",
    [GATE_SPACE_SHORT] = "the space is short: so many words are needed",
    [GATE_NO_SUCH_GROUP] = "there is no group with this count tag",
};

/* What the refusal says; ends the program where it is not known. */
static const char *refusal_text(uint64_t refusal) {
    if (refusal == GATE_NO_REFUSAL || refusal >= sizeof refusals / sizeof *refusals)
        unknown("refusal", refusal);
    return refusals[refusal];
}

/* Prints the event where it is a fault or a finding, and returns whether it is one. */
static bool print_event(size_t number, const uint64_t *event) {
    const uint64_t kind = event[0], group = event[1], depth = event[2], a = event[3], b = event[4];
    if (!gate_is_known(kind))
        unknown("an event of kind", kind);
    if (!gate_is_fault(kind) && !gate_is_finding(kind))
        return false;
    printf(STOP, number);
    if (gate_is_fault(kind))
        printf("group %" PRIu64 ", depth %" PRIu64 ": ", group, depth);
    switch (kind) {
    case GATE_EVENT_BADCOUNT: printf("its count, field %" PRIu64 ", is no number\n", a + 1); break;
    case GATE_EVENT_DELIM: printf("tag %" PRIu64 " stands where an entry begins\n", a); break;
    case GATE_EVENT_REPEAT: printf("tag %" PRIu64 " stands twice in an entry\n", a); break;
    case GATE_EVENT_MISCOUNT:
        printf("its count says %" PRIu64 ", its entries are %" PRIu64 "\n", a, b);
        break;
    case GATE_EVENT_DEEP: printf("it is nested deeper than 32\n"); break;
    case GATE_EVENT_TWICE: printf("tag %" PRIu64 " stands twice\n", a); break;
    case GATE_EVENT_FOREIGN: printf("tag %" PRIu64 " does not belong to the type\n", a); break;
    case GATE_EVENT_MISSING: printf("tag %" PRIu64 " is required and missing\n", a); break;
    default: unknown("an event of kind", kind);
    }
    return true;
}

/* Prints the verdict on a field's value where it is not good, and returns whether it is not. */
static bool print_verdict(size_t number, size_t field, uint64_t verdict) {
    const char *wrong = NULL;
    switch (verdict) {
    case GATE_VERDICT_GOOD: return false;
    case GATE_VERDICT_UNDEFINED: wrong = "the tag is not defined"; break;
    case GATE_VERDICT_WRONG_FORMAT: wrong = "the value does not have the form of its type"; break;
    case GATE_VERDICT_NOT_ADMITTED: wrong = "the value is none of those admitted"; break;
    default: unknown("verdict", verdict);
    }
    printf(STOP "field %zu, tag %" PRIu32 ": %s\n", number, field + 1, fields[3 * field], wrong);
    return true;
}

/* ---- messages */

/* Whether a call for the message was refused; then the refusal is printed. */
static bool refused(const struct message *judged, const char *what, gate_outcome outcome) {
    if (outcome.refusal == GATE_NO_REFUSAL)
        return false;
    const char *why = refusal_text(outcome.refusal);
    printf(STOP "%s: " REFUSED, judged->number, what, outcome.refusal, outcome.place, why);
    return true;
}

/* Walks the message and prints the faults and findings. Returns whether there is none. */
static bool walk(const struct message *judged, size_t dictionary_words, size_t layout_words) {
    gate_outcome walked = gate_walk_message(dictionary, dictionary_words, layout, layout_words,
                                            fields, 3 * judged->fields, message, judged->length,
                                            events, EVENT_SPACE);
    if (refused(judged, "the message", walked))
        return false;
    if (walked.words > EVENT_SPACE || walked.words % 5 != 0)
        unknown("this number of words of events:", walked.words);
    bool clean = true;
    for (size_t event = 0; event < walked.words; event += 5)
        clean &= !print_event(judged->number, events + event);
    return clean;
}

/* Judges the values of the message and prints those that are not good. Returns whether all are. */
static bool values(const struct message *judged, size_t dictionary_words) {
    gate_outcome valued =
        gate_verdicts(dictionary, dictionary_words, fields, 3 * judged->fields, message,
                      judged->length, true, verdicts, GATE_FIELDS);
    if (refused(judged, "the values", valued))
        return false;
    if (valued.words != judged->fields)
        unknown("this number of verdicts:", valued.words);
    bool good = true;
    for (size_t field = 0; field < judged->fields; field++)
        good &= !print_verdict(judged->number, field, verdicts[field]);
    return good;
}

/* Lays out the message's type, walks the message and judges its values. */
static bool judge(const struct message *judged, size_t dictionary_words) {
    gate_outcome expanded = gate_expand(dictionary, dictionary_words, message + judged->type,
                                        judged->type_length, layout, GATE_LAYOUT_WORDS);
    if (refused(judged, "the message type", expanded))
        return false;
    if (expanded.words > GATE_LAYOUT_WORDS)
        unknown("this number of words of a layout:", expanded.words);
    bool clean = walk(judged, dictionary_words, expanded.words);
    return values(judged, dictionary_words) && clean;
}

/* Reads a line up to its line feed. Returns whether there was one; wrong: why it is no message, or
 * NULL. Bytes over the limit are read and dropped, so that they are not taken for a message. */
static bool read_line(struct message *judged, const char **wrong) {
    int byte;
    bool over = false;
    *wrong = NULL;
    judged->length = 0;
    while ((byte = getc(stdin)) != EOF && byte != '\n') {
        over = judged->length == MESSAGE_BYTES;
        if (!over)
            message[judged->length++] = (uint8_t)byte;
    }
    judged->number++;
    if (byte == EOF && judged->length == 0)
        return false;
    if (over)
        *wrong = "it has more than 65,536 bytes";
    else if (byte == EOF)
        *wrong = "it has no line feed at its end and may be cut short";
    else if (judged->length == 0)
        *wrong = "it is empty";
    return true;
}

/* Judges the line that was read, and prints pass or what is wrong. Returns whether it passes. */
static bool passes(struct message *judged, const char *wrong, bool pipes,
                   size_t dictionary_words) {
    if (wrong != NULL) {
        printf(STOP "%s\n", judged->number, wrong);
        return false;
    }
    wrong = split(judged, pipes);
    if (wrong != NULL) {
        printf(STOP "field %zu: %s\n", judged->number, judged->fields, wrong);
        return false;
    }
    if (judged->type_length == 0) {
        printf(STOP "it has no MsgType (35)\n", judged->number);
        return false;
    }
    if (!judge(judged, dictionary_words))
        return false;
    printf("message %zu: pass\n", judged->number);
    return true;
}

/* Reads the dictionary and returns the number of its words, or ends the program. */
static size_t read_dictionary(const char *name) {
    FILE *file = fopen(name, "rb");
    size_t length = file != NULL ? fread(text, 1, sizeof text, file) : 0;
    if (file == NULL || ferror(file)) {
        fprintf(stderr, "judge: %s cannot be read: %s\n", name, strerror(errno));
        exit(FAILED);
    }
    fclose(file);
    gate_outcome read = gate_read_dictionary(text, length, dictionary, GATE_DICTIONARY_WORDS);
    if (read.refusal != GATE_NO_REFUSAL) {
        const char *why = refusal_text(read.refusal);
        fprintf(stderr, "judge: %s: " REFUSED, name, read.refusal, read.place, why);
        exit(FAILED);
    }
    if (read.words > GATE_DICTIONARY_WORDS)
        unknown("this number of words of a dictionary:", read.words);
    return read.words;
}

int main(int count, char **words) {
    bool pipes = count == 3 && strcmp(words[1], "-p") == 0;
    if (count != 2 + pipes || words[1 + pipes][0] == '-') {
        fprintf(stderr, "usage: judge [-p] DICTIONARY < MESSAGES\n"
                        "Each line is a message, its fields separated by byte 01; with -p, by |\n");
        return FAILED;
    }
    size_t dictionary_words = read_dictionary(words[1 + pipes]);
    struct message judged = {0};
    const char *wrong;
    bool all = true;
    while (read_line(&judged, &wrong))
        all &= passes(&judged, wrong, pipes, dictionary_words);
    if (ferror(stdin)) {
        fprintf(stderr, "judge: standard input cannot be read: %s\n", strerror(errno));
        return FAILED;
    }
    if (judged.number == 1) {
        fprintf(stderr, "judge: standard input holds no message\n");
        return FAILED;
    }
    if (fflush(stdout) != 0 || ferror(stdout)) {
        fprintf(stderr, "judge: standard output cannot be written: %s\n", strerror(errno));
        return FAILED;
    }
    return all ? PASSED : STOPPED;
}
