/* A library of another version: its calls answer with words that gate.h does not name. The message
 * type says which. judge must stop on each of them; bindings/c/test links it with this file. */
#include "gate.h"

static const gate_outcome empty_answer = {0, 0, 0, 0};
static uint8_t chosen;

gate_outcome gate_read_dictionary(const uint8_t *text, size_t text_length, uint32_t *dictionary,
                                  size_t dictionary_length) {
    gate_outcome answer = empty_answer;
    (void)dictionary;
    if (text_length > 0 && text[0] == 'R')
        answer.refusal = 15;
    if (text_length > 0 && text[0] == 'W')
        answer.words = dictionary_length + 1;
    return answer;
}

gate_outcome gate_expand(const uint32_t *dictionary, size_t dictionary_length, const uint8_t *type,
                         size_t type_length, uint32_t *layout, size_t layout_length) {
    gate_outcome answer = empty_answer;
    (void)dictionary, (void)dictionary_length, (void)layout;
    chosen = type_length > 0 ? type[0] : 0;
    if (chosen == 'A')
        answer.refusal = 15;
    if (chosen == 'B')
        answer.words = layout_length + 1;
    return answer;
}

/* Writes an event of this kind, then a miscount. */
static uint64_t two_events(uint64_t *events, uint64_t kind) {
    const uint64_t words[10] = {kind, 78, 0, 0, 0, GATE_EVENT_MISCOUNT, 78, 0, 3, 2};
    for (size_t index = 0; index < 10; index++)
        events[index] = words[index];
    return 10;
}

gate_outcome gate_walk_message(const uint32_t *dictionary, size_t dictionary_length,
                               const uint32_t *layout, size_t layout_length, const uint32_t *fields,
                               size_t fields_length, const uint8_t *message, size_t message_length,
                               uint64_t *events, size_t events_length) {
    gate_outcome answer = empty_answer;
    (void)dictionary, (void)dictionary_length, (void)layout, (void)layout_length, (void)fields;
    (void)fields_length, (void)message, (void)message_length;
    switch (chosen) {
    case 'C': answer.refusal = UINT64_MAX; break;
    case 'D': answer.words = two_events(events, 0); break;
    case 'E': answer.words = two_events(events, 12); break;
    case 'F': answer.words = two_events(events, GATE_EVENT_ENTER) - 1; break;
    case 'G': answer.words = events_length + 5; break;
    case 'H': answer.words = two_events(events, GATE_EVENT_DEEP); break;
    }
    return answer;
}

gate_outcome gate_verdicts(const uint32_t *dictionary, size_t dictionary_length,
                           const uint32_t *fields, size_t fields_length, const uint8_t *message,
                           size_t message_length, bool strict, uint64_t *verdicts,
                           size_t verdicts_length) {
    gate_outcome answer = {0, 0, fields_length / 3, 0};
    (void)dictionary, (void)dictionary_length, (void)fields, (void)message, (void)message_length;
    (void)strict, (void)verdicts_length;
    for (size_t field = 0; field < answer.words; field++)
        verdicts[field] = GATE_VERDICT_GOOD;
    switch (chosen) {
    case 'I': verdicts[0] = 4; break;
    case 'J': answer.words--; break;
    case 'K': answer.words++; break;
    case 'L': answer.refusal = 15; break;
    }
    return answer;
}
