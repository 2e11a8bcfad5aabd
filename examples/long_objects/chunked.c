/* Arrays in chunks: see chunked.h. */
#include "chunked.h"

/* The words of an object beside its fields. */
enum { HEADER_WORDS = 2 };

static uint32_t chunks_of(uint32_t length)
{
    return length / CHUNKED_FIELDS + (length % CHUNKED_FIELDS != 0);
}

uint64_t chunked_words(uint32_t length)
{
    return HEADER_WORDS + (uint64_t)chunks_of(length) * (1 + HEADER_WORDS) + length;
}

uint32_t chunked_new(gcflip_heap *heap, uint8_t m, uint8_t d, uint32_t length, uint8_t scratch)
{
    const uint8_t chunk = (uint8_t)(scratch + 1);
    uint32_t chunks = chunks_of(length), answer;
    gcflip_counts counts = {0, 0, 0, 0, 0, 0, 0, 0, 0, 0, 0, 0};
    if (chunks > CHUNKED_MOST_CHUNKS)
        return GCFLIP_OUT_OF_RANGE;
    answer = gcflip_heap_counts(heap, &counts);
    if (answer != GCFLIP_DONE)
        return answer;
    if (counts.free < chunked_words(length))
        return GCFLIP_FULL;
    answer = gcflip_heap_new_object(heap, m, scratch, CHUNKED_KIND, (uint16_t)chunks);
    for (uint32_t k = 0; k < chunks && answer == GCFLIP_MADE; k++) {
        uint32_t left = length - k * CHUNKED_FIELDS;
        answer = gcflip_heap_new_object(heap, m, chunk, CHUNKED_CHUNK_KIND, (uint16_t)(left < CHUNKED_FIELDS ? left : CHUNKED_FIELDS));
        if (answer == GCFLIP_MADE) {
            uint32_t written = gcflip_heap_put(heap, m, scratch, (uint16_t)k, chunk);
            answer = written == GCFLIP_DONE ? answer : written;
        }
    }
    if (answer == GCFLIP_MADE) {
        uint32_t moved = gcflip_heap_move(heap, m, d, scratch);
        answer = moved == GCFLIP_DONE ? answer : moved;
    }
    return answer;
}

/* Puts the chunk with value i into slot scratch. Returns GCFLIP_OBJECT, or the reason why there is none. */
static uint32_t find_chunk(gcflip_heap *heap, uint8_t m, uint8_t s, uint32_t i, uint8_t scratch)
{
    uint64_t number = 0;
    if (i / CHUNKED_FIELDS >= CHUNKED_MOST_CHUNKS)
        return GCFLIP_NO_FIELD;
    return gcflip_heap_get(heap, m, scratch, s, (uint16_t)(i / CHUNKED_FIELDS), &number);
}

uint32_t chunked_length(gcflip_heap *heap, uint8_t m, uint8_t s, uint8_t scratch, uint32_t *length)
{
    gcflip_view array = {0, 0, 0}, last = {0, 0, 0};
    uint32_t answer = gcflip_heap_look(heap, m, s, &array);
    if (GCFLIP_IS_REFUSED(answer))
        return answer;
    if (answer != GCFLIP_OBJECT)
        return GCFLIP_NO_OBJECT;
    if (array.count > 0) {
        answer = find_chunk(heap, m, s, (array.count - 1) * CHUNKED_FIELDS, scratch);
        if (answer != GCFLIP_OBJECT)
            return GCFLIP_IS_REFUSED(answer) ? answer : GCFLIP_NO_OBJECT;
        gcflip_heap_look(heap, m, scratch, &last);
    }
    *length = array.count == 0 ? 0 : (array.count - 1) * CHUNKED_FIELDS + last.count;
    return GCFLIP_DONE;
}

uint32_t chunked_get(gcflip_heap *heap, uint8_t m, uint8_t d, uint8_t s, uint32_t i, uint8_t scratch, uint64_t *number)
{
    uint32_t answer = find_chunk(heap, m, s, i, scratch);
    return answer == GCFLIP_OBJECT ? gcflip_heap_get(heap, m, d, scratch, (uint16_t)(i % CHUNKED_FIELDS), number) : answer;
}

uint32_t chunked_put(gcflip_heap *heap, uint8_t m, uint8_t s, uint32_t i, uint8_t t, uint8_t scratch)
{
    uint32_t answer = find_chunk(heap, m, s, i, scratch);
    return answer == GCFLIP_OBJECT ? gcflip_heap_put(heap, m, scratch, (uint16_t)(i % CHUNKED_FIELDS), t) : answer;
}
