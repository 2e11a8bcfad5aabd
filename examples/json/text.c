/* Texts of bytes by the calls of herbpond.h, in pieces if they are long. */
#include "json.h"

/* Makes room for more bytes, and one behind them. Ends the program if there is no memory. */
static void make_room(block *to, size_t more)
{
    if (more < to->room - to->length)
        return;
    to->room = 2 * to->room + more + 4096;
    to->bytes = realloc(to->bytes, to->room);
    if (to->bytes == NULL) {
        fprintf(stderr, "json: the system refused %zu bytes of memory\n", to->room);
        exit(NO_ROOM);
    }
}

void add_byte(block *to, uint32_t byte)
{
    make_room(to, 1);
    to->bytes[to->length++] = (char)byte;
}

void text_new(hp_root d, const block *from)
{
    if (from->length <= GCFLIP_MOST_BYTES) {
        hp_new_bytes(&heap, d, TEXT, from->bytes, from->length);
        return;
    }
    hp_array_new(&heap, d, LONG_TEXT, 0);
    for (size_t at = 0, left; at < from->length; at += GCFLIP_MOST_BYTES) {
        left = from->length - at;
        hp_new_bytes(&heap, PIECE, TEXT, from->bytes + at, left < GCFLIP_MOST_BYTES ? left : GCFLIP_MOST_BYTES);
        hp_array_push(&heap, d, PIECE);
    }
}

/* Adds the bytes of a text in one piece. */
static void read_piece(block *to, hp_root s)
{
    uint32_t length = hp_bytes_length(&heap, s);
    make_room(to, length);
    hp_bytes_read(&heap, s, 0, to->bytes + to->length, length);
    to->length += length;
}

void text_read(block *to, hp_root s)
{
    to->length = 0;
    if (hp_is(&heap, s, TEXT))
        read_piece(to, s);
    else
        for (uint32_t i = 0, pieces = hp_array_length(&heap, s); i < pieces; i++) {
            hp_array_get(&heap, PIECE, s, i);
            read_piece(to, PIECE);
        }
}

uint64_t text_hash(hp_root s)
{
    static block text;
    uint64_t hash = 0;
    text_read(&text, s);
    for (size_t i = 0; i < text.length; i++)
        hash = (hash ^ (unsigned char)text.bytes[i]) * 0x9e3779b97f4a7c15u;
    return hash ^ hash >> 32;
}

int text_order(hp_root s, hp_root t)
{
    static block x, y;
    if (hp_is(&heap, s, TEXT) && hp_is(&heap, t, TEXT))
        return hp_bytes_compare(&heap, s, t);
    text_read(&x, s);
    text_read(&y, t);
    size_t length = x.length < y.length ? x.length : y.length;
    int order = length == 0 ? 0 : memcmp(x.bytes, y.bytes, length);
    return order != 0 ? order : x.length < y.length ? -1 : x.length > y.length;
}
