/* The parser, for RFC 8259. */
#include "json.h"

#include <math.h>

static const char *start, *at, *end;

/* Ends the program with a message about this place. A column counts characters. */
static _Noreturn void wrong(const char *place, const char *what)
{
    size_t line = 1, column = 1;
    for (const char *p = start; p < place; p++) {
        column = *p == '\n' ? 1 : column + ((*p & 0xc0) != 0x80);
        line += *p == '\n';
    }
    fprintf(stderr, "json: line %zu, column %zu: %s\n", line, column, what);
    exit(WRONG);
}

/* Returns the byte at this place, or -1 at the end. */
static int byte_at(const char *place)
{
    return place < end ? (unsigned char)*place : -1;
}

/* Skips the blanks, and returns the byte behind them. */
static int skip_blanks(void)
{
    while (byte_at(at) == ' ' || byte_at(at) == '\t' || byte_at(at) == '\n' || byte_at(at) == '\r')
        at++;
    return byte_at(at);
}

/* ---- Strings */

static block string;

/* Adds a character in UTF-8. */
static void add_character(uint32_t code)
{
    static const uint32_t first[] = {0, 0xc0, 0xe0, 0xf0};
    int more = code < 0x80 ? 0 : code < 0x800 ? 1 : code < 0x10000 ? 2 : 3;
    add_byte(&string, first[more] | code >> 6 * more);
    while (more-- > 0)
        add_byte(&string, 0x80 | (code >> 6 * more & 0x3f));
}

/* Reads a character of several bytes. */
static void read_character(void)
{
    static const uint32_t least[] = {0, 0x80, 0x800, 0x10000};
    int first = byte_at(at), more = first >= 0xf0 ? 3 : first >= 0xe0 ? 2 : 1;
    uint32_t code = (uint32_t)first & (0x3fu >> more);
    bool is_right = first >= 0xc0 && first < 0xf8;
    for (int i = 1; is_right && i <= more; i++) {
        is_right = (byte_at(at + i) & ~0x3f) == 0x80;
        code = code << 6 | ((uint32_t)byte_at(at + i) & 0x3f);
    }
    if (!is_right || code < least[more] || code > 0x10ffff || (code >= 0xd800 && code < 0xe000))
        wrong(at, "these bytes are not UTF-8");
    add_character(code);
    at += 1 + more;
}

/* Reads \u and four digits. */
static uint32_t read_unit(void)
{
    static const char digits[] = "0123456789abcdef";
    uint32_t unit = 0;
    for (int i = 2; i < 6; i++) {
        int byte = byte_at(at + i);
        const char *digit = byte > 0 ? strchr(digits, byte >= 'A' && byte <= 'F' ? byte | 0x20 : byte) : NULL;
        if (digit == NULL)
            wrong(at, "\\u has four hexadecimal digits");
        unit = unit << 4 | (uint32_t)(digit - digits);
    }
    at += 6;
    return unit;
}

static void read_escape(void)
{
    static const char signs[] = "\"\\/bfnrt", meant[] = "\"\\/\b\f\n\r\t";
    const char *begin = at, *sign = byte_at(at + 1) > 0 ? strchr(signs, at[1]) : NULL;
    if (sign != NULL) {
        add_byte(&string, (unsigned char)meant[sign - signs]);
        at += 2;
        return;
    }
    if (byte_at(at + 1) != 'u')
        wrong(at, "there is no such escape");
    uint32_t code = read_unit();
    if (code >= 0xd800 && code < 0xe000) {
        uint32_t low = code < 0xdc00 && byte_at(at) == '\\' && byte_at(at + 1) == 'u' ? read_unit() : 0;
        if (low < 0xdc00 || low >= 0xe000)
            wrong(begin, "a surrogate has no partner");
        code = 0x10000 + ((code - 0xd800) << 10) + (low - 0xdc00);
    }
    add_character(code);
}

/* Reads a string, and makes a text of it. */
static void read_string(hp_root d)
{
    string.length = 0;
    for (at++; byte_at(at) != '"';) {
        int byte = byte_at(at);
        if (byte < 0x20)
            wrong(at, byte < 0 ? "a string has no end" : "a string has a control character");
        if (byte == '\\')
            read_escape();
        else if (byte >= 0x80)
            read_character();
        else
            add_byte(&string, (unsigned char)*at++);
    }
    at++;
    text_new(d, &string);
}

/* ---- Numbers */

/* Returns the place behind a row of digits, of which there is one at least. */
static const char *behind_digits(const char *place)
{
    size_t count = strspn(place, "0123456789");
    if (count == 0)
        wrong(place, "a digit is missing");
    return place + count;
}

/* Reads an integer of at most 62 bits, or else a double. */
static void read_number(void)
{
    const char *begin = at, *digits = at + (*at == '-'), *last = *digits == '0' ? digits + 1 : behind_digits(digits);
    bool is_negative = digits > begin, is_integer = *last != '.' && *last != 'e' && *last != 'E';
    int64_t negative = 0; /* less the number, because there is one more negative integer */
    for (const char *p = digits; p < last && is_integer; p++) {
        is_integer = negative >= (HP_LEAST_INT + (*p - '0')) / 10;
        negative = is_integer ? 10 * negative - (*p - '0') : 0;
    }
    at = *last == '.' ? behind_digits(last + 1) : last;
    if (*at == 'e' || *at == 'E')
        at = behind_digits(at + 1 + (at[1] == '+' || at[1] == '-'));
    if (is_integer && (is_negative || -negative <= HP_MOST_INT)) {
        hp_set_int(&heap, VALUE, is_negative ? negative : -negative);
        return;
    }
    double real = strtod(begin, NULL);
    if (isinf(real))
        wrong(begin, "a number is too large for a double");
    hp_set_double(&heap, VALUE, real);
}

/* ---- Names of an object. Its index has the number of each name, at the hash of the name or in the next free place. At most half of the places are taken */

/* Makes the number of the name in NAME known to the index, unless it has an equal name. Puts the number that it has into MEMBER. Returns whether it is new. */
static bool add_name(hp_root index, hp_root object, uint32_t number)
{
    uint32_t places = hp_array_length(&heap, index), place = (uint32_t)text_hash(NAME);
    for (;; place++) {
        hp_array_get(&heap, MEMBER, index, place &= places - 1);
        if (hp_look(&heap, MEMBER).type == HP_NIL)
            break;
        hp_array_get(&heap, OTHER_NAME, object, (uint32_t)hp_look(&heap, MEMBER).integer);
        if (text_order(NAME, OTHER_NAME) == 0)
            return false;
    }
    hp_set_int(&heap, MEMBER, number);
    hp_array_put(&heap, index, place, MEMBER);
    return true;
}

/* Makes an index with so many places, which is a power of two, for an object's first `count` elements. */
static void new_index(hp_root index, hp_root object, uint32_t places, uint32_t count)
{
    hp_array_new(&heap, index, INDEX, places);
    for (uint32_t i = 0; i < count; i += 2) {
        hp_array_get(&heap, NAME, object, i);
        add_name(index, object, i);
    }
}

/* Reads the name of a member, and the colon. An equal name's value will be replaced. */
static void read_name(void)
{
    hp_root object = level(CONTAINER), index = level(NAMES);
    uint32_t count = hp_array_length(&heap, object);
    if (skip_blanks() != '"')
        wrong(at, "a name is missing");
    if (count == hp_array_length(&heap, index))
        new_index(index, object, 2 * count, count);
    read_string(NAME);
    if (add_name(index, object, count)) {
        hp_array_push(&heap, object, NAME);
        hp_array_push(&heap, object, NAME); /* the value takes its place */
    }
    hp_copy(&heap, level(NUMBER), MEMBER);
    if (skip_blanks() != ':')
        wrong(at, "a : is missing");
    at++;
}

/* ---- Values */

/* Closes the innermost container, which is the value that was read. */
static bool close_container(void)
{
    hp_copy(&heap, VALUE, level(CONTAINER));
    hp_drop(&heap, LEVEL);
    at++;
    return true;
}

/* Opens a container. Returns whether it ends at once. */
static bool open_container(enum kind kind, char last)
{
    if (heap.stack.end - heap.stack.top < LEVEL)
        wrong(at, "the document is nested too deeply");
    for (int i = 0; i < LEVEL; i++)
        hp_set_nil(&heap, hp_push(&heap));
    hp_array_new(&heap, level(CONTAINER), kind, 0);
    at++;
    if (skip_blanks() == last)
        return close_container();
    if (kind == OBJECT) {
        new_index(level(NAMES), level(CONTAINER), 8, 0);
        read_name();
    }
    return false;
}

/* Reads the rest of a word, which is the value that VALUE holds. */
static bool read_word(const char *word)
{
    if (strncmp(at, word, strlen(word)) != 0)
        wrong(at, "a value is missing");
    at += strlen(word);
    return true;
}

/* Reads a value, or the beginning of a container. Returns whether the value has ended. */
static bool read_value(void)
{
    int byte = skip_blanks();
    switch (byte) {
    case '{': return open_container(OBJECT, '}');
    case '[': return open_container(ARRAY, ']');
    case '"': read_string(VALUE); return true;
    case 't': hp_set_special(&heap, VALUE, TRUE_VALUE); return read_word("true");
    case 'f': hp_set_special(&heap, VALUE, FALSE_VALUE); return read_word("false");
    case 'n': hp_set_nil(&heap, VALUE); return read_word("null");
    default:
        if (byte != '-' && (byte < '0' || byte > '9'))
            wrong(at, "a value is missing");
        read_number();
        return true;
    }
}

/* Adds the value that was read to the innermost container, and reads the sign behind it. Returns whether the container has ended. */
static bool add_value(void)
{
    bool is_object = hp_is(&heap, level(CONTAINER), OBJECT);
    if (is_object)
        hp_array_put(&heap, level(CONTAINER), (uint32_t)hp_look(&heap, level(NUMBER)).integer + 1, VALUE);
    else
        hp_array_push(&heap, level(CONTAINER), VALUE);
    if (skip_blanks() == (is_object ? '}' : ']'))
        return close_container();
    if (byte_at(at) != ',')
        wrong(at, is_object ? "a , or } is missing" : "a , or ] is missing");
    at++;
    if (is_object)
        read_name();
    return false;
}

void parse(const block *document)
{
    start = at = document->bytes;
    end = start + document->length;
    do {
        while (!read_value())
            continue;
        while (heap.stack.top > 0 && add_value())
            continue;
    } while (heap.stack.top > 0);
    if (skip_blanks() >= 0)
        wrong(at, "the document goes on behind its value");
}
