/* Tests of the toy runtime, without an adapter: what a collection keeps, moves, clears and frees. */
#include "heap.h"
#include <stdio.h>
#include <string.h>

static int failed;

#define EXPECT(TRUTH) \
    do { \
        if (!(TRUTH)) { \
            printf("FAILED: line %d: %s\n", __LINE__, #TRUTH); \
            failed = 1; \
        } \
    } while (0)

enum { SPACE = 64 };

static size_t used(void) { return (size_t)(heap.next - heap.space); }

static void objects_of_each_type_are_kept(void)
{
    heap_open(SPACE);
    size_t shape = define_shape("pair", 2, 1), global = define_global("kept");
    heap.globals[global].value = new_record(shape);
    size_t text = push(new_bytes("ten bytes!", 10)), array = push(new_array(ARRAY, 3));
    value record = heap.globals[global].value;
    values_of(record)[0] = heap.stack[text];
    values_of(record)[1] = record;
    numbers_of(record)[0] = record; /* a number that looks like a reference */
    values_of(heap.stack[array])[0] = record;
    values_of(heap.stack[array])[1] = integer(7);
    values_of(heap.stack[array])[2] = character('x');
    new_bytes("garbage", 7);
    size_t before = used();
    collect(SPACE);
    value moved = heap.globals[global].value;
    EXPECT(used() == before - 2 && heap.collections == 1);
    EXPECT(values_of(moved)[0] == heap.stack[text] && values_of(moved)[1] == moved && numbers_of(moved)[0] == record);
    EXPECT(length_in(heap.stack[text]) == 10 && memcmp(bytes_of(heap.stack[text]), "ten bytes!", 10) == 0);
    EXPECT(length_in(heap.stack[array]) == 3 && values_of(heap.stack[array])[0] == moved);
    EXPECT(number_of(values_of(heap.stack[array])[1]) == 7 && values_of(heap.stack[array])[2] == character('x'));
    heap_close();
}

static void weak_arrays_keep_nothing(void)
{
    heap_open(SPACE);
    size_t array = push(new_array(WEAK_ARRAY, 4)), kept = push(new_bytes("kept", 4));
    values_of(heap.stack[array])[0] = new_bytes("lost", 4);
    values_of(heap.stack[array])[1] = heap.stack[kept];
    values_of(heap.stack[array])[2] = integer(5);
    collect(SPACE);
    EXPECT(values_of(heap.stack[array])[0] == NIL && values_of(heap.stack[array])[1] == heap.stack[kept]);
    EXPECT(values_of(heap.stack[array])[2] == integer(5) && values_of(heap.stack[array])[3] == NIL);
    EXPECT(used() == 7);
    heap_close();
}

static void the_heap_grows(void)
{
    heap_open(SPACE);
    size_t shape = define_shape("link", 1, 0), global = define_global("list");
    for (size_t i = 0; i < 1000; i++) {
        value link = new_record(shape);
        values_of(link)[0] = heap.globals[global].value;
        heap.globals[global].value = link;
    }
    size_t links = 0;
    for (value link = heap.globals[global].value; link != NIL; link = values_of(link)[0])
        links++;
    EXPECT(links == 1000 && heap.end - heap.space >= 2000);
    heap_close();
}

int main(void)
{
    objects_of_each_type_are_kept();
    weak_arrays_keep_nothing();
    the_heap_grows();
    if (!failed)
        printf("ok: the runtime's own tests\n");
    return failed;
}
