"""Traces with the reply to each line, and other texts with their faults.

The replies and faults follow from the formats and the commands' rules (docs/FORMATS.md); none was taken from a run.
"""
import textwrap

# Two objects that refer to each other, and one of them to itself.
CYCLE_OF_TWO = """
        space 32 mutators 1
        m 0 new r0 1 2 -> made
        m 0 new r1 2 1 -> made
        m 0 put r0 0 r1 -> done
        m 0 put r1 0 r0 -> done
        m 0 put r0 1 r0 -> done
        m 0 get r2 r0 0 -> saw obj 2 1
        m 0 get r2 r2 0 -> saw obj 1 2
        m 0 same r2 r0 -> yes
        m 0 get r3 r0 1 -> saw obj 1 2
        m 0 same r3 r2 -> yes
"""

PLAYED = {
    "no_events_no_replies": """
        space 1 mutators 1
    """,
    "full_in_a_space_of_the_reserved_word": """
        space 1 mutators 1
        m 0 new r0 0 0 -> full
    """,
    "full_leaves_the_slot_as_it_was": """
        space 7 mutators 1
        m 0 new r0 3 4 -> made
        m 0 new r1 0 0 -> full
        m 0 look r1 -> saw nil
    """,
    "full_leaves_what_the_slot_held": """
        space 6 mutators 1
        m 0 num r0 5 -> done
        m 0 new r0 0 4 -> full
        m 0 look r0 -> saw num 5
        m 0 new r0 0 3 -> made
        m 0 look r0 -> saw obj 0 3
    """,
    "greatest_number": """
        space 7 mutators 1
        m 0 num r0 9223372036854775807 -> done
        m 0 look r0 -> saw num 9223372036854775807
    """,
    "no_object_comes_before_no_field": """
        space 8 mutators 1
        m 0 get r1 r0 0 -> no object
        m 0 num r0 0 -> done
        m 0 put r0 0 r1 -> no object
        m 0 same r0 r1 -> no
        m 0 same r1 r2 -> yes
        m 0 new r0 9 1 -> made
        m 0 get r1 r0 1 -> no field
        m 0 put r0 1 r0 -> no field
        m 0 put r0 0 r0 -> done
        m 0 get r1 r0 0 -> saw obj 9 1
        m 0 same r0 r1 -> yes
        m 0 move g0 r1 -> done
        m 0 look g0 -> saw obj 9 1
    """,
    "exactly_full_in_the_largest_space": """
        space 1048576 mutators 1
    """ + """
        m 0 new r0 255 65535 -> made
    """ * 15 + """
        m 0 new r0 255 65535 -> full
        m 0 new r1 0 65518 -> made
        m 0 new r1 0 0 -> full
        m 0 look r1 -> saw obj 0 65518
    """,
    "cycle_of_two": CYCLE_OF_TWO + """
        m 0 get r4 r0 0 -> saw obj 2 1
        m 0 same r4 r3 -> no
        m 0 same r4 r1 -> yes
    """,
    "last_write_of_two_mutators_wins": """
        space 32 mutators 2
        m 0 new g0 1 1 -> made
        m 0 num r0 7 -> done
        m 0 put g0 0 r0 -> done
        m 1 look r0 -> saw nil
        m 1 num r0 8 -> done
        m 1 put g0 0 r0 -> done
        m 0 get r1 g0 0 -> saw num 8
        m 0 look r0 -> saw num 7
    """,
    "object_without_a_root_is_found_by_its_field": """
        space 32 mutators 1
        m 0 new r0 1 1 -> made
        m 0 new r1 2 0 -> made
        m 0 put r0 0 r1 -> done
        m 0 nil r1 -> done
        m 0 get r1 r0 0 -> saw obj 2 0
        m 0 nil r0 -> done
        m 0 new r2 5 0 -> made
        m 0 look r1 -> saw obj 2 0
        m 0 look r2 -> saw obj 5 0
    """,
    "garbage_still_fills_the_space": """
        space 5 mutators 1
        m 0 new r0 1 0 -> made
        m 0 nil r0 -> done
        m 0 new r0 2 0 -> made
        m 0 new r0 3 0 -> full
        m 0 look r0 -> saw obj 2 0
    """,
    "equal_objects_are_not_the_same": """
        space 16 mutators 1
        m 0 new r0 1 0 -> made
        m 0 new r1 1 0 -> made
        m 0 same r0 r1 -> no
        m 0 same r0 r0 -> yes
        m 0 num r2 4 -> done
        m 0 num r3 4 -> done
        m 0 same r2 r3 -> yes
        m 0 num r3 5 -> done
        m 0 same r2 r3 -> no
        m 0 nil r3 -> done
        m 0 same r2 r3 -> no
        m 0 same r3 r0 -> no
    """,
    "new_fields_are_nil": """
        space 8 mutators 1
        m 0 new r0 7 2 -> made
        m 0 num r1 3 -> done
        m 0 get r1 r0 1 -> saw nil
        m 0 look r1 -> saw nil
    """,
    "refused_get_keeps_the_slot": """
        space 8 mutators 1
        m 0 num r1 3 -> done
        m 0 get r1 r0 0 -> no object
        m 0 new r0 7 0 -> made
        m 0 get r1 r0 0 -> no field
        m 0 look r1 -> saw num 3
    """,
    "one_slot_twice_in_a_command": """
        space 8 mutators 1
        m 0 new r0 1 1 -> made
        m 0 put r0 0 r0 -> done
        m 0 get r0 r0 0 -> saw obj 1 1
        m 0 move r0 r0 -> done
        m 0 same r0 r0 -> yes
        m 0 look r0 -> saw obj 1 1
    """,
    "every_limit_of_a_line": """
        space 1048576 mutators 16
        m 15 new g15 255 65535 -> made
        m 15 num r15 9223372036854775807 -> done
        m 15 put g15 65534 r15 -> done
        m 15 get r15 g15 65534 -> saw num 9223372036854775807
        m 15 put g15 65535 r15 -> no field
        m 14 look r15 -> saw nil
        m 14 look g15 -> saw obj 255 65535
    """,
    "raw_objects_take_numbers_alone": """
        space 12 mutators 1
        m 0 raw r0 255 2 -> made
        m 0 look r0 -> saw raw 255 2
        m 0 get r1 r0 1 -> saw num 0
        m 0 put r0 0 r2 -> no number
        m 0 put r0 1 r0 -> no number
        m 0 put r0 2 r2 -> no field
        m 0 put r2 0 r2 -> no object
        m 0 get r3 r0 0 -> saw num 0
        m 0 num r2 9223372036854775807 -> done
        m 0 put r0 0 r2 -> done
        m 0 get r3 r0 0 -> saw num 9223372036854775807
        m 0 same r3 r2 -> yes
        m 0 raw r4 0 6 -> full
        m 0 look r4 -> saw nil
        m 0 raw r4 0 5 -> made
        m 0 same r4 r0 -> no
    """,
    "a_raw_object_behind_a_field": """
        space 16 mutators 2
        m 0 new g0 1 1 -> made
        m 1 raw r0 2 1 -> made
        m 1 put g0 0 r0 -> done
        m 0 get r0 g0 0 -> saw raw 2 1
        m 0 num r1 18 -> done
        m 0 put r0 0 r1 -> done
        m 1 get r1 r0 0 -> saw num 18
        m 1 put r0 0 r0 -> no number
    """,
    "greatest_raw_object": """
        space 65538 mutators 1
        m 0 raw r0 255 65535 -> made
        m 0 num r1 4 -> done
        m 0 put r0 65534 r1 -> done
        m 0 get r2 r0 65534 -> saw num 4
        m 0 put r0 65535 r1 -> no field
        m 0 new r1 0 0 -> full
    """,
}

# The first object is garbage when the space is full.
COLLECT_WHEN_FULL = """
        space 9 mutators 1
        m 0 new r0 1 2 -> made
        m 0 new r0 1 2 -> made
        m 0 new r1 0 0 -> full
        c begin -> begun
        c roots -> copied
        c scan -> scanned
        c scan -> scanned
        c scan -> passed
        c scan -> clean
        c roots -> clean
        c flip -> flipped 1
        m 0 new r1 0 0 -> made
"""

# Traces with collections. Each begins with `heaptrace 1`, or `heaptrace 2` if a collection has a size, or `heaptrace 3` if
# an object is raw.
COLLECTED = {
    "collect_when_full": COLLECT_WHEN_FULL,
    "second_collection": COLLECT_WHEN_FULL + """
        c begin -> begun
        c roots -> copied
        c roots -> copied
        c scan -> scanned
        c scan -> scanned
        c scan -> passed
        c scan -> passed
        c flip -> flipped 2
    """,
    "write_while_scanning": """
        space 32 mutators 1
        m 0 new r0 1 1 -> made
        m 0 num r1 9 -> done
        c begin -> begun
        c roots -> copied
        c scan -> scanned
        m 0 put r0 0 r1 -> done
        c scan -> passed
        c flip -> not ready
        c apply 0 -> applied
        c flip -> flipped 1
        m 0 get r2 r0 0 -> saw num 9
    """,
    "log_across_two_mutators": """
        space 32 mutators 2
        m 0 new g0 1 1 -> made
        c begin -> begun
        c roots -> copied
        c scan -> scanned
        c scan -> passed
        m 0 num r0 7 -> done
        m 0 put g0 0 r0 -> done
        m 1 look r0 -> saw nil
        m 1 num r0 8 -> done
        m 1 put g0 0 r0 -> done
        c apply 1 -> applied
        c apply 0 -> applied
        c apply 0 -> clean
        c flip -> flipped 1
        m 0 get r1 g0 0 -> saw num 8
    """,
    "root_made_after_the_scan": """
        space 32 mutators 1
        m 0 new r0 1 1 -> made
        m 0 new r1 2 0 -> made
        m 0 put r0 0 r1 -> done
        m 0 nil r1 -> done
        c begin -> begun
        c roots -> copied
        c scan -> scanned
        c scan -> passed
        c scan -> passed
        c scan -> clean
        c roots -> clean
        m 0 get r1 r0 0 -> saw obj 2 0
        m 0 nil r0 -> done
        m 0 new r2 5 0 -> made
        c flip -> not ready
        c roots -> copied
        c scan -> passed
        c flip -> flipped 3
        m 0 look r1 -> saw obj 2 0
        m 0 look r2 -> saw obj 5 0
    """,
    "cycle_of_two_is_carried_over": CYCLE_OF_TWO + """
        c begin -> begun
        c roots -> copied
        c roots -> copied
        c roots -> clean
        c scan -> scanned
        c scan -> scanned
        c scan -> passed
        c scan -> scanned
        c scan -> passed
        c scan -> clean
        c flip -> flipped 2
        m 0 get r4 r0 0 -> saw obj 2 1
        m 0 get r4 r4 0 -> saw obj 1 2
        m 0 same r4 r0 -> yes
        m 0 same r4 r3 -> yes
        m 0 same r4 r1 -> no
    """,
    "log_entry_without_a_replica": """
        space 32 mutators 1
        m 0 new r0 1 1 -> made
        c begin -> begun
        m 0 put r0 0 r0 -> done
        c apply 0 -> applied
        c apply 0 -> clean
        c roots -> copied
        c scan -> scanned
        c scan -> passed
        c flip -> flipped 1
        m 0 get r1 r0 0 -> saw obj 1 1
        m 0 same r0 r1 -> yes
    """,
    "link_left_over": """
        space 16 mutators 1
        c scan -> idle
        c apply 0 -> idle
        c roots -> idle
        c flip -> idle
        c drop -> idle
        m 0 new r0 2 1 -> made
        c begin -> begun
        c begin -> busy
        c roots -> copied
        m 0 put r0 0 r0 -> done
        c drop -> dropped
        c begin -> begun
        c apply 0 -> clean
        c roots -> copied
        c scan -> scanned
        c scan -> passed
        c flip -> flipped 1
    """,
    "nothing_to_copy": """
        space 8 mutators 1
        c begin -> begun
        c flip -> flipped 0
    """,
    "what_is_reachable_fills_the_space": """
        space 7 mutators 1
        m 0 new r0 3 4 -> made
        c begin -> begun
        c roots -> copied
        c scan -> scanned
        c scan -> scanned
        c scan -> scanned
        c scan -> scanned
        c scan -> passed
        c flip -> flipped 1
        m 0 new r1 0 0 -> full
    """,
    "too_small_and_then_larger": """
        space 7 mutators 1
        m 0 new r0 3 4 -> made
        c begin 6 -> begun
        c roots -> no room
        c roots -> no room
        c flip -> not ready
        c begin 7 -> busy
        c drop -> dropped
        c begin 12 -> begun
        c roots -> copied
        c scan -> scanned
        c scan -> scanned
        c scan -> scanned
        c scan -> scanned
        c scan -> passed
        c flip -> flipped 1
        m 0 new r1 0 3 -> made
        m 0 new r1 0 0 -> full
    """,
    "smaller_space": """
        space 9 mutators 1
        m 0 new r0 1 2 -> made
        m 0 new r0 1 2 -> made
        c begin 5 -> begun
        c roots -> copied
        c scan -> scanned
        c scan -> scanned
        c scan -> passed
        c flip -> flipped 1
        m 0 new r1 0 0 -> full
        c begin -> begun
        c roots -> copied
    """,
    "no_room_until_the_field_is_a_number": """
        space 16 mutators 1
        m 0 new r0 1 1 -> made
        m 0 new r1 2 0 -> made
        m 0 put r0 0 r1 -> done
        m 0 nil r1 -> done
        c begin 5 -> begun
        c roots -> copied
        c scan -> no room
        m 0 num r2 4 -> done
        m 0 put r0 0 r2 -> done
        c scan -> scanned
        c apply 0 -> applied
        c scan -> passed
        c flip -> flipped 1
        m 0 get r3 r0 0 -> saw num 4
    """,
    "log_entry_waits_for_room": """
        space 16 mutators 1
        m 0 new r0 1 1 -> made
        c begin 5 -> begun
        c roots -> copied
        c scan -> scanned
        c scan -> passed
        m 0 new r1 2 0 -> made
        m 0 put r0 0 r1 -> done
        c apply 0 -> no room
        c apply 0 -> no room
        m 0 nil r1 -> done
        m 0 put r0 0 r1 -> done
        c apply 0 -> applied
        c apply 0 -> applied
        c apply 0 -> clean
        c flip -> flipped 1
    """,
    "raw_object_written_while_it_is_copied": """
        space 16 mutators 1
        m 0 raw r0 7 2 -> made
        m 0 look r0 -> saw raw 7 2
        m 0 get r1 r0 1 -> saw num 0
        m 0 put r0 0 r2 -> no number
        m 0 put r0 2 r2 -> no field
        m 0 num r1 8 -> done
        m 0 put r0 0 r1 -> done
        c begin -> begun
        c roots -> copied
        m 0 num r1 10 -> done
        m 0 put r0 1 r1 -> done
        c scan -> passed
        c scan -> clean
        c flip -> not ready
        c apply 0 -> applied
        c flip -> flipped 1
        m 0 get r2 r0 0 -> saw num 8
        m 0 get r2 r0 1 -> saw num 10
    """,
    "raw_words_keep_nothing": """
        space 16 mutators 1
        m 0 new r0 1 0 -> made
        m 0 raw r1 0 1 -> made
        m 0 num r2 2 -> done
        m 0 put r1 0 r2 -> done
        m 0 nil r0 -> done
        c begin 4 -> begun
        c roots -> copied
        c roots -> clean
        c scan -> passed
        c scan -> clean
        c flip -> flipped 1
        m 0 get r3 r1 0 -> saw num 2
        m 0 raw r4 0 0 -> full
    """,
    "a_refused_put_is_not_logged": """
        space 16 mutators 1
        m 0 raw r0 0 1 -> made
        c begin -> begun
        m 0 put r0 0 r0 -> no number
        c apply 0 -> clean
        c roots -> copied
        m 0 put r0 0 r1 -> no number
        c scan -> passed
        c flip -> flipped 1
        m 0 get r1 r0 0 -> saw num 0
    """,
    "a_raw_object_is_found_by_a_field": """
        space 16 mutators 1
        m 0 new r0 1 1 -> made
        m 0 raw r1 2 1 -> made
        m 0 num r2 9 -> done
        m 0 put r1 0 r2 -> done
        m 0 put r0 0 r1 -> done
        m 0 nil r1 -> done
        c begin -> begun
        c roots -> copied
        c scan -> scanned
        c scan -> passed
        c scan -> passed
        c scan -> clean
        c flip -> flipped 2
        m 0 get r1 r0 0 -> saw raw 2 1
        m 0 get r1 r1 0 -> saw num 9
    """,
    "a_raw_replica_without_room": """
        space 16 mutators 1
        m 0 new r0 1 1 -> made
        m 0 raw r1 2 1 -> made
        m 0 put r0 0 r1 -> done
        m 0 nil r1 -> done
        c begin 6 -> begun
        c roots -> copied
        c scan -> no room
        c flip -> not ready
        c drop -> dropped
        c begin 7 -> begun
        c roots -> copied
        c scan -> scanned
        c scan -> passed
        c scan -> passed
        c flip -> flipped 2
        m 0 raw r1 0 0 -> full
    """,
}

PLAYED.update(COLLECTED)


def version_of(events):
    """Returns the lowest version that has all these lines. Version 2 adds a collection's own size, version 3 raw objects."""
    if any(event.split(" ")[2:3] == ["raw"] for event, _ in events):
        return 3
    return 2 if any(event.startswith("c begin ") for event, _ in events) else 1


def trace_and_replies(conversation):
    """Returns the text of a trace, and the text of its replies."""
    lines = [line.strip() for line in textwrap.dedent(conversation).split("\n") if line.strip()]
    events = [line.split(" -> ") for line in lines[1:]]
    trace = ["heaptrace %d" % version_of(events), lines[0]] + [event for event, _ in events]
    return "".join(line + "\n" for line in trace).encode(), "".join(reply + "\n" for _, reply in events).encode()


BAD_HEADER = "trace: bad header"


def bad_line(number):
    return "trace: bad line %d" % number


def no_such_mutator(number):
    return "trace: no such mutator at line %d" % number


HEADERS = {
    "nothing_at_all": b"",
    "only_the_first_line": b"heaptrace 1\n",
    "first_line_without_its_end": b"heaptrace 1",
    "second_line_without_its_end": b"heaptrace 1\nspace 8 mutators 1",
    "space_of_no_words": b"heaptrace 1\nspace 0 mutators 1\n",
    "space_too_large": b"heaptrace 1\nspace 1048577 mutators 1\n",
    "no_mutators": b"heaptrace 1\nspace 8 mutators 0\n",
    "too_many_mutators": b"heaptrace 1\nspace 8 mutators 17\n",
    "size_with_leading_zero": b"heaptrace 1\nspace 08 mutators 1\n",
    "size_beyond_64_bits": b"heaptrace 1\nspace 18446744073709551624 mutators 1\n",
    "mutators_with_a_sign": b"heaptrace 1\nspace 8 mutators +1\n",
    "next_version": b"heaptrace 4\nspace 8 mutators 1\n",
    "unknown_version": b"heaptrace 9\nspace 8 mutators 1\n",
    "version_with_leading_zero": b"heaptrace 01\nspace 8 mutators 1\n",
    "another_text": b"heappair 1\nspace 8 mutators 1\n",
    "carriage_returns": b"heaptrace 1\r\nspace 8 mutators 1\r\n",
    "empty_line_first": b"\nheaptrace 1\nspace 8 mutators 1\n",
    "empty_line_between": b"heaptrace 1\n\nspace 8 mutators 1\n",
    "space_before_the_first_line": b" heaptrace 1\nspace 8 mutators 1\n",
    "space_after_the_second_line": b"heaptrace 1\nspace 8 mutators 1 \n",
    "header_before_a_bad_line": b"heaptrace 1\nspace 8 mutators 17\nx\n",
}

# The line after `heaptrace 1` and `space 8 mutators 1`, without its line feed.
BAD_LINES = {
    "empty_line": b"",
    "one_space": b" ",
    "unknown_word": b"x",
    "letter_of_the_mutator_alone": b"m",
    "no_command": b"m 0",
    "unknown_command": b"m 0 peek r0",
    "capital_letters": b"M 0 look r0",
    "slot_16": b"m 0 look r16",
    "slot_with_leading_zero": b"m 0 look r00",
    "slot_without_number": b"m 0 look r",
    "slot_of_no_kind": b"m 0 look x0",
    "two_spaces": b"m 0  look r0",
    "space_before": b" m 0 look r0",
    "space_behind": b"m 0 look r0 ",
    "tab_between": b"m\t0 look r0",
    "carriage_return": b"m 0 look r0\r",
    "zero_byte_behind": b"m 0 look r0\0",
    "comment_behind": b"m 0 look r0 # r0",
    "byte_of_no_text": b"m 0 look r\xff",
    "kind_256": b"m 0 new r0 256 0",
    "length_65536": b"m 0 new r0 0 65536",
    "field_65536": b"m 0 get r0 r0 65536",
    "number_with_leading_zero": b"m 0 num r0 01",
    "number_with_sign": b"m 0 num r0 -1",
    "number_beyond_63_bits": b"m 0 num r0 9223372036854775808",
    "number_beyond_64_bits": b"m 0 num r0 18446744073709551616",
    "number_of_many_digits": b"m 0 num r0 " + b"1" * 1000,
    "a_word_too_few": b"m 0 new r0 0",
    "a_word_too_many": b"m 0 nil r0 r1",
    "mutator_16": b"m 16 look r0",
    "mutator_with_leading_zero": b"m 00 look r0",
    "no_such_mutator_in_a_bad_line": b"m 1 look r16",
    "letter_of_the_collector_alone": b"c",
    "unknown_step": b"c sweep",
    "step_in_capitals": b"c Flip",
    "size_in_the_first_version": b"c begin 12",
    "raw_object_in_the_first_version": b"m 0 raw r0 7 2",
    "word_behind_a_step": b"c flip 1",
    "log_without_number": b"c apply",
    "log_16": b"c apply 16",
    "log_with_leading_zero": b"c apply 00",
    "two_spaces_in_a_step": b"c  flip",
    "no_such_log_in_a_bad_line": b"c apply 1 ",
}

# The line after `heaptrace 2` and `space 8 mutators 1`, without its line feed.
BAD_LINES_OF_THE_SECOND = {
    "size_0": b"c begin 0",
    "size_too_great": b"c begin 1048577",
    "size_with_leading_zero": b"c begin 012",
    "two_sizes": b"c begin 12 12",
    "raw_object_in_the_second_version": b"m 0 raw r0 7 2",
}

# The line after `heaptrace 3` and `space 8 mutators 1`, without its line feed.
BAD_LINES_OF_THE_THIRD = {
    "raw_kind_256": b"m 0 raw r0 256 0",
    "raw_length_65536": b"m 0 raw r0 0 65536",
    "raw_length_with_leading_zero": b"m 0 raw r0 0 02",
    "raw_without_a_length": b"m 0 raw r0 7",
    "raw_with_a_word_too_many": b"m 0 raw r0 7 2 2",
    "raw_slot_16": b"m 0 raw r16 7 2",
    "raw_in_capitals": b"m 0 RAW r0 7 2",
    "size_0_in_the_third_version": b"c begin 0",
}


def refused_texts():
    """Yields each text that is not a trace: name, bytes, line on standard error."""
    start = b"heaptrace 1\nspace 8 mutators 1\n"
    for name, text in HEADERS.items():
        yield name, text, BAD_HEADER
    for name, line in BAD_LINES.items():
        yield name, start + line + b"\n", bad_line(3)
    for name, line in BAD_LINES_OF_THE_SECOND.items():
        yield name, b"heaptrace 2\nspace 8 mutators 1\n" + line + b"\n", bad_line(3)
    for name, line in BAD_LINES_OF_THE_THIRD.items():
        yield name, b"heaptrace 3\nspace 8 mutators 1\n" + line + b"\n", bad_line(3)
    yield "no_such_mutator_for_raw", b"heaptrace 3\nspace 8 mutators 1\nm 1 raw r0 7 2\n", no_such_mutator(3)
    yield "no_such_log", start + b"c apply 1\nx\n", no_such_mutator(3)
    yield "no_such_mutator", start + b"m 1 look r0\n", no_such_mutator(3)
    yield "last_line_without_its_end", start + b"m 0 look r0", bad_line(3)
    yield "no_such_mutator_without_its_end", start + b"m 1 look r0", bad_line(3)
    yield "empty_line_at_the_end", start + b"m 0 nil g0\n\n", bad_line(4)
    yield "no_such_mutator_before_a_bad_line", start + b"m 1 look r0\nx\n", no_such_mutator(3)
    yield "bad_line_before_no_such_mutator", start + b"x\nm 1 look r0\n", bad_line(3)
    yield "bad_line_behind_good_ones", start + b"m 0 nil r0\n" * 997 + b"x\n", bad_line(1000)
    yield "mutator_15_of_15", b"heaptrace 1\nspace 8 mutators 15\nm 15 look r0\n", no_such_mutator(3)
