"""Pair texts with their verdicts, and other texts with their faults.

Verdicts and faults follow from the formats and the checker's rules (docs/FORMATS.md); none was taken from a run.
"""


def text_of(lines, version=1, form="heappair"):
    """Returns a text of this form, that of a pair by default. `lines` are those between the first and the last, separated by slashes."""
    return ("%s %d/%s/end/" % (form, version, lines)).replace("/", "\n").encode()


# The name, the lines between the first and the last, and the verdict.
CHECKED = {
    "no_objects": ("old 1 1/0/roots 1/0/new 1 1/0/roots 1/0/pairs 0", "yes 0"),
    "root_lists_of_two_lengths": ("old 1 1/0/roots 1/0/new 1 1/0/roots 2/0/0/pairs 0", "refused 3 RootCount"),
    "two_originals_share_a_replica": (
        "old 8 5/0/16777216/0/16777216/0/roots 2/2/6/new 8 3/0/16777216/0/roots 2/2/2/pairs 2/1 1/3 1",
        "refused 6 NotRising 1",
    ),
    "an_original_has_two_replicas": (
        "old 8 3/0/16777216/0/roots 2/2/2/new 8 5/0/16777216/0/16777216/0/roots 2/2/6/pairs 2/1 1/1 3",
        "refused 7 Twice 1",
    ),
    "new_object_runs_past_the_end": (
        "old 8 3/0/16777216/0/roots 1/2/new 8 3/0/16777217/0/roots 1/2/pairs 1/1 1",
        "refused 2 NewShape 1",
    ),
    "word_0_is_not_0": ("old 8 1/7/roots 0/new 8 1/0/roots 0/pairs 0", "refused 1 OldShape 0"),
    "a_field_is_paired_as_an_object": (
        "old 8 4/0/16777217/0/1/roots 1/6/new 8 4/0/16777217/0/1/roots 1/6/pairs 2/1 1/3 3",
        "refused 4 OldNotStart 1",
    ),
    "a_root_refers_to_a_field": (
        "old 8 4/0/16777217/0/1/roots 1/6/new 8 4/0/16777217/0/1/roots 1/6/pairs 1/1 1",
        "refused 10 RootDiffers 0",
    ),
    "second_field_refers_to_an_object_without_a_pair": (
        "old 8 7/0/16777218/0/1/10/16777216/0/roots 1/2/new 8 5/0/16777218/0/1/2/roots 1/2/pairs 1/1 1",
        "refused 9 FieldDiffers 0 1",
    ),
    "garbage_without_a_pair": (
        "old 8 5/0/16777216/0/16777216/0/roots 1/2/new 8 3/0/16777216/0/roots 1/2/pairs 1/1 1",
        "yes 1",
    ),
    "a_number_and_a_reference": (
        "old 9 4/0/16777217/0/9/roots 1/2/new 9 4/0/16777217/0/8/roots 1/2/pairs 1/1 1",
        "refused 9 FieldDiffers 0 0",
    ),
    "kinds_differ": (
        "old 8 3/0/16777216/0/roots 1/2/new 8 3/0/16842752/0/roots 1/2/pairs 1/1 1",
        "refused 8 HeaderDiffers 0",
    ),
    "a_link_is_paired_as_a_replica": (
        "old 8 3/0/16777216/0/roots 1/2/new 8 3/0/16777216/0/roots 1/2/pairs 1/1 2",
        "refused 5 NewNotStart 0",
    ),
    "end_above_the_size": ("old 1 3/0/16777216/0/roots 0/new 1 1/0/roots 0/pairs 0", "refused 1 OldShape 0"),
    "links_differ": (
        "old 8 3/0/16777216/77/roots 1/2/new 8 3/0/16777216/99/roots 1/2/pairs 1/1 1",
        "yes 1",
    ),
    "fields_of_no_value": (
        "old 8 4/0/16777217/0/2097152/roots 1/2/new 8 4/0/16777217/0/2097152/roots 1/2/pairs 1/1 1",
        "refused 9 FieldDiffers 0 0",
    ),
    "old_addresses_may_fall": (
        "old 8 5/0/16777216/0/16842752/0/roots 2/2/6/new 8 5/0/16842752/0/16777216/0/roots 2/6/2/pairs 2/3 1/1 3",
        "yes 2",
    ),
    "no_room_for_the_last_link": (
        "old 8 4/0/16777216/0/5/roots 0/new 8 1/0/roots 0/pairs 0",
        "refused 1 OldShape 3",
    ),
}


# The name, the version, the lines between the first and the last, and the verdict. The objects are raw.
CHECKED_RAW = {
    "raw_header_in_the_first_version": (
        1,
        "old 8 3/0/50331648/0/roots 1/2/new 8 3/0/50331648/0/roots 1/2/pairs 1/1 1",
        "refused 1 OldShape 1",
    ),
    "raw_header_in_the_second_version": (
        2,
        "old 8 3/0/50331648/0/roots 1/2/new 8 3/0/50331648/0/roots 1/2/pairs 1/1 1",
        "yes 1",
    ),
    "raw_header_in_the_new_heap_of_the_first_version": (
        1,
        "old 8 3/0/16777216/0/roots 1/2/new 8 3/0/50331648/0/roots 1/2/pairs 1/1 1",
        "refused 2 NewShape 1",
    ),
    "raw_word_like_a_reference": (
        2,
        "old 9 4/0/50331649/0/18/roots 1/2/new 9 4/0/50331649/0/18/roots 1/2/pairs 1/1 1",
        "yes 1",
    ),
    "raw_words_differ": (
        2,
        "old 9 4/0/50331649/0/18/roots 1/2/new 9 4/0/50331649/0/8/roots 1/2/pairs 1/1 1",
        "refused 9 FieldDiffers 0 0",
    ),
    "raw_word_that_no_heap_has": (
        2,
        "old 9 4/0/50331649/0/18446744073709551614/roots 1/2/new 9 4/0/50331649/0/18446744073709551614/roots 1/2/pairs 1/1 1",
        "yes 1",
    ),
    "replica_of_another_header": (
        2,
        "old 8 3/0/16777216/0/roots 1/2/new 8 3/0/50331648/0/roots 1/2/pairs 1/1 1",
        "refused 8 HeaderDiffers 0",
    ),
    "raw_word_moved_as_a_reference": (
        2,
        "old 8 6/0/50331649/0/8/16777216/0/roots 2/2/8/new 8 6/0/16777216/0/50331649/0/2/roots 2/6/2/pairs 2/4 1/1 3",
        "refused 9 FieldDiffers 1 0",
    ),
    "last_word_below_raw_headers": (
        2,
        "old 8 3/0/50331647/0/roots 0/new 8 1/0/roots 0/pairs 0",
        "refused 1 OldShape 1",
    ),
    "first_word_above_raw_headers": (
        2,
        "old 8 3/0/67108864/0/roots 0/new 8 1/0/roots 0/pairs 0",
        "refused 1 OldShape 1",
    ),
    "greatest_raw_header_runs_past_the_end": (
        2,
        "old 8 3/0/16777216/0/roots 0/new 8 3/0/67108863/0/roots 0/pairs 0",
        "refused 2 NewShape 1",
    ),
    "raw_kinds_differ": (
        2,
        "old 8 3/0/50331648/0/roots 1/2/new 8 3/0/50397184/0/roots 1/2/pairs 1/1 1",
        "refused 8 HeaderDiffers 0",
    ),
}


def texts_and_verdicts():
    """Yields each pair text: name, bytes, line of the verdict. Without raw headers the version makes no difference."""
    for name, (lines, verdict) in CHECKED.items():
        for version in [1, 2]:
            yield "%s, version %d" % (name, version), text_of(lines, version), verdict
    for name, (version, lines, verdict) in CHECKED_RAW.items():
        yield name, text_of(lines, version), verdict


def status_of(verdict):
    return 0 if verdict.startswith("yes ") else 1


LEAST = text_of(CHECKED["no_objects"][0])

ENDS_EARLY = "pair: ends early"


def bad_line(number):
    return "pair: bad line %d" % number


# A line of the smallest text, by its number, and what replaces it.
WRONG_LINES = {
    "next_version": (1, b"heappair 3"),
    "unknown_version": (1, b"heappair 9"),
    "version_0": (1, b"heappair 0"),
    "version_with_leading_zero": (1, b"heappair 01"),
    "another_text": (1, b"heaptrace 1"),
    "empty_first_line": (1, b""),
    "size_0": (2, b"old 0 1"),
    "size_too_great": (2, b"old 1048577 1"),
    "end_0": (2, b"old 1 0"),
    "end_too_great": (2, b"old 1 1048577"),
    "size_with_leading_zero": (2, b"old 01 1"),
    "size_with_a_sign": (2, b"old +1 1"),
    "two_spaces": (2, b"old  1 1"),
    "space_before": (2, b" old 1 1"),
    "space_behind": (2, b"old 1 1 "),
    "tab_between": (2, b"old\t1 1"),
    "capital_letters": (2, b"Old 1 1"),
    "end_is_missing": (2, b"old 1"),
    "new_before_old": (2, b"new 1 1"),
    "word_with_leading_zero": (3, b"00"),
    "word_with_a_sign": (3, b"-1"),
    "word_beyond_64_bits": (3, b"18446744073709551616"),
    "word_of_many_digits": (3, b"1" * 1000),
    "two_words": (3, b"0 0"),
    "no_word": (3, b""),
    "a_word_too_few": (3, b"roots 1"),
    "carriage_return": (3, b"0\r"),
    "zero_byte_behind": (3, b"0\0"),
    "byte_of_no_text": (3, b"\xff"),
    "comment_behind": (3, b"0 # word 0"),
    "a_word_too_many": (4, b"0"),
    "roots_too_many": (4, b"roots 273"),
    "roots_without_number": (4, b"roots"),
    "a_root_too_few": (4, b"roots 2"),
    "a_root_too_many": (4, b"roots 0"),
    "old_twice": (6, b"old 1 1"),
    "pairs_too_many": (10, b"pairs 524288"),
    "pair_for_pairs": (10, b"pair 0"),
    "a_pair_too_few": (10, b"pairs 1"),
    "end_in_capitals": (11, b"END"),
    "space_behind_the_end": (11, b"end "),
    "pair_too_many": (11, b"1 1"),
}

# The line at which a wrong number in an earlier line is noticed.
NOTICED_IN = {"a_root_too_few": 6, "a_root_too_many": 5, "a_pair_too_few": 11}

# The pair of a text with one pair.
WRONG_PAIRS = {
    "old_address_beyond_32_bits": b"4294967296 1",
    "new_address_beyond_32_bits": b"1 4294967296",
    "address_with_leading_zero": b"01 1",
    "one_address": b"1",
    "three_addresses": b"1 1 1",
    "pair_parted_by_two_spaces": b"1  1",
}


def with_line(text, number, line):
    lines = text.split(b"\n")
    lines[number - 1] = line
    return b"\n".join(lines)


def refused_texts():
    """Yields each text that is not a pair: name, bytes, line on standard error."""
    for name, (number, line) in WRONG_LINES.items():
        yield name, with_line(LEAST, number, line), bad_line(NOTICED_IN.get(name, number))
    one_pair = text_of(CHECKED["links_differ"][0])
    place = one_pair.split(b"\n").index(b"1 1") + 1
    for name, line in WRONG_PAIRS.items():
        yield name, with_line(one_pair, place, line), bad_line(place)
    yield "nothing_at_all", b"", ENDS_EARLY
    yield "without_its_last_line", LEAST[: -len(b"end\n")], ENDS_EARLY
    yield "last_line_without_its_end", LEAST[:-1], ENDS_EARLY
    yield "unfinished_line_of_anything", b"heappair 1\nx", ENDS_EARLY
    yield "line_behind_the_end", LEAST + b"x\n", bad_line(12)
    yield "byte_behind_the_end", LEAST + b"x", bad_line(12)
    yield "empty_line_behind_the_end", LEAST + b"\n", bad_line(12)
    yield "two_texts", LEAST + LEAST, bad_line(12)
    yield "first_of_two_bad_lines", with_line(with_line(LEAST, 9, b"x"), 3, b"x"), bad_line(3)
    yield "bad_line_before_the_early_end", LEAST[: LEAST.index(b"roots")] + b"x\n", bad_line(4)


def image_without_fields(headers, roots):
    """Returns the lines of an image of objects without fields, after the word that names the image."""
    objects = "".join("%d\n0\n" % header for header in headers)
    return "1048576 %d\n0\n%sroots %d\n%s" % (1 + 2 * len(headers), objects, roots, "2\n" * roots)


def all_paired(count, roots, altered=()):
    """Returns the text of this many objects without fields, each paired with the one at its address, and its verdict. The
    altered pairs, lowest first, have a replica of another kind."""
    headers = [16777216] * count
    old = image_without_fields(headers, roots)
    for number in altered:
        headers[number] = 16842752
    new = image_without_fields(headers, roots)
    pairs = "".join("%d %d\n" % (place, place) for place in range(1, 1 + 2 * count, 2))
    text = "heappair 1\nold %snew %spairs %d\n%send\n" % (old, new, count, pairs)
    return text.encode(), "refused 8 HeaderDiffers %d" % altered[0] if altered else "yes %d" % count


def numbered_image(name, count, fields):
    """Returns the lines of an image of objects with this many fields. Each refers to the next one; its link and its other fields have twenty digits."""
    size, words = fields + 2, ["0"]
    for number in range(count):
        following = 2 * (1 + size * (number + 1)) if number + 1 < count else 0
        words += ["%d" % (16777216 + fields), "1844674407370955%04d" % (number % 1000), "%d" % following]
        words += ["1844674407370%07d" % (2 * (number * fields + field) % 9000000 + 1) for field in range(fields - 1)]
    return "%s %d %d\n%s\nroots 1\n2\n" % (name, len(words), len(words), "\n".join(words))


def long_texts(words, image_words, fields=40):
    """Yields long texts of two equal heaps: a name, the text, its verdict, and the number of objects. A pair text has spaces of about `words` words, and an
    image text those of `image_words`. The first pair text holds, and the second one has pairs of no objects behind those that hold, as many as a
    text may have."""
    size = fields + 2
    count = (words - 1) // size
    heaps = numbered_image("old", count, fields) + numbered_image("new", count, fields)
    places = ["%d %d" % (1 + size * number, 1 + size * number) for number in range(count)]
    loose = ["4294967295 4294967295"] * (524287 * words // 1048576 - count)
    for name, pairs, verdict in (("accepted", places, "yes %d" % count), ("refused", places + loose, "refused 4 OldNotStart %d" % count)):
        yield name, "heappair 1\n%spairs %d\n%s\nend\n" % (heaps, len(pairs), "\n".join(pairs)), verdict, count
    count = (image_words - 1) // size
    heaps = numbered_image("old", count, fields) + numbered_image("new", count, fields)
    yield "inferred", "heapimages 1\n%send\n" % heaps, "yes %d" % count, count


def greatest_text():
    """Returns the text with the most pairs and roots, and its verdict."""
    return all_paired(524287, 272)
