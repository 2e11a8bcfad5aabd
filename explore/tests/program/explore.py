"""Tests of the page of `python3 -m gcflip_explore`: its server by requests (explore_server), and the page itself in a headless browser
(explore_page). Without a browser only the server is tested, and a line says so.

It tests the page of gcflip_explore: its server by requests, with and without the token; in a headless chromium each example, a collection by buttons,
dropped files, spoiled pairs, the tour, keys, contrast, small screens, what is taken back, saved and shown again after a reload, ways to an event, the
words at the place of a refusal, the times of calls, each object of a long pair; slow and idle connections, tabs side by side, missing and wrong libraries. Replies,
faults and verdicts are the program's. Without a browser it reports that it skips that part; tests/install installs one.
"""
from .explore_page import buttons, checks, hurry, keyboard, large, looks, nothing_is_lost, pauses, places, plays, progress, refused_places, roots_are_drawn, same_drawing
from .explore_page import tour, wrong_texts, zooms
from .explore_server import answers, commands, files, found_library, long_pairs, patience, refusals, sessions

GROUPS = [files, refusals, patience, commands, found_library, sessions, answers, long_pairs, zooms, plays, buttons, wrong_texts, checks, tour, keyboard, hurry, same_drawing, large, looks,
          nothing_is_lost, places, pauses, progress, roots_are_drawn, refused_places]
