"""Plays traces and writes the lines of their replies, as `gcflip play` does: play [TRACE REPLIES] ..."""
import sys

from gcflip_explore.playing import opened
from gcflip_drawing.trace_text import read_trace

for source, target in zip(sys.argv[1::2], sys.argv[2::2]):
    with open(source, "rb") as file:
        trace = read_trace(file.read())
    player = opened(trace.size, trace.mutators)
    with player.heap, open(target, "w") as replies:
        replies.writelines(player.play(event) + "\n" for event in trace.events)
