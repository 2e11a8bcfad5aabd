"""Pictures of heaps, pair texts and traces, laid out as data that any renderer can start from.

`picture` defines the descriptions. `tools/draw` renders them as SVG, and the page of `gcflip_explore` renders them in the browser.
The package needs no shared library. The drawings are not proved.
"""
