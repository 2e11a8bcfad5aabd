"""A web page that shows the collector at work: `python3 -m gcflip_explore [FILE]`.

The shared library gives replies and verdicts, and is proved. The server, the page and its drawings are not proved.
"""
