"""The parts that only tools/draw needs: the SVG renderer and the graph of the crates.

Pictures are laid out by the package `gcflip_drawing` of explore/, which the page shares.
"""
