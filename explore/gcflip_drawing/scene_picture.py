"""Chooses how a scene is laid out: word by word, or in blocks if its heaps are large."""
from .blocks_picture import Blocks, blocks_of, drawn_in_blocks
from .words_picture import Grid, drawn_word_by_word, grid_of

MOST_WORDS = 192


def is_in_blocks(scene):
    """Returns whether the heaps of a scene are too large to draw word by word."""
    return max(len(space.words) for space, _ in scene.spaces()) > MOST_WORDS


def drawn(scene, grid=Grid(), blocks=Blocks()):
    """Returns the picture of a scene."""
    return drawn_in_blocks(scene, blocks) if is_in_blocks(scene) else drawn_word_by_word(scene, grid)


def drawn_in_width(scene, width):
    """Returns the picture of a scene, about as wide as `width`. Draws spaces to their ends, unless few of very many words are in use."""
    is_small = max(space.size for space, _ in scene.spaces()) <= MOST_WORDS
    return drawn(scene, grid_of(width, is_small), blocks_of(width))
