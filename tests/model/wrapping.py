"""Text in whole words, by docs/PLAYERS.md: each turn for itself, from the first column on."""


def wrapped(text, width):
    """The text of a turn: a space is an end of line where the word behind it would go past the last column."""
    lines = []
    for line in text.split(b"\n"):
        shown, column = b"", 0
        for number, word in enumerate(line.split(b" ")):
            if number and column + 1 + len(word) > width:
                shown, column = shown + b"\n", -1
            elif number:
                shown += b" "
            shown, column = shown + word, column + len(word) + (number > 0)
        lines.append(shown)
    return b"\n".join(lines)


def in_turns(text, ends, width):
    """A play's text, of which turns ended at these places."""
    places = [0, *ends, len(text)]
    return b"".join(wrapped(text[begin:end], width) for begin, end in zip(places, places[1:]))
