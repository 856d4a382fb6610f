"""trim {position}"""

from rules import Effect, count, max_end, in_order, in_profile, position_text, read_position, several


def trim_words(source):
    return several(source, position_text, (0, 1, 2, 2, 3, 64, 65))


@in_profile(trim_words)
def trim(words, rate, channels, file):
    count(words, 1, 64)
    positions = []
    for number, text in enumerate(words, 2):
        previous = positions[-1] if positions else ("start", 0)
        positions.append(read_position(number, text, rate, "previous", previous))
    in_order(positions)
    return Effect(rate, channels, line=max_end(positions), late=max_end(positions))
