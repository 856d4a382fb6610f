"""delay {position}"""

from rules import Effect, Refused, count, in_profile, position_text, read_position, several


def delay_words(source):
    return several(source, position_text, (0, 1, 1, 2, 16, 17))


@in_profile(delay_words)
def delay(words, rate, channels, file):
    count(words, 1, len(words))
    if len(words) > channels:
        raise Refused("NoSuchChannel", channels + 2)
    previous = ("start", 0)
    delays = []
    for number, text in enumerate(words, 2):
        previous = read_position(number, text, rate, "start", previous)
        if previous[0] == "end":
            raise Refused("NeedsWholeSound", number)
        delays.append(previous[1])
    return Effect(rate, channels, line=max(delays), more=max(delays))
