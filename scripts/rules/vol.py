"""vol gain [amplitude]"""

import compare_texts as texts
from rules import Effect, Refused, count, gain_text, in_profile, read


def vol_words(source):
    end = source.choice(([], [], ["amplitude"], ["dB"], ["power"], ["amplitude", "0.1"], ["x"], ["amplitude"] * 3))
    return [gain_text(source) + source.choice(("", "", "", "dB"))] + end


@in_profile(vol_words)
def vol(words, rate, channels, file):
    count(words, 1, 3)
    if words[0].endswith(("dB", "power")):
        raise Refused("NotInProfile", 2)
    read(2, texts.gain, words[0])
    if len(words) > 1 and words[1] != "amplitude":
        raise Refused("NotInProfile" if words[1] in ("power", "dB") else "BadArgument", 3)
    if len(words) > 2:
        raise Refused("NotInProfile", 4)
    return Effect(rate, channels)
