"""When a step begins: on the clock, as if step 0 began at midnight, or in hours.

The clock is shown where the steps fill a day exactly and begin on whole seconds: 06:30; a day later, 1d 06:30.
"""

DAY = 86400  # seconds


def steps_a_day(length):
    """How many steps of so many hours make a day; None where that is no whole number, or they end within a second."""
    if not 24 / DAY <= length <= 24:
        return None
    count = round(24 / length)
    # The double nearest to the day's part: a third of an hour has none that is exact.
    return count if 24 / count == length and DAY % count == 0 else None


def on_the_clock(index, length):
    """Where step `index` begins, or None."""
    count = steps_a_day(length)
    if count is None:
        return None
    days, second = divmod(index * (DAY // count), DAY)
    told = "%02d:%02d" % (second // 3600, second // 60 % 60)
    if DAY // count % 60:
        told += ":%02d" % (second % 60)
    return "%dd %s" % (days, told) if days else told


def hour(index, length):
    return "%g" % (index * length)


def heading(length):
    return "hour" if steps_a_day(length) is None else "clock"


def begin(index, length):
    """For a column of its own."""
    return on_the_clock(index, length) or hour(index, length)


def begin_words(index, length):
    """Among words."""
    return on_the_clock(index, length) or "hour " + hour(index, length)
