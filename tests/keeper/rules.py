"""Which of some jobs are kept by counts of periods: a plain model that asks of each job whether a newer one is of its period."""
import datetime


def period(moment, word):
    """The period of a word in which a moment is, in this machine's zone."""
    day = datetime.datetime.fromtimestamp(moment)
    year, week, _ = day.isocalendar()
    return {"hourly": (day.date(), day.hour), "daily": day.date(), "weekly": (year, week), "monthly": (day.year, day.month),
            "yearly": day.year, "last": moment}[word]


def kept_by(moments, counts):
    """The moments of those that are kept."""
    kept = set()
    for word, count in counts.items():
        newest = [one for one in moments
                  if not any(other > one and period(other, word) == period(one, word) for other in moments)]
        kept.update(sorted(newest)[-count:])
    return kept
