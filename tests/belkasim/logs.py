"""Logs of logins for comparisons: those of `make`, and random ones. A log is a list of bundles, a bundle a list of observations,
an observation its first and last second and the login."""

import itertools
from datetime import datetime, timedelta

from belkasim.objects import account, bundle, observed_data

LOGINS = ["u0", "u1", "u2", "u3"]


def timestamp(seconds):
    return (datetime(2021, 1, 1) + timedelta(seconds=seconds)).strftime("%Y-%m-%dT%H:%M:%SZ")


def made_log(seed, length=100):
    """The log of `make SEED LENGTH`, an observation a bundle."""
    state = seed

    def draw():
        nonlocal state
        state = (1103515245 * state + 12345) % 2**31
        return state // 65536

    seconds, log = 0, []
    for _ in range(length):
        seconds += draw() % 10
        log.append([(seconds, seconds, f"u{draw() % 4}")])
    return log


def random_log(generator, logins):
    """Bundles of observations in order of their last second."""
    last, log = 0, []
    for _ in range(generator.randrange(1, 12)):
        own = []
        for _ in range(generator.choice([1, 1, 2, 3])):
            last += generator.randrange(0, 4)
            own.append((max(0, last - generator.choice([0, 0, 0, 3, 5])), last, generator.choice(logins)))
        log.append(own)
    return log


def objects_of(number, first, last, login):
    """What the observation of this number brings into its bundle."""
    user = {**account(login, number), "user_id": login[1:], "is_privileged": login == "u1"}
    return [observed_data(timestamp(first), timestamp(last), [user["id"]], number), user]


def text_of(log):
    numbers = itertools.count(1)
    return "".join(bundle([it for observation in own for it in objects_of(next(numbers), *observation)]) for own in log)


def last_times(log):
    """The last time of each observation."""
    return [timestamp(last) for own in log for _, last, _ in own]
