"""Makes the logs of the queries, which are skewed as such logs are: a few groups have many records,
and many have few. The make.py of each folder calls one of the functions, so that
`make.py RECORDS SEED` writes a log of so many records. The same seed gives the same log.
"""
import random
import sys

BEGIN = 1767225600  # the second at which each log begins: 2026-01-01, 00:00 UTC
WORKING = 40  # how many users are at work at once


class Draws:
    """Numbers that are drawn from a seed."""

    def __init__(self, seed):
        self.draw = random.Random(seed).random

    def below(self, count):
        """A number from 0 to count - 1, each as likely as the others."""
        return int(count * self.draw())

    def skewed(self, count):
        """A number from 1 to count: 1 is the likeliest, and n comes one nth as often."""
        return int((count + 1) ** self.draw())

    def happens(self, chance):
        return self.draw() < chance


def users_at_work(draws, count, length):
    """The user of each record: some users are at work at once, each for about so many records."""
    at_work = [draws.skewed(count) for _ in range(WORKING)]
    while True:
        place = draws.below(WORKING)
        yield at_work[place]
        if draws.happens(1 / length):
            at_work[place] = draws.skewed(count)


def repositories(records, draws, write):
    """A code host. A repository has one open pull request at most, and one branch that comes and
    goes. A third of the repositories have pushes alone."""
    write("repo,action,user,second\n")
    repos = max(5, records // 20)
    plain = {}
    opened, without, gone = set(), set(), set()
    second = BEGIN
    for _ in range(records):
        second += draws.below(5)
        repo = draws.skewed(repos)
        if repo not in plain:
            plain[repo] = draws.happens(1 / 3)
        action = "push"
        if not plain[repo]:
            chance = draws.draw()
            if repo in gone and chance < 0.5:
                action = "create"
                gone.discard(repo)
            elif chance < 0.16:
                action = "comment"
            elif chance < 0.22:
                action = "star"
            elif chance < 0.30:
                action = "close" if repo in opened else "open"
                opened ^= {repo}
            elif chance < 0.36:
                action = "branch" if repo in without else "unbranch"
                without ^= {repo}
            elif chance < 0.37:
                action = "delete"
                gone.add(repo)
        write(f"r{repo},{action},u{draws.skewed(repos)},{second}\n")


def searches(records, draws, write):
    """A search engine. Now and then no search is answered for a while, in all areas or in one."""
    write("second,user,area,answered\n")
    users, areas = max(5, records // 40), max(3, min(100, records // 200))
    working = users_at_work(draws, users, 6)
    area_of = {}
    down, down_in = BEGIN, {}
    second = BEGIN
    for _ in range(records):
        second += draws.below(5)
        user = next(working)
        if user not in area_of:
            area_of[user] = draws.skewed(areas)
        area = area_of[user]
        if draws.happens(1 / 1500):
            down = second + 60 + draws.below(540)
        if draws.happens(1 / 500):
            down_in[draws.skewed(areas)] = second + 60 + draws.below(1740)
        fails = second < down or second < down_in.get(area, 0) or draws.happens(0.02)
        write(f"{second},u{user},a{area},{'no' if fails else 'yes'}\n")


def advertisements(records, draws, write):
    """Advertisements. A quarter of the advertisers are shown in one country alone. Each shows one
    campaign for a while and then another one, and now and then none for some hours."""
    write("second,advertiser,campaign,country\n")
    advertisers = max(4, records // 2000)
    home, campaign, asleep = {}, {}, {}
    second = BEGIN
    for _ in range(records):
        second += draws.below(5)
        advertiser = draws.skewed(advertisers)
        while asleep.get(advertiser, 0) > second:
            second += 1
            advertiser = draws.skewed(advertisers)
        if advertiser not in home:
            home[advertiser] = draws.skewed(40) if draws.happens(1 / 4) else 0
            campaign[advertiser] = 1
        if draws.happens(1 / 40):
            campaign[advertiser] = draws.skewed(50)
        if draws.happens(1 / 200):
            asleep[advertiser] = second + 1800 + draws.below(28800)
        country = home[advertiser] or draws.skewed(40)
        write(f"{second},a{advertiser},c{campaign[advertiser]},l{country}\n")


def messages(records, draws, write):
    """Messages. One user of twenty is often reported, and the others seldom."""
    write("second,user,tag,reported\n")
    users = max(5, records // 40)
    working = users_at_work(draws, users, 12)
    annoys = {}
    second = BEGIN
    for _ in range(records):
        second += draws.below(5)
        user = next(working)
        if user not in annoys:
            annoys[user] = draws.happens(1 / 20)
        reported = draws.happens(0.3 if annoys[user] else 0.002)
        write(f"{second},u{user},t{draws.skewed(30)},{'yes' if reported else 'no'}\n")


def main(make):
    """Writes the log that a function makes, of the records and the seed that the arguments say."""
    if len(sys.argv) != 3:
        sys.exit("usage: make.py RECORDS SEED >log.csv")
    make(int(sys.argv[1]), Draws(int(sys.argv[2])), sys.stdout.write)
