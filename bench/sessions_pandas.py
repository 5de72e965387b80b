"""What sessions.symple reports, with pandas: the range of no number is tested."""

import sys

import pandas

log = pandas.read_csv(sys.argv[1], dtype={"user": str}, keep_default_na=False)
by_user = log["user"]

# A record after a pause begins a session; a user's sessions are numbered from 0 on.
pauses = log["ts"] - log["ts"].groupby(by_user).shift(fill_value=0)
log["session"] = (pauses > 30).groupby(by_user).cumsum()
lengths = log.groupby(["user", "session"], sort=False).size().reset_index(name="length")
last = lengths["session"].groupby(lengths["user"]).transform("max")
is_open = lengths["session"] == last

report = lengths[is_open].set_index("user")
report["longest"] = lengths[~is_open].groupby("user")["length"].max()
report["longest"] = report["longest"].fillna(0).astype(int)

print("user | sessions | open | longest")
for row in report.loc[by_user.unique()].itertuples():
    longest = row.longest if row.session else "none"
    print(f"{row.Index} | {row.session} | {row.length} | {longest}")
print("--")
