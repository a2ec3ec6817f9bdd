"""The reasons for which exchanges ended calls that their peers hadn't hung up, by the call records of both."""
from exchange import rows_of

# The counts that `calls` has of calls ended by an exchange, each with the least number of exchanges that hung up their peer
# then. `hangups_back` are those that a peer hung up as well, so that the HANGUPs crossed: its exchange sent one before it had
# taken one.
ENDED = {"cut": 1, "inval": 0, "stuck": 0, "rejected": 0, "hangups_back": 2}
# The ways in which a leg ends without a hang-up. An INVAL is no reason: it says that the leg of the other exchange is gone,
# which has one.
BY_ITSELF = ("retries_spent", "record_full", "challenge_timeout")
HUNG_UP = "hung_up_here"
# The causes of an exchange that hangs up, and of one that has no number left.
CLEARING, NO_NUMBER = "16", "34"


def lacks_a_digit(one, other):
    """Returns whether a digit that one leg of a call took wasn't sent by the other."""
    return any(int(it["digits_taken"]) > int(to["digits_sent"]) for it, to in ((one, other), (other, one)))


def reason_of(rows):
    """Returns the reason why an exchange ended a call on its own, by its rows of the two legs; None if it didn't."""
    endings = [(it["ending"], it["cause"]) for it in rows]
    for ending, cause in endings:
        if ending in BY_ITSELF:
            return ending
        if (ending, cause) == ("rejected_here", NO_NUMBER):
            return "no_number"
    # It hung up both legs, and neither peer did so before: a digit found no room in the window of one.
    return "no_room" if endings == 2 * [(HUNG_UP, CLEARING)] and lacks_a_digit(*rows) else None


class Endings:
    """The ends of calls at both exchanges, by the calls' numbers, which follow `prefix` digits."""

    def __init__(self, paths, prefix, trunk):
        # The reason of each end, at the first exchange that had one; and the exchanges that hung up their peer.
        self.why, self.hung_up = {}, {}
        for path in paths:
            calls = {}
            for row in rows_of(path):
                calls.setdefault(row["call"], []).append(row)
            for rows in calls.values():
                self.add(path, int(rows[0]["called"][prefix:]), rows, trunk)

    def add(self, path, call, rows, trunk):
        if why := reason_of(rows):
            self.why.setdefault(call, why)
        if any(it["peer"] != trunk and it["ending"] == HUNG_UP for it in rows):
            self.hung_up.setdefault(call, set()).add(path)

    def why_of(self, what, call):
        """Returns the reason why an exchange ended a call, if it agrees with what `calls` saw and with the rows; otherwise
        None."""
        fits = what in ENDED and len(self.hung_up.get(call, ())) >= ENDED[what]
        return self.why.get(call) if fits else None
