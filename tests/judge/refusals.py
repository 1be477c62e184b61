"""Document 01's refusals, and the limits that more than one part of the judge needs."""

MOST_COLUMNS = 32
PLAN_BUFFER_WORDS = 9216
MOST_WORDS = 16384
GREATEST = 4294967295


class Refusal(Exception):
    """A numbered refusal and its place."""

    def __init__(self, status, place):
        super().__init__(f"refusal {status} at {place}")
        self.status = status
        self.place = place
