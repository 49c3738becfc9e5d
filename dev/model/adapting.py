"""What a cache whose window adapts remembers, and how large a window that asks for, by the definitions of crates/moka_unsync_model/specs/Memory.antt."""

WINDOW_SHARE = 1             # hundredths of a limit
PROTECTED_SHARE = 80         # hundredths of what the window leaves to main
MOST_WINDOW_SHARE = 80
DEMAND_SLACK = 64            # a demand of up to this part of the limit is ignored
WORDS_A_TAG = 8
LEAST_TAGS = 8


def hundredths(share, limit):
    return limit * share // 100


class Tags:
    """Tags of rows that left recently, each in its hash's slot. No tag stays for more notes than there are slots."""

    def __init__(self, count):
        self.count = count
        self.slots = {}          # slot -> tag, absent if the slot has none
        self.hand = 0

    def place_of(self, hash_):
        return hash_ // 2**20 % self.count, hash_ // 2**49 * 2 + 1

    def has(self, hash_):
        if self.count == 0:
            return False
        slot, tag = self.place_of(hash_)
        return self.slots.get(slot, 0) == tag

    def note(self, hash_):
        if self.count == 0:
            return
        slot, tag = self.place_of(hash_)
        self.slots.pop(self.hand, None)
        self.slots[slot] = tag
        self.hand = (self.hand + 1) % self.count

    def take(self, hash_):
        if self.has(hash_):
            del self.slots[self.place_of(hash_)[0]]


class Memory:
    """The tags of candidates that were rejected and of rows that main gave up, and the weight that the window asks for, in halves."""

    def __init__(self):
        self.rejected = Tags(0)
        self.displaced = Tags(0)
        self.demand = 0

    def make_tables(self, words):
        """Makes tables beside a sketch of so many words."""
        count = max(words // WORDS_A_TAG, LEAST_TAGS)
        self.rejected = Tags(count)
        self.displaced = Tags(count)

    def demand_after(self, limit, row):
        """Returns the demand once this new row came."""
        if self.rejected.has(row.hash):
            return min(2 * (most_extra(limit) + limit // DEMAND_SLACK), self.demand + 2 * row.weight)
        if self.displaced.has(row.hash):
            return max(0, self.demand - 3 * row.weight)
        return self.demand

    def take(self, hash_):
        self.rejected.take(hash_)
        self.displaced.take(hash_)


def most_extra(limit):
    """Returns the most weight that the window may have beyond its share."""
    return max(0, hundredths(MOST_WINDOW_SHARE, limit) - hundredths(WINDOW_SHARE, limit))


def extra_at(limit, demand):
    return min(most_extra(limit), max(0, demand // 2 - limit // DEMAND_SLACK))
