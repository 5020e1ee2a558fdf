"""The rules of an end under one context, step by step: `Follows` of `coap_sealed_law` (its specs/Sealing.antt)."""


class Rules:
    """What one end sealed and opened, over all of its lives."""

    def __init__(self):
        self.greatest, self.opened = -1, set()
        self.begins()

    def begins(self):
        """A life begins: what was in memory is gone."""
        self.sealed, self.heads = {}, {}

    def opens(self, number, head):
        """Whether a request of this number may be handed on under this head."""
        may = number not in self.opened or self.heads.get(number) == head
        self.opened.add(number)
        self.heads[number] = head
        return may

    def seals(self, nonce, text):
        """Whether this may be sealed under the nonce: ("own", number) or ("of request", number)."""
        kind, number = nonce
        same = self.sealed.get(nonce) == text
        if kind == "own":
            may = number > self.greatest or same
            self.greatest = max(self.greatest, number)
        else:
            may = number in self.heads and (same or nonce not in self.sealed)
        self.sealed[nonce] = text
        return may
