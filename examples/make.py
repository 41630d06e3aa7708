#!/usr/bin/env python3
"""Writes the byte files of the worked examples, from the format alone (docs/FORMAT.md).

worked.bin   the founding of three accounts and block 1 of docs/RULES.md
twin.bin     the same, with the grants and the offers in another order
damaged.bin  the same, then blocks that cannot be read, each for another reason; the last is cut off

Usage: examples/make.py [folder]
"""
import hashlib
import pathlib
import sys


def number(width, n):
    return n.to_bytes(width, "big")


def grant(account, balances):
    amounts = [balances.get(asset, 0) for asset in range(8)]
    return b"G" + number(4, account) + b"".join(number(8, a) for a in amounts)


def begin(height, parent):
    return b"B" + number(4, height) + parent


def price(asset, worth):
    return b"P" + number(1, asset) + number(4, worth)


def volume(sold, bought, amount):
    return b"V" + number(1, sold) + number(1, bought) + number(8, amount)


def head(letter, source, sequence):
    return letter + number(4, source) + number(4, sequence)


def create(source, sequence, account):
    return head(b"A", source, sequence) + number(4, account)


def pay(source, sequence, receiver, asset, amount, memo):
    return head(b"T", source, sequence) + number(4, receiver) + number(1, asset) + number(8, amount) + memo.ljust(16, b" ")


def offer(source, sequence, sold, bought, limit, amount):
    return head(b"O", source, sequence) + number(1, sold) + number(1, bought) + number(4, limit) + number(8, amount)


def cancel(source, sequence, sold, bought, limit, number_of_offer):
    return head(b"C", source, sequence) + number(1, sold) + number(1, bought) + number(4, limit) + number(4, number_of_offer)


def digest(height, remainders, accounts, offers):
    """The digest of a state; accounts are (number, floor, balances), offers (sold, bought, limit, account, sequence, amount)."""
    state = b"S" + number(4, height) + b"".join(number(8, r) for r in remainders)
    state += number(4, len(accounts))
    for account, floor, balances in sorted(accounts):
        state += number(4, account) + number(4, floor) + b"".join(number(8, balances.get(a, 0)) for a in range(8))
    state += number(4, len(offers))
    for sold, bought, limit, account, sequence, amount in sorted(offers):
        state += number(1, sold) + number(1, bought) + number(4, limit) + number(4, account) + number(4, sequence) + number(8, amount)
    return hashlib.sha256(state).digest()


GRANTS = [(1, {0: 1000}), (2, {1: 1000}), (3, {0: 67})]
GRANTED = [grant(account, balances) for account, balances in GRANTS]
FOUNDING = b"".join(GRANTED) + b"E"
FOUNDED = digest(0, [0] * 8, [(account, 0, balances) for account, balances in GRANTS], [])
PRICES = [price(asset, worth) for asset, worth in enumerate([3, 2, 1, 1, 1, 1, 1, 1])]
OPENING = begin(1, FOUNDED) + b"".join(PRICES)
VOLUMES = volume(0, 1, 100) + volume(1, 0, 150)
PLACED = [offer(1, 1, 0, 1, 98304, 40), offer(3, 1, 0, 1, 65536, 67), offer(2, 1, 1, 0, 32768, 200)]
OFFERS = b"".join(PLACED)
BLOCK = OPENING + VOLUMES + OFFERS + b"E"
TWIN = b"".join(reversed(GRANTED)) + b"E" + OPENING + VOLUMES + PLACED[2] + PLACED[0] + PLACED[1] + b"E"

DAMAGED = [
    # each kind of transaction, to show their lines
    OPENING + create(1, 1, 9) + pay(1, 2, 2, 0, 600, b"rent") + cancel(2, 2, 1, 0, 32768, 1) + b"E",
    # the price of asset 1 before that of asset 0
    begin(1, FOUNDED) + PRICES[1] + b"E",
    # a pair that does not rise
    OPENING + volume(1, 0, 150) + volume(0, 1, 100) + b"E",
    # an asset sold for itself
    OPENING + volume(2, 2, 1) + b"E",
    # account 0
    OPENING + create(0, 1, 9) + b"E",
    # a price of 0
    begin(1, FOUNDED) + price(0, 0) + b"E",
    # an amount of 2^36
    OPENING + pay(1, 1, 2, 0, 1 << 36, b"too much") + b"E",
    # a volume after a transaction
    OPENING + OFFERS[:23] + VOLUMES + b"E",
    # cut off in the last offer
    BLOCK[:-2],
]

if __name__ == "__main__":
    folder = pathlib.Path(sys.argv[1] if len(sys.argv) > 1 else pathlib.Path(__file__).parent)
    (folder / "worked.bin").write_bytes(FOUNDING + BLOCK)
    (folder / "twin.bin").write_bytes(TWIN)
    (folder / "damaged.bin").write_bytes(FOUNDING + BLOCK + b"".join(DAMAGED))
