"""What nobody may find at step t of a key: each seed from which a step up to t grows, each secret of those steps, and what Ed25519 makes
of such a secret. What the table holds by document 01 is not among them: the secret of step t itself, and the seeds of later steps.
And what nobody may find at step t of a fair's cache: the master seed, the secrets of steps before t, and the same of these."""
import hashlib
import sys

import ed25519
import kes


def number_of(word):
    """A word of 8 bytes as this machine reads it."""
    return int.from_bytes(word, sys.byteorder)


def grown(seed, h, last):
    """The seeds of a tree from which a leaf up to last grows: (seed, None) for the inner ones, (secret, leaf) for the leaves."""
    if h == 0:
        return [(seed, 0)]
    half = 2 ** (h - 1)
    found = [(seed, None)] + grown(kes.left(seed), h - 1, min(last, half - 1))
    if last >= half:
        found += [(s, None if leaf is None else leaf + half) for s, leaf in grown(kes.right(seed), h - 1, last - half)]
    return found


class Found:
    """names has each value of 32 bytes with what it is; present is the one secret of step t."""

    def halves(self, name, digest):
        self.names[digest[:32]] = self.names[digest[32:]] = name

    def expanded(self, name, secret):
        """RFC 8032, 5.1.5: the secret's digest, and the scalar."""
        self.halves(f"{name}, its SHA-512", hashlib.sha512(secret).digest())
        self.names[ed25519.expanded(secret)[0].to_bytes(32, "little")] = f"{name}, its scalar"

    def nonce(self, secret, message):
        """RFC 8032, 5.1.6: with a signature's r and the signature anyone finds the scalar."""
        digest = hashlib.sha512(ed25519.expanded(secret)[1] + message).digest()
        self.halves(f"{self.names[secret]}, a nonce", digest)
        self.names[(ed25519.number(digest) % ed25519.L).to_bytes(32, "little")] = f"{self.names[secret]}, a nonce"

    def words(self):
        """Every value in words of 8 bytes, as it lies in memory and as it is hashed behind one byte (rule 1), as numbers, with its name."""
        return {number_of(value[at : at + 8]): name for value, name in self.names.items() for at in (0, 8, 16, 24, 7, 15, 23)}


class Past(Found):
    """Of a key."""

    def __init__(self, seed, heights, t, signatures=()):
        # of each depth, from the top tree down, the secrets of its leaves, in all trees that there were
        self.names, self.secrets = {}, [{} for _ in heights]
        self.part("the key", seed, heights, t, 0)
        self.names[seed] = "the key's seed"
        self.present = self.secrets[-1].pop(t)
        del self.names[self.present]
        for secret in [secret for secrets in self.secrets for secret in secrets.values()]:
            self.expanded(self.names[secret], secret)
        for step, message, signature in signatures:
            # the last bytes are the roots that the leaves above the last tree signed
            for depth, root in enumerate(kes.cut(signature[-32 * (len(heights) - 1) :], *[32] * (len(heights) - 1))):
                self.nonce(self.secrets[depth][step >> sum(heights[depth + 1 :])], root)
            if step != t:
                self.nonce(self.secrets[-1][step], message)

    def part(self, name, seed, heights, t, first):
        """A part that is at step t, the first leaf of whose top tree is this one of its depth."""
        if len(heights) == 1:
            return self.tree(f"{name}, the last tree", grown(seed, heights[0], t), self.secrets[-1], first)
        top, inner = kes.split(heights, t)
        self.tree(f"{name}, the tree above", grown(kes.left(seed), heights[0], top), self.secrets[-len(heights)], first)
        stored, last = kes.right(seed), kes.steps(*heights[1:]) - 1
        for n in range(top + 1):
            self.names[stored] = f"{name}, the seed before part {n}"
            self.names[kes.left(stored)] = f"{name}, the seed of part {n}"
            self.part(f"{name}, part {n}", kes.left(stored), heights[1:], inner if n == top else last, (first + n) * 2 ** heights[1])
            stored = kes.right(stored)

    def tree(self, name, seeds, secrets, first):
        for seed, leaf in seeds:
            self.names[seed] = f"{name}: an inner seed" if leaf is None else f"{name}: the secret of leaf {leaf}"
            if leaf is not None:
                secrets[first + leaf] = seed


class FairPast(Found):
    """Of a fair's cache made from a master seed and these seeds, with each vk: what the master has signed is i in four bytes, then vk."""

    def __init__(self, master, seeds, vks, t, signatures=()):
        self.names = {master: "the master seed"} | {seed: f"the secret of entry {i}" for i, seed in enumerate(seeds[:t])}
        self.present = seeds[t]
        for secret, name in list(self.names.items()):
            self.expanded(name, secret)
        for i, vk in enumerate(vks):
            self.nonce(master, i.to_bytes(4, "little") + vk)
        for step, message in signatures:
            if step < t:
                self.nonce(seeds[step], message)
