#!/usr/bin/env python3
"""What show_tree shows, on the terminal and as a picture, against the independent model: at every step the hashes of all nodes, what is on
the path and what is a witness, the seeds that are held, and the climb. Needs desk/build before."""
import pathlib
import re
import subprocess
import sys
import xml.etree.ElementTree as xml

ROOT = pathlib.Path(__file__).resolve().parents[2]
sys.dont_write_bytecode = True
sys.path.insert(0, str(ROOT / "host" / "model"))
import kes
import plain
import sodium

PROGRAM = ROOT / "build" / "show_tree"
HEIGHT, LEAVES, SHORT = 3, 8, 6
SEED = bytes(range(32))
SCHEME, PLAIN = kes.Scheme(kes.Module(sodium)), plain.Plain(kes.Module(sodium))
BLUE, ORANGE = "#1f5fbf", "#c2570c"


def short(data):
    return data.hex()[:SHORT]


def levels():
    secrets = PLAIN.secrets(SEED, HEIGHT)
    return [[short(node) for node in level] for level in PLAIN.levels([sodium.public_key(secret) for secret in secrets])]


def climbed(tree, t):
    """H(vk), and what each witness leads to, by the verifier of rule 6."""
    witnesses, start = SCHEME.witnesses(tree, HEIGHT, t), kes.H(tree[-32:])
    return [short(SCHEME.climb(start, witnesses[:up], t)) for up in range(HEIGHT + 1)]


def held(tree):
    """Whether each level's seed stands in the tree at a step, from the root."""
    return [tree[96 * level : 96 * level + 32] != kes.ZEROS for level in range(HEIGHT)]


def expect(what, given, expected):
    if given != expected:
        sys.exit(f"lesson: {what}: {given}, not {expected}")


def check_text(text, t, nodes, tree):
    path, witnesses = climbed(tree, t), [short(w) for w in SCHEME.witnesses(tree, HEIGHT, t)]
    rows = [line for line in text.split("\n") if re.search(r" (root|level \d)$", line)]
    expect(f"step {t}: nodes", [re.findall(r"[0-9a-f]{6}", row) for row in rows], nodes)
    expect(f"step {t}: path", [re.findall(r"\[(\w+)\]", row) for row in rows], [[node] for node in path[::-1]])
    expect(f"step {t}: witnesses", [re.findall(r"<(\w+)>", row) for row in rows[1:]], [[node] for node in witnesses[::-1]])
    seeds = ["seed" in line for line in text.split("\n") if re.match(r"  level \d  goes", line)]
    expect(f"step {t}: seeds", seeds, held(tree))
    climb = re.findall(r"^  (?:start|digit).*= \[(\w+)\]$", text, re.M)
    expect(f"step {t}: climb", climb, path)
    expect(f"step {t}: secrets", re.findall(r"gone |HERE|seed [A-C](?= )", text.split("\n")[12]), secrets(t))
    expect(f"step {t}: width", max(map(len, text.split("\n"))) <= 80, True)


def secrets(t):
    """Of each step: gone, here, or the letter of the seed that it grows from, A for the one nearest to the root."""
    letters = {}
    for bit in reversed(range(HEIGHT)):
        if t >> bit & 1 == 0:
            beside = t >> bit | 1
            letters.update(dict.fromkeys(range(beside << bit, (beside + 1) << bit), "seed " + "ABC"[len(set(letters.values()))]))
    return ["gone " if u < t else "HERE" if u == t else letters[u] for u in range(LEAVES)]


def check_svg(svg, t, nodes, tree):
    picture = xml.fromstring(svg)
    name = "{http://www.w3.org/2000/svg}"
    shown = [text.text for text in picture.iter(name + "text") if text.get("text-anchor") == "middle" and text.get("font-family")]
    expect(f"step {t}: nodes of the picture", shown, sum(nodes, []))
    boxes = [rect.get("fill") for rect in picture.iter(name + "rect") if rect.get("width") == "96"]
    path, witnesses = climbed(tree, t), [short(w) for w in SCHEME.witnesses(tree, HEIGHT, t)]
    expect(f"step {t}: path of the picture", {n for n, fill in zip(shown, boxes) if fill == BLUE}, set(path))
    expect(f"step {t}: witnesses of the picture", {n for n, fill in zip(shown, boxes) if fill == ORANGE}, set(witnesses))
    expect(f"step {t}: held seeds of the picture", sum(rect.get("stroke-dasharray") is not None for rect in picture.iter(name + "rect")), sum(held(tree)))


def shown(*words):
    return subprocess.run([PROGRAM, *words], capture_output=True, text=True, check=True).stdout


def main():
    nodes = levels()
    for t in range(LEAVES):
        tree = SCHEME.tree_at(SEED, HEIGHT, t)
        check_text(shown(str(t)), t, nodes, tree)
        check_svg(shown("--svg", str(t)), t, nodes, tree)
    expect("no step", shown(), shown("5"))
    for words in [("8",), ("-1",), ("x",), ("",), ("5", "5"), ("--svg", "8"), ("--png",)]:
        expect(f"show_tree {words}", subprocess.run([PROGRAM, *words], capture_output=True).returncode, 2)
    print(f"lesson: {2 * LEAVES} trees are shown as the model has them")


main()
