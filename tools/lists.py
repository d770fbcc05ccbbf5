"""The lists of crates.txt: what each crate stands on, and how many ways lead down them."""
import pathlib

ROOT = pathlib.Path(__file__).resolve().parent.parent


def lists():
    """The libraries that each crate lists, the kit's among them; each crate comes after those that it lists."""
    lines = [line.partition('#')[0].partition(':') for line in (ROOT / 'crates.txt').read_text().splitlines()]
    listed = {name.strip(): below.split() for name, _, below in lines if name.strip()}
    ordered = []

    def add(crate):
        if crate in listed and crate not in ordered:
            for low in listed[crate]:
                add(low)
            ordered.append(crate)

    for crate in listed:
        add(crate)
    return {crate: listed[crate] for crate in ordered}


def ways(listed):
    """How many ways lead down from each crate, each a list of crates of which each lists the next, with that of the crate alone."""
    found = {}
    for crate, names in listed.items():
        found[crate] = 1 + sum(found.get(low, 1) for low in names)
    return found


def longest_chain(listed, cost):
    """The crates that wait for one another and that together cost most, lowest first."""
    chains = {}
    for crate, names in listed.items():
        below = max((chains[low] for low in names if low in chains), default=(0, []))
        chains[crate] = below[0] + cost.get(crate, 0), [*below[1], crate]
    return max(chains.values())
