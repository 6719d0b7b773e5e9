"""What crates.txt says, for the scripts beside this one.

below(top, crate): the crate's libraries of its own, those of the repository among them, and all of the repository that it stands on, lowest first.
"""


def lines(top):
    found = {}
    for line in open(f"{top}/crates.txt"):
        name, colon, libraries = line.split("#")[0].partition(":")
        if colon:
            found[name.split()[0]] = libraries.split()
    return found


def below(top, crate):
    deps, seen = lines(top), []

    def go(name):
        for it in deps[name]:
            if it in deps and it not in seen:
                go(it)
                seen.append(it)

    go(crate)
    return deps, seen
