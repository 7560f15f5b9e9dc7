"""What `bohm holders`, `bohm history` and `bohm summary` have to say of a log, worked out from its report by the definitions: the grants in
force before a place are those that stay when the deeds before it are made again without the revoked grants, and a line of a report is counted
by its word.

It is slow, shares nothing with the program but the log and the report of the slow run, and knows only logs whose lines it draws.
"""
import collections

KINDS = ["READ", "INSERT", "UPDATE", "DELETE"]
# the words of a summary, in its order
OUTCOMES = "created done granted revoked denied aborted undeclared".split()
REFUSALS = (
    "too-long not-ascii empty unknown-word bad-number bad-name too-many-steps too-many-accesses bad-register too-many-grantees "
    "duplicate-grantee unknown-table table-exists bad-columns duplicate-access bad-column-number skip-past-end log-full too-many-names"
).split()

# a grant by its place and its position among those of the place
Grant = collections.namedtuple("Grant", "place position grantor grantee kind table option")
Revocation = collections.namedtuple("Revocation", "place grantor grantees kinds table")


class World:
    """What the accepted statements of a log and their outcomes came to."""

    def __init__(self, log, report):
        lines = log.decode("latin-1").split("\n")[:-1]
        self.version = 2 if lines[:1] == ["BOHM 2"] else 1
        self.owners, self.created, self.users, self.deeds, self.places = {}, {}, {}, [], 0
        self.report, self.denied = report, []
        for line, told in zip(lines[self.version - 1 :], report.decode("latin-1").split("\n")[:-1]):
            if not told.startswith("line "):
                self.take(line.split(" "), told.split(" "))

    def take(self, words, told):
        place, self.places = int(told[0]), self.places + 1
        self.users.setdefault(words[0], len(self.users))
        self.denied += [place] * (told[1] == "denied")
        deed = next((at for at in range(1, len(words)) if words[at] in ("GRANT", "REVOKE")), None)
        if words[1] == "CREATE":
            self.owners[words[2]], self.created[words[2]] = words[0], place
        if deed is not None:
            self.take_deed(place, words[0], words[deed:], "granted" in told[1:] or "revoked" in told[1:])

    def take_deed(self, place, user, words, is_made):
        kinds, table, grantees = words[1].split(","), words[2], words[3].split(",")
        for name in grantees:
            if name != "PUBLIC":
                self.users.setdefault(name, len(self.users))
        if is_made and words[0] == "REVOKE":
            self.deeds.append(Revocation(place, user, grantees, kinds, table))
        elif is_made:
            pairs = [(kind, name) for kind in kinds for name in grantees]
            self.deeds += [Grant(place, at, user, name, kind, table, words[4:] == ["OPTION"]) for at, (kind, name) in enumerate(pairs)]

    def kept(self, place):
        """The grants in force before a place."""
        deeds, standing = [it for it in self.deeds if it.place < place], []
        for at, grant in enumerate(deeds):
            if isinstance(grant, Grant) and not any(revokes(it, grant) for it in deeds[at + 1 :]):
                if self.path(standing, grant.grantor, grant.kind, grant.table, True) is not None:
                    standing.append(grant)
        return standing

    def path(self, grants, user, kind, table, option):
        """The grants by which a user holds a kind, the earliest that gives it last; none for the owner, None for who doesn't hold it."""
        if self.owners[table] == user:
            return []
        for grant in grants:
            if (grant.kind, grant.table) == (kind, table) and (grant.grantee == user and (grant.option or not option) or grant.grantee == "PUBLIC" and not option):
                return self.path(grants, grant.grantor, kind, table, True) + [grant]
        return None

    def record(self, grant):
        return str(grant.place) if self.version == 1 else f"{grant.place}:{grant.kind}:{grant.grantee}"

    def grants_text(self, path):
        return " ".join(["grants", *map(self.record, path)])

    def holders(self, kind, table, place):
        """The lines of `bohm holders`."""
        grants = self.kept(place)
        given = [it for it in grants if (it.kind, it.table) == (kind, table)]
        lines = [f"{self.owners[table]} owner"]
        for user in sorted({it.grantee for it in given} - {"PUBLIC", self.owners[table]}, key=self.users.get):
            if any(it.option for it in given if it.grantee == user):
                lines.append(f"{user} option {self.grants_text(self.path(grants, user, kind, table, True))}")
            lines.append(f"{user} {self.grants_text(self.path(grants, user, kind, table, False))}")
        if any(it.grantee == "PUBLIC" for it in given):
            lines.append(f"PUBLIC {self.grants_text(self.path(grants, 'nobody', kind, table, False))}")
        return lines

    def history(self, user, kind, table, option):
        """The lines of `bohm history`."""
        if self.owners[table] == user:
            return [f"owner from {self.created[table]}"]
        lines, begun = [], None
        for place in range(self.places + 2):
            path = self.path(self.kept(place), user, kind, table, option)
            if path is not None and begun is None:
                begun = (place - 1, self.grants_text(path))
            elif path is None and begun is not None:
                lines.append(f"from {begun[0]} to {place - 1} {begun[1]}")
                begun = None
        return lines + [f"from {it[0]} {it[1]}" for it in [begun] if it] or ["never"]


def revokes(deed, grant):
    return (
        isinstance(deed, Revocation)
        and (deed.grantor, deed.table) == (grant.grantor, grant.table)
        and grant.grantee in deed.grantees
        and grant.kind in deed.kinds
    )


def summary(report):
    """The lines of `bohm summary`."""
    lines = [it.split(" ") for it in report.decode().splitlines()]
    refused = collections.Counter(it[3] for it in lines if it[0] == "line")
    became = collections.Counter(it[1] for it in lines if it[0] != "line")
    told = [f"lines {len(lines)}", f"places {sum(became.values())}", *(f"{it} {became[it]}" for it in OUTCOMES)]
    return [*told, f"refused {sum(refused.values())}", *(f"refused {it} {refused[it]}" for it in REFUSALS if refused[it])]


def questions(world):
    """Questions about a log, each the words before and after its file, and the lines that answer it."""
    yield ["summary"], [], summary(world.report)
    for table in world.owners:
        for kind in KINDS:
            for place in range(world.created[table] + 1, world.places + 1):
                yield ["holders"], [kind, table, str(place)], world.holders(kind, table, place)
            for user in world.users:
                for option in ([], ["OPTION"]):
                    yield ["history"], [user, kind, table, *option], world.history(user, kind, table, bool(option))
