"""What the outcomes of a run tell of each actor: leases, log and answers of a session, leases given by a server.

Each event is turned into a few changes of what is known of its actor, so
that what is known at an event is all changes of that actor up to it. Where the outcomes leave open which leases are
meant, a change of the kind `note` says so in words, and the leases stay as they were.

A change is a list: its kind, and what it changes.

    lease NO FIELD KIND UNTIL WHOSE    a lease that the actor has, or gave to that session
    until NO READING                   it ends then
    back NO                            it was asked back
    gone NO                            the actor has it no more
    log N OPERATION                    an entry at the end of the log
    admitted COUNT                     so many entries left the log
    answer N OPERATION REPLY           an answer to the user
    question TEXT                      the request under way; none where the text is empty
    note TEXT                          anything else
"""
import re

MESSAGES = re.compile(r'(?:"[^"]*"|[^";]|;(?! ))+')
NEEDS = re.compile(r'(?:"[^"]*"|[^",]|,(?! ))+')
NEED = re.compile(r'(\S+) (/[0-9/]*)(?: "[^"]*")?.*')
MOVED = re.compile(r"moved (/[0-9/]*) (s[0-9]+)")


class Lease:
    """A lease by its number, on a field."""

    def __init__(self, number, field, kind, until):
        self.number, self.field, self.kind, self.until = number, field, kind, until
        self.place = 0


class Actor:
    """What is known of an actor: of a server also how many leases it gave, of a client where it takes files to be."""

    def __init__(self, name):
        self.name, self.now, self.leases, self.given = name, 0, {}, 0
        self.asked_back, self.homes, self.request = set(), {"/": "s0"}, None
        self.answered = {}


class Telling:
    """Goes through the events of a run."""

    def __init__(self, run):
        self.run, self.term, self.skew = run, run.schedule.head.term, run.schedule.head.skew
        self.actors = {name: Actor(name) for name in run.actors()}
        self.parcels, self.changes, self.given = [], [], 0
        self.came = {at: packet for packet in run.packets for at in packet.told_at}

    def all_changes(self):
        """A list of changes for each event."""
        every = []
        for event, outcome in zip(self.run.schedule.events, self.run.outcomes):
            self.changes = []
            if outcome.actor:
                actor = self.actors[outcome.actor]
                actor.now = max(actor.now, event.reading)
                for note in notes_of(outcome.text):
                    self.one_note(actor, event, note)
            every.append(self.changes)
        return every

    def one_note(self, actor, event, note):
        """Hands the note to the function of its first word, if there is one."""
        words = note.split(" ", 2) + ["", ""]
        where = "client" if actor.name[0] == "c" else "server"
        known = getattr(self, f"{where}_{words[0]}", None)
        if known:
            known(actor, event, words[1], words[2].strip(" "))

    def say(self, *change):
        """One more change of the event."""
        self.changes.append(list(change))

    # A client, at `do`.

    def client_asked(self, actor, _event, server, needs):
        """A question for the needs that the client takes to be at the server."""
        parts = needs_of(needs)
        there = [need for need in parts if home(actor.homes, file_of(need)) == server]
        actor.request = (server, "question", there)
        self.say("question", f"asks {server}: {needs}")

    def client_replied(self, _actor, event, number, reply):
        """An answer that is an entry of the log."""
        operation = event.text.split(" ", 2)[2]
        self.say("log", number, operation)
        self.say("answer", number, operation, reply)

    def client_read(self, _actor, event, number, reply):
        """An answer that is admitted at once."""
        self.say("answer", number, event.text.split(" ", 2)[2], reply)

    client_answered = client_read

    def client_leading(self, actor, event, number, server):
        """A delete or a rename goes to the server that is to lead it."""
        operation = event.text.split(" ", 2)[2]
        actor.request = (server, "lead", operation)
        self.say("question", f"asks {server} to lead operation {number}: {operation}")

    def client_over(self, _actor, _event, number, _rest):
        """The session is over."""
        self.say("note", f"The session is over: its entry {number} was refused.")

    # A client, at `turn`.

    def client_ships(self, actor, _event, count, server):
        """The log goes to a server."""
        actor.request = (server, "ship", None)
        self.say("question", f"ships {count} of its log to {server}")

    def client_releases(self, actor, _event, count, server):
        """Leases that were asked back go back: which, is told where all of them do."""
        those = [actor.leases[n] for n in actor.asked_back if n in actor.leases]
        those = [lease for lease in those if lease.until > actor.now
                 and home(actor.homes, file_of(lease.field)) == server]
        those = [lease.number for lease in sorted(those, key=lambda lease: lease.place)]
        actor.request = (server, "release", those if len(those) == int(count) else None)
        self.say("question", f"gives {count} back to {server}")

    def client_renews(self, actor, _event, count, server):
        """Leases that end soon are renewed: which, is told where the count agrees."""
        soon = [lease.number for lease in actor.leases.values()
                if lease.number not in actor.asked_back
                and actor.now < lease.until <= actor.now + self.term // 2
                and home(actor.homes, file_of(lease.field)) == server]
        actor.request = (server, "renewal", soon if len(soon) == int(count) else None)
        self.say("question", f"renews {count} at {server}")

    # A client, at `tell`.

    def client_granted(self, actor, _event, count, end):
        """The leases that the server gave to the question."""
        for lease in actor.answered.pop("question", [])[:int(count)]:
            lease.place = self.given = self.given + 1
            actor.leases[lease.number] = lease
            self.say("lease", lease.number, lease.field, lease.kind, lease.until, "")
        self.ended(actor, end)

    def client_renewed(self, actor, _event, count, end):
        """Later ends, as far as it is told which."""
        renewed = actor.answered.pop("renewal", None)
        if renewed is None:
            self.say("note", f"{count} leases were renewed; which, the report does not tell.")
        for number, until in (renewed or [])[:int(count)]:
            if until is None:
                self.drop(actor, number)
            elif number in actor.leases:
                actor.leases[number].until = max(actor.leases[number].until, until)
                self.say("until", number, actor.leases[number].until)
        self.ended(actor, end)

    def client_released(self, actor, _event, count, end):
        """Leases that are back, as far as it is told which."""
        released = actor.answered.pop("release", None)
        if released is None:
            self.say("note", f"{count} leases are back; which, the report does not tell.")
        for number in (released or [])[:int(count)]:
            self.drop(actor, number)
        self.ended(actor, end)

    def client_shipped(self, actor, _event, count, end):
        """Entries that are admitted."""
        self.say("admitted", int(count))
        if end.startswith("ended"):
            self.say("note", f"The session is over: {end}.")
        self.ended(actor, end)

    def client_led(self, actor, _event, number, reply):
        """What a server led is done, or may be asked for again."""
        operation = actor.request[2] if actor.request and actor.request[1] == "lead" else ""
        if number in ("ended", "again"):
            self.say("note", f"It may ask again, since the server did not carry it out: {operation} ({reply}).")
            self.ended(actor, reply)
        else:
            self.say("answer", number, operation, reply)
            self.ended(actor, "")

    def client_recall(self, actor, _event, number, _rest):
        """A lease is asked back."""
        actor.asked_back.add(number)
        self.say("back", number)

    def ended(self, actor, end):
        """The request is over, and may have told where files are."""
        actor.request = None
        self.say("question", "")
        moved = MOVED.match(end)
        if moved:
            keep = {p: s for p, s in actor.homes.items() if not begins(p, moved[1])}
            actor.homes = dict(keep, **{moved[1]: moved[2]})
            self.say("note", f"It takes what begins with {moved[1]} to be at {moved[2]}.")

    def drop(self, actor, number):
        """The actor has the lease no more."""
        actor.leases.pop(number, None)
        actor.asked_back.discard(number)
        self.say("gone", number)

    # A server.

    def client_of(self, event, kind):
        """The client whose packet came, where its request under way is of that kind."""
        packet = self.came.get(event.number)
        client = self.actors.get(packet.sender) if packet else None
        request = client.request if client else None
        return client, (request[2] if request and request[1] == kind else None)

    def server_grants(self, actor, event, count, _end):
        """Leases with the next numbers, to the first needs of the question."""
        client, needs = self.client_of(event, "question")
        if client is None:
            return
        needs, given = needs or [], []
        for k in range(int(count)):
            actor.given += 1
            field, kind = parts_of(needs[k]) if k < len(needs) else ("a field", "")
            number, until = f"{actor.name}.{actor.given}", actor.now + self.term
            given.append(Lease(number, field, kind, until))
            actor.leases[number] = (Lease(number, field, kind, until), client.name)
            self.say("lease", number, field, kind, until, client.name)
        client.answered["question"] = given

    def server_renews(self, actor, event, count, _end):
        """Later ends for rows that are still there."""
        client, numbers = self.client_of(event, "renewal")
        if client is None or numbers is None:
            self.say("note", f"{count} leases were renewed; which, the report does not tell.")
            return
        client.answered["renewal"] = [(n, self.renewed(actor, n)) for n in numbers[:int(count)]]

    def renewed(self, actor, number):
        """The new end of a row, None where it is there no more."""
        lease, _ = actor.leases.get(number, (None, None))
        if lease is None or lease.until + self.skew <= actor.now:
            return None
        lease.until = max(lease.until, actor.now + self.term)
        self.say("until", number, lease.until)
        return lease.until

    def server_frees(self, actor, event, count, _end):
        """Rows that go."""
        client, numbers = self.client_of(event, "release")
        if client is None or numbers is None:
            self.say("note", f"{count} leases came back; which, the report does not tell.")
            return
        client.answered["release"] = numbers[:int(count)]
        for number in numbers[:int(count)]:
            self.drop(actor, number)

    def server_admits(self, _actor, event, count, end):
        """Entries that were admitted."""
        client, _ = self.client_of(event, "ship")
        whose = f" of {client.name}" if client else ""
        self.say("note", f"Admits {count}{whose}, then: {end}.")

    def server_prepares(self, _actor, event, number, _rest):
        """An operation that it leads, and waits for votes."""
        asker = self.client_of(event, "lead")[0]
        whose = f" for {asker.name}" if asker and asker.name[0] == "c" else ""
        self.say("note", f"Leads {number}{whose}, and asks other servers for their parts.")

    def server_votes(self, _actor, _event, number, vote):
        """What it says of a part."""
        self.say("note", f"Votes on a part of {number}: {vote}.")

    def server_waits(self, _actor, _event, number, _rest):
        """Other votes are awaited, or other parts."""
        self.say("note", f"Waits for more of {number}.")

    def server_seeks(self, _actor, _event, number, to):
        """A part is asked for elsewhere."""
        self.say("note", f"Asks {to} for a part of {number}.")

    def server_applies(self, _actor, _event, number, _rest):
        """What was decided of a part is done."""
        self.say("note", f"Does what is decided of its part of {number}.")

    def server_ends(self, _actor, _event, number, _rest):
        """All parts are done."""
        self.say("note", f"Has all of {number} done.")

    def server_commits(self, _actor, event, number, reply):
        """An operation that it led is admitted."""
        asker = self.client_of(event, "lead")[0]
        whose = f" for {asker.name}" if asker and asker.name[0] == "c" else ""
        self.say("note", f"Admits what it led{whose} as {number}: {reply}.")

    def server_aborts(self, _actor, _event, number, why):
        """An operation that it led is given up."""
        self.say("note", f"Gives up {number}: {why}.")

    def server_refuses(self, _actor, _event, why, what):
        """An operation that it does not lead."""
        self.say("note", f"Does not lead what it was asked to: {why} {what}.")

    # Path leases. That it does not hold a path that is asked back is told as `none`, which a packet without a message is too.

    def server_pathgrants(self, _actor, _event, number, _rest):
        """A path that it gives."""
        self.say("note", f"Gives the path {number}.")

    def server_pathdenies(self, _actor, _event, why, what):
        """A path that it does not give."""
        self.say("note", f"Gives no path: {said(why, what)}.")

    def server_pathholds(self, _actor, _event, number, _rest):
        """A path that came."""
        self.say("note", f"Holds the path {number} from now on.")

    def server_pathdrops(self, _actor, _event, number, _rest):
        """A path that came for a file that is elsewhere."""
        self.say("note", f"Gives the path {number} back at once: the file is no longer there.")

    def server_pathseeks(self, _actor, _event, file, to):
        """What is asked for a path goes on."""
        self.say("note", f"Sends on to {to} what is asked for the path of {file}.")

    def server_pathfails(self, _actor, _event, why, what):
        """A path that it does not get."""
        self.say("note", f"Gets no path: {said(why, what)}.")

    def server_pathfrees(self, _actor, _event, number, _rest):
        """A path that goes back."""
        self.say("note", f"Gives the path {number} back.")

    def server_pathdown(self, _actor, _event, number, count):
        """A path that goes back once those that rest on it are back."""
        self.say("note", f"Asks back {count} that rest on the path {number}.")

    def server_pathback(self, _actor, _event, number, _rest):
        """A path that came back."""
        self.say("note", f"Has the path {number} back.")

    # Handles and files of a server.

    def server_reaps(self, _actor, _event, count, _rest):
        """Handles that were taken."""
        self.say("note", f"Takes {count} times the handles of a session.")

    def server_moves(self, actor, _event, prefix, to):
        """The rows below the prefix go with the parcel."""
        going = [pair for pair in actor.leases.values() if begins(file_of(pair[0].field), prefix)]
        for lease, _ in going:
            self.drop(actor, lease.number)
        self.parcels.append((to, prefix, going))
        self.say("note", f"Hands all below {prefix} to {to}.")

    def server_installs(self, actor, _event, prefix, _rest):
        """The rows of a parcel come."""
        for parcel in self.parcels:
            if parcel[:2] == (actor.name, prefix):
                self.parcels.remove(parcel)
                for lease, session in parcel[2]:
                    actor.leases[lease.number] = (lease, session)
                    self.say("lease", lease.number, lease.field, lease.kind, lease.until, session)
                break
        self.say("note", f"Has all below {prefix} from now on.")


def notes_of(text):
    """What each message came to, where one packet brought several."""
    return [part.strip(" ") for part in MESSAGES.findall(text)]


def said(why, what):
    """A reason and what it names, where it names something."""
    return f"{why} {what}".strip(" ")


def needs_of(text):
    """The parts of a list of needs, cut at each comma and space outside names."""
    return [part.strip(" ") for part in NEEDS.findall(text)]


def parts_of(need):
    """The field of a need, and the kind of lease."""
    if need.startswith("fresh "):
        return f"life of a fresh identifier below {need[6:]}", "exclusive"
    for kind in ("shared", "exclusive"):
        if need.endswith(" " + kind):
            return need[:-len(kind) - 1], kind
    return need, ""


def file_of(need):
    """The identifier in a need or a field."""
    if need.startswith("life of a fresh"):
        return need.rsplit(" ", 1)[1]
    found = NEED.fullmatch(need)
    return found[2] if found else "/"


def begins(identifier, prefix):
    """Whether the identifier begins with the prefix."""
    return prefix == "/" or identifier == prefix or identifier.startswith(prefix + "/")


def home(homes, identifier):
    """Where the longest prefix says that the identifier is."""
    return homes[max((p for p in homes if begins(identifier, p)), key=len)]
