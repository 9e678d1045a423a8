"""A plain site kept in Python, by the rules of the commands: what `check-trees` compares the program with.

Pages are objects with their kids, rights are found by walking from the root, and every rule is tried as
docs/API.md lists it. Nothing here is fast.
"""
import hashlib

from plain_flows import Flows
from plain_pages import Page, Refused, Revision, time_text

PERMISSIONS = ["add", "change", "publish", "bulk_delete", "lock", "unlock"]
NEEDS = PERMISSIONS + ["superuser", "approve"]
FLOW_ROUTES = ["submit", "approve", "reject", "cancel", "members", "publish"]
MAX_KIDS = 1_000
MAX_DESKS = 4_096
MAX_REFS = 1_000
MAX_DEPTH = 63
MAX_URL = 8_192
LAST_ID = 65_535


def digest_of(token):
    """The text of a token's digest."""
    return hashlib.sha256(token.encode()).hexdigest()


def kind_of(goal, beside):
    """How a target stands: among its siblings, or with or without kids."""
    if not beside:
        return "kids" if goal.kids else "no kids"
    around = goal.parent.kids
    if len(around) == 1:
        return "only"
    return {0: "first", len(around) - 1: "last"}.get(around.index(goal), "middle")


class Site(Flows):
    """The plain tree with its users, revisions, desks and moderations, by the rules of the commands."""

    def __init__(self, token):
        self.root = Page(1, "", 0)
        self.pages, self.entry, self.next = {1: self.root}, 0, 2
        self.users, self.groups = [(digest_of(token), True)], 0
        self.members, self.grants = set(), set()
        self.revisions, self.next_revision = {}, 1
        self.desks, self.tasks, self.workflows = {}, [], []
        self.time = self.now = 0
        self.caller, self.seen, self.refusals = 1, set(), {}

    # -- users and rights

    def user_of(self, token):
        """The number of the user with the token, or None."""
        numbers = [n for n, (digest, _) in enumerate(self.users, 1) if digest == digest_of(token)]
        return numbers[0] if numbers else None

    def is_super(self, user=None):
        """Whether a user, or the caller, is a superuser."""
        return self.users[(user or self.caller) - 1][1]

    def holds(self, permission, page, user=None):
        """Whether a user, or the caller, holds a permission at a page."""
        user = user or self.caller
        groups = [group for member, group in self.members if member == user]
        return self.is_super(user) or any(
            (above.number, group, permission) in self.grants
            for above in page.walk() for group in groups
        )

    def may_edit_by_rights(self, page, user):
        """Whether a user may edit a page by permissions alone."""
        own = self.holds("add", page, user) and page.owner == user
        return self.holds("change", page, user) or own

    def has_desk_by_task(self, number):
        """Whether a page has a desk of a user who may edit it only since it waits for a task of theirs."""
        held = number in self.desks
        return held and not self.may_edit_by_rights(self.pages[number], self.desks[number][0])

    def may_edit(self, page, user=None):
        """Whether a user, or the caller, meets the need to edit a page."""
        user = user or self.caller
        asked = self.task_of(page) is not None and self.is_asked(page, user)
        return self.may_edit_by_rights(page, user) or asked

    def need(self, met, name):
        """Refuses the caller who does not meet a need."""
        if not met and not self.is_super():
            self.seen.add(("need", name))
            raise Refused(3, "Denied", NEEDS.index(name) + 1)

    def need_to_take(self, page):
        """Refuses the caller who may not take a page away with all below it."""
        own = all(one.owner == self.caller for one in page.all_below())
        self.need(self.holds("change", page) or (self.holds("add", page) and own), "change")
        self.need(not page.is_any_live() or self.holds("publish", page), "publish")

    def named(self, user=1, group=1):
        """Refuses a user or a group that is not there."""
        if not 1 <= user <= len(self.users):
            raise Refused(19, "NoName", 1)
        if not 1 <= group <= self.groups:
            raise Refused(19, "NoName", 2)

    # -- pages, and the rules that many commands have

    def find(self, number):
        """The page with the number."""
        if number not in self.pages:
            raise Refused(1, "NoPage", number)
        return self.pages[number]

    def below_root(self, number):
        """The page with the number, which is not the root."""
        page = self.find(number)
        if page is self.root:
            raise Refused(2, "IsRoot")
        return page

    def stop_locked(self, page):
        """Refuses the caller whom another's lock stops."""
        if page.locked_by not in (None, self.caller):
            raise Refused(4, "Locked", page.locked_by)

    def stop_alias(self, page):
        """Refuses what an alias cannot have: revisions, a schedule, a desk or a lock of its own."""
        if page.source:
            raise Refused(5, "IsAlias")

    def stop_deep(self, above, height=1):
        """Refuses pages of so many levels below a page where one would be too deep."""
        if len(above.walk()) + height > MAX_DEPTH:
            raise Refused(10, "TooDeep")

    def stop_long(self, above, bytes_more):
        """Refuses a page below another one whose URL would be too long."""
        if len(above.url()) + bytes_more > MAX_URL:
            raise Refused(11, "UrlTooLong")

    def stop_full(self, count):
        """Refuses one more of a kind of which there are as many as ids."""
        if count >= LAST_ID:
            raise Refused(12, "IdsFull")

    def stop_taken(self, above, slug, moved=None):
        """Refuses a slug that a kid has."""
        taken = next((kid for kid in above.kids if kid.slug == slug and kid is not moved), None)
        if taken:
            raise Refused(8, "SlugTaken", taken.number)

    def own_desk(self, number):
        """The text of the caller's desk on the page."""
        user, text = self.desks.get(number, (None, None))
        if user != self.caller:
            raise Refused(13, "NoDesk")
        return text

    def moment(self):
        """The moment of the command that runs: the world's time never falls."""
        return max(self.time, self.now)

    def replied(self, page):
        """The reply of a command to a page."""
        return {"id": page.number, "path": page.path(), "url": page.url()}

    def file_revision(self, page, content, go_live=None, expire=None):
        """A new latest revision of a page."""
        revision = Revision(self.next_revision, page.number, content, go_live, expire)
        self.revisions[revision.number] = revision
        self.next_revision += 1
        page.latest = revision
        return revision

    # -- commands on users and groups

    def users_post(self, digest, superuser):
        """A user is defined."""
        self.need(self.is_super(), "superuser")
        if any(digest == known for known, _ in self.users):
            raise Refused(15, "NothingNew")
        self.stop_full(len(self.users))
        self.users.append((digest, superuser))
        return {"id": len(self.users)}

    def groups_post(self):
        """A group is defined."""
        self.need(self.is_super(), "superuser")
        self.stop_full(self.groups)
        self.groups += 1
        return {"id": self.groups}

    def set_in(self, items, item, on, **names):
        """An item that comes or goes."""
        if (item in items) == on:
            raise Refused(15, "NothingNew")
        self.named(**names)
        items.add(item) if on else items.remove(item)
        return {}

    def members_post(self, user, group, on):
        """A membership begins or ends."""
        self.need(self.is_super(), "superuser")
        return self.set_in(self.members, (user, group), on, user=user, group=group)

    def grants_post(self, group, page, permission, on):
        """A grant is given or withdrawn."""
        self.find(page)
        self.need(self.is_super(), "superuser")
        return self.set_in(self.grants, (page, group, permission), on, group=group)

    # -- commands on the tree

    def new_page(self, above, slug):
        """A page of the caller's after the kids of a page."""
        page = Page(self.next, slug, self.caller)
        above.put(page, len(above.kids))
        self.pages[page.number] = page
        self.next += 1
        return page

    def pages_post(self, parent, slug, content):
        """A page is made."""
        above = self.find(parent)
        self.need(self.holds("add", above), "add")
        self.stop_taken(above, slug)
        self.stop_deep(above)
        self.stop_long(above, len(slug) + 1)
        page = self.new_page(above, slug)
        page.shown = self.file_revision(page, content)
        return self.replied(page)

    def move_post(self, page, target, position):
        """A page is moved."""
        moved, goal = self.find(page), self.find(target)
        beside = position.endswith(("sibling", "left", "right"))
        if moved is self.root or (goal is self.root and beside):
            raise Refused(2, "IsRoot")
        above = goal.parent if beside else goal
        self.need_to_take(moved)
        self.need(self.holds("add", above), "add")
        self.need(not moved.is_any_live() or self.holds("publish", above), "publish")
        self.stop_locked(moved)
        if goal in moved.all_below()[1:] or (goal is moved and not beside):
            raise Refused(7, "IntoItself")
        if goal is moved:
            raise Refused(15, "NothingNew")
        self.stop_taken(above, moved.slug, moved)
        self.stop_deep(above, moved.height())
        self.stop_long(above, moved.reach(moved.slug))
        self.seen.add((position, kind_of(goal, beside)))
        moved.parent.kids.remove(moved)
        if position.startswith("first"):
            above.put(moved, 0, 1)
        elif position.startswith("last"):
            above.put(moved, len(above.kids))
        else:
            above.put(moved, above.kids.index(goal) + (position == "right"))
        return self.replied(moved)

    def delete_post(self, page):
        """A page is deleted with all below it."""
        gone = self.below_root(page)
        self.need_to_take(gone)
        self.need(not gone.kids or self.holds("bulk_delete", gone), "bulk_delete")
        self.stop_locked(gone)
        all_gone = gone.all_below()
        for number in sorted(self.pages):
            one = self.pages[number]
            if one.source in all_gone and one not in all_gone:
                self.make_regular(one)
                self.seen.add(("delete", "the source of an alias that stays"))
        gone.parent.kids.remove(gone)
        for one in all_gone:
            del self.pages[one.number]
        self.grants = {grant for grant in self.grants if grant[0] in self.pages}
        self.revisions = {n: r for n, r in self.revisions.items() if r.page in self.pages}
        return {"count": len(all_gone)}

    def slug_post(self, page, slug):
        """A page gets another slug."""
        one = self.below_root(page)
        self.need(self.may_edit(one), "change")
        self.need(not one.is_any_live() or self.holds("publish", one), "publish")
        self.stop_locked(one)
        self.stop_moderated(one)
        if one.slug == slug:
            raise Refused(15, "NothingNew")
        self.stop_taken(one.parent, slug, one)
        self.stop_long(one.parent, one.reach(slug))
        one.slug = slug
        return self.replied(one)

    # -- aliases and copies

    def make_regular(self, alias):
        """An alias becomes a regular page that shows what it showed, and is live as it was."""
        content, live = alias.content(), alias.is_live()
        alias.source, alias.live = None, live
        alias.shown = self.file_revision(alias, content)
        alias.first_published = alias.last_published = self.moment() if live else None

    def alias_post(self, source, parent, slug):
        """An alias of a page is made, or of the source of that page."""
        of, above = self.find(source), self.find(parent)
        if of is self.root:
            raise Refused(2, "IsRoot")
        self.need(self.holds("add", above), "add")
        self.need(not of.is_live() or self.holds("publish", above), "publish")
        self.stop_taken(above, slug)
        self.stop_deep(above)
        self.stop_long(above, len(slug) + 1)
        if of.source:
            self.seen.add(("alias", "of an alias"))
        page = self.new_page(above, slug)
        page.source = of.showing()
        return self.replied(page)

    def detach_post(self, page):
        """An alias becomes a regular page."""
        one = self.below_root(page)
        self.need(self.may_edit(one), "change")
        self.need(not one.is_live() or self.holds("publish", one), "publish")
        if not one.source:
            raise Refused(15, "NothingNew")
        self.seen.add(("detach", "a live alias" if one.is_live() else "an alias that is not live"))
        self.make_regular(one)
        return {}

    def copy_one(self, page, above, slug, deep):
        """A copy of a page with this slug, and of all below it if it is deep."""
        copy = self.new_page(above, slug)
        copy.shown = self.file_revision(copy, page.newest())
        for kid in page.kids if deep else []:
            self.copy_one(kid, copy, kid.slug, True).step = kid.step
        return copy

    def copy_post(self, page, parent, slug, deep):
        """A page is copied, with all below it or alone."""
        one, above = self.find(page), self.find(parent)
        if one is self.root:
            raise Refused(2, "IsRoot")
        self.need(self.holds("add", above), "add")
        if deep and above in one.all_below():
            raise Refused(7, "IntoItself")
        self.stop_taken(above, slug)
        self.stop_deep(above, one.height() if deep else 1)
        self.stop_long(above, one.reach(slug, deep))
        if above in one.all_below():
            self.seen.add(("copy", "flat into itself"))
        self.seen.add(("copy", "deep" if deep and one.kids else "flat"))
        if any(below.source for below in (one.all_below() if deep else [one])):
            self.seen.add(("copy", "an alias"))
        return self.replied(self.copy_one(one, above, slug, deep))

    # -- commands on desks

    def open_post(self, page):
        """The caller opens a desk."""
        one = self.below_root(page)
        self.need(self.may_edit(one), "change")
        self.stop_locked(one)
        self.stop_alias(one)
        self.stop_moderated(one)
        if page in self.desks:
            raise Refused(14, "DeskTaken", self.desks[page][0])
        if len(self.desks) >= MAX_DESKS:
            raise Refused(21, "ContentFull")
        if not self.may_edit_by_rights(one, self.caller):
            self.seen.add(("open", "by a member of the task"))
        self.desks[page] = (self.caller, one.latest.content)
        return {}

    def save_post(self, page, content):
        """The caller's text is saved."""
        self.own_desk(page)
        self.desks[page] = (self.caller, content)
        return {}

    def shut_post(self, page):
        """The caller's desk is given up."""
        self.own_desk(page)
        del self.desks[page]
        return {}

    def file_post(self, page, go_live_at, expire_at):
        """The caller's text becomes the page's latest revision."""
        text, one = self.own_desk(page), self.find(page)
        old = one.latest
        if (text, go_live_at, expire_at) == (old.content, old.go_live, old.expire):
            raise Refused(15, "NothingNew")
        revision = self.file_revision(one, text, go_live_at, expire_at)
        self.was_filed(one, revision)
        del self.desks[page]
        return {"id": revision.number}

    # -- commands on what is public

    def publish_post(self, page):
        """The latest revision is published, or scheduled."""
        one, moment = self.below_root(page), self.moment()
        self.need(self.holds("publish", one), "publish")
        self.stop_locked(one)
        self.stop_alias(one)
        self.stop_moderated(one)
        latest = one.latest
        waits = latest.go_live is not None and latest.go_live > moment
        if (one.live and one.shown is latest) or (one.scheduled is latest and waits):
            raise Refused(15, "NothingNew")
        self.stop_expired(latest)
        self.put_out(one, latest)
        self.was_published(one)
        if waits:
            self.seen.add(("publish", "scheduled"))
        return {"scheduled": waits}

    def stop_expired(self, revision):
        """Refuses a revision to be published that has expired, or expires before it goes live."""
        end, start = revision.expire, revision.go_live
        if end is not None and (end <= self.moment() or (start is not None and end <= start)):
            raise Refused(20, "AlreadyExpired")

    def put_out(self, page, revision):
        """A revision of a page is published, or scheduled if its go-live is to come."""
        if revision.go_live is not None and revision.go_live > self.moment():
            page.scheduled = revision
        else:
            self.show(page, revision)

    def show(self, page, revision):
        """A revision of a page is published now."""
        page.shown, page.live, page.expired, page.scheduled = revision, True, False, None
        page.last_published = self.moment()
        if page.first_published is None:
            page.first_published = page.last_published

    def unpublish_post(self, page):
        """The page is taken out of the public."""
        one = self.below_root(page)
        self.need(self.holds("publish", one), "publish")
        self.stop_locked(one)
        self.stop_alias(one)
        if not one.live:
            raise Refused(16, "NotLive")
        one.live, one.scheduled = False, None
        return {}

    def unschedule_post(self, page):
        """What waits for its go-live waits no more."""
        one = self.below_root(page)
        self.need(self.holds("publish", one), "publish")
        self.stop_locked(one)
        self.stop_alias(one)
        if one.scheduled is None:
            raise Refused(15, "NothingNew")
        one.scheduled = None
        return {}

    def due_pages(self, moment_of):
        """The pages whose moment has come, in the order of moments and ids."""
        found = [(moment_of(page), page.number) for page in self.pages.values()]
        return [
            self.pages[number]
            for at, number in sorted(one for one in found if one[0] is not None)
            if at <= self.moment()
        ]

    def tick_post(self):
        """What is due comes: pages expire, and then revisions go live or are dropped."""
        self.need(self.is_super(), "superuser")
        ending = self.due_pages(lambda page: page.shown.expire if page.live else None)
        coming = self.due_pages(lambda page: page.scheduled.go_live if page.scheduled else None)
        if not ending and not coming:
            self.seen.add(("tick", "nothing due"))
            raise Refused(15, "NothingNew")
        for page in ending:
            page.live, page.expired = False, True
        is_late = lambda r: r.expire is not None and r.expire <= self.moment()
        dropped = [page for page in coming if is_late(page.scheduled)]
        for page in coming:
            if page in dropped:
                page.scheduled = None
            else:
                self.show(page, page.scheduled)
        told = {"dropped": dropped, "published": [page for page in coming if page not in dropped]}
        told["unpublished"] = ending
        self.seen |= {("tick", name) for name, pages in told.items() if pages}
        self.seen |= {("tick", "expired and published")} if set(ending) & set(told["published"]) else set()
        return {name: [page.number for page in pages] for name, pages in told.items()}

    def lock_post(self, page):
        """The page is locked for the caller."""
        one = self.below_root(page)
        self.need(self.holds("lock", one), "lock")
        if one.locked_by is not None:
            raise Refused(4, "Locked", one.locked_by)
        self.stop_alias(one)
        one.locked_by = self.caller
        return {}

    def unlock_post(self, page):
        """The page is unlocked."""
        one = self.below_root(page)
        self.need(one.locked_by == self.caller or self.holds("unlock", one), "unlock")
        if one.locked_by is None:
            raise Refused(15, "NothingNew")
        one.locked_by = None
        return {}

    def purge_post(self, page):
        """Revisions go that nothing needs."""
        one = self.below_root(page)
        self.need(self.may_edit(one), "change")
        self.stop_locked(one)
        self.stop_alias(one)
        kept = {one.shown, one.latest, one.scheduled}
        if one.moderation and one.moderation.revision not in kept:
            self.seen.add(("purge", "beside a moderated revision"))
            kept.add(one.moderation.revision)
        gone = [n for n, r in self.revisions.items() if r.page == page and r not in kept]
        if not gone:
            raise Refused(15, "NothingNew")
        for number in gone:
            del self.revisions[number]
        return {"count": len(gone)}

    # -- running, and reading

    def drop_lost_desks(self):
        """Desks end whose page is gone, or whose user may not work there any more."""
        for number, (user, _) in list(self.desks.items()):
            page = self.pages.get(number)
            if page and page.locked_by in (None, user) and (
                self.is_super(user) or (self.may_edit(page, user) and not self.stops(page, user))
            ):
                continue
            self.seen.add(("desk", "lost by its page" if page is None else "lost by its user"))
            if page and self.route in FLOW_ROUTES:
                self.seen.add(("desk", f"lost by {self.route}"))
            del self.desks[number]

    def run(self, token, route, now, **fields):
        """A command's answer to the caller with this token at a moment."""
        self.caller, self.now, self.route = self.user_of(token), now, route
        if self.caller is None:
            return {"error": "NoUser"}
        try:
            told = getattr(self, route + "_post")(**fields)
        except Refused as refusal:
            number, name, *carried = refusal.args
            self.refusals[name] = self.refusals.get(name, 0) + 1
            if number == 3:
                self.seen.add((route, "denied"))
            told = {"name": name, "refused": number}
            return told | ({"with": carried[0]} if carried else {})
        if not self.is_super():
            self.seen.add((route, "done"))
        if route != "save":
            self.time = self.moment()
            self.drop_lost_desks()
        self.entry += 1
        return told | {"entry": self.entry}

    def card(self, number):
        """The card of a page."""
        if number not in self.pages:
            return {"name": "NoPage", "refused": 1, "with": number}
        page, number_of = self.pages[number], lambda one: one.number if one else 0
        return self.replied(page) | {
            "alias_of": number_of(page.source),
            "depth": len(page.walk()),
            "expire_at": time_text(page.shown.expire) if page.shown else None,
            "expired": page.expired,
            "first_published_at": time_text(page.first_published),
            "last_published_at": time_text(page.last_published),
            "latest": number_of(page.latest),
            "live": page.is_live(),
            "locked_by": page.locked_by or 0,
            "moderation": page.moderation.status if page.moderation else "none",
            "numchild": len(page.kids),
            "owner": page.owner,
            "scheduled": number_of(page.scheduled),
            "shown": number_of(page.shown),
            "slug": page.slug,
            "task": page.moderation.place if page.moderation else 0,
            "title": page.content()["title"],
            "unpublished_changes": page.latest is not None
            and (not page.live or page.shown is not page.latest),
        }

    def public(self, url):
        """What everybody is answered at a URL."""
        page = next((one for one in self.pages.values() if one.url() == url and one.is_live()), None)
        if page is None:
            return {"error": "NotFound"}
        kids = [kid for kid in page.kids if kid.is_live()][:MAX_KIDS]
        return {
            "blocks": page.content()["blocks"],
            "children": [
                {"id": kid.number, "title": kid.content()["title"], "url": kid.url()} for kid in kids
            ],
            "id": page.number,
            "title": page.content()["title"],
            "url": url,
        }

    def refs(self, number):
        """The pages that link to a page."""
        if number not in self.pages:
            return {"name": "NoPage", "refused": 1, "with": number}
        return {"refs": sorted(n for n, page in self.pages.items() if number in page.links())[:MAX_REFS]}

    def desk(self, token, number):
        """The caller's text of a page."""
        user = self.user_of(token)
        if user is None:
            return {"error": "NoUser"}
        owner, text = self.desks.get(number, (None, None))
        return text if owner == user else {"name": "NoDesk", "refused": 13}
