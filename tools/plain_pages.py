"""The pages of a plain site, and what each shows: an alias shows what its source shows."""
import datetime

DIGITS = "0123456789ABCDEFGHIJKLMNOPQRSTUVWXYZ"


def time_text(moment):
    """The text of a moment, or None."""
    if moment is None:
        return None
    at = datetime.datetime.fromtimestamp(moment, datetime.timezone.utc)
    return at.strftime("%Y-%m-%dT%H:%M:%SZ")


class Refused(Exception):
    """A rule refuses a command: its number, its name, and what it tells of."""


class Revision:
    """A content that was filed, by whom and when, and when it is to go live and to expire."""

    def __init__(self, number, page, content, go_live=None, expire=None):
        self.number, self.page, self.content = number, page, content
        self.go_live, self.expire = go_live, expire


class Page:
    """A page with its step among its siblings, its kids in order, and what is kept of it.

    An alias has a source, and nothing of its own but its place and its owner.
    """

    def __init__(self, number, slug, owner):
        self.number, self.slug, self.step, self.owner = number, slug, 1, owner
        self.kids, self.parent, self.source = [], None, None
        self.live = self.expired = False
        self.shown = self.latest = self.scheduled = None
        self.first_published = self.last_published = None
        self.locked_by = self.workflow = self.moderation = None

    def walk(self):
        """The pages from the root to the page."""
        return (self.parent.walk() if self.parent else []) + [self]

    def all_below(self):
        """The page and all below it, depth first."""
        found = [self]
        for kid in self.kids:
            found += kid.all_below()
        return found

    def path(self):
        """The text of the page's path."""
        above = self.parent.path() if self.parent else ""
        text, step = "", self.step
        for _ in range(4):
            step, digit = divmod(step, 36)
            text = DIGITS[digit] + text
        return above + text

    def url(self):
        """The page's URL."""
        return self.parent.url() + self.slug + "/" if self.parent else "/"

    def showing(self):
        """The page whose content is shown here: an alias's source, else the page itself."""
        return self.source or self

    def content(self):
        """What the page shows."""
        shown = self.showing().shown
        return shown.content if shown else {"blocks": [], "title": "Root"}

    def newest(self):
        """What a copy of the page gets: its latest content, an alias's the one that it shows."""
        return self.content() if self.source else self.latest.content

    def is_live(self):
        """Whether everybody may read the page: an alias is live where its source is."""
        return self.showing().live

    def is_any_live(self):
        """Whether the page or one below it is live."""
        return any(page.is_live() for page in self.all_below())

    def links(self):
        """The ids to which the page links: by its newest content, and by the one that is public."""
        told = [] if self.source or not self.latest else [self.latest.content]
        told += [self.content()] if self.is_live() else []
        return {block["page"] for content in told for block in content["blocks"] if "page" in block}

    def height(self):
        """The number of pages on the longest walk down from the page."""
        return 1 + max((kid.height() for kid in self.kids), default=0)

    def reach(self, slug, deep=True):
        """The bytes that the page with this slug, and what is below it, add to a URL at most."""
        return len(slug) + 1 + max((kid.reach(kid.slug) for kid in self.kids if deep), default=0)

    def kid_named(self, slug):
        """The kid with the slug, or None."""
        return next((kid for kid in self.kids if kid.slug == slug), None)

    def put(self, page, place, step=None):
        """Puts a page among the kids: at the end, or before a kid with its step (or this one)."""
        later = self.kids[place:]
        last = self.kids[-1].step if self.kids else 0
        page.step = (step or later[0].step) if later else last + 1
        for kid in later:
            kid.step += 1
        self.kids.insert(place, page)
        page.parent = self
