"""Random requests on a plain site, for `check-trees`: each function gives a route, and its fields."""
from plain_site import PERMISSIONS, digest_of

POSITIONS = ["first-child", "last-child", "first-sibling", "left", "right", "last-sibling"]
STEP = 7
MOST_PAGES = 12
TOKENS = ["abc", "hello", "editor", "owner", "nobody"]


def asked_of_users(rng, site):
    """A request on users, groups, memberships or grants: its route, and its fields."""
    on, kind = rng.random() < 0.65, rng.random()
    group = rng.randint(1, site.groups + (rng.random() < 0.1)) if site.groups else 1
    if kind < 0.15:
        superuser = rng.random() < 0.1
        return "users", {"digest": digest_of(rng.choice(TOKENS[:4])), "superuser": superuser}
    if kind < 0.25:
        return "groups", {}
    if kind < 0.5:
        user = rng.randint(1, len(site.users) + (rng.random() < 0.1))
        return "members", {"group": group, "on": on, "user": user}
    page = rng.choice(list(site.pages))
    permission = rng.choice(PERMISSIONS[:2] + PERMISSIONS)
    if not on and site.grants and rng.random() < 0.8:
        page, group, permission = rng.choice(sorted(site.grants))
    return "grants", {"group": group, "on": on, "page": page, "permission": permission}


def content_of(rng, slug):
    """A content with a title and up to two blocks."""
    some = [{"heading": slug}, {"paragraph": "text " + slug}, {"list": [slug, "b"]}, {"page": rng.randint(1, 9)}]
    return {"blocks": rng.sample(some, rng.randint(0, 2)), "title": slug + str(rng.randint(1, 3))}


def some_page(rng, site):
    """The number of a page, which is seldom the root's or that of no page."""
    kind = rng.random()
    if kind < 0.04:
        return site.next + 3
    return 1 if kind < 0.08 else rng.choice(list(site.pages)[1:] or [1])


def moments_of(rng, now, shown):
    """The go-live and the expiry of a revision; often it takes the place of one that expires."""
    ahead = rng.choice([-10, 0, 10, 30, 60, 150])
    end = rng.choice([ahead + 1, ahead + 10, ahead + 100, 20, 60, 150])
    if shown and shown.expire and shown.expire > now and rng.random() < 0.8:
        return {"go_live_at": shown.expire, "expire_at": None}
    return {
        "go_live_at": now + STEP * ahead if rng.random() < 0.6 else None,
        "expire_at": now + STEP * end if rng.random() < 0.5 else None,
    }


def next_step(rng, site, page):
    """What a page's draft waits for: its filing, its publication or another desk."""
    one = site.pages[page]
    if page in site.desks:
        return rng.choice(["save", "file", "file", "file", "shut", "open"])
    if one.latest and one.latest is not one.shown and one.latest is not one.scheduled:
        return rng.choice(["publish", "publish", "publish", "open", "purge"])
    if one.scheduled and rng.random() < 0.4:
        return "unschedule"
    return rng.choice(["open", "open", "open", "open", "lock", "purge", "publish"])


def asked_of_drafts(rng, site, now, page):
    """A request on a desk, a publication, a lock or a revision; mostly on this page."""
    kind = rng.choice(
        ["open"] * 3 + ["save", "shut", "file", "publish", "publish"]
        + ["unpublish", "unpublish", "unschedule", "unschedule", "lock", "lock", "unlock", "unlock"] + ["purge"] * 2
    )
    locked = [number for number, one in site.pages.items() if one.locked_by]
    scheduled = [number for number, one in site.pages.items() if one.scheduled]
    if page in site.pages and rng.random() < 0.6:
        kind = next_step(rng, site, page)
    elif kind in ("save", "file", "shut") and site.desks and rng.random() < 0.8:
        page = rng.choice(list(site.desks))
    elif kind == "unlock" and locked:
        page = rng.choice(locked)
    elif kind == "unschedule" and scheduled:
        page = rng.choice(scheduled)
    else:
        page = some_page(rng, site)
    fields = {"page": page}
    if kind == "save":
        fields["content"] = content_of(rng, rng.choice("abcdefgh"))
    if kind == "file":
        fields |= moments_of(rng, now, page in site.pages and site.pages[page].shown)
    return kind, fields


def asked_of_tree(rng, site):
    """A request on the tree: its route, and its fields."""
    some = lambda: some_page(rng, site)
    slug = rng.choice("abcdefgh") * rng.randint(1, 2)
    kind = rng.random()
    if kind < 0.34 and len(site.pages) < MOST_PAGES:
        above = 1 if rng.random() < 0.4 else some()
        return "pages", {"parent": above, "slug": slug, "content": content_of(rng, slug)}
    if kind < 0.80:
        return "move", {"page": some(), "position": rng.choice(POSITIONS), "target": some()}
    if kind < 0.88:
        return "delete", {"page": some()}
    return "slug", {"page": some(), "slug": slug}


def asked_of_copies(rng, site):
    """A request for an alias, its end or a copy: its route, and its fields."""
    aliases = [number for number, page in site.pages.items() if page.source]
    kind, slug = rng.random(), rng.choice("abcdefgh") * rng.randint(1, 2)
    if kind < 0.25 or len(site.pages) >= MOST_PAGES:
        chosen = rng.choice(aliases) if aliases and rng.random() < 0.8 else some_page(rng, site)
        return "detach", {"page": chosen}
    source = rng.choice(aliases) if aliases and rng.random() < 0.3 else some_page(rng, site)
    parent = 1 if rng.random() < 0.4 else some_page(rng, site)
    if kind < 0.7:
        return "alias", {"parent": parent, "slug": slug, "source": source}
    return "copy", {"deep": rng.random() < 0.6, "page": source, "parent": parent, "slug": slug}


def asked_of_tasks(rng, site):
    """A request for a task, a workflow or an assignment."""
    kind = rng.random()
    if kind < 0.3 or not site.tasks:
        above = site.groups + (rng.random() < 0.1)
        groups = rng.sample(range(1, above + 1), min(above, rng.randint(1, 3))) or [1]
        return "tasks", {"groups": groups}
    if kind < 0.6 or not site.workflows:
        above = len(site.tasks) + (rng.random() < 0.1)
        return "workflows", {"tasks": [rng.randint(1, above) for _ in range(rng.randint(1, 3))]}
    page = 1 if rng.random() < 0.3 else some_page(rng, site)
    workflow = rng.randint(0, len(site.workflows) + (rng.random() < 0.1))
    if page in site.pages and rng.random() < 0.2:
        workflow = site.pages[page].workflow or 0
    return "assign", {"page": page, "workflow": workflow}


def asked_of_moderation(rng, site, page):
    """A request on a moderation, or one that a moderation may stop; mostly on this page."""
    waiting = [number for number, one in site.pages.items() if site.task_of(one) is not None]
    if page not in site.pages or rng.random() < 0.4:
        page = rng.choice(waiting) if waiting and rng.random() < 0.8 else some_page(rng, site)
    held = [number for number in waiting if site.has_desk_by_task(number)]
    if held and rng.random() < 0.4:
        return rng.choice(["publish", "reject", "approve", "cancel"]), {"page": rng.choice(held)}
    status = site.status_of(site.pages[page]) if page in site.pages else "none"
    kinds = {
        "in_progress": ["approve"] * 4 + ["reject", "reject", "cancel", "submit", "publish"] + ["open"] * 5 + ["slug"],
        "needs_changes": ["submit"] * 3 + ["cancel", "publish", "open", "approve", "reject"],
    }
    route = rng.choice(kinds.get(status, ["submit"] * 5 + ["approve", "reject", "cancel"]))
    if route == "slug":
        return route, {"page": page, "slug": rng.choice("abcdefgh")}
    return route, {"page": page}


def asked_below_the_deepest(rng, site, is_long):
    """A request that makes the tree deeper, or its URLs longer."""
    deepest = max(site.pages.values(), key=lambda page: len(page.walk()))
    slug = rng.choice("abcdefgh") * (rng.choice([1, 254, 255]) if is_long else rng.randint(1, 3))
    kind = rng.random()
    if kind < 0.8:
        return "pages", {"parent": deepest.number, "slug": slug, "content": {"blocks": [], "title": "deep"}}
    if kind < 0.85:
        return "slug", {"page": some_page(rng, site), "slug": slug}
    if kind < 0.9:
        return "alias", {"parent": deepest.number, "slug": slug, "source": some_page(rng, site)}
    if kind < 0.95:
        low = deepest.walk()[max(1, len(deepest.walk()) - 3):] or [deepest]
        return "copy", {"deep": True, "page": rng.choice(low).number, "parent": deepest.number, "slug": slug}
    return "move", {"page": some_page(rng, site), "position": "last-child", "target": deepest.number}
