"""Tasks, workflows and moderations of a plain site, by the rules of the commands."""
from plain_pages import Refused


class Moderation:
    """A page's moderation: the place of its task counts from 1, also once it is over."""

    def __init__(self, workflow, revision, by):
        self.status, self.workflow, self.place = "in_progress", workflow, 1
        self.revision, self.by = revision, by


class Flows:
    """What a plain site does with tasks, workflows and moderations."""

    # -- where a moderation stands

    def task_of(self, page):
        """The number of the task that a page waits for, or None if no moderation is in progress."""
        one = page.moderation
        if one is None or one.status != "in_progress":
            return None
        return self.workflows[one.workflow - 1][one.place - 1]

    def is_asked(self, page, user=None):
        """Whether a user, or the caller, is in a group of the task that a page waits for."""
        groups = self.tasks[self.task_of(page) - 1]
        return any((user or self.caller, group) in self.members for group in groups)

    def stops(self, page, user):
        """Whether a moderation of a page stops a user."""
        return self.task_of(page) is not None and not self.is_super(user) and not self.is_asked(page, user)

    def stop_moderated(self, page):
        """Refuses the caller whom a moderation stops."""
        if self.stops(page, self.caller):
            raise Refused(6, "InModeration", self.task_of(page))

    def nearest_workflow(self, page):
        """The workflow of the page, or else of the nearest page above it that has one; or None."""
        return next((above.workflow for above in reversed(page.walk()) if above.workflow), None)

    # -- events of other commands

    def was_filed(self, page, revision):
        """A page in moderation waits with the revision that was filed."""
        if self.task_of(page) is not None:
            page.moderation.revision = revision
            self.seen.add(("moderation", "filed"))

    def was_published(self, page):
        """A moderation that is not over is given up when its page is published."""
        if page.moderation and page.moderation.status in ("in_progress", "needs_changes"):
            self.seen.add(("moderation", f"published where {page.moderation.status}"))
            page.moderation.status = "cancelled"

    # -- commands on tasks and workflows

    def tasks_post(self, groups):
        """A task is defined."""
        self.need(self.is_super(), "superuser")
        for group in groups:
            self.named(group=group)
        self.stop_full(len(self.tasks))
        self.tasks.append(groups)
        return {"id": len(self.tasks)}

    def workflows_post(self, tasks):
        """A workflow is defined."""
        self.need(self.is_super(), "superuser")
        if any(task > len(self.tasks) for task in tasks):
            raise Refused(19, "NoName", 3)
        self.stop_full(len(self.workflows))
        self.workflows.append(tasks)
        return {"id": len(self.workflows)}

    def assign_post(self, page, workflow):
        """A page gets a workflow of its own, or none."""
        one = self.find(page)
        self.need(self.is_super(), "superuser")
        if (one.workflow or 0) == workflow:
            raise Refused(15, "NothingNew")
        if workflow > len(self.workflows):
            raise Refused(19, "NoName", 4)
        one.workflow = workflow or None
        return {}

    # -- commands on moderations

    def moderated(self, page, event, before):
        """The reply of a command to the moderation of a page."""
        self.seen.add(("moderation", f"{event} where {before}"))
        return {"status": page.moderation.status, "task": page.moderation.place}

    def status_of(self, page):
        """The status of a page's moderation."""
        return page.moderation.status if page.moderation else "none"

    def submit_post(self, page):
        """A page is submitted with its latest revision."""
        one = self.below_root(page)
        self.need(self.may_edit(one), "change")
        self.stop_locked(one)
        self.stop_alias(one)
        if self.task_of(one) is not None:
            raise Refused(6, "InModeration", self.task_of(one))
        before, nearest = self.status_of(one), self.nearest_workflow(one)
        if before == "needs_changes":
            one.moderation.status = "in_progress"
            one.moderation.revision, one.moderation.by = one.latest, self.caller
            return self.moderated(one, "submitted", before)
        if nearest is None:
            raise Refused(17, "NoWorkflow")
        one.moderation = Moderation(nearest, one.latest, self.caller)
        return self.moderated(one, "submitted", before)

    def answered(self, page):
        """The page that the caller may answer for, which is in moderation."""
        one = self.below_root(page)
        if self.task_of(one) is None:
            raise Refused(18, "NotModerated")
        self.need(self.is_asked(one), "approve")
        return one

    def approve_post(self, page):
        """The current task of a moderation is approved; after the last one the page is published."""
        one = self.answered(page)
        moderation = one.moderation
        if moderation.place < len(self.workflows[moderation.workflow - 1]):
            moderation.place += 1
            return self.moderated(one, "approved", "another task follows")
        self.stop_expired(moderation.revision)
        moderation.status = "approved"
        self.put_out(one, moderation.revision)
        waits = one.scheduled is moderation.revision
        return self.moderated(one, "approved", "the last task " + ("schedules" if waits else "publishes"))

    def reject_post(self, page):
        """The current task of a moderation is rejected."""
        one = self.answered(page)
        one.moderation.status = "needs_changes"
        return self.moderated(one, "rejected", "in_progress")

    def cancel_post(self, page):
        """A moderation is given up."""
        one = self.below_root(page)
        is_own = one.moderation is not None and one.moderation.by == self.caller
        self.need(is_own or self.holds("publish", one), "publish")
        before = self.status_of(one)
        if before not in ("in_progress", "needs_changes"):
            raise Refused(18, "NotModerated")
        one.moderation.status = "cancelled"
        if not self.holds("publish", one):
            self.seen.add(("cancel", "by the one who submitted"))
        return self.moderated(one, "cancelled", before)
