"""The stories of `longest`: schedules in which a log of many entries is written, copied, replaced, freed or asked."""
from longest_acts import (
    BLOCK, FREED, LAST, ask_all, ask_first, begin, begin_copy, change, copy, copy_whole, expect_one, go_on_alone,
    reconfigure, resolving, setting, start, stop, write,
)


def copied(story, entries):
    """A log goes to a member without one. Then its primary is lost, and the member is the next one."""
    begin(story, 1)
    story.stop(3)
    write(story, 1, "name", "0.1", entries)
    copy_whole(story, "heal 1 3", "0.2", "1.1", "2.1", entries)
    story.part("write")
    story.command(setting(1, "name", entries), "committed 1 0.2 %d" % (entries + 1))
    story.give_all()
    stop(story, 1)
    go_on_alone(story, 2, "1.1")
    ask_first(story, 2, "name")
    ask_all(story, 2, "name", entries + 1)
    change(story, 2, "name")
    stop(story, 2)
    start(story, 2)
    start(story, 1)


def lose_full_log(story, entries, parted=()):
    """A full log is lost with its node, and another node writes one from nothing. Then the first node is back."""
    begin(story, 1, parted)
    story.stop(3)
    write(story, 1, "old", "0.1", story.full)
    stop(story, 1)
    go_on_alone(story, 2, "1.1")
    write(story, 2, "new", "1.1", entries)
    start(story, 1)


def replaced(story, entries):
    """A member with a full log of an older epoch gets another one, and is the next primary while the old one is freed."""
    lose_full_log(story, entries)
    copy_whole(story, "heal 1 3", "1.2", "2.1", "1.2", entries)
    stop(story, 2)
    go_on_alone(story, 1, "2.1")
    ask_first(story, 1, "new", "freeing")
    story.part("freeing")
    story.lines += 10 * ["fire 1"] + resolving(1, "new", range(0, entries, entries // FREED))
    story.give_all()
    ask_all(story, 1, "new", entries)
    change(story, 1, "new")


def repeated(story, entries):
    """The first entry of a copy comes again when almost all have come, so the copy begins anew."""
    begin(story, 1)
    story.stop(3)
    write(story, 1, "name", "0.1", entries)
    first = begin_copy(story, "heal 1 3", "0.2", "1.1", entries)
    copy(story, entries - LAST)
    story.part("freeing")
    story.give_sent()
    story.given = story.sent
    story.lines.append("give %d" % first)
    story.ask()
    for _ in range(2 * FREED):
        story.give_sent()
        expect_one(story)


def hand_over(story):
    """The manager gives its points to node 2. Of what it sends then, the second frame has them, and the others are lost."""
    story.part("reconfiguration")
    first = story.sent + 1
    story.lines.append("fire 4")
    story.ask()
    story.command("give %d" % (first + 1), "took 4.1 1 0000000000000000-ffffffffffffffff")
    story.given = story.sent


def emptied(story, entries):
    """A member that has a full log and almost all of a second one gets an empty one, so it lets go of both in one step.

    No manager begins a reconfiguration while its last one goes on. So node 2 becomes the manager. It does not know the
    epochs: its first try teaches it.
    """
    lose_full_log(story, entries, (1, 3))
    story.do("do 4 give 2 all")
    story.do("fire 4")
    begin_copy(story, "heal 1 3", "1.2", "2.1", entries)
    copy(story, entries - LAST)
    hand_over(story)
    start(story, 3)
    reconfigure(story, 2, "lose 1 3", "superseded 1 1.2")
    reconfigure(story, 2, "lose 1 3", "configured 1 2.1")
    reconfigure(story, 2, "heal 1 3", "configured 1 2.2")
    story.part("freeing")
    story.lines += [line for k in range(FREED) for node in (1, 2) for line in resolving(node, "new", [k])]
    story.command("do 1 resolve 1 new-0", "refused resolve notready")


def swapped(story, entries):
    """A log goes to a member, and with the primary's role once more, since each epoch has its own copy."""
    begin(story, 1)
    story.stop(3)
    write(story, 1, "name", "0.1", entries)
    copy_whole(story, "heal 1 3", "0.2", "1.1", "2.1", entries)
    copy_whole(story, "swap 1 2", "0.3", "1.1", "2.1", entries)
    ask_first(story, 2, "name", "freeing")
    story.part("freeing")
    story.lines += resolving(2, "name", range(FREED))
    story.ask()
    ask_all(story, 2, "name", entries)


def answered(story, entries):
    """Each write goes to another member, and is committed by its answer. Then the primary is lost."""
    begin(story, 2)
    story.part("write", BLOCK)
    for k in range(entries):
        story.lines += [setting(1, "name", k), "give %d" % (story.sent + 2 * k + 1), "give %d" % (story.sent + 2 * k + 2)]
    story.given += 2 * entries
    story.ask()
    story.expect("committed 1 0.1 %d" % entries)
    stop(story, 1)
    go_on_alone(story, 2, "1.1")
    ask_first(story, 2, "name")
    ask_all(story, 2, "name", entries)


def unanswered(story, entries):
    """No answer to a write arrives but the last one, which commits all of them."""
    begin(story, 2)
    story.part("write", BLOCK)
    for k in range(entries):
        story.lines += [setting(1, "name", k), "give %d" % (story.sent + 2 * k + 1)]
    story.ask()
    story.expect("accepted 1 0.1 %d" % entries)
    story.part("write")
    story.command("give %d" % story.sent, "committed 1 0.1 %d" % entries)
    story.part("late question")
    story.command("do 1 resolve 1 name-0", "resolved 1 name-0 value-0")
    ask_all(story, 1, "name", entries)


# The stories, and how many entries a schedule's frames allow each.
STORIES = {
    copied: 99_900,
    replaced: 99_900,
    repeated: 99_900,
    emptied: 99_900,
    swapped: 49_900,
    answered: 99_900,
    unanswered: 99_900,
}
