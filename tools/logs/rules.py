"""What each rule of docs/MODEL.md refuses, in the words of tools/explain."""

RULES = {
    1: "this isn't the next line of the poster's script",
    2: "this isn't the next post of a task that is running",
    3: "the posts of tasks have used up the budget",
    4: "a task of this name fired before, or its actor is above 32",
    5: "the spot can't fire any more, or nobody is suspended at the site",
    6: "these aren't the messages that the spot takes from what its ports hold",
    7: "the throttle queue has no room for a firing",
    8: "the cuts aren't all waiting tasks at a teardown, or aren't none elsewhere",
    9: "the task isn't the oldest that waits for its Interleave",
    10: "the Interleave doesn't admit the task beside those that it admitted",
    11: "the task may not be put: it didn't fire, was put or cut, or isn't admitted",
    12: "the dropped task isn't the one that the queue's policy drops",
    13: "the task isn't the oldest in its queue: another is, or it was never put, started before, was cut or dropped",
    14: "the actor is a poster, is above 32, or runs a task that it started",
    15: "the task isn't running: it never fired or started, or it ended, was cut or dropped",
    16: "the segment doesn't end so: a post is left, its play ends otherwise, or it may not be shed",
}
FORMS = {1: "this is no line of a history, or isn't spelled as one", 2: "a port, a cause, a branch or a site that isn't in the wiring"}
