"""The scenes of the benchmark: each a function without arguments that gives a scene."""


def messages(*names):
    return [{"name": name} for name in names]


def scene(agents, **more):
    """A scene of one cooperation."""
    return {"version": 1, "messages": messages("token"), "coops": [{"name": "main", "agents": agents}], **more}


def passes(to):
    """A handler that passes the token on for ever."""
    return {"msg": "token", "do": [["send", to, "token", "m0"]]}


def ping_pong():
    return scene([
        {"name": "a", "start": [["send", "b", "token", 1]], "on": [passes("b")]},
        {"name": "b", "on": [passes("a")]},
    ])


def bystanders(count):
    """Ping-pong beside agents that get nothing."""
    made = ping_pong()
    made["coops"][0]["agents"] += [{"name": f"b{k}"} for k in range(count)]
    return made


def receivers(count):
    """One agent that sends to a mbox of many."""
    sender = {"name": "s", "start": [["send", "s", "token"]],
              "on": [{"msg": "token", "do": [["send", "board", "news", 1], ["send", "s", "token"]]}]}
    others = [{"name": f"r{k}", "on": [{"mbox": "board", "msg": "news", "do": []}]} for k in range(count)]
    made = scene([sender] + others, mboxes=["board"])
    made["messages"] = messages("token", "news")
    return made


def cooperations(count):
    """Ping-pong beside cooperations of one agent each."""
    made = ping_pong()
    made["coops"] += [{"name": f"c{k}", "agents": [{"name": f"g{k}"}]} for k in range(count)]
    return made


def parents(count):
    """A chain of cooperations, each the child of the one before it; the last one stops the run."""
    coops = []
    for k in range(count):
        coop = {"name": f"c{k}", "agents": [{"name": f"a{k}"}]}
        if k > 0:
            coop["parent"] = f"c{k - 1}"
        coops.append(coop)
    coops[-1]["agents"][0]["start"] = [["stop"]]
    return {"version": 1, "messages": messages("token"), "coops": coops}


def tokens(kind, count, **more):
    """A ring in which each agent has a token, on one dispatcher."""
    agents = []
    for k in range(count):
        after = f"a{(k + 1) % count}"
        agents.append({"name": f"a{k}", "disp": "d", "priority": k % 8 if kind == "strictly_ordered" else 0,
                       "start": [["send", after, "token", 1]], "on": [passes(after)]})
    return scene(agents, dispatchers=[{"name": "d", "kind": kind, **more}])


def growing():
    """Each event queues two."""
    return scene([{"name": "a", "start": [["send", "a", "token", 1]],
                   "on": [{"msg": "token", "do": [["send", "a", "token", "m0"], ["send", "a", "token", "m0"]]}]}])


MOST_BYTES = 4_194_304


def many_acts():
    """A file of almost 4 MiB of long bodies."""
    do = [["log", f"t{k % 64}", k, "v1", "m0", "ans"] for k in range(200)]
    adds = [["add", "v0", "v1", 123456] for _ in range(200)]
    return filled(lambda k: {"name": f"a{k}", "start": do, "on": [{"msg": "token", "do": adds}]}, "token")


def many_objects():
    """A file of almost 4 MiB of small objects."""
    names = [f"m{k}" for k in range(256)]
    rows = [{"msg": name, "do": [["log", "t", 1]]} for name in names[:24]]
    return filled(lambda k: {"name": f"a{k}", "vars": list(range(1, 17)), "on": rows}, *names)


def filled(agent, *names):
    """As many agents as fit a file, 4,096 at most."""
    import json
    size = len(json.dumps(agent(4095), separators=(",", ":"))) + 1
    count = min(4096, (MOST_BYTES - 20_000) // size)
    made = scene([agent(k) for k in range(count)])
    made["messages"] = messages(*names)
    return made


# By name: the scene, and the units that its run may spend.
RUNS = {
    "ping-pong": (ping_pong, 1_000_000),
    "4,000 bystanders": (lambda: bystanders(4_000), 1_000_000),
    "1,000 receivers": (lambda: receivers(1_000), 1_000_000),
    "1,023 cooperations": (lambda: cooperations(1_022), 1_000_000),
    "1,024 parents": (lambda: parents(1_024), 1_000_000),
    "active_obj, 250 agents": (lambda: tokens("active_obj", 250), 1_000_000),
    "thread_pool, 1,000 tokens": (lambda: tokens("thread_pool", 1_000, threads=4, fifo="individual"), 1_000_000),
    "adv_thread_pool, 1,000 tokens": (lambda: tokens("adv_thread_pool", 1_000, threads=4, fifo="individual"), 1_000_000),
    "strictly_ordered, 1,000 tokens": (lambda: tokens("strictly_ordered", 1_000), 1_000_000),
    "a growing queue": (growing, 1_000_000),
}

# Files that are only checked.
FILES = {
    "4 MiB of acts": many_acts,
    "4 MiB of objects": many_objects,
}

# Rings, by their agents.
RINGS = [400, 1_000, 4_000]
