"""A run as trace-event JSON, for Perfetto and Chromium's tracing page. An event is 1 us."""
import json

from gibolufi import order


def parts(run):
    """The text in parts: lanes, portions, runs of equal entries, and counters."""
    yield '{"displayTimeUnit":"ms","traceEvents":[\n'
    for lane, name in enumerate(run.report.lanes):
        yield json.dumps({"ph": "M", "pid": 1, "tid": lane, "name": "thread_name", "args": {"name": name}}) + ",\n"
    for it in run.portions():
        yield span(it.first, it.last - it.first + 1, it.lane, "portion: " + it.label(), "what",
                   it.words(run.report.lanes[it.lane]))
    for first, length, code, acts, end in run.runs():
        yield span(first, length, code & 15, order.NAMES[code >> 4], "entry", run.entry_text(code, acts, end))
    yield from counters(run)
    yield json.dumps({"ph": "M", "pid": 1, "name": "process_name", "args": {"name": f"{run.title}: {run.head}"}})
    yield "\n]}\n"


def counters(run):
    """What the order counts, at each change; and traffic, of which the report tells the end alone."""
    held = {"commits": 0, "rollbacks": 0, "flushes": 0, "instructions undone": 0}
    names = {order.COMMIT: "commits", order.BACK: "rollbacks", order.FLUSH: "flushes"}
    for name in held:
        yield counter(run.first, name, 0)
    for first, length, code, acts, _ in run.runs():
        name = names.get(code >> 4)
        if name:
            held[name] += length
            yield counter(first + length - 1, name, held[name])
        if code >> 4 == order.BACK:
            held["instructions undone"] += acts
            yield counter(first, "instructions undone", held["instructions undone"])
    for kind, count in run.report.traffic.items():
        yield counter(1, f"traffic {kind}, known at the end", 0)
        yield counter(run.report.events, f"traffic {kind}, known at the end", count)


def counter(event, name, number):
    """A counter's number from an event on."""
    return f'{{"ph":"C","pid":1,"ts":{max(event, 1) - 1},"name":{json.dumps(name)},"args":{{"count":{number}}}}},\n'


def span(first, length, lane, name, kind, told):
    """One complete event, a microsecond for an event of the order."""
    return (f'{{"ph":"X","pid":1,"tid":{lane},"ts":{first - 1},"dur":{length},"name":{json.dumps(name)},'
            f'"args":{{"{kind}":{json.dumps(told)}}}}},\n')
