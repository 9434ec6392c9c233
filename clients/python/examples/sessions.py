"""Sessions of users, though servers and workers are killed: sessions.py PORT WORKER

A session is the text `VERSION EXPIRES`. An index of each user has the names of its sessions; if there are too many, the
oldest is dropped. An index of each span of time has those that expire in it, so that a sweeper finds them. Each name stands
in both indexes before its session is there. `in`, `out` and `dropped` are printed with the names of sessions.
"""
import random
import time
import uuid

from index import Index
from workers import repeated, run, say, settled

LIFE_SECONDS, SPAN_SECONDS = 3600, 60
USERS = 4


def index_of_user(server, user):
    return Index(server, f"sessions:{user}", shards=4, most=16)


def index_of_span(server, span):
    return Index(server, f"expiring:{span}", shards=64, most=60)


def index_of_spans(server):
    return Index(server, "expiring", shards=8, most=200)


def log_in(server, user):
    """The name of a new session."""
    session, expires = f"{user}:{uuid.uuid4().hex}", int(time.time()) + LIFE_SECONDS
    expect(server, session, expires)
    index = index_of_user(server, user)
    while oldest := index.add(session):
        end(server, user, oldest)
        say("dropped", oldest)
    settled(server, "session:" + session, lambda words: None if words else [str(expires)])
    if session in index.names():
        return session
    end(server, user, session)  # the user logged out meanwhile
    return log_in(server, user)


def expect(server, session, expires):
    """Notes the session in the first span behind its end that has room; it is swept a little later then."""
    span = expires // SPAN_SECONDS + 1
    while True:
        index_of_spans(server).add(str(span))
        if index_of_span(server, span).add(session) is None:
            return
        span += 1


def is_alive(server, session, now):
    words = (repeated(lambda: server.get("session:" + session)) or "0").split(" ")[1:]
    return bool(words) and int(words[0]) > now


def see(server, session):
    """Prolongs a session that is alive: it is noted in its later span before."""
    expires = int(time.time()) + LIFE_SECONDS
    expect(server, session, expires)
    settled(server, "session:" + session, lambda words: [str(expires)] if words and int(words[0]) < expires else None)


def end(server, user, session):
    """Ends a session and drops its name, also if it is made just now; one that is cut short leaves the name."""
    repeated(lambda: server.remove("session:" + session))
    index_of_user(server, user).drop(session)
    repeated(lambda: server.remove("session:" + session))


def log_out(server, user):
    """Ends all sessions of the user; returns their names."""
    names = index_of_user(server, user).names()
    for name in names:
        end(server, user, name)
    return names


def sweep(server, now):
    """Ends the sessions whose time is over. Several may sweep, and one that dies is followed by another."""
    spans = index_of_spans(server)
    for span in [span for span in spans.names() if (int(span) + 1) * SPAN_SECONDS <= now]:
        index = index_of_span(server, span)
        for session in index.names():
            if not is_alive(server, session, now):
                end(server, session.partition(":")[0], session)
        index.remove()
        spans.drop(span)


def work(server, worker):
    texts, user = server.texts(), f"user{random.randrange(USERS)}"
    kind = random.random()
    if kind < 0.9:
        session = log_in(texts, user)
        see(texts, session)
        say("in", session)
    elif kind < 0.95:
        for session in log_out(texts, user):
            say("out", session)
    else:
        sweep(texts, time.time())


if __name__ == "__main__":
    run(work)
