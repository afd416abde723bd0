"""The expected text of the rules: each answer, each state, each message moved."""

import zlib

import engine

ROLES = (engine.COORDINATOR, engine.PARTICIPANT)
TABLES = (engine.PLAIN, engine.SPLIT)
WAYS = (engine.RECEIVED, engine.SENT)
ANY_ROLES = (0, 1, 2, 3, 128, 255)
ANY_TABLES = (0, 1, 2, 3, 255)
ANY_WAYS = (0, 1, 2, 255)
ANY_MESSAGES = (*range(17), 128, 255)
EVERY_BYTE = range(256)


def spaced(head, items):
    return head + "".join(f" {item}" for item in items)


def answer_line(role, table, way, message):
    answers = (engine.answer(role, table, way, message, state)
               for state in range(1, engine.LAST_STATE + 1))
    return spaced(f"{role} {table} {way} {message}:",
                  (".".join(map(str, found)) for found in answers))


def answer_lines():
    return [answer_line(role, table, way, message)
            for role in ROLES for table in TABLES for way in WAYS
            for message in range(1, engine.LAST_MESSAGE + 1)]


def legal_line(role, table):
    """How many of the answers to any bytes are legal, and a digest of all of them."""
    answers = [engine.answer(role, table, way, message, state)
               for way in ANY_WAYS for message in ANY_MESSAGES for state in EVERY_BYTE]
    legal = sum(found[0] == 0 for found in answers)
    total = zlib.adler32(b"".join(map(bytes, answers)))
    return f"legal {role} {table} {legal} {total:08x}"


def states_line(role, table):
    return spaced(f"states {role} {table}:",
                  (state for state in EVERY_BYTE if engine.has_state(role, table, state)))


def moves_line(role, way):
    return spaced(f"moves {role} {way}:",
                  (message for message in EVERY_BYTE if engine.moves(role, way, message)))


def direction_line(head, direction):
    """The bytes that have a direction, each with it."""
    return spaced(head, (f"{byte}.{direction(byte)}" for byte in EVERY_BYTE if direction(byte)))


def expected():
    lines = answer_lines()
    lines += [legal_line(role, table) for role in ANY_ROLES for table in ANY_TABLES]
    lines += [states_line(role, table) for role in ANY_ROLES for table in ANY_TABLES]
    lines += [moves_line(role, way) for role in ANY_ROLES for way in ANY_WAYS]
    lines.append(direction_line("needed:", engine.direction_needed))
    lines.append(direction_line("asked:", engine.direction_asked))
    return "".join(line + "\n" for line in lines).encode()
