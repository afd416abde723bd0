"""The expected text of docs/TABLES.md: the four tables for a person, plain and split."""

import engine

INTRODUCTION = (
    "# The tables, as the engine has them\n\nStates stand across and messages down. "
    "A cell says what a seat in that state does with the message: `to 11` moves it, "
    "`to 12, forget` moves it and ends it, `ignore` and `reply ..` leave it where it is, "
    "and `-` is Invalid State, refusal 14. This page is what the program `tables_page` prints.\n")
MESSAGES = ("", "Cancel", "Complete", "Close", "Compensate", "Failed", "Exited", "NotCompleted",
            "Exit", "Completed", "Fail", "CannotComplete", "Canceled", "Closed", "Compensated")
STATES = ("", "Active", "Canceling", "Canceling-Completing", "Completing", "Completed", "Closing",
          "Compensating", "Failing", "Failing-Compensating", "NotCompleting", "Exiting", "Ended")
ENDED = {engine.COORDINATOR: ("Ended-Failed", "Ended-Exited", "Ended-NotCompleted"),
         engine.PARTICIPANT: ("Ended-Canceled", "Ended-Closed", "Ended-Compensated")}
ROLES = {engine.COORDINATOR: "Coordinator", engine.PARTICIPANT: "Participant"}
WAYS = {engine.RECEIVED: "receives", engine.SENT: "sends"}
TABLES = {engine.PLAIN: "plain", engine.SPLIT: "split"}


def state_name(role, state):
    if state > 12:
        return ENDED[role][state - 13]
    if state == 2 and role == engine.COORDINATOR:
        return "Canceling-Active"
    return STATES[state]


def cell(found, state):
    refusal, after, action, reply = found
    if refusal:
        return "-"
    return (f"to {after}", "ignore", f"reply {MESSAGES[reply]}", f"to {after}, forget")[action]


def table_lines(role, way, table):
    states = [state for state in range(1, 16) if engine.has_state(role, table, state)]
    lines = ["", f"## {ROLES[role]} {WAYS[way]}, {TABLES[table]} table", ""]
    lines.append("| message |" + "".join(f" {s} {state_name(role, s)} |" for s in states))
    lines.append("|---|" + "---|" * len(states))
    for message in range(1, 15):
        if engine.moves(role, way, message):
            cells = (cell(engine.answer(role, table, way, message, s), s) for s in states)
            lines.append(f"| {MESSAGES[message]} |" + "".join(f" {c} |" for c in cells))
    return lines


def expected():
    lines = [line for role in ROLES for way in (engine.RECEIVED, engine.SENT) for table in TABLES
             for line in table_lines(role, way, table)]
    return (INTRODUCTION + "".join(line + "\n" for line in lines)).encode()
