"""Which points may lead to a return of their function."""


def returning(flow) -> set:
    """The least set of points with: returns and jumps to anywhere; jumps to names that may return; points with a successor in the
    set, other than behind a call; and calls that may return and aren't listed as never returning, where a point behind them is in
    the set.

    `flow` has its edges but those to the next instruction.
    """
    found = set()
    grown = True
    while grown:
        grown = False
        for point in reversed(flow.points):
            if point not in found and is_returning(flow, point, found):
                found.add(point)
                grown = True
    return found


def is_returning(flow, point, found: set) -> bool:
    role = flow.role[point]
    if role.kind in ("Return", "JumpAny"):
        return True
    if role.kind == "JumpOut" and flow.object.symbols[role.sym].name not in flow.names.never_return:
        return True
    if any(edge.to in found for edge in flow.edges[point]):
        return True
    if flow.is_unchecked(flow.owner[point]) or not flow.may_go_on(point):
        return False
    returns = not flow.is_call(point) or flow.target_may_return(point, found)
    return returns and any(head in found for head in flow.after[point] or [])
