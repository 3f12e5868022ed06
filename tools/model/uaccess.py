"""The rules on access to user memory, 41 to 47 of docs/RULES.md. stac turns it on, clac off."""

from typing import NamedTuple, Optional

from sites import Site
from special import CALL_HINTS

# The feature of alternatives that put stac and clac in place.
SMAP = 308
ANY = -1


class Access(NamedTuple):
    """Where a run may be: at a point, with access on or off, in code of a frame whose function is entered with it on or off."""

    point: tuple
    on: bool
    home: bool


def is_safe(flow, function: int) -> bool:
    """Whether the function may be called with access on; a part goes by the name of what it is a part of."""
    return flow.functions.name(flow.functions.owner_of(function)) in flow.names.access_safe


def smap_variants(flow, site: Site) -> list[int]:
    entries = [(number, flow.special.alternatives[number]) for number in site.entries]
    return [number + 1 for number, entry in entries if entry.feature == SMAP and entry.flags == 0]


def is_followed(flow, point) -> bool:
    """A site with SMAP variants is passed through these alone."""
    site: Optional[Site] = flow.sites.site_of(point)
    variants = smap_variants(flow, site) if site is not None else []
    return not variants or point.variant in variants


def reached(flow) -> set[Access]:
    """What is reached from the entries and from hinted points of no function, along all edges within a function."""
    starts = set()
    for entry in flow.entries:
        on = is_safe(flow, flow.functions.at_start[entry])
        starts.update(Access(point, on, on) for point in flow.sites.arrive(entry) if is_followed(flow, point))
    starts.update(Access(point, False, False) for point in flow.own_hints if flow.owner[point] is None)
    # A call of code of no function may come to a replacement for which the hint where its site starts counts.
    called = [point for point, hint in flow.hint_at.items() if hint.kind in CALL_HINTS and flow.owner[point] is None]
    starts.update(Access(point, False, False) for point in called if is_followed(flow, point))
    found, waiting = set(starts), list(starts)
    while waiting:
        access = waiting.pop()
        for edge in flow.edges[access.point]:
            if edge.kind == "Sibling" or not is_followed(flow, edge.to):
                continue
            op = flow.insn[access.point].op if edge.kind != "Fixup" else ""
            on = {"Stac": True, "Clac": False}.get(op, access.on)
            next_access = Access(edge.to, on, access.home)
            if next_access not in found:
                found.add(next_access)
                waiting.append(next_access)
    return found


def access_warnings(flow):
    """The warnings, each as its place, rule and numbers."""
    for access in reached(flow):
        point = access.point
        if access.on:
            for sym in unsafe_targets(flow, point):
                yield point.place, 41, sym
        sibling = any(edge.kind == "Sibling" for edge in flow.edges[point])
        if sibling or flow.role[point].kind in ("Return", "JumpOut", "JumpAny"):
            if access.on != access.home:
                yield point.place, 42 if access.on else 43
        op = flow.insn[point].op
        if op == "Stac" and access.on:
            yield point.place, 44
        if op == "Clac" and not access.on and not access.home and flow.owner[point] is not None:
            yield point.place, 45
        if op == "Clac" and access.home:
            yield point.place, 46
        if op == "Popf" and access.on:
            yield point.place, 47


def unsafe_targets(flow, point):
    """The symbols of what the point calls or jumps to, where that may not be entered with access on; ANY for an indirect target."""
    role = flow.role[point]
    entries = {edge.to for edge in flow.edges[point] if edge.kind == "Sibling"}
    functions = {flow.functions.at(flow.address[entry]) for entry in entries}
    if role.entry is not None:
        functions.add(flow.functions.at_start.get(role.entry))
    for function in functions:
        if function is None:
            yield ANY
        elif not is_safe(flow, function):
            yield flow.functions.list[function].sym
    if role.sym is not None and flow.object.symbols[role.sym].name not in flow.names.access_safe:
        yield role.sym
    if role.kind in ("CallAny", "JumpAny"):
        yield ANY
