"""A graph as a file for Graphviz: functions, the calls and jumps between them, and the classes of computed transfers."""


def quoted(name):
    return '"%s"' % name.replace("\\", "\\\\").replace('"', '\\"')


def lines(named):
    """The file's lines. Functions are boxes, classes are ellipses with their number of targets."""
    yield "digraph flow {"
    yield "    rankdir=LR; node [shape=box, fontname=\"sans-serif\", fontsize=11]; edge [fontname=\"sans-serif\", fontsize=9];"
    for label, targets in named.by_size():
        told = "\"%s\\n%d targets\"" % (named.graph.name(label), len(targets))
        yield "    %s [shape=ellipse, label=%s];" % (quoted("class " + label), told)
    for what, style in edges(named):
        yield "    %s -> %s%s;" % (quoted(what[0]), quoted(what[1]), style)
    yield "}"


def edges(named):
    """Each pair of names once, with how it is drawn: calls plain, jumps to another function dashed, classes bold."""
    graph, found = named.graph, {}
    for source, target in graph.calls:
        found.setdefault((named.owner(source), named.owner(target)), "")
    for source, target in graph.edges:
        if named.owner(source) != named.owner(target):
            found.setdefault((named.owner(source), named.owner(target)), " [style=dashed]")
    for site in graph.sites:
        found.setdefault((named.owner(site.address), "class " + site.label), " [style=bold, label=%s]" % site.kind)
    for label, targets in named.by_size():
        for target in targets:
            found.setdefault(("class " + label, named.owner(target)), " [style=bold]")
    return found.items()
