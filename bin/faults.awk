# What a drawing that is refused breaks, in words, and what would do. After tags.awk; -v number, rule and place are those that the proved program gives; what is counted besides is counted from the tags of the drawing on standard input.
function among(words, w) { return index(" " words " ", " " w " ") > 0 }
function many(n, what) { return n == 0 ? "no " what : n == 1 ? "one " what : n " " what "s" }
function inside(kind, node,    i, n) { for (i = 1; i <= count; i++) if (local[i] == kind && parent[i] == node) n++; return n + 0 }
function named(id,    i) { i = with_id(id); return i ? titled(tags[i]) : "\047" id "\047" }

function stranger(    l, names, values, k) {
    l = local[here]
    split("isForCompensation startQuantity completionQuantity isCollection instantiate eventGatewayType", names, " ")
    split("false 1 1 false false Exclusive", values, " ")
    for (k = 1; k <= 6; k++) if (attribute(tags[here], names[k]) != "" && attribute(tags[here], names[k]) != values[k]) return names[k] " is run only as " values[k]
    if (l ~ /(Task|callActivity)$/) return "of tasks only task, sendTask and receiveTask are run: draw it as one of these"
    if (l ~ /(subProcess|SubProcess|transaction)$/) return "it is not run: draw what is in it in the process itself"
    if (l ~ /Gateway$/) return "it is not run: draw it by exclusive, parallel or event gateways"
    if (l ~ /EventDefinition$/) return "of events those without definition, message events and terminate are run"
    if (l == "boundaryEvent") return "it is not run: draw an event gateway before what it interrupts"
    if (l ~ /LoopCharacteristics$/) return "loops of a task are not run: draw the flow back by exclusive gateways, or a pool of many instances"
    return "an element that is not run here: leave it out, or draw it by what is run"
}
function end_of_flow(name, kinds,    id) {
    id = attribute(tags[here], name)
    return id == "" ? "it has no " name : "its " name " \047" id "\047" (with_id(reference(tags[here], name)) ? " is no " kinds : " is not the id of anything")
}
# whether a node sends, or receives, or stands outside
function trades(i, task, events) { return local[i] == task || among(events, local[i]) && inside("messageEventDefinition", i) || local[i] == "participant" && owns[i] == "" }
function ends(    s, t) {
    s = with_id(from[here]); t = with_id(to[here])
    if (!trades(s, "sendTask", "intermediateThrowEvent endEvent")) return "it comes from " named(from[here]) ", which sends nothing"
    if (!trades(t, "receiveTask", "intermediateCatchEvent startEvent")) return "it leads to " named(to[here]) ", which receives nothing"
    return "an end of it is none of these"
}
function shape(    l, id, into, out, m, e) {
    l = local[here]; id = attribute(tags[here], "id")
    into = counted("sequenceFlow", to, id); out = counted("sequenceFlow", from, id)
    m = inside("messageEventDefinition", here); e = inside("terminateEventDefinition", here)
    if (l ~ /Event$/ && m + e > 1) return "an event has one definition; this one has " m + e
    if (l ~ /^intermediate/ && m == 0) return "an intermediate event is run only with a message: give it one, or leave it out"
    if (l == "startEvent" && e) return "a start event does not terminate"
    if (l == "startEvent") return "a start event has no incoming and one outgoing flow; this one has " into " and " out (into ? ": let the flow lead to an exclusive gateway behind it" : out > 1 ? ": put a gateway behind it" : "")
    if (l == "endEvent") return "an end event has one incoming and no outgoing flow; this one has " into " and " out (into > 1 ? ": put an exclusive gateway before it, or draw an end event for each" : "")
    if (l == "eventBasedGateway") return "an event gateway has one incoming and two or more outgoing flows; this one has " into " and " out (into > 1 ? ": put an exclusive gateway before it" : "")
    if (l ~ /Gateway$/) return "a gateway splits, with one incoming and two or more outgoing flows, or joins, with two or more incoming and one outgoing; this one has " into " and " out (into > 1 && out > 1 ? ": draw two gateways, a join and a split behind it" : into == 1 && out == 1 ? ": leave it out" : "")
    return (l ~ /[tT]ask$/ ? "a task" : "an intermediate event") " has one incoming and one outgoing flow; this one has " into " incoming and " out " outgoing" (into > 1 ? ": put an exclusive gateway before it" : out > 1 ? ": put a gateway behind it" : "")
}
function condition(    flow, gate) {
    flow = parent[here]
    gate = with_id(from[flow])
    if (!gate || local[gate] != "exclusiveGateway" || counted("sequenceFlow", from, from[flow]) < 2) return "a condition stands only on a flow that leaves an exclusive split; " titled(tags[flow]) " leaves " (gate ? titled(tags[gate]) : "nothing") ": take the condition away"
    return "the condition of " titled(tags[flow]) " is not in the notation: write true, default, d0=7, d0<d1 or the like, with fields d0 to d15 and numbers"
}
function why() {
    if (rule == 1) return stranger()
    if (rule == 2) return "its id stands at an element before it: give each an id of its own"
    if (rule == 3) return "a second collaboration: a drawing has one"
    if (rule == 4) return end_of_flow("processRef", "process") ": name the id of a process, or leave processRef out for a participant outside"
    if (rule == 5) return "it belongs to " many(counted("participant", owns, attribute(tags[here], "id")), "participant") "; where there are participants, each process belongs to exactly one"
    if (rule == 6) return "a second participantMultiplicity: a participant has one"
    if (rule == 7) return "a sequence flow joins two nodes of its own process; " (with_id(from[here]) ? end_of_flow("targetRef", "node of this process") : end_of_flow("sourceRef", "node of this process"))
    if (rule == 8) return "a message flow joins nodes or participants; " (with_id(from[here]) ? end_of_flow("targetRef", "node or participant") : end_of_flow("sourceRef", "node or participant"))
    if (rule == 9) return shape()
    if (rule == 10) return "its default \047" attribute(tags[here], "default") "\047 is none of the flows that leave it"
    if (rule == 11) return "a message flow goes from a send task, a message throw or end event or a participant without process to a receive task, a message start or catch event or such a participant; " ends()
    if (rule == 12) return "it sends: draw exactly one message flow from it; there are " counted("messageFlow", from, attribute(tags[here], "id"))
    if (rule == 13) return "it receives: draw exactly one message flow to it; there are " counted("messageFlow", to, attribute(tags[here], "id"))
    if (rule == 14) return "it leads from an event gateway to " named(to[here]) "; behind one stand only message catch events, each with this flow in and one flow out"
    if (rule == 15) return "a second condition on " titled(tags[parent[here]]) ": a flow has one"
    if (rule == 16) return condition()
    if (rule == 17) return "there is no pool: a drawing has a process, or participants of which one has a process"
    return "more elements than there is room for"
}
function broken(    p, i, starts) {
    p = with_id(owns[here])
    if (!p) p = here
    for (i = 1; i <= count; i++) if (local[i] == "startEvent" && parent[i] == p) starts++
    if (rule == 2) return "each pool has exactly one start event; this one has " starts + 0
    if (rule == 3) return "a pool of many instances starts by a message: give its start event a message, and a message flow to it"
    if (rule == 6) return "a message flow joins two pools; both ends of this one stand in one"
    if (rule == 7) return "more than one default leaves it: by its attribute default, or by conditions \047default\047"
    return "check " rule " is broken"
}
BEGIN { RS = "\001" }
{ text = text $0 }
END {
    scan()
    if (number == 21) words = why()
    else if (number == 4) words = broken()
    else words = "each message end event takes an edge and an element more, its end; there are 32 elements and 48 edges in a pool, and here they do not suffice"
    print (here ? titled(tags[here]) ": " : "") words
}
