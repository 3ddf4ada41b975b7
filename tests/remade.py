"""Makes a script's calls otherwise, as an explanation says."""
import itertools
import json
import re

from explained import ENTRIES, MEMORY, judge, report_of, verdicts_in

# The names of children that are made of groups without one: each has the first that no call makes.
CHILDREN = ["a_child"] + [f"a_child_{number}" for number in range(2, 9)]


# Behind a value: which others do too, or how it may have been mistaken.
BESIDE = (
    r"(?: or (?:more|less)| \((?:width and height exchanged|(?:8|16|256|1,000|1,024) times (?:more|less)"
    r"|hexadecimal written as decimal)\))?"
)
# A bound that an entry lacks, and is to state.
LACKED = r"(?!min_buffer_count )(\w+) (?:\(absent(?:, so [\dx]+)?\)|.+ or absent) becomes \d"
# A participant, with the call and the lines of a change.
WHO = r"\S+ \(call \d+(?:, lines? [^)]*)?\)"


# Calls of which one is enough, or all are needed, and what comes with the first of them; not of those without which
# other children are chosen, since each may leave others.
OF_SEVERAL = (
    r"((?!it has room with these children ).* calls ([\d, and]+).*, (?:of which one is enough|all of which it needs); "
    r"with call )\d+( .*)"
)


def each_alone(words):
    """The words of a change that one of several may make, or of what one of several calls does, of each of them alone;
    of another one as they are."""
    if several := re.fullmatch(rf"({WHO}(?:, {WHO})* or {WHO}): (.*)", words):
        return [f"{who}: {several[2]}" for who in re.findall(WHO, several[1])]
    if several := re.fullmatch(OF_SEVERAL, words):
        return [f"{several[1]}{number}{several[3]}" for number in re.findall(r"\d+", several[2])]
    return [words]


def entry_like(other, pair):
    """An entry for a format and modifier that is else like another."""
    entry = {key: value for key, value in other.items() if key != "pixel_format_and_modifiers"}
    entry["pixel_format"], entry["pixel_format_modifier"] = pair.split(" ")
    return entry


def heap_of(text):
    name, number = text.split("#")
    return {"heap_type": name, "id": int(number)}


def exchanged(constraints, least, most):
    """Exchanges two fields wherever the first is above the second."""
    for place in [constraints, constraints.get(MEMORY, {}), *constraints.get(ENTRIES, [])]:
        if least in place and most in place:
            low, high = place[least], place[most]
            sides = [(low, high)] if isinstance(low, int) else [(low[side], high[side]) for side in ("width", "height")]
            if any(a > b for a, b in sides):
                place[least], place[most] = high, low


def with_heap(constraints, new, old):
    """Permits a heap too, or in the place of another."""
    heaps = constraints[MEMORY]["permitted_heaps"]
    known = [{"heap_type": heap["heap_type"], "id": heap.get("id", 0)} for heap in heaps]
    if old is None:
        heaps.append(heap_of(new))
    else:
        heaps[known.index(heap_of(old))] = heap_of(new)


def with_heap_alone(constraints, was, new):
    """Permits a heap alone, where these are told to be permitted."""
    memory = constraints.setdefault(MEMORY, {})
    known = [f"{heap['heap_type']}#{heap.get('id', 0)}" for heap in memory.get("permitted_heaps", [])]
    told = re.split(", | and ", was.removesuffix(" more"))
    judge(was == "(absent)" if not known else known[:len(told)][:3] == told[:3], f"{known} are told to be {was}")
    memory["permitted_heaps"] = [heap_of(new)]


def without_cpu(constraints):
    """Takes the use by a CPU away; what uses nothing else has the usage none."""
    constraints["usage"] = [usage for usage in constraints["usage"] if usage != "cpu"] or ["none"]


def joined(names):
    """At most four names as a text has them."""
    return " and ".join([", ".join(names[:-1])] * (len(names) > 1) + names[-1:])


def numbers_changed(before, after, told):
    """Judges that just the entries are changed whose numbers are told, if some are: the first of them."""
    numbers = [str(number) for number, (was, now) in enumerate(zip(before, after), 1) if was != now]
    if told:
        listed = joined(numbers) if len(numbers) < 5 else f"{', '.join(numbers[:3])} and {len(numbers) - 3} more"
        judge(told == listed, f"entries {numbers} are told to be {told}")


def taken(constraints, what):
    """Makes a change that takes more, and says whether the words are of such a one."""
    exchange = re.fullmatch(r"(\w+) (?:\S+ )?and (\w+) (?:\S+ )?exchanged(?: in entries (.*))?", what)
    colour = re.fullmatch(
        r"color_spaces (?:(.*), )?with (\w+) too(?: in entries (.*)| in entry (\d+) \((.*)\))?", what
    )
    only = re.fullmatch(r"color_spaces (.+) becomes (\w+)", what)
    pair = re.fullmatch(
        r"pixel_format (\w+ \w+) too, in an entry before the others that is else like (?:the first|entry (\d+)) \(.*\)",
        what,
    )
    heap = re.fullmatch(r"permitted_heaps with (\S+) (?:too|in the place of (\S+))", what)
    alone = re.fullmatch(r"permitted_heaps (.+) becomes (\S+#\d+)", what)
    first = re.fullmatch(r"entry (\d+) \(.*\) put first", what)
    if exchange:
        before = json.loads(json.dumps(constraints.get(ENTRIES, [])))
        exchanged(constraints, exchange[1], exchange[2])
        numbers_changed(before, constraints.get(ENTRIES, []), exchange[3])
    elif colour:
        before = json.loads(json.dumps(constraints[ENTRIES]))
        for number, entry in enumerate(constraints[ENTRIES], 1):
            if colour[2] not in entry["color_spaces"] and int(colour[4] or number) == number:
                told = len(entry["color_spaces"]) > 4 or colour[1] in (None, joined(entry["color_spaces"]))
                judge(told, f"{what}: the list of an entry is {entry['color_spaces']}")
                entry["color_spaces"].append(colour[2])
        numbers_changed(before, constraints[ENTRIES], colour[3] or colour[4])
        if colour[4]:
            entry = constraints[ENTRIES][int(colour[4]) - 1]
            names = [entry.get("pixel_format", "several pairs"), entry.get("pixel_format_modifier")]
            judge(colour[5] == " ".join(filter(None, names)), f"{what}: the entry is of {names}")
    elif only:
        for entry in constraints[ENTRIES]:
            names = entry["color_spaces"]
            if "DO_NOT_CARE" in names or len(names) > 1 and only[2] in names:
                judge(len(names) > 4 or only[1] == joined(names), f"{what}: the list of an entry is {names}")
                entry["color_spaces"] = [only[2]]
    elif pair:
        like = constraints[ENTRIES][int(pair[2] or 1) - 1]
        constraints[ENTRIES].insert(0, entry_like(like, pair[1]))
    elif heap:
        with_heap(constraints, heap[1], heap[2])
    elif alone:
        with_heap_alone(constraints, alone[1], alone[2])
    elif first:
        constraints[ENTRIES].insert(0, constraints[ENTRIES].pop(int(first[1]) - 1))
    elif what in ("usage without cpu", "usage cpu becomes none"):
        without_cpu(constraints)
        return True
    return bool(exchange or colour or only or pair or heap or alone or first)


def places_of(constraints, field):
    """The objects in which a field stands: the counts, the memory, or each entry that has it."""
    memory = constraints.get(MEMORY, {})
    first = [constraints] if field in constraints else [memory] if field in memory else []
    return first + [entry for entry in constraints.get(ENTRIES, []) if field in entry]


def spelled(value):
    """A field's value as a text has it."""
    return f"{value['width']}x{value['height']}" if isinstance(value, dict) else json.dumps(value)


def keep_untold(constraints, field, was, amount, is_meant):
    """Takes a field out of the entries whose value isn't told, and gives what puts it back: by it they ask for no more
    than with the amount that others get, unless that may be meant in the place of the one value that is told."""
    values = re.split(", | and ", was)
    kept = [entry for entry in constraints.get(ENTRIES, []) if field in entry and spelled(entry[field]) not in values]
    if was.endswith(" more"):
        return lambda: None
    stated = [(entry, entry.pop(field)) for entry in kept]
    is_greatest = field.startswith("max_") or field == "required_min_size"
    for _, value in stated:
        sides = zip(sides_of(value), sides_of(amount))
        judge(
            is_meant or all(own >= new if is_greatest else own <= new for own, new in sides),
            f"{field} asks for more where it isn't told to be {was}: {value}",
        )
    return lambda: [entry.update({field: value}) for entry, value in stated]


def sides_of(value):
    """A size's width and height, or a number."""
    return [value["width"], value["height"]] if isinstance(value, dict) else [value]


def with_field(constraints, field, was, change):
    """Makes a change wherever a field stands, which is told to be so before; a field that is told to be absent stands
    nowhere."""
    places = places_of(constraints, field)
    values = list(dict.fromkeys(spelled(place[field]) for place in places)) or ["(absent)"]
    told = (
        " and ".join([", ".join(values[:-1])] * (len(values) > 1) + values[-1:])
        if len(values) < 5
        else f"{', '.join(values[:3])} and {len(values) - 3} more"
    )
    judge(told == was, f"{field} is told to be {was}, and is {told}")
    for place in places or [constraints]:
        change(place)


def with_bound(constraints, field, was, amount):
    """States a bound in all entries, some of which are told to lack it."""
    stated = list(dict.fromkeys(spelled(entry[field]) for entry in constraints[ENTRIES] if field in entry))
    told = f"{joined(stated)} or absent" if stated else was
    judge(told == was and any(field not in entry for entry in constraints[ENTRIES]), f"{field} is told to be {was}")
    for entry in constraints[ENTRIES]:
        entry[field] = amount


def changed(script, words):
    """A script with one participant's constraints changed as the words say."""
    both = re.fullmatch(
        r"\S+ \(call (\d+)(?:, line \d+)?\) and \S+ \(call (\d+)(?:, line \d+)?\): their constraints exchanged", words
    )
    if both:
        one, other = (script["calls"][int(number) - 1] for number in both.groups())
        one["constraints"], other["constraints"] = other["constraints"], one["constraints"]
        return script
    one = re.fullmatch(r"\S+ \(call (\d+)(?:, lines? [^)]*)?\): (.*)", words)
    if not judge(one, f"{words!r} isn't known"):
        return None
    number, what = one.groups()
    constraints = script["calls"][int(number) - 1]["constraints"]
    if taken(constraints, what):
        return script
    lacks = re.fullmatch(r"(\w+) (.+) left out", what)
    holds = re.fullmatch(r"(\w+) (?:(true|false)|\(absent, so (?:true|false)\)) becomes (true|false)", what)
    whole = re.fullmatch(r"(\w+_for_camping) (\d+) becomes (min_buffer_count) \2 \(a count of all buffers\)", what)
    if whole:
        judge(not constraints.get(whole[3]), f"{whole[3]} is stated")
        with_field(constraints, whole[1], whole[2], lambda place: place.pop(whole[1]))
        constraints[whole[3]] = int(whole[2])
    elif lacks:
        with_field(constraints, lacks[1], lacks[2], lambda place: place.pop(lacks[1]))
    elif holds:
        memory = constraints.setdefault(MEMORY, {})
        was = {"true": True, "false": False}.get(holds[2])
        judge(memory.get(holds[1]) is was, f"{holds[1]} is told to be {holds[2]}, and is {memory.get(holds[1])}")
        memory[holds[1]] = holds[3] == "true"
    else:
        field, was, value = re.fullmatch(rf"(\w+) (.+) becomes ([\dx]+){BESIDE}", what).groups()
        sides = [int(side) for side in value.split("x")]
        amount = sides[0] if len(sides) == 1 else {"width": sides[0], "height": sides[1]}
        if re.match(LACKED, what):
            with_bound(constraints, field, was, amount)
            return script
        put_back = keep_untold(constraints, field, was, amount, what.endswith(")") and " and " not in was)
        with_field(constraints, field, was, lambda place: place.update({field: amount}))
        put_back()
    return script


def compare_lines(name, words, text):
    """In each line that a change names stands what it changes: the field, or the object or list that is to have more;
    of an entry its brace."""
    lines = text.split("\n")
    for told, what in re.findall(r"\S+ \(call \d+, lines? ([^)]*)\): (.*)", words):
        if what.startswith("entry "):
            keys = ["{"]
        elif lacked := re.match(LACKED, what):
            keys = ["{", f'"{lacked[1]}"']
        elif "(absent" in what:
            keys = ['"constraints"', f'"{MEMORY}"']
        elif what.endswith(" (a count of all buffers)"):
            keys = ['"constraints"', '"min_buffer_count_for_camping"', '"min_buffer_count"']
        elif what.startswith("pixel_format "):
            keys = [f'"{ENTRIES}"']
        else:
            keys = [f'"{key}"' for key in re.findall(r"\w+", re.sub(f"{BESIDE}$", "", what))]
        for number in re.findall(r"\d+", told):
            judge(any(key in lines[int(number) - 1] for key in keys), f"{name}: {what} isn't in line {number}")


def put_first(script, words):
    """A script with an entry of a call's constraints before the others."""
    entry, number = re.search(r"with entry (\d+) of \S+ \(call (\d+)\) put first ", words).groups()
    entries = script["calls"][int(number) - 1]["constraints"][ENTRIES]
    entries.insert(0, entries.pop(int(entry) - 1))
    return script


def taking_pair(script, words):
    """A script in which a participant takes a pair in an entry more."""
    who, what = re.fullmatch(r"if (\S+ \(call \d+\)) took (.*), it would be:", words).groups()
    return changed(script, f"{who}: {what}")


def keep_firsts(name, text, bytes_of):
    """With an entry first that is told to change nothing, or to leave nothing chosen, that is so."""
    for section in text.split("\n\n"):
        title, flat = re.match(r"domain (\S+) \(", section), re.sub(r"\n {7,}(?! |-> |choice )", " ", section)
        for words, same in re.findall(
            r"(with entry \d+ of \S+ \(call \d+\) put first )(the decision would be the same|nothing would be chosen)",
            flat,
        ):
            now, then = (
                verdicts_in(report_of(script)).get(title[1])
                for script in (json.loads(bytes_of), put_first(json.loads(bytes_of), words))
            )
            judge(
                now == then if same.startswith("the") else not (then or "").startswith("chosen "),
                f"{name}: {words}: {then!r}",
            )


def widened(script, words):
    """A script on a platform with one pair more."""
    pair = re.fullmatch(r"with (\w+) (\w+) on the platform it would be:", words)
    script["platform"]["pairs"].append({"pixel_format": pair[1], "pixel_format_modifier": pair[2]})
    return script


def moved(script, words):
    """A script with calls moved, each right after another."""
    calls = list(enumerate(script["calls"], 1))
    for call, after in reversed(re.findall(r"call (\d+) moved after call (\d+)", words)):
        one = next(it for it in calls if it[0] == int(call))
        calls.remove(one)
        place = next(k for k, it in enumerate(calls) if it[0] == int(after))
        calls.insert(place + 1, one)
    script["calls"] = [call for _, call in calls]
    return script


def added(script, words):
    """A script with calls that were missing, each right before another, by the actor of the call that was refused on
    its node."""
    calls = list(enumerate(script["calls"], 1))
    for kind, node, before in re.findall(r"(bind|all_children_present) (\S+) before call (\d+)", words):
        wants = ("set_constraints", "attach_token") if kind == "bind" else ("release",)
        refused = next(call for call in script["calls"] if call["on"] == node and call["call"] in wants)
        place = next(k for k, (number, _) in enumerate(calls) if number == int(before))
        actor = {"actor": refused["actor"]} if "actor" in refused else {}
        calls.insert(place, (0, {"call": kind, "on": node, **actor}))
    script["calls"] = [call for _, call in calls]
    return script


def ended(script, words):
    """A script with calls after it that release and complete who is named, of a group also a child that is made; None
    where not all are named."""
    released, complete = re.fullmatch(
        r"with (?:(.+?) released)?(?: and )?(?:(.+?) complete)? it would be:", words
    ).groups()
    if " more" in words:
        return None
    names = lambda text: re.split(r", | and ", text) if text else []
    actor = script["calls"][-1].get("actor") if script["calls"] else "main"
    more = {"actor": actor} if actor else {}
    for name in names(released):
        if name.startswith("a child of "):
            made = {call.get("as") for call in script["calls"]}
            group, name = name.removeprefix("a child of "), next(it for it in CHILDREN if it not in made)
            script["calls"].append({"call": "create_child", "on": group, "as": name, **more})
        script["calls"].append({"call": "release", "on": name, **more})
    script["calls"] += [{"call": "all_children_present", "on": name, **more} for name in reversed(names(complete))]
    return script


def first_pair(script, words):
    """A script on a platform that has a pair first."""
    names = re.fullmatch(r"(\w+ \w+) would do too, but stands after \w+ \w+ on the platform, .*", words)[1].split()
    pairs = script["platform"]["pairs"]
    is_meant = lambda pair: [pair["pixel_format"], pair.get("pixel_format_modifier", "LINEAR")] == names
    pairs.sort(key=lambda pair: not is_meant(pair))
    judge(is_meant(pairs[0]), f"{names} is no pair of the platform")
    return script


def other_heap(script, words):
    """A script on a platform one of whose heaps is contiguous or secure, or has a coherency domain more."""
    heap, word = re.fullmatch(
        r"with (\S+) (contiguous|secure|cpu|ram|inaccessible) on the platform, which doesn't (?:say so|have it), "
        r"it would be:",
        words,
    ).groups()
    meant = [
        it
        for it in script["platform"]["heaps"]
        if {"heap_type": it["heap_type"], "id": it.get("id", 0)} == heap_of(heap)
    ]
    judge(len(meant) == 1, f"{heap} isn't there")
    if word in ("contiguous", "secure"):
        judge(not meant[0].get(word), f"{heap} is {word}")
        meant[0][word] = True
    else:
        judge(word not in meant[0]["domains"], f"{heap} has {word}")
        meant[0]["domains"].append(word)
    return script


def names_end(calls, names, numbers, words):
    """Judges that calls of these numbers release or close those who are named."""
    ends = [calls[number - 1] for number in numbers]
    named = re.split(r", | and ", re.sub(r" and \d+ more$", "", names))
    judge(
        set(named) <= {call["on"] for call in ends} and {call["call"] for call in ends} <= {"release", "close"},
        f"{words}: these calls end others",
    )


def ended_before(script, words):
    """A script in which calls that release or close somebody come before another call."""
    names, ends, one, early, before = re.fullmatch(
        r"(.*) still counts? here, and .* only later, by calls? ([\d, and]+?)(, of which one is enough)?; "
        r"with calls? ([\d, and]+) before call (\d+) it would be:",
        words,
    ).groups()
    calls, numbers = script["calls"], [int(number) for number in re.findall(r"\d+", early)]
    all_ends = [int(number) for number in re.findall(r"\d+", ends)]
    judge(len(numbers) == 1 and numbers[0] in all_ends if one else numbers == all_ends, f"{words}: others are moved")
    names_end(calls, names, all_ends, words)
    carried = [calls[number - 1] for number in numbers]
    rest = [call for number, call in enumerate(calls, 1) if number not in numbers]
    place = int(before) - 1
    script["calls"] = rest[:place] + carried + rest[place:]
    return script


def names_exchanged(script, words):
    """A script in which two calls make each other's names."""
    later, one, other = re.search(
        r"(\S+) would do too, but .*; with their names exchanged in calls (\d+) and (\d+) it would be:", words
    ).groups()
    first, second = script["calls"][int(one) - 1], script["calls"][int(other) - 1]
    judge(second["as"] == later and int(one) < int(other), f"{words}: call {other} makes another name")
    first["as"], second["as"] = second["as"], first["as"]
    return script


def moved_after(calls, numbers, after):
    """Calls, some of which come after another one, and the number that this has then."""
    rest = [(number, call) for number, call in enumerate(calls, 1) if number not in numbers]
    place = next(k for k, (number, _) in enumerate(rest) if number == after) + 1
    rest = [call for _, call in rest]
    return rest[:place] + [calls[number - 1] for number in numbers] + rest[place:], place


def decided_by(script, calls, number):
    """What the call of a number decides, where a script has these calls."""
    lines = report_of({**script, "calls": calls})
    first = next(k for k, line in enumerate(lines) if line.startswith(f"{number} ")) + 1
    return list(itertools.takewhile(lambda line: line.startswith("domain "), lines[first:]))


def one_is_enough(script, words, numbers, beside, after):
    """Judges that each of some calls is enough where the others come after that of a number: beside others, of which it
    is said that they are needed."""
    calls = script["calls"]
    now = decided_by(script, calls, after)
    others = [[other for other in numbers if other != number] for number in numbers]
    for some in others:
        judge(decided_by(script, *moved_after(calls, some, after)) == now, f"{words}: one isn't enough")
    if beside:
        alone = [decided_by(script, *moved_after(calls, sorted([*some, *beside]), after)) for some in others]
        judge(any(then != now for then in alone), f"{words}: one is enough by itself")


def ended_after(script, words):
    """A script in which calls that release or close somebody come after another call; without these calls the domain is
    the same, where that is said."""
    ends, names, each, enough, beside, late, after, never = re.fullmatch(
        r"it has room (?:with these children )?only since calls? ([\d, and]+?) "
        r"(?:released or closed|released|closed) (.*?)"
        r"(?:(, all of which it needs)|(, of which one is enough)(?: beside calls? ([\d, and]+))?)?; "
        r"with calls? ([\d, and]+) after call (\d+)(, or left out,)? it would be, with the calls numbered anew:",
        words,
    ).groups()
    calls, (numbers, all_ends, others) = script["calls"], [
        [int(number) for number in re.findall(r"\d+", some or "")] for some in (late, ends, beside)
    ]
    judge(len(numbers) == 1 and numbers[0] in all_ends if each else numbers == all_ends, f"{words}: others are moved")
    judge((len(numbers) > 1) == bool(enough), f"{words}: how many it needs isn't said")
    names_end(calls, names, all_ends, words)
    if enough:
        one_is_enough(script, words, numbers, others, int(after))
    script["calls"], _ = moved_after(calls, numbers, int(after))
    if never:
        script["without"] = [call for number, call in enumerate(calls, 1) if number not in numbers]
    return script


def group_first(script, words):
    """A script in which a call that makes a group, or what it hangs below, comes before one that makes another so."""
    first, second, later, made = re.fullmatch(
        r"(\S+?)(?:, which \S+ hangs below,)? is made before (\S+?)(?:, which \S+ hangs below)?, so "
        r"(?:its|\S+'s) choice weighs more; with call (\d+), which makes \2, before call (\d+) it would be:",
        words,
    ).groups()
    calls = script["calls"]
    judge(
        [calls[int(number) - 1].get("as") for number in (made, later)] == [first, second],
        f"{words}: made by other calls",
    )
    calls.insert(int(made) - 1, calls.pop(int(later) - 1))
    return script


def released(script, words):
    """A script in which a call that closes releases."""
    number = re.fullmatch(r"with release in the place of close in call (\d+) it would be:", words)[1]
    made = script["calls"][int(number) - 1]
    judge(made["call"] == "close", f"{words}: it is {made}")
    made["call"] = "release"
    return script


def unstated(script, words):
    """A script in which a call states no constraints, whose participant uses the buffers for nothing."""
    name, number = re.fullmatch(
        r"(\S+) uses the buffers for nothing \(usage none\), but states constraints; without them in call (\d+) it would be:",
        words,
    ).groups()
    made = script["calls"][int(number) - 1]
    judge(made["call"] == "set_constraints" and made["on"] == name, f"{words}: it is {made}")
    stated = made.pop("constraints")
    counts = [stated.get(key, 0) for key in ("min_buffer_count", "min_buffer_count_for_camping")]
    judge((stated["usage"], counts) == (["none"], [0, 0]), f"{words}: it states {stated}")
    return script


# Outcomes that are told in sentences of their own, by words of these; the first that fits.
OTHERWISE = {
    " but states constraints; without them in call ": unstated,
    " whose order decides, not the entries'; ": first_pair,
    " on the platform, which doesn't say so, ": other_heap,
    " on the platform, which doesn't have it, ": other_heap,
    "with release in the place of close ": released,
    " only later, by call": ended_before,
    " with their names exchanged in calls ": names_exchanged,
    " only since call": ended_after,
    " choice weighs more; ": group_first,
    " on the platform ": widened,
    " moved after ": moved,
    " the script has, its calls numbered anew:": added,
    " put first it": put_first,
    ") took pixel_format ": taking_pair,
    " released it would be": ended,
    " complete it would be": ended,
}
