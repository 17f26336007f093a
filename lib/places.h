! Rooms: looking, going, entering and leaving.

System_file;

Ifndef LIBRARY;
Message fatalerror "This is a part of the library. Include library in its place, by one line of the game.";
Endif;

! Prints the name of the place, and what the player is in or on there.
[ PrintHeading;
    Bold();
    PrintHere();
    style roman;
    if (is_lit && parent(player) ~= location) print " (", (InOrOn) parent(player), ")";
    new_line;
];

! Describes the place: in full, or as the mode of looking says.
[ DescribePlace full  ceiling;
    PrintHeading();
    if (~~is_lit) {
        if (~~PrintOrRun(location, darkness)) Tell(DARK_TEXT);
        return;
    }
    ceiling = CeilingOf(player);
    if (ceiling == location) {
        if (full || look_mode == 1 || (look_mode == 0 && location hasnt visited)) PrintOrRun(location, description);
    }
    else PrintOrRun(ceiling, inside_description);
    DescribeThings(ceiling);
    if (location hasnt visited) {
        give location visited;
        if (location has scored) {
            score = score + ROOM_SCORE;
            rooms_score = rooms_score + ROOM_SCORE;
        }
    }
];

[ LookSub;
    new_line;
    DescribePlace(true);
    RunAfter();
];

! Describes what is in a place: what has a text of its own by that, the others in a list.
[ DescribeThings above  thing n;
    objectloop (thing in above) {
        give thing ~listed;
        if (thing has concealed || thing == player) continue;
        if (Run(thing, describe)) continue;
        if (HasOwnText(thing)) continue;
        if (thing has scenery) {
            if (thing has supporter) TellContents(thing);
            continue;
        }
        if (IsWithin(player, thing)) { TellContents(thing); continue; }
        give thing listed;
        n++;
    }
    if (n == 0) return;
    Tell(LOOK_HERE, above);
];

! Prints the text that a thing has for the description of its place, if it has one for what it is now.
[ HasOwnText thing  told;
    if (thing hasnt moved && thing provides initial) told = initial;
    if (thing has door || thing has container) {
        if (thing has open) told = OwnText(thing, when_open, told);
        else told = OwnText(thing, when_closed, told);
    }
    if (thing has switchable) {
        if (thing has on) told = OwnText(thing, when_on, told);
        else told = OwnText(thing, when_off, told);
    }
    if (told == 0) rfalse;
    new_line;
    PrintOrRun(thing, told);
    if (thing hasnt animate && ShowsContents(thing)) TellContents(thing);
    rtrue;
];

[ OwnText thing property otherwise;
    if (thing provides property) return property;
    return otherwise;
];

! Tells what is in a thing or on it, in a paragraph of its own.
[ TellContents thing;
    if (CountShown(thing) == 0) return;
    new_line;
    Tell(LOOK_CONTENTS, thing);
];

! Moves the things that are found in several rooms to where the player is.
[ PutFound  thing at;
    objectloop (thing) {
        @get_prop_addr thing found_in -> at;
        if (at == 0) continue;
        if (thing hasnt absent && IsFoundHere(thing)) {
            if (parent(thing) ~= location) move thing to location;
        }
        else if (parent(thing) && parent(parent(thing)) == 0 && thing notin player) remove thing;
    }
];

[ IsFoundHere thing  at n;
    at = thing.&found_in;
    if (Z__Region(at-->0) == 2) return RunRoutine(thing, at-->0);
    for (n = thing.#found_in / 2 : n > 0 : n--) {
        if (at-->0 == location) rtrue;
        at = at + 2;
    }
    rfalse;
];

! Moves the player to a room, or into something there; describes the place unless `quiet` is true.
[ PlayerTo place quiet;
    move player to place;
    location = CeilingOfRoom();
    PutFound();
    is_lit = HasLight();
    if (quiet) return;
    new_line;
    DescribePlace(false);
];

! The other side of a door: what its door_to says, or the other one of the two rooms that it is found in.
[ OtherSide gate  at;
    if (gate provides door_to) return ValueOf(gate, door_to);
    at = gate.&found_in;
    if (at == 0 || gate.#found_in ~= 4) return nothing;
    if (at-->0 == location) return at-->1;
    return at-->0;
];

[ GoSub  way next;
    if (actor ~= player) { Tell(ORDER_REFUSED, actor); return; }
    if (parent(player) ~= location && noun == the_outside) { <Exit>; return; }
    way = FirstValue(noun, door_direction);
    if (way && FirstValue(location, way) == 0 or NULL) { GoNowhere(); return; }
    if (~~IsOut()) return;
    if (way == 0) { GoThroughDoor(noun); return; }
    next = GoesTo(way);
    if (next == 1) return;
    if (next == 0) { GoNowhere(); return; }
    if (next has door) { GoThroughDoor(next); return; }
    Arrive(next);
];

[ GoNowhere;
    if (~~PrintOrRun(location, cannot_go)) Tell(GO_NOWHERE);
];

! Where a way leads: a room, a door, nothing, or 1 where a text or a routine told all.
[ GoesTo way  next;
    next = ValueOf(location, way);
    if (Z__Region(next) == 3) { print (string) next; new_line; rtrue; }
    return next;
];

[ GoThroughDoor gate  next;
    if (gate has concealed) { Tell(GO_NOWHERE); return; }
    if (gate hasnt open && (gate hasnt openable || gate has locked)) { Tell(GO_CLOSED, gate); return; }
    if (~~IsOpened(gate)) return;
    next = OtherSide(gate);
    if (next == 1) return;
    if (next == 0) { Tell(GO_NOWHERE); return; }
    Arrive(next);
];

[ Arrive room;
    PlayerTo(room, true);
    if (RunAfter()) return;
    new_line;
    DescribePlace(false);
];

[ GoWhereSub; Tell(GO_WHERE); ];

[ EnterSub;
    if (actor ~= player) { Tell(ORDER_REFUSED, actor); return; }
    if (noun has door || parent(noun) == compass) { <Go noun>; return; }
    if (noun hasnt enterable) { Tell(ENTER_REFUSED, noun); return; }
    if (player in noun) { Tell(ENTER_ALREADY, noun); return; }
    if (IsWithin(noun, player)) { Tell(ENTER_HELD, noun); return; }
    if (~~IsOut(noun)) return;
    if (noun has container && ~~IsOpened(noun)) return;
    move player to noun;
    is_lit = HasLight();
    if (RunAfter()) return;
    Tell(ENTER_DONE, noun);
    if (CeilingOf(player) ~= location) { new_line; DescribePlace(true); }
];

[ StandSub;
    if (parent(player) == location) Tell(STAND_ALREADY);
    else <Exit>;
];

[ ExitSub  above;
    if (actor ~= player) { Tell(ORDER_REFUSED, actor); return; }
    above = parent(player);
    if (above == location) {
        if (noun && noun ~= above) { Tell(EXIT_NOT_IN, noun); return; }
        <Go the_outside>;
        return;
    }
    if (noun && noun ~= above) { Tell(EXIT_NOT_IN, noun); return; }
    if (above has container && ~~IsOpened(above)) return;
    noun = above;
    move player to parent(above);
    is_lit = HasLight();
    if (RunAfter()) return;
    TellDone(EXIT_DONE, above);
];
