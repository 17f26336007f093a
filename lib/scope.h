! What is in view, light, and what can be touched.

System_file;

Ifndef LIBRARY;
Message fatalerror "This is a part of the library. Include library in its place, by one line of the game.";
Endif;

! Whether what is in a thing can be seen by what is outside of it, and the other way round.
[ IsOpenToView thing;
    return ShowsContents(thing) || (thing has enterable && thing hasnt container);
];

! What a thing is in view of: its room, or the closed thing that it is in.
[ CeilingOf thing;
    thing = parent(thing);
    while (thing && parent(thing) && IsOpenToView(thing)) thing = parent(thing);
    return thing;
];

! Goes through all that is in view of the actor, does with each what `use` says, and answers whether that found or ended something.
! In the dark only what the actor has is in view, and what the actor is in. A routine of a token `scope=Routine` may choose all.
[ LookThroughScope use thing routine  old_use old_thing old_found ceiling;
    old_use = scope_use;
    old_thing = scope_thing;
    old_found = scope_found;
    scope_use = use;
    scope_thing = thing;
    scope_found = false;
    scope_stage = 2;
    if (routine == 0 || ~~indirect(routine)) {
        Consider(actor);
        GoThrough(actor);
        ceiling = CeilingOf(actor);
        if (is_lit || ~~IsWithin(actor, location)) {
            if (parent(ceiling)) Consider(ceiling);
            ConsiderAdded(ceiling);
            GoThrough(ceiling);
        } else if (parent(parent(actor))) Consider(parent(actor));
    }
    use = scope_found;
    scope_use = old_use;
    scope_thing = old_thing;
    scope_found = old_found;
    return use;
];

! Goes through what is in a thing, and in what is in view there.
[ GoThrough above  thing next;
    thing = child(above);
    while (thing) {
        next = sibling(thing);
        if (thing ~= actor) {
            Consider(thing);
            if (child(thing) && IsOpenToView(thing)) GoThrough(thing);
        }
        ! a rule may have moved what comes next
        if (next && parent(next) ~= above) return;
        thing = next;
    }
];

! What a thing adds to what is in view.
[ ConsiderAdded thing  at n;
    @get_prop_addr thing add_to_scope -> at;
    if (at == 0) return;
    if (Z__Region(at-->0) == 2) { RunRoutine(thing, at-->0); return; }
    for (n = thing.#add_to_scope / 2 : n > 0 : n--) {
        Consider(at-->0);
        at = at + 2;
    }
];

! Puts one thing into view, or what is in it: for routines of `scope=Routine` and of `add_to_scope`.
[ PlaceInScope thing; Consider(thing); ];
[ ScopeWithin thing; GoThrough(thing); ];

! Does with one thing what the scope is looked through for.
[ Consider thing;
    if (scope_found) return;
    switch (scope_use) {
        TO_MATCH: MatchThing(thing);
        TO_COLLECT: if (IsOfAll(thing)) AddTo(matches, thing);
        TO_SEEK: if (thing == scope_thing) scope_found = true;
        TO_RUN: if (Run(thing, scope_thing)) scope_found = true;
        TO_LIST: print (name) thing, " (", thing, ")^";
        TO_MEET: if (IsCalled(thing, scope_thing)) AddTo(matches, thing);
    }
    ConsiderAdded(thing);
];

! Whether a thing is in view of the actor.
[ IsInScope thing;
    return parent(thing) == compass || LookThroughScope(TO_SEEK, thing);
];

! Runs a property of all that is in view, until one rule ends the action.
[ RunScope property;
    return LookThroughScope(TO_RUN, property);
];

! Whether a thing is light or has light in view of what is outside of it.
[ GivesLight thing  within;
    if (thing has light) rtrue;
    if (ShowsContents(thing) || thing has animate || thing has enterable) {
        objectloop (within in thing) if (GivesLight(within)) rtrue;
    }
    rfalse;
];

! Whether the player has light.
[ HasLight  ceiling within;
    ceiling = CeilingOf(player);
    if (ceiling has light) rtrue;
    objectloop (within in ceiling) if (GivesLight(within)) rtrue;
    rfalse;
];

! Whether a thing is in another one, or in what is in it, and so on.
[ IsWithin thing above;
    while (thing) {
        thing = parent(thing);
        if (thing == above) rtrue;
    }
    rfalse;
];

! The innermost thing that both are in, or that one of them is.
[ CommonAbove thing other;
    while (thing) {
        if (thing == other || IsWithin(other, thing)) return thing;
        thing = parent(thing);
    }
    return nothing;
];

! Tells what keeps the actor from touching a thing, if something does.
[ IsOutOfReach thing  above common;
    if (parent(thing) == 0 || parent(thing) == compass) rfalse;
    common = CommonAbove(actor, thing);
    if (common == 0) rfalse;
    if (common ~= actor) {
        for (above = parent(actor) : above ~= common && above : above = parent(above))
            if (above has container && above hasnt open) { Tell(REACH_CLOSED, above); rtrue; }
    }
    if (common == thing) rfalse;
    for (above = parent(thing) : above ~= common && above : above = parent(above)) {
        if (above has animate && above ~= actor) { Tell(REACH_OWNED, above); rtrue; }
        if (above has container && above hasnt open) { Tell(REACH_CLOSED, above); rtrue; }
    }
    rfalse;
];
