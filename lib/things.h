! What can be done with things: having, putting, opening, locking, switching, wearing and the like.

System_file;

Ifndef LIBRARY;
Message fatalerror "This is a part of the library. Include library in its place, by one line of the game.";
Endif;

Global is_quiet;            ! an action that another one needs says nothing where it is done

! Does an action that the present one needs first.
[ DoFirst what thing  old;
    old = is_quiet;
    is_quiet = true;
    R_Process(what, thing);
    is_quiet = old;
];

! Tells that an action was done, unless it was done for another one.
[ TellDone message_number thing;
    if (is_quiet) is_quiet = false;
    else Tell(message_number, thing);
];

! Whether the actor has a thing, which is taken first where that can be.
[ GetsHold thing;
    if (thing in actor) rtrue;
    if (thing has static || thing has scenery || thing has animate || thing == actor) { Tell(HAVE_NOT, thing); rfalse; }
    Tell(TAKE_FIRST, thing);
    DoFirst(##Take, thing);
    return thing in actor;
];

! Whether a container or a door is open, or is opened first.
[ IsOpened thing;
    if (thing has open) rtrue;
    if (thing hasnt openable || thing has locked) { Tell(IS_CLOSED, thing); rfalse; }
    Tell(OPEN_FIRST, thing);
    DoFirst(##Open, thing);
    return thing has open;
];

! Whether the player is in nothing, or in what a thing is in, or gets out first.
[ IsOut thing  above;
    for (::) {
        above = parent(player);
        if (above == location || (thing && thing in above)) rtrue;
        Tell(EXIT_FIRST, above);
        DoFirst(##Exit);
        if (player in above) rfalse;
    }
];

! Whether a thing is not worn, or is taken off first.
[ IsOff thing;
    if (thing hasnt worn) rtrue;
    Tell(DISROBE_FIRST, thing);
    DoFirst(##Disrobe, thing);
    return thing hasnt worn;
];

! How many things somebody carries, but for what is worn.
[ Carries somebody  thing n;
    objectloop (thing in somebody) if (thing hasnt worn) n++;
    return n;
];

[ TakeSub  above;
    if (noun == actor) { Tell(TAKE_SELF, noun); return; }
    if (noun in actor) { Tell(TAKE_ALREADY, noun); return; }
    if (noun has animate) { Tell(TAKE_SOMEBODY, noun); return; }
    if (IsWithin(actor, noun)) { Tell(GO_FIRST, noun); return; }
    if (noun has scenery || noun has door || parent(noun) == 0) { Tell(TAKE_SCENERY, noun); return; }
    if (noun has static) { Tell(TAKE_FIXED, noun); return; }
    above = parent(noun);
    if (parent(above)) {
        second = above;
        if (RunOther(above, ##LetGo, before)) return;
    }
    if (Carries(actor) >= MOST_CARRIED) { Tell(TAKE_FULL); return; }
    move noun to actor;
    if (noun hasnt moved && noun has scored && actor == player) {
        score = score + OBJECT_SCORE;
        things_score = things_score + OBJECT_SCORE;
    }
    give noun moved ~concealed;
    if (parent(above) && RunOther(above, ##LetGo, after)) return;
    if (RunAfter()) return;
    TellDone(TAKE_DONE, noun);
];

[ RemoveSub;
    if (noun notin second) { Tell(REMOVE_NOT_THERE, noun); return; }
    if (second has container && second hasnt open) { Tell(IS_CLOSED, second); return; }
    if (noun has worn) { <Disrobe noun>; return; }
    <Take noun>;
];

[ DropSub;
    if (noun in parent(actor)) { Tell(HAVE_NOT, noun); return; }
    if (~~GetsHold(noun)) return;
    if (~~IsOff(noun)) return;
    move noun to parent(actor);
    if (RunAfter()) return;
    TellDone(DROP_DONE, noun);
];

[ PutOnSub;
    if (second in actor && second has clothing or animate) { Tell(PUT_NOT_ON, second); return; }
    if (CannotPut()) return;
    if (second hasnt supporter) { Tell(PUT_NOT_ON, second); return; }
    Put(PUT_ON_DONE);
];

[ PutInSub;
    if (CannotPut()) return;
    if (second hasnt container) { Tell(PUT_NOT_IN, second); return; }
    if (~~IsOpened(second)) return;
    Put(PUT_IN_DONE);
];

! Tells why a thing cannot be put anywhere, or has it taken first.
[ CannotPut;
    if (noun == second || IsWithin(second, noun)) { Tell(PUT_SELF, noun); rtrue; }
    if (noun in second) { Tell(PUT_ALREADY, noun); rtrue; }
    if (~~GetsHold(noun)) rtrue;
    if (~~IsOff(noun)) rtrue;
    return RunOther(second, ##Receive, before);
];

[ Put message_number;
    if (children(second) >= second.capacity) { Tell(PUT_FULL, second); return; }
    move noun to second;
    if (RunOther(second, ##Receive, after) || RunAfter()) return;
    Tell(message_number, noun);
];

[ EmptySub  thing next;
    if (noun hasnt container && noun hasnt supporter) { Tell(EMPTY_REFUSED, noun); return; }
    if (noun has container && ~~IsOpened(noun)) return;
    if (child(noun) == 0) { Tell(EMPTY_ALREADY, noun); return; }
    for (thing = child(noun) : thing : thing = next) {
        next = sibling(thing);
        print (name) thing, ": ";
        <Take thing>;
    }
];

[ OpenSub;
    if (noun hasnt openable) { Tell(OPEN_REFUSED, noun); return; }
    if (noun has locked) { Tell(OPEN_LOCKED, noun); return; }
    if (noun has open) { Tell(OPEN_ALREADY, noun); return; }
    give noun open;
    if (RunAfter()) return;
    TellDone(OPEN_DONE, noun);
    UpdateLight();
];

[ CloseSub;
    if (noun hasnt openable) { Tell(CLOSE_REFUSED, noun); return; }
    if (noun hasnt open) { Tell(CLOSE_ALREADY, noun); return; }
    give noun ~open;
    if (RunAfter()) return;
    Tell(CLOSE_DONE, noun);
];

! Whether the second thing is the key of the first, and the actor has it.
[ IsKey;
    if (~~GetsHold(second)) rfalse;
    if (ValueOf(noun, key) == second) rtrue;
    Tell(LOCK_WRONG_KEY, second);
    rfalse;
];

[ LockSub;
    if (noun hasnt lockable) { Tell(LOCK_REFUSED, noun); return; }
    if (noun has locked) { Tell(LOCK_ALREADY, noun); return; }
    if (noun has open) { Tell(LOCK_OPEN, noun); return; }
    if (~~IsKey()) return;
    give noun locked;
    if (RunAfter()) return;
    Tell(LOCK_DONE, noun);
];

[ UnlockSub;
    if (noun hasnt lockable) { Tell(UNLOCK_REFUSED, noun); return; }
    if (noun hasnt locked) { Tell(UNLOCK_ALREADY, noun); return; }
    if (~~IsKey()) return;
    give noun ~locked;
    if (RunAfter()) return;
    Tell(UNLOCK_DONE, noun);
];

[ SwitchOnSub;
    if (noun hasnt switchable) { Tell(SWITCH_REFUSED, noun); return; }
    if (noun has on) { Tell(SWITCH_ON_ALREADY, noun); return; }
    give noun on;
    if (RunAfter()) return;
    Tell(SWITCH_ON_DONE, noun);
];

[ SwitchOffSub;
    if (noun hasnt switchable) { Tell(SWITCH_REFUSED, noun); return; }
    if (noun hasnt on) { Tell(SWITCH_OFF_ALREADY, noun); return; }
    give noun ~on;
    if (RunAfter()) return;
    Tell(SWITCH_OFF_DONE, noun);
];

[ WearSub;
    if (noun hasnt clothing) { Tell(WEAR_REFUSED, noun); return; }
    if (noun has worn && noun in actor) { Tell(WEAR_ALREADY, noun); return; }
    if (~~GetsHold(noun)) return;
    give noun worn;
    if (RunAfter()) return;
    Tell(WEAR_DONE, noun);
];

[ DisrobeSub;
    if (noun hasnt worn || noun notin actor) { Tell(DISROBE_REFUSED, noun); return; }
    give noun ~worn;
    if (RunAfter()) return;
    TellDone(DISROBE_DONE, noun);
];

[ EatSub;
    if (noun hasnt edible) { Tell(EAT_REFUSED, noun); return; }
    if (~~GetsHold(noun)) return;
    remove noun;
    if (RunAfter()) return;
    Tell(EAT_DONE, noun);
];

[ InventorySub;
    if (CountShown(actor) == 0) { Tell(INVENTORY_EMPTY); return; }
    if (inventory_is_wide) Tell(INVENTORY_WIDE);
    else {
        Tell(INVENTORY_LIST);
        WriteLines(actor, 1);
    }
    RunAfter();
];

[ InventoryWideSub; inventory_is_wide = true; <Inventory>; ];
[ InventoryTallSub; inventory_is_wide = false; <Inventory>; ];

[ ExamineSub;
    if (parent(noun) == compass) { Tell(EXAMINE_DIRECTION, noun); return; }
    if (~~PrintOrRun(noun, description)) {
        if (noun has container && noun hasnt open && noun hasnt transparent) Tell(IS_CLOSED, noun);
        else {
            if (noun hasnt animate && ShowsContents(noun)) { SearchSub(); return; }
            Tell(EXAMINE_PLAIN, noun);
        }
    }
    if (noun has switchable) Tell(EXAMINE_SWITCH, noun);
    RunAfter();
];

[ SearchSub;
    if (noun has container && ~~ShowsContents(noun)) { Tell(IS_CLOSED, noun); return; }
    if (noun hasnt container && noun hasnt supporter) { Tell(SEARCH_PLAIN, noun); return; }
    if (CountShown(noun) == 0) Tell(SEARCH_EMPTY, noun);
    else Tell(LOOK_CONTENTS, noun);
    RunAfter();
];

[ LookUnderSub; Tell(LOOK_UNDER_PLAIN, noun); ];
[ ConsultSub; Tell(CONSULT_PLAIN, noun); ];

! Actions of which nothing comes, unless a game has it otherwise.
[ BlowSub; Tell(NOTHING_DONE, noun); ];
[ BurnSub; Tell(BURN_REFUSED, noun); ];
[ ClimbSub; Tell(CLIMB_REFUSED, noun); ];
[ CutSub; Tell(CUT_REFUSED, noun); ];
[ DigSub; Tell(DIG_REFUSED, noun); ];
[ DrinkSub; Tell(DRINK_REFUSED, noun); ];
[ FillSub; Tell(FILL_REFUSED, noun); ];
[ JumpOverSub; Tell(NOTHING_DONE, noun); ];
[ ListenSub; if (~~RunAfter()) Tell(LISTEN_PLAIN, noun); ];
[ RubSub; if (~~RunAfter()) Tell(NOTHING_DONE, noun); ];
[ SetSub; Tell(SET_REFUSED, noun); ];
[ SetToSub; Tell(SET_REFUSED, noun); ];
[ SmellSub; if (~~RunAfter()) Tell(SMELL_PLAIN, noun); ];
[ SqueezeSub; Tell(NOTHING_DONE, noun); ];
[ SwingSub; Tell(SWING_REFUSED, noun); ];
[ TasteSub; if (~~RunAfter()) Tell(TASTE_PLAIN, noun); ];
[ TieSub; Tell(TIE_REFUSED, noun); ];
[ TouchSub; if (~~RunAfter()) Tell(TOUCH_PLAIN, noun); ];
[ WaveSub; if (GetsHold(noun)) { if (~~RunAfter()) Tell(WAVE_DONE, noun); } ];

! Pushing, pulling and turning, of which something comes only where a rule says so.
[ PushSub; Budge(); ];
[ PullSub; Budge(); ];
[ TurnSub; Budge(); ];

[ Budge;
    if (noun has animate) { Tell(PUSH_SOMEBODY, noun); return; }
    if (noun has static || noun has scenery || noun has door) { Tell(PUSH_FIXED, noun); return; }
    if (RunAfter()) return;
    Tell(NOTHING_DONE, noun);
];

[ PushToSub; Tell(PUSH_TO_REFUSED, noun); ];
