! Actions, and the rules that come before and after them.

System_file;

Ifndef LIBRARY;
Message fatalerror "This is a part of the library. Include library in its place, by one line of the game.";
Endif;

! Does an action: for the statements <Action noun second> and <<Action noun second>>.
[ R_Process what first other  old_action old_noun old_second old_is_noun old_is_second old_meta;
    old_action = action;
    old_noun = noun;
    old_second = second;
    old_is_noun = noun_is_value;
    old_is_second = second_is_value;
    old_meta = is_meta;
    action = what;
    noun = first;
    second = other;
    noun_is_value = false;
    second_is_value = false;
    is_meta = false;
    PerformAction();
    action = old_action;
    noun = old_noun;
    second = old_second;
    noun_is_value = old_is_noun;
    second_is_value = old_is_second;
    is_meta = old_meta;
];

! Does the present action: the rules before it, what it needs, and its routine.
[ PerformAction;
    #Ifdef DEBUG;
    if (tracing) TraceAction();
    #Endif;
    if (~~is_meta) {
        if (RunBefore()) return;
        if (NeedsReach()) {
            if (noun && ~~noun_is_value && IsOutOfReach(noun)) return;
            if (second && ~~second_is_value && IsOutOfReach(second)) return;
        }
    }
    if (action < 4096) indirect(#actions_table-->action);
];

! Does the action that was commanded. Where somebody else is to do it, the rules of that one are asked, which may do it by the
! statement <Action noun second>.
[ PerformCommand;
    if (actor == player) { PerformAction(); return; }
    if (Run(actor, orders) || RunLife(actor, ##Order)) return;
    Tell(ORDER_REFUSED, actor);
];

! Runs the rules before an action, until one of them ends it.
[ RunBefore;
    if (Run(game, before) || Run(actor, before)) rtrue;
    if (RunScope(react_before) || Run(location, before)) rtrue;
    return noun && ~~noun_is_value && Run(noun, before);
];

! Runs the rules after an action, before it is told.
[ RunAfter;
    if (RunScope(react_after) || Run(location, after)) rtrue;
    if (noun && ~~noun_is_value && Run(noun, after)) rtrue;
    return Run(actor, after) || Run(game, after);
];

! Runs the rules that somebody or something has for an action done to it.
[ RunLife thing what; return RunOther(thing, what, life); ];

! Runs the rules that a thing has before or after another action than the present one.
[ RunOther thing what property  old;
    if (thing == 0) rfalse;
    old = action;
    action = what;
    property = Run(thing, property);
    action = old;
    return property;
];

! Whether the things of an action have to be within reach.
[ NeedsReach;
    switch (action) {
        ##Look, ##Examine, ##Search, ##LookUnder, ##Go, ##Tell, ##Ask, ##Answer, ##AskFor, ##Order, ##Show, ##ThrowAt, ##Listen,
        ##Smell, ##Inventory, ##Consult, ##WaveHands, ##Think, ##Buy, ##Exit, ##WakeOther: rfalse;
    }
    rtrue;
];
