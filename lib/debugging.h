! Verbs for whoever writes a game, and what is looked at when it starts: read where the game is compiled with the word -D.

System_file;

Ifndef LIBRARY;
Message fatalerror "This is a part of the library. Include library in its place, by one line of the game.";
Endif;

! Puts all things into scope.
[ AnyThing  thing;
    switch (scope_stage) {
        1: rfalse;
        2:
            objectloop (thing) if (parent(thing) ~= Class && thing ~= compass or game) PlaceInScope(thing);
            rtrue;
        3: print "[No object has this name.]^";
    }
];

[ TraceOnSub; tracing = 3; print "[Lines of grammar and actions are told.]^"; ];
[ TraceOffSub; tracing = 0; print "[Lines of grammar and actions are not told any more.]^"; ];
[ ActionsOnSub; tracing = 1; print "[Actions are told.]^"; ];

! Tells a line of grammar that is tried.
[ TraceLine at  token;
    print "[", (address) verb_word;
    for (token = at + 2 : token->0 ~= LAST_TOKEN : token = token + 3) {
        if ((token->0) & 16) print "/";
        else print " ";
        TokenName((token->0) & 15, (token + 1)-->0);
    }
    print " -> ", (ActionName) at-->0 & 1023;
    if (at-->0 & 1024) print " reverse";
    print "]^";
];

[ TokenName type value;
    switch (type) {
        1: KindName(value);
        PREPOSITION_TOKEN: print "'", (address) value, "'";
        FILTER_TOKEN: print "noun=a routine";
        ATTRIBUTE_TOKEN: AttributeName(value);
        SCOPE_TOKEN: print "scope=a routine";
        default: print "a routine";
    }
];

! Tells where that line does not fit, and the best reason up to now.
[ TraceFault;
    print "[does not fit";
    if (word_at <= command_end) print " from ~", (PrintWord) word_at, "~ on";
    print "; ", (FaultName) fault, "]^";
];

! Tells an action before its rules are run.
[ TraceAction;
    print "[", (ActionName) action;
    if (actor ~= player) print " by ", (name) actor;
    if (noun) TraceNoun(noun, noun_is_value);
    if (second) TraceNoun(second, second_is_value);
    print "]^";
];

[ TraceNoun thing is_value;
    print ", ";
    switch (is_value) {
        NUMBER_VALUE: print thing;
        WORD_VALUE: print "'", (address) thing, "'";
        default: print (name) thing, " (", thing, ")";
    }
];

! Prints a value of a property as far as it can be told what it is.
[ PrintValue value;
    if (IsWord(value)) { print "'", (address) value, "'"; return; }
    switch (Z__Region(value)) {
        1: print (name) value, " (", value, ")";
        2: print "a routine";
        3: print "~", (string) value, "~";
        default: print value;
    }
];

! Tells the timers and daemons that run.
[ DebugTimersSub  i thing;
    for (i = 0 : i < MOST_TIMERS : i++) {
        thing = timers-->i;
        if (thing > 0) print "[time_out of ", (name) thing, " after ", thing.time_left, " turns]^";
        if (thing < 0) print "[daemon of ", (name) (-thing), "]^";
    }
    print "[There is room for ", MOST_TIMERS, " timers and daemons.]^";
];

! Tells the attributes and the values of the properties of a thing.
[ DebugShowSub  i at;
    if (IsNoObject()) return;
    PrintBranch(noun, 0);
    for (i = 0 : i < 48 : i++) if (noun has i) print "  has ", (AttributeName) i, "^";
    for (i = name : i < 64 : i++) {
        if (i == 2 or 3) continue;
        @get_prop_addr noun i -> at;
        if (at) ShowValues(i, at, noun.#i / 2);
    }
    @get_prop_addr noun 3 -> at;
    if (at == 0) return;
    for (at = at-->0 : at-->0 : at = at + 3 + at->2) ShowValues(at-->0, at + 3, (at->2) / 2);
];

[ ShowValues rule at count  i;
    print "  with ", (PropertyName) rule, " ";
    for (i = 0 : i < count : i++) {
        if (i > 0) print ", ";
        if (rule == capacity or time_left or number) print at-->i;
        else PrintValue(at-->i);
    }
    new_line;
];

[ DebugTakeSub;
    move noun to player;
    give noun moved ~concealed ~worn;
    print "[You have ", (the) noun, ".]^";
];

[ DebugMoveSub;
    move noun to second;
    print "[", (The) noun, " ", (Is) noun, " in ", (the) second, ".]^";
];

! Whether the noun is no object, which is told: where a number was typed, that is the one of an object.
[ IsNoObject;
    if (Z__Region(noun) == 1) rfalse;
    print_ret "[No object has the number ", noun, ".]";
];

[ DebugGoSub  room;
    if (IsNoObject()) return;
    for (room = noun : parent(room) : room = parent(room)) ;
    PlayerTo(room);
];

! Prints an object's place in the tree with its number, and all that is in it.
[ DebugTreeSub  thing;
    if (noun || noun_is_value) {
        if (~~IsNoObject()) PrintBranch(noun, 0);
        return;
    }
    objectloop (thing) if (parent(thing) == 0 && thing > 4) PrintBranch(thing, 0);
];

[ PrintBranch thing depth  within;
    spaces 2 * depth;
    print (name) thing, " (", thing, ")";
    if (thing has worn) print " worn";
    if (thing has concealed) print " concealed";
    if (thing has light) print " light";
    new_line;
    objectloop (within in thing) PrintBranch(within, depth + 1);
];

[ DebugScopeSub; LookThroughScope(TO_LIST); ];

Verb meta 'trace' * -> TraceOn * 'on' -> TraceOn * 'off' -> TraceOff;
Verb meta 'actions' * -> ActionsOn * 'on' -> ActionsOn * 'off' -> TraceOff;
Verb meta 'showobj' * scope=AnyThing -> DebugShow * number -> DebugShow;
Verb meta 'timers' * -> DebugTimers;
Verb meta 'purloin' * scope=AnyThing -> DebugTake;
Verb meta 'abstract' * scope=AnyThing 'to' scope=AnyThing -> DebugMove;
Verb meta 'goto' 'gonear' * scope=AnyThing -> DebugGo * number -> DebugGo;
Verb meta 'tree' * -> DebugTree * scope=AnyThing -> DebugTree * number -> DebugTree;
Verb meta 'scope' * -> DebugScope;
