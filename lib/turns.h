! The game as a whole: its start, its turns, timers and daemons, score, the status line and the end.

System_file;

Ifndef LIBRARY;
Message fatalerror "This is a part of the library. Include library in its place, by one line of the game.";
Endif;

[ Main;
    player = yourself;
    actor = player;
    notifies = true;
    look_mode = 1;
    it_thing = 0;
    location = ValueOf(game, start);
    new_line;
    if (location == 0) { print "[The object game has no room as its property start.]^"; quit; }
    #Ifdef DEBUG;
    CheckWorld();
    #Endif;
    move player to location;
    ShareGroups();
    PutFound();
    is_lit = HasLight();
    PrintOrRun(game, opening);
    new_line;
    PrintBanner();
    location = CeilingOfRoom();
    is_lit = HasLight();
    <Look>;
    for (::) {
        while (ending == 0) Turn();
        AfterEnding();
    }
];

! Gives one text to all things of which `list_together` says the same, since a group is known by it: in a source each text is
! one of its own.
[ ShareGroups  thing other text at;
    objectloop (thing) {
        @get_prop_addr thing list_together -> at;
        if (at == 0 || Z__Region(at-->0) ~= 3) continue;
        text = at-->0;
        @output_stream 3 line;
        print (string) text;
        @output_stream (-3);
        for (other = thing + 1 : other <= #highest_object_number : other++) {
            @get_prop_addr other list_together -> at;
            if (at && at-->0 ~= text && IsText(at-->0)) at-->0 = text;
        }
    }
];

! Whether a value is a text of the letters in `line`.
[ IsText value  i;
    if (Z__Region(value) ~= 3) rfalse;
    @output_stream 3 answer;
    print (string) value;
    @output_stream (-3);
    for (i = answer-->0 + 1 : i >= 0 : i--) if (answer->i ~= line->i) rfalse;
    rtrue;
];

! The room that the player is in.
[ CeilingOfRoom  thing;
    for (thing = parent(player) : parent(thing) : thing = parent(thing)) ;
    return thing;
];

[ PrintBanner;
    Bold();
    print (name) game;
    style roman;
    new_line;
    PrintOrRun(game, headline);
];

[ PrintSerial  i;
    for (i = 18 : i < 24 : i++) print (char) 0->i;
];

! One command, and the time that it takes.
[ Turn;
    if (~~ParseCommand()) return;
    DoCommand();
    actor = player;
    if (is_meta || ending) return;
    EndTurn();
];

! Does what was commanded, with each thing of a list.
[ DoCommand  i what first other;
    if (line_multiple < 0) { PerformCommand(); return; }
    what = action;
    first = noun;
    other = second;
    for (i = 1 : i <= multiple-->0 && ending == 0 : i++) {
        action = what;
        noun = first;
        second = other;
        if (line_multiple == 0) noun = multiple-->i;
        else second = multiple-->i;
        print (name) multiple-->i, ": ";
        PerformCommand();
    }
    if (list_is_full) Tell(LIST_FULL, MOST_OBJECTS);
];

! Lets time pass: timers, daemons and what each turn does, and then light and score.
[ EndTurn  old_action;
    old_action = action;
    turns++;
    RunTimers();
    if (ending == 0) Run(location, each_turn);
    if (ending == 0) RunScope(each_turn);
    if (ending == 0) Run(game, each_turn);
    action = old_action;
    if (ending) return;
    UpdateLight();
    TellScore();
];

! Looks whether it is still light or dark, and tells where that changed.
[ UpdateLight  was_lit;
    was_lit = is_lit;
    location = CeilingOfRoom();
    is_lit = HasLight();
    if (is_lit == was_lit) return;
    if (is_lit) <Look>;
    else { new_line; Tell(LIGHT_GONE); }
];

[ TellScore;
    if (score ~= told_score && notifies) { new_line; Tell(SCORE_CHANGED, score - told_score); }
    told_score = score;
];

! Runs the timers and daemons. A daemon stands among them as its number below 0.
[ RunTimers  i thing;
    for (i = 0 : i < MOST_TIMERS && ending == 0 : i++) {
        thing = timers-->i;
        if (thing < 0) Run(-thing, daemon);
        if (thing > 0) {
            if (FirstValue(thing, time_left) == 0) { timers-->i = 0; Run(thing, time_out); }
            else thing.time_left = thing.time_left - 1;
        }
    }
];

[ AddTimer value  i;
    for (i = 0 : i < MOST_TIMERS : i++) if (timers-->i == value) rtrue;
    for (i = 0 : i < MOST_TIMERS : i++) if (timers-->i == 0) { timers-->i = value; rtrue; }
    print "[There are more than ", MOST_TIMERS, " timers and daemons: declare MOST_TIMERS before the library.]^";
    rfalse;
];

[ RemoveTimer value  i;
    for (i = 0 : i < MOST_TIMERS : i++) if (timers-->i == value) timers-->i = 0;
];

! Has a thing's time_out run when `count` turns have passed.
[ StartTimer thing count;
    if (~~thing provides time_left) { print "[", (name) thing, " has no property time_left.]^"; return; }
    thing.time_left = count;
    AddTimer(thing);
];

[ StopTimer thing;
    RemoveTimer(thing);
    if (thing provides time_left) thing.time_left = 0;
];

! Has a thing's daemon run in each turn.
[ StartDaemon thing; AddTimer(-thing); ];
[ StopDaemon thing; RemoveTimer(-thing); ];

! Draws the status line: where the player is, and score and turns as far as there is room.
[ DrawStatus  width;
    width = 0->33;
    @split_window 1;
    @set_window 1;
    @set_cursor 1 1;
    style reverse;
    spaces width;
    @set_cursor 1 2;
    PrintHere();
    if (width >= 60) {
        width = width - 25;
        @set_cursor 1 width;
        print "Score: ", score, "  Turns: ", turns;
    } else {
        if (width >= 24) {
            width = width - 9;
            @set_cursor 1 width;
            print score, "/", turns;
        }
    }
    @set_cursor 1 1;
    style roman;
    @set_window 0;
];

[ PrintHere;
    if (location == 0) return;
    if (is_lit) print (name) location;
    else Tell(DARK_NAME);
];

! What comes when the game has ended: until one of the words is typed that lead on, it is asked for them.
[ AfterEnding;
    new_line;
    print "    ";
    Bold();
    if (ending == 1) Tell(END_LOST);
    if (ending == 2) Tell(END_WON);
    if (ending > 2) Tell(END_OTHER, ending);
    style roman;
    new_line;
    TellScore();
    ScoreSub();
    PrintOrRun(game, epilogue);
    while (ending) {
        new_line;
        Tell(END_ASK);
        print "^>";
        if (~~ReadLine()) continue;
        switch (words-->1) {
            'restart': @restart;
            'restore': RestoreSub();
            'undo': Undo();
            'quit', 'q//': quit;
        }
    }
];
