! What is looked at when a game starts that is compiled with the word -D: what can hardly be meant.

System_file;

Ifndef LIBRARY;
Message fatalerror "This is a part of the library. Include library in its place, by one line of the game.";
Endif;

! What a property may have as its values.
Constant WORDS_WANTED = 1;
Constant RULES_WANTED = 2;
Constant TEXT_WANTED = 3;
Constant ROOMS_WANTED = 4;
Constant ONE_WANTED = 5;
Constant ANY_WANTED = 6;

! Tells what is wrong with a thing.
[ Complain thing text;
    print "[", (name) thing, " (", thing, ") ", (string) text, "]^";
];

! Whether the library looks at what a thing's printed_name prints to find its article.
[ LooksForArticle thing;
    return thing provides printed_name && ~~(thing provides article || thing has proper || thing has several);
];

! How many letters the name of a thing has.
Array name_text -> 1000;

[ LengthOfName thing;
    @output_stream 3 name_text;
    PrintShortName(thing);
    @output_stream (-3);
    return name_text-->0;
];

! Looks at each object for what can hardly be meant.
[ CheckWorld  thing;
    objectloop (thing) {
        if (thing < 5 || parent(thing) == Class || thing == compass || parent(thing) == compass) continue;
        CheckProperties(thing);
        if (thing ~= game) CheckThing(thing);
    }
];

[ CheckThing thing;
    if (HasWays(thing) && ~~thing provides description) Complain(thing, "is a room without description");
    if (thing has door && ~~thing provides door_to && (~~thing provides found_in || thing.#found_in ~= 4))
        Complain(thing, "is a door without door_to, and not found in two rooms");
    if (thing has container && thing has supporter) Complain(thing, "is a container and a supporter");
    if (thing has lockable && thing hasnt openable) Complain(thing, "is lockable and not openable");
    if (thing has locked && thing hasnt lockable) Complain(thing, "is locked and not lockable");
    if (thing has locked && thing has open) Complain(thing, "is locked and open");
    if (thing has worn && thing hasnt clothing) Complain(thing, "is worn and no clothing");
    if (thing has on && thing hasnt switchable) Complain(thing, "is on and not switchable");
    if (thing provides time_out && ~~thing provides time_left) Complain(thing, "has time_out and no time_left");
    if (parent(thing) && thing hasnt concealed && ~~(thing provides name || thing provides parse_name))
        Complain(thing, "has no name that can be typed");
    if (LooksForArticle(thing) && LengthOfName(thing) > LINE_LENGTH)
        Complain(thing, "has a printed_name of more letters than LINE_LENGTH, and no article");
];

! Whether a thing has a way out, as a room.
[ HasWays thing  way;
    for (way = north : way <= outside : way++) if (thing provides way) rtrue;
    rfalse;
];

! Looks at the values of all properties of a thing: where a comma is missing in the source, a property takes the name and the values
! of the next one among its own.
[ CheckProperties thing  rule at;
    for (rule = name : rule < 64 : rule++) {
        if (rule == 2 or 3) continue;
        @get_prop_addr thing rule -> at;
        if (at) CheckValues(thing, rule, at, thing.#rule / 2);
    }
    @get_prop_addr thing 3 -> at;
    if (at == 0) return;
    for (at = at-->0 : at-->0 : at = at + 3 + at->2) CheckValues(thing, at-->0, at + 3, (at->2) / 2);
];

! Tells the first value of a property that can hardly be meant.
[ CheckValues thing rule at count  i;
    for (i = 0 : i < count : i++) {
        if (IsWanted(rule, at, i, count)) continue;
        print "[", (name) thing, " (", thing, ") ";
        if (i > 0 && IsProperty(at-->i))
            print "has ", (PropertyName) at-->i, " among the values of ", (PropertyName) rule, "; is a comma missing before it?]^";
        else {
            if (i > 0 && WantedOf(rule) == TEXT_WANTED or ONE_WANTED) print "has more values than one in ";
            else print "has what is no ", (WantedName) rule, " in ";
            print (PropertyName) rule, "]^";
        }
        return;
    }
];

! What a property may have, as the library looks at it.
[ WantedOf rule;
    switch (rule) {
        name: return WORDS_WANTED;
        before, after, life, orders, react_before, react_after, each_turn, describe, daemon, time_out: return RULES_WANTED;
        invent, parse_name, description, initial, inside_description, when_open, when_closed, when_on, when_off, cannot_go, printed_name,
        article, plural, headline, opening, message, choose, epilogue, darkness: return TEXT_WANTED;
        found_in: return ROOMS_WANTED;
        add_to_scope: return ANY_WANTED;
    }
    if (rule <= darkness) return ONE_WANTED;
    return ANY_WANTED;
];

! Prints what a property may have.
[ WantedName rule;
    switch (WantedOf(rule)) {
        WORDS_WANTED: print "word";
        RULES_WANTED, TEXT_WANTED: print "text and no routine";
        default: print "room";
    }
];

! Whether a value of a property can be meant.
[ IsWanted rule at i count  value;
    value = at-->i;
    switch (WantedOf(rule)) {
        WORDS_WANTED: return IsWord(value);
        RULES_WANTED: return value == 0 or NULL || Z__Region(value) > 1;
        TEXT_WANTED: return i == 0 && (value == 0 or NULL || Z__Region(value) > 1);
        ROOMS_WANTED: return IsRoom(value) || (i == 0 && Z__Region(value) == 2);
        ONE_WANTED: return i == 0;
    }
    ! a list may have anything: only where the second value is a property, and the third one may be that one's, it can hardly be meant
    if (i ~= 1 || count < 3) rtrue;
    at = at-->2;
    switch (WantedOf(value)) {
        WORDS_WANTED: return ~~IsWord(at);
        RULES_WANTED, TEXT_WANTED: return Z__Region(at) < 2;
    }
    return value < 64 || value > 200 || Z__Region(at) ~= 2;
];

! Whether a value is the address of a word of the dictionary.
[ IsWord value  first;
    first = #dictionary_table + 4 + (#dictionary_table)->0;
    value = value - first;
    return value >= 0 && value < 9 * (first - 2)-->0 && value % 9 == 0;
];

! Whether a value is a room.
[ IsRoom value;
    return Z__Region(value) == 1 && value > 4 && parent(value) == 0 && value ~= game or compass && ~~(value provides found_in);
];

! Whether a value may be the number of a property.
[ IsProperty value;
    return value == name || (value > 3 && value < 200);
];
