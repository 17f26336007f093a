! Names with their articles, numbers in words, and lists of things.

System_file;

Ifndef LIBRARY;
Message fatalerror "This is a part of the library. Include library in its place, by one line of the game.";
Endif;

! Has what follows printed in bold letters, where the interpreter has them.
[ Bold;
    if ((0->1) & 4) style bold;
];

! Prints a thing's name, without an article.
[ PrintShortName thing;
    if (thing == 0) { print "nothing"; return; }
    if (thing provides printed_name) { PrintOrRun(thing, printed_name, true); return; }
    print (object) thing;
];

[ DefArt thing;
    if (thing == 0) { PrintShortName(thing); return; }
    if (thing == player) { print "yourself"; return; }
    if (thing hasnt proper) print "the ";
    PrintShortName(thing);
];

[ CDefArt thing;
    if (thing == 0) { PrintShortName(thing); return; }
    if (thing == player) { print "You"; return; }
    if (thing hasnt proper) print "The ";
    PrintShortName(thing);
];

[ InDefArt thing;
    if (thing == 0) { PrintShortName(thing); return; }
    if (thing == player) { print "yourself"; return; }
    if (thing hasnt proper) {
        if (thing provides article) {
            PrintOrRun(thing, article, true);
            print " ";
        } else {
            if (thing has several) print "some ";
            else {
                if (BeginsWithVowel(thing)) print "an ";
                else print "a ";
            }
        }
    }
    PrintShortName(thing);
];

! Whether the name of a thing begins with a vowel: it is printed to memory, and its first letter looked at. Of a short name only
! the first word of its text is printed, so that it may be as long as it likes; of a `printed_name` all that it prints.
[ BeginsWithVowel thing  at;
    @output_stream 3 answer;
    if (thing provides printed_name) PrintShortName(thing);
    else {
        at = (0-->5 + 14 * thing + 124)-->0;
        first_letters-->0 = (at + 1)-->0 | $8000;
        print (address) first_letters;
    }
    @output_stream (-3);
    if (answer-->0 > LINE_LENGTH + 1) print "[longer than LINE_LENGTH, and without article:] ";
    return answer-->0 && answer->2 == 'a' or 'e' or 'i' or 'o' or 'u' or 'A' or 'E' or 'I' or 'O' or 'U';
];

! Words that go by how many a thing is: is, are; them, him, her, it; They're, It's.
[ Is thing;
    if (thing == player || thing has several) print "are";
    else print "is";
];

[ Them thing;
    if (thing == player) { print "yourself"; return; }
    if (thing has several) { print "them"; return; }
    if (thing has female) { print "her"; return; }
    if (thing has male || (thing has animate && thing has proper)) { print "him"; return; }
    print "it";
];

[ They thing;
    if (thing has several) { print "They"; return; }
    if (thing has female) { print "She"; return; }
    if (thing has male || (thing has animate && thing has proper)) { print "He"; return; }
    print "It";
];

[ HasOrHave thing;
    if (thing has several) print "have";
    else print "has";
];

[ DoesNot thing;
    if (thing has several) print "do not";
    else print "does not";
];

[ PluralEnd n;
    if (n ~= 1) print "s";
];

! Prints "in the box" or "on the table".
[ InOrOn thing;
    if (thing has supporter) print "on ";
    else print "in ";
    DefArt(thing);
];

! Prints a number in words.
[ EnglishNumber n;
    if (n < 0) { print "minus "; n = -n; }
    if (n >= 1000) { EnglishNumber(n / 1000); print " thousand"; n = n % 1000; if (n == 0) return; print " "; }
    if (n >= 100) { EnglishNumber(n / 100); print " hundred"; n = n % 100; if (n == 0) return; print " and "; }
    if (n >= 20) {
        PrintTens(n / 10);
        n = n % 10;
        if (n == 0) return;
        print "-";
    }
    PrintSmall(n);
];

[ PrintTens n;
    switch (n) {
        2: print "twenty";
        3: print "thirty";
        4: print "forty";
        5: print "fifty";
        6: print "sixty";
        7: print "seventy";
        8: print "eighty";
        9: print "ninety";
    }
];

[ PrintSmall n;
    switch (n) {
        0: print "zero";
        1: print "one";
        2: print "two";
        3: print "three";
        4: print "four";
        5: print "five";
        6: print "six";
        7: print "seven";
        8: print "eight";
        9: print "nine";
        10: print "ten";
        11: print "eleven";
        12: print "twelve";
        13: print "thirteen";
        15: print "fifteen";
        18: print "eighteen";
        default: PrintSmall(n - 10); print "teen";
    }
];

! Whether what is in a thing, or on it, can be seen.
[ ShowsContents thing;
    return thing has supporter || thing has transparent || (thing has container && thing has open);
];

! Whether a thing stands in a list of what is there.
[ IsShown thing;
    return thing ~= player && thing hasnt concealed && thing hasnt scenery;
];

! How many things in another one stand in a list.
[ CountShown above  thing n;
    objectloop (thing in above) if (IsShown(thing)) n++;
    return n;
];

! Whether a thing stands in a list: in one of what has the attribute `listed`, or of all that is shown; in that of a group only with
! the property `list_together` of the group.
[ IsInList thing only_listed;
    if (group && FirstValue(thing, list_together) ~= group) rfalse;
    if (only_listed) return thing has listed;
    return IsShown(thing);
];

! Whether two things are counted together, as "three coins" or, in a list of groups, as "two fruits".
[ AreCounted thing other  at;
    if (group == 0) {
        @get_prop_addr thing list_together -> at;
        if (at) return FirstValue(other, list_together) == at-->0;
    }
    if (~~thing provides plural || ~~other provides plural) rfalse;
    if (thing has worn || other has worn || child(thing) || child(other)) rfalse;
    return AreAlike(thing, other);
];

! How many things of a list are counted together with one of them; 0 where an earlier one speaks for it.
[ CountAlike thing only_listed  other n;
    @get_prop_addr thing plural -> n;
    if (n == 0 && group == 0) @get_prop_addr thing list_together -> n;
    if (n == 0) return 1;
    n = 0;
    objectloop (other in parent(thing)) {
        if (other == thing) n++;
        else {
            if (IsInList(other, only_listed) && AreCounted(other, thing)) {
                if (n == 0) rfalse;
                n++;
            }
        }
    }
    return n;
];

! Prints all that is shown in a thing, as a part of a sentence; with `only_listed` what has the attribute `listed`.
[ WriteList above only_listed  thing n alike;
    objectloop (thing in above) if (IsInList(thing, only_listed) && CountAlike(thing, only_listed)) n++;
    objectloop (thing in above) {
        if (~~IsInList(thing, only_listed)) continue;
        alike = CountAlike(thing, only_listed);
        if (alike == 0) continue;
        WriteThing(thing, alike, only_listed);
        n--;
        if (n == 1) print " and ";
        if (n > 1) print ", ";
    }
];

! Prints a thing with its article and what is to be said of it, or how many of its kind or group there are.
[ WriteThing thing alike only_listed;
    if (alike > 1) {
        print (number) alike, " ";
        if (group == 0 && thing provides list_together) {
            PrintOrRun(thing, list_together, true);
            print " (";
            group = FirstValue(thing, list_together);
            WriteList(parent(thing), only_listed);
            group = 0;
            print ")";
        }
        else PrintOrRun(thing, plural, true);
        return;
    }
    InDefArt(thing);
    PrintDetails(thing, false);
];

! Prints the next one of the details of a thing.
[ Detail text;
    if (details) print ", ";
    else print " (";
    details++;
    print (string) text;
];

! Prints in brackets how a thing is, and what is in it, unless that stands in lines of its own.
[ PrintDetails thing in_lines  before;
    before = details;
    details = 0;
    if (thing has worn) Detail("being worn");
    if (thing has light) Detail("giving light");
    if (thing has openable) {
        if (thing hasnt open) Detail("closed");
        else if (thing has door) Detail("open");
    }
    if (thing has container && thing has open && child(thing) == 0) Detail("empty");
    if (~~in_lines && thing hasnt animate && ShowsContents(thing) && CountShown(thing)) {
        if (thing has supporter) Detail("on which ");
        else Detail("in which ");
        WriteContents(thing);
    }
    if (details) print ")";
    details = before;
];

! Prints "is a lamp" or "are a lamp and a coin" of what is in a thing.
[ WriteContents above  thing;
    objectloop (thing in above) if (IsShown(thing)) break;
    if (CountShown(above) > 1) print "are ";
    else { Is(thing); print " "; }
    thing = group;
    group = 0;
    WriteList(above);
    group = thing;
];

! Prints what is in a thing in lines, of which those of a thing in another one begin further right.
[ WriteLines above depth  thing alike;
    objectloop (thing in above) {
        if (~~IsShown(thing)) continue;
        alike = CountAlike(thing);
        if (alike == 0) continue;
        spaces 2 * depth;
        invent_stage = 1;
        if (~~Run(thing, invent)) {
            if (alike > 1) WriteThing(thing, alike);
            else InDefArt(thing);
            invent_stage = 2;
            if (~~Run(thing, invent)) {
                if (alike == 1) PrintDetails(thing, true);
                new_line;
            }
        }
        if (alike == 1 && thing hasnt animate && ShowsContents(thing)) WriteLines(thing, depth + 1);
    }
];

! Prints a property's text, or runs its routine, and answers whether there was either. Behind a text there is a new line, unless
! `inline` is true.
[ PrintOrRun thing property inline  value;
    if (~~thing provides property) rfalse;
    value = FirstValue(thing, property);
    if (value == 0) rfalse;
    if (Z__Region(value) == 3) {
        print (string) value;
        if (~~inline) new_line;
        rtrue;
    }
    if (Z__Region(value) == 2) { RunRoutine(thing, value); rtrue; }
    rfalse;
];

! The first value of a property of a thing, or 0. (A property of several values is not read by one word.)
[ FirstValue thing property  at;
    at = thing.&property;
    if (at == 0) rfalse;
    return at-->0;
];

! The value of a property of a thing, which a routine may work out.
[ ValueOf thing property  value;
    value = FirstValue(thing, property);
    if (value == 0 or NULL) rfalse;
    if (Z__Region(value) == 2) return RunRoutine(thing, value);
    return value;
];

! Calls a routine of a thing, which is `self` meanwhile, with the action for its cases.
[ RunRoutine thing routine  old_self old_sender result;
    old_self = self;
    old_sender = sender;
    sender = self;
    self = thing;
    sw__var = action;
    result = routine();
    self = old_self;
    sender = old_sender;
    return result;
];

! Runs the rules that a thing has in a property, one after the other, until one of them ends the action: a routine by its answer,
! a text by being printed.
[ Run thing property  at i value;
    if (thing == 0) rfalse;
    if (property < 64) {
        @get_prop_addr thing property -> at;
    } else at = thing.&property;
    if (at == 0) rfalse;
    i = thing.#property / 2;
    for (: i > 0 : i--) {
        value = at-->0;
        at = at + 2;
        switch (Z__Region(value)) {
            2: if (RunRoutine(thing, value)) rtrue;
            3: print_ret (string) value;
        }
    }
    rfalse;
];
