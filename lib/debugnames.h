! The names of properties, attributes, actions, tokens and faults as a source has them: for the verbs of debugging.

System_file;

Ifndef LIBRARY;
Message fatalerror "This is a part of the library. Include library in its place, by one line of the game.";
Endif;

! Prints the name of a property.
[ PropertyName n;
    switch (n) {
        name: print "name";
        before: print "before";
        after: print "after";
        life: print "life";
        orders: print "orders";
        react_before: print "react_before";
        react_after: print "react_after";
        each_turn: print "each_turn";
        describe: print "describe";
        daemon: print "daemon";
        time_out: print "time_out";
        invent: print "invent";
        parse_name: print "parse_name";
        description: print "description";
        initial: print "initial";
        inside_description: print "inside_description";
        when_open: print "when_open";
        when_closed: print "when_closed";
        when_on: print "when_on";
        when_off: print "when_off";
        cannot_go: print "cannot_go";
        printed_name: print "printed_name";
        article: print "article";
        plural: print "plural";
        list_together: print "list_together";
        found_in: print "found_in";
        add_to_scope: print "add_to_scope";
        key: print "key";
        door_to: print "door_to";
        door_direction: print "door_direction";
        capacity: print "capacity";
        time_left: print "time_left";
        number: print "number";
        north: print "north";
        south: print "south";
        east: print "east";
        west: print "west";
        northeast: print "northeast";
        northwest: print "northwest";
        southeast: print "southeast";
        southwest: print "southwest";
        up: print "up";
        down: print "down";
        inside: print "inside";
        outside: print "outside";
        headline: print "headline";
        opening: print "opening";
        start: print "start";
        message: print "message";
        choose: print "choose";
        epilogue: print "epilogue";
        darkness: print "darkness";
        default: print "a property of the game (", n, ")";
    }
];

! Prints the name of an attribute.
[ AttributeName n;
    switch (n) {
        animate: print "animate";
        clothing: print "clothing";
        container: print "container";
        door: print "door";
        edible: print "edible";
        enterable: print "enterable";
        lockable: print "lockable";
        openable: print "openable";
        scenery: print "scenery";
        static: print "static";
        supporter: print "supporter";
        switchable: print "switchable";
        talkable: print "talkable";
        transparent: print "transparent";
        absent: print "absent";
        concealed: print "concealed";
        general: print "general";
        light: print "light";
        locked: print "locked";
        moved: print "moved";
        on: print "on";
        open: print "open";
        visited: print "visited";
        worn: print "worn";
        listed: print "listed";
        female: print "female";
        male: print "male";
        proper: print "proper";
        several: print "several";
        scored: print "scored";
        default: print "an attribute of the game (", n, ")";
    }
];

! Prints the name of an action of the library; of one of the game a verb that has it.
[ ActionName n;
    switch (n) {
        ##Answer: print "Answer";
        ##Ask: print "Ask";
        ##AskFor: print "AskFor";
        ##Attack: print "Attack";
        ##Blow: print "Blow";
        ##Brief: print "Brief";
        ##Burn: print "Burn";
        ##Buy: print "Buy";
        ##Climb: print "Climb";
        ##Close: print "Close";
        ##Consult: print "Consult";
        ##Cut: print "Cut";
        ##Dig: print "Dig";
        ##Disrobe: print "Disrobe";
        ##Drink: print "Drink";
        ##Drop: print "Drop";
        ##Eat: print "Eat";
        ##Empty: print "Empty";
        ##Enter: print "Enter";
        ##Examine: print "Examine";
        ##Exit: print "Exit";
        ##Fill: print "Fill";
        ##FullScore: print "FullScore";
        ##Give: print "Give";
        ##Go: print "Go";
        ##GoWhere: print "GoWhere";
        ##Inventory: print "Inventory";
        ##InventoryTall: print "InventoryTall";
        ##InventoryWide: print "InventoryWide";
        ##Jump: print "Jump";
        ##JumpOver: print "JumpOver";
        ##Kiss: print "Kiss";
        ##Listen: print "Listen";
        ##Lock: print "Lock";
        ##Look: print "Look";
        ##LookUnder: print "LookUnder";
        ##No: print "No";
        ##NotifyOff: print "NotifyOff";
        ##NotifyOn: print "NotifyOn";
        ##Objects: print "Objects";
        ##Open: print "Open";
        ##Places: print "Places";
        ##Pray: print "Pray";
        ##Pronouns: print "Pronouns";
        ##Pull: print "Pull";
        ##Push: print "Push";
        ##PushTo: print "PushTo";
        ##PutIn: print "PutIn";
        ##PutOn: print "PutOn";
        ##Quit: print "Quit";
        ##Remove: print "Remove";
        ##Restart: print "Restart";
        ##Restore: print "Restore";
        ##Rub: print "Rub";
        ##Save: print "Save";
        ##Score: print "Score";
        ##Search: print "Search";
        ##Set: print "Set";
        ##SetTo: print "SetTo";
        ##Show: print "Show";
        ##Sing: print "Sing";
        ##Sleep: print "Sleep";
        ##Smell: print "Smell";
        ##Sorry: print "Sorry";
        ##Squeeze: print "Squeeze";
        ##Stand: print "Stand";
        ##Superbrief: print "Superbrief";
        ##Swim: print "Swim";
        ##Swing: print "Swing";
        ##SwitchOff: print "SwitchOff";
        ##SwitchOn: print "SwitchOn";
        ##Take: print "Take";
        ##Taste: print "Taste";
        ##Tell: print "Tell";
        ##Think: print "Think";
        ##ThrowAt: print "ThrowAt";
        ##Tie: print "Tie";
        ##Touch: print "Touch";
        ##TranscriptOff: print "TranscriptOff";
        ##TranscriptOn: print "TranscriptOn";
        ##Turn: print "Turn";
        ##Unlock: print "Unlock";
        ##Verbose: print "Verbose";
        ##Verify: print "Verify";
        ##Version: print "Version";
        ##Wait: print "Wait";
        ##Wake: print "Wake";
        ##WakeOther: print "WakeOther";
        ##Wave: print "Wave";
        ##WaveHands: print "WaveHands";
        ##Wear: print "Wear";
        ##Yes: print "Yes";
        default: print "the action of ", (VerbOf) n;
    }
];

! Prints a verb that has a line of grammar for an action.
[ VerbOf n  at count lines i;
    at = #dictionary_table + 2 + (#dictionary_table)->0;
    count = at-->0;
    for (at = at + 2 : count > 0 : count--) {
        if ((at->6) & 1) {
            lines = #grammar_table-->(255 - at->7);
            i = lines->0;
            for (lines++ : i > 0 : i--) {
                if (lines-->0 & 1023 == n) { print (address) at; return; }
                for (lines = lines + 2 : lines->0 ~= LAST_TOKEN : lines = lines + 3) ;
                lines++;
            }
        }
        at = at + 9;
    }
    print "no verb";
];

! Prints the name of a kind of noun token.
[ KindName n;
    switch (n) {
        NOUN_KIND: print "noun";
        HELD_KIND: print "held";
        MULTI_KIND: print "multi";
        MULTIHELD_KIND: print "multiheld";
        MULTIEXCEPT_KIND: print "multiexcept";
        MULTIINSIDE_KIND: print "multiinside";
        CREATURE_KIND: print "creature";
        SPECIAL_KIND: print "special";
        NUMBER_KIND: print "number";
        TOPIC_KIND: print "topic";
    }
];

! Prints the name of the message that tells why a line of grammar does not fit.
[ FaultName n;
    switch (n) {
        PARSE_NO_VERB: print "PARSE_NO_VERB";
        PARSE_STUCK: print "PARSE_STUCK";
        PARSE_NO_NUMBER: print "PARSE_NO_NUMBER";
        PARSE_MANY: print "PARSE_MANY";
        PARSE_NOT_SEEN: print "PARSE_NOT_SEEN";
        PARSE_SCOPE: print "PARSE_SCOPE";
        PARSE_PRONOUN: print "PARSE_PRONOUN";
        PARSE_GONE: print "PARSE_GONE";
        PARSE_NOT_ALIVE: print "PARSE_NOT_ALIVE";
        PARSE_NOT_THAT: print "PARSE_NOT_THAT";
        PARSE_NOTHING: print "PARSE_NOTHING";
        PARSE_FEW: print "PARSE_FEW";
        PARSE_UNKNOWN: print "PARSE_UNKNOWN";
    }
];
